"""I-O-CONTROL."""

from ..tokens import Kind, Token
from ..work import Edit, Rewriting, Work, behind_stop, begins_sentence, token_at

CLAUSES = ("SAME", "RERUN", "MULTIPLE", "APPLY")


def change(work: Work, tokens: list[Token], at: int) -> Edit | None:
    """The paragraph with all its sentences."""
    if not begins_sentence(tokens, at) or token_at(tokens, at + 1).kind is not Kind.STOP:
        return None
    end = at + 2
    while token_at(tokens, end).is_word(*CLAUSES):
        behind = behind_stop(tokens, end)
        for place in range(end, behind):
            if tokens[place].is_word("SAME") and token_at(tokens, place + 1).is_word("RECORD"):
                work.note(tokens[place], "SAME RECORD AREA isn't taken: it lays one record area over another")
                return None
        end = behind
    return Edit(at, end)


def apply(work: Work) -> int:
    return work.edit(frozenset({"I-O-CONTROL"}), lambda tokens, at: change(work, tokens, at))


REWRITING = Rewriting(
    name="io-control",
    rule="I-O-CONTROL is dropped, unless SAME RECORD AREA is in it",
    before="FILE-CONTROL. SELECT A ASSIGN B. I-O-CONTROL. SAME AREA FOR A B. DATA DIVISION.",
    after="FILE-CONTROL. SELECT A ASSIGN B. DATA DIVISION.",
    assumes="a record area isn't looked at while its file is closed, where SAME AREA lets files share it",
    words=frozenset({"I-O-CONTROL"}),
    apply=apply,
)
