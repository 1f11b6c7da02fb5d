"""GOBACK and EXIT PROGRAM."""

from ..tokens import Token
from ..work import Edit, Rewriting, Work, division, operand_end, token_at


def apply(work: Work) -> int:
    tokens = work.tokens
    procedure = division(tokens, "PROCEDURE")
    is_called = token_at(tokens, procedure + 2).is_word("USING", "CHAINING")

    def change(tokens: list[Token], at: int) -> Edit | None:
        if at < procedure or tokens[at].is_word("EXIT") and not token_at(tokens, at + 1).is_word("PROGRAM"):
            return None
        if is_called:
            work.note(tokens[at], f"{tokens[at].upper} of a program with USING isn't taken")
            return None
        if tokens[at].is_word("EXIT"):
            return Edit(at, at + 2, (tokens[at].word("CONTINUE"),))
        behind = at + 1
        if token_at(tokens, behind).is_word("RETURNING", "GIVING"):
            behind = operand_end(tokens, behind + 1)
        return Edit(at, behind, (tokens[at].word("STOP"), tokens[at].word("RUN")))

    return work.edit(frozenset({"GOBACK", "EXIT"}), change)


REWRITING = Rewriting(
    name="goback",
    rule="GOBACK, also with RETURNING, becomes STOP RUN, and EXIT PROGRAM becomes CONTINUE, unless the program has "
    "USING",
    before="PROCEDURE DIVISION. IF A = B EXIT PROGRAM END-IF. GOBACK.",
    after="PROCEDURE DIVISION. IF A = B CONTINUE END-IF. STOP RUN.",
    assumes="the program is the main program of its run, where EXIT PROGRAM does nothing",
    words=frozenset({"GOBACK", "EXIT"}),
    apply=apply,
)
