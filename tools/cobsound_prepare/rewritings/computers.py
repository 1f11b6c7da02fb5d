"""SOURCE-COMPUTER and OBJECT-COMPUTER."""

from ..tokens import Kind, Token
from ..work import Edit, Rewriting, Work, behind_stop, begins_sentence, token_at

HEADERS = (
    "SOURCE-COMPUTER OBJECT-COMPUTER SPECIAL-NAMES REPOSITORY INPUT-OUTPUT FILE-CONTROL I-O-CONTROL DATA PROCEDURE "
    "SELECT FILE WORKING-STORAGE FD"
).split()


def change(work: Work, tokens: list[Token], at: int) -> Edit | None:
    if not begins_sentence(tokens, at) or token_at(tokens, at + 1).kind is not Kind.STOP:
        return None
    first = at + 2
    if token_at(tokens, first).is_word(*HEADERS):
        return Edit(at, first)
    end = behind_stop(tokens, first)
    if end - first == 2 and tokens[first].kind is Kind.WORD:
        return None
    collating = next((token for token in tokens[first:end] if token.is_word("COLLATING")), None)
    if collating:
        work.note(collating, "COLLATING SEQUENCE isn't taken")
        return None
    return Edit(at, end)


def apply(work: Work) -> int:
    words = frozenset({"SOURCE-COMPUTER", "OBJECT-COMPUTER"})
    return work.edit(words, lambda tokens, at: change(work, tokens, at))


REWRITING = Rewriting(
    name="computers",
    rule="SOURCE-COMPUTER and OBJECT-COMPUTER are dropped where they have more than a name, unless COLLATING SEQUENCE "
    "is in them. With DEBUGGING MODE lines with the indicator D are code",
    before="CONFIGURATION SECTION. SOURCE-COMPUTER. IBM-370 WITH DEBUGGING MODE. OBJECT-COMPUTER. IBM-370.",
    after="CONFIGURATION SECTION. OBJECT-COMPUTER. IBM-370.",
    assumes="sizes of memory and segments say nothing of what the program does",
    words=frozenset({"SOURCE-COMPUTER", "OBJECT-COMPUTER"}),
    apply=apply,
)
