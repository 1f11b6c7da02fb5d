"""DECIMAL-POINT IS COMMA."""

from ..tokens import Kind, Token
from ..work import Edit, Rewriting, Work, division, token_at

SWAPPED = str.maketrans(",.", ".,")


def clause(tokens: list[Token]) -> Edit | None:
    """The clause in the ENVIRONMENT DIVISION, as one edit."""
    for at in range(division(tokens, "PROCEDURE")):
        if tokens[at].is_word("DECIMAL-POINT"):
            behind = at + 2 if token_at(tokens, at + 1).is_word("IS") else at + 1
            if token_at(tokens, behind).is_word("COMMA"):
                return Edit(at, behind + 1)
    return None


def apply(work: Work) -> int:
    found = clause(work.tokens)
    if found is None:
        return 0
    tokens = [*work.tokens[: found.first], *work.tokens[found.behind :]]
    count = 1
    for at, token in enumerate(tokens):
        if token.kind in (Kind.NUMBER, Kind.PICTURE):
            text = token.text.translate(SWAPPED)
            if text != token.text:
                tokens[at] = token.made(token.kind, text)
                count += 1
    work.tokens = tokens
    return count


REWRITING = Rewriting(
    name="decimal-comma",
    rule="DECIMAL-POINT IS COMMA is dropped, and points and commas change places in numbers and pictures",
    before="SPECIAL-NAMES. DECIMAL-POINT IS COMMA. DATA DIVISION. 77 A PIC Z.ZZ9,99. "
    "PROCEDURE DIVISION. MOVE 1,5 TO A.",
    after="SPECIAL-NAMES. . DATA DIVISION. 77 A PIC Z,ZZ9.99. PROCEDURE DIVISION. MOVE 1.5 TO A.",
    assumes="what is shown and written has points for commas and commas for points; no test looks for them in the text "
    "of an edited item",
    words=frozenset({"DECIMAL-POINT"}),
    apply=apply,
)
