"""Pictures of letters."""

from ..tokens import Kind
from ..work import Rewriting, Work

SYMBOLS = frozenset("AX9()0123456789")


def apply(work: Work) -> int:
    """Puts X for each A in a picture of letters, or of letters, characters and digits."""
    found, count = [], 0
    for token in work.tokens:
        text = token.text.upper()
        if token.kind is Kind.PICTURE and "A" in text and set(text) <= SYMBOLS:
            token = token.made(Kind.PICTURE, x_for(text))
            count += 1
        found.append(token)
    work.tokens = found
    return count


def x_for(text: str) -> str:
    """The picture with X for each symbol, and its numbers as they are."""
    is_number, made = False, ""
    for symbol in text:
        is_number = symbol == "(" or is_number and symbol != ")"
        made += symbol if is_number or symbol in "()" else "X"
    return made


REWRITING = Rewriting(
    name="alphabetic",
    rule="a picture with A, and X and 9 beside it, becomes one with X alone",
    before="DATA DIVISION. WORKING-STORAGE SECTION. 77 A PIC A(3). 77 B PIC AX9.",
    after="DATA DIVISION. WORKING-STORAGE SECTION. 77 A PIC X(3). 77 B PIC XXX.",
    assumes="nothing",
    words=frozenset({"PIC", "PICTURE"}),
    apply=apply,
)
