"""NO REWIND of OPEN and CLOSE, LOCK of CLOSE."""

from ..tokens import Kind, Token
from ..work import Edit, Rewriting, at_edits, token_at

MOST_NAMES = 200  # of one statement


def change(tokens: list[Token], at: int) -> Edit | None:
    """Drops NO REWIND, or LOCK, with WITH before it."""
    first = at
    if tokens[at].is_word("REWIND"):
        first -= 1
        if not token_at(tokens, first).is_word("NO"):
            return None
    elif verb_before(tokens, at) != "CLOSE":
        return None
    return Edit(first - 1 if token_at(tokens, first - 1).is_word("WITH") else first, at + 1)


def verb_before(tokens: list[Token], at: int) -> str:
    """OPEN or CLOSE, where nothing but words stand between it and this place."""
    first = max(at - MOST_NAMES, 0)
    while at > first and tokens[at].kind is Kind.WORD:
        at -= 1
        if tokens[at].is_word("OPEN", "CLOSE", "READ", "REWRITE", "WRITE", "START", "ACCEPT", "DISPLAY"):
            return tokens[at].upper
    return ""


REWRITING = Rewriting(
    name="open-close",
    rule="WITH NO REWIND of OPEN and CLOSE, and WITH LOCK of CLOSE, are dropped",
    before="OPEN INPUT F WITH NO REWIND. CLOSE F WITH LOCK.",
    after="OPEN INPUT F. CLOSE F.",
    assumes="a file that is closed with LOCK isn't opened again in the run",
    words=frozenset({"REWIND", "LOCK"}),
    apply=at_edits("REWIND LOCK", change),
)
