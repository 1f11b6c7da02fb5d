"""AUTHOR and the other comment-entries."""

from ..lines import ENTRIES
from ..tokens import Kind, Token
from ..work import Edit, Rewriting, Work, division, token_at


def change(tokens: list[Token], at: int) -> Edit | None:
    """The header with its entry; where another thing stands behind it, it is none."""
    behind = at + 1
    if token_at(tokens, behind).kind is Kind.STOP:
        behind += 1
    elif token_at(tokens, behind).kind is not Kind.ENTRY:
        return None
    if at > 0 and tokens[at - 1].kind not in (Kind.STOP, Kind.ENTRY):
        return None
    while token_at(tokens, behind).kind is Kind.ENTRY:
        behind += 1
    return Edit(at, behind)


def apply(work: Work) -> int:
    later = min(division(work.tokens, name) for name in ("ENVIRONMENT", "DATA", "PROCEDURE"))
    return work.edit(frozenset(ENTRIES), lambda tokens, at: change(tokens, at) if at < later else None)


REWRITING = Rewriting(
    name="comment-entries",
    rule="AUTHOR, INSTALLATION, DATE-WRITTEN, DATE-COMPILED, SECURITY and REMARKS are dropped with what stands behind "
    "them, up to the next header that begins a line (in fixed form in columns 8 to 11)",
    before="PROGRAM-ID. T. AUTHOR. DATA DIVISION.",
    after="PROGRAM-ID. T. DATA DIVISION.",
    assumes="nothing: they say nothing of what the program does",
    words=frozenset(ENTRIES),
    apply=apply,
)
