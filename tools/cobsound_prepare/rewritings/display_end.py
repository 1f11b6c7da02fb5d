"""END-DISPLAY."""

from ..tokens import Token
from ..work import Edit, Rewriting, at_edits


def change(tokens: list[Token], at: int) -> Edit | None:
    return Edit(at, at + 1)


REWRITING = Rewriting(
    name="display-end",
    rule="END-DISPLAY is dropped",
    before="IF A = B DISPLAY 'SAME' END-DISPLAY END-IF.",
    after="IF A = B DISPLAY 'SAME' END-IF.",
    assumes="nothing: DISPLAY has no statements of its own that it would end",
    words=frozenset({"END-DISPLAY"}),
    apply=at_edits("END-DISPLAY", change),
)
