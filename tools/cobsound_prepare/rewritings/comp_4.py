"""COMP-4."""

from ..tokens import Token
from ..work import Edit, Rewriting, at_edits


def change(tokens: list[Token], at: int) -> Edit | None:
    return Edit(at, at + 1, (tokens[at].word("BINARY"),))


REWRITING = Rewriting(
    name="comp-4",
    rule="COMP-4 and COMPUTATIONAL-4 become BINARY",
    before="77 N PIC S9(4) COMP-4.",
    after="77 N PIC S9(4) BINARY.",
    assumes="nothing: compilers that have COMP-4 say the same of both",
    words=frozenset({"COMP-4", "COMPUTATIONAL-4"}),
    apply=at_edits("COMP-4 COMPUTATIONAL-4", change),
)
