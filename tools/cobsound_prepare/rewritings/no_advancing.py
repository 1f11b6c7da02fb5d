"""NO ADVANCING of DISPLAY."""

from ..tokens import Token
from ..work import Edit, Rewriting, at_edits, token_at


def change(tokens: list[Token], at: int) -> Edit | None:
    """WITH NO ADVANCING; ADVANCING of WRITE has no NO before it."""
    if not token_at(tokens, at - 1).is_word("NO"):
        return None
    return Edit(at - 2 if token_at(tokens, at - 2).is_word("WITH") else at - 1, at + 1)


REWRITING = Rewriting(
    name="no-advancing",
    rule="WITH NO ADVANCING is dropped",
    before="DISPLAY 'NAME ' WITH NO ADVANCING.",
    after="DISPLAY 'NAME '.",
    assumes="a line may end behind each DISPLAY: what is shown has more line ends, and no other difference",
    words=frozenset({"ADVANCING"}),
    apply=at_edits("ADVANCING", change),
)
