"""<>."""

from ..tokens import Kind, Token
from ..work import Edit, Rewriting, at_edits, token_at


def change(tokens: list[Token], at: int) -> Edit | None:
    if token_at(tokens, at - 1).is_word("NOT"):
        return None
    return Edit(at, at + 1, (tokens[at].word("NOT"), tokens[at].made(Kind.MARK, "=")))


REWRITING = Rewriting(
    name="not-equal",
    rule="<> becomes NOT =",
    before="IF A <> B STOP RUN.",
    after="IF A NOT = B STOP RUN.",
    assumes="nothing",
    words=frozenset({"<>"}),
    apply=at_edits("<>", change),
)
