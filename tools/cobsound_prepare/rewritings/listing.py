"""EJECT, SKIP1 to SKIP3 and TITLE, which lay out a listing."""

from ..tokens import Kind, Token
from ..work import Edit, Rewriting, Work, token_at

WORDS = frozenset({"EJECT", "SKIP1", "SKIP2", "SKIP3", "TITLE"})
NAMING = ("PERFORM", "TO", "THRU", "THROUGH", "GO")


def apply(work: Work) -> int:
    tokens = work.tokens
    places = [at for at, token in enumerate(tokens) if token.upper in WORDS]
    named = {tokens[at].upper for at in places if token_at(tokens, at - 1).is_word(*NAMING)}

    def change(tokens: list[Token], at: int) -> Edit | None:
        """The word with its literal and its point, where they are all of their line."""
        token = tokens[at]
        behind = at + 1
        if token.is_word("TITLE"):
            if token_at(tokens, behind).kind is not Kind.LITERAL:
                return None
            behind += 1
        if token_at(tokens, behind).kind is Kind.STOP:
            behind += 1
        beside = (token_at(tokens, at - 1), token_at(tokens, behind))
        if token.upper in named or any(other.block is token.block for other in beside):
            return None
        return Edit(at, behind)

    return work.edit(WORDS, change)


REWRITING = Rewriting(
    name="listing",
    rule="EJECT, SKIP1, SKIP2, SKIP3 and TITLE with a literal are dropped where they stand alone on a line, unless a "
    "paragraph of that name is performed or gone to",
    before="EJECT",
    after="",
    assumes="nothing: they lay out the compiler's listing",
    words=WORDS,
    apply=apply,
)
