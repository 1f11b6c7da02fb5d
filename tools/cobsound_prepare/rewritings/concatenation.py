"""Literals that are put together by &."""

from ..tokens import Kind, Token
from ..work import Rewriting, Work
from .hexadecimal import quoted


def inner(token: Token) -> str | None:
    """The text of a literal without letters before its mark."""
    mark = token.text[0]
    if token.kind is not Kind.LITERAL or mark not in "'\"":
        return None
    return token.text[1:-1].replace(mark * 2, mark)


def apply(work: Work) -> int:
    found: list[Token] = []
    count = 0
    tokens = work.tokens
    at = 0
    while at < len(tokens):
        token = tokens[at]
        if token.text == "&" and found and at + 1 < len(tokens):
            before, behind = inner(found[-1]), inner(tokens[at + 1])
            if before is not None and behind is not None:
                found[-1] = found[-1].made(Kind.LITERAL, quoted(before + behind))
                count += 1
                at += 2
                continue
        found.append(token)
        at += 1
    work.tokens = found
    return count


REWRITING = Rewriting(
    name="concatenation",
    rule="literals with & between them become one",
    before="DISPLAY 'TOTAL OF ' & 'ALL'.",
    after="DISPLAY 'TOTAL OF ALL'.",
    assumes="nothing",
    words=frozenset({"&"}),
    apply=apply,
)
