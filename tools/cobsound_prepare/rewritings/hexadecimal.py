"""Hexadecimal literals that are printable."""

import re

from ..encodings import EBCDIC
from ..tokens import Kind, Token
from ..work import Rewriting, Work

HEXADECIMAL = re.compile(r"X([\"'])((?:[0-9A-F]{2})+)\1$", re.I)


def text_of(token: Token, encoding: str) -> str | None:
    """The text of a literal all of whose characters can be printed."""
    match = HEXADECIMAL.match(token.text)
    if not match:
        return None
    text = bytes.fromhex(match[2]).decode(encoding if encoding in EBCDIC else "latin-1")
    return text if all(" " <= character <= "~" for character in text) else None


def quoted(text: str) -> str:
    """A literal of a text, in the mark that isn't in it if one isn't."""
    mark = '"' if "'" in text else "'"
    return mark + text.replace(mark, mark * 2) + mark


def apply(work: Work) -> int:
    count = 0
    found = list(work.tokens)
    for at, token in enumerate(found):
        if token.kind is Kind.LITERAL and token.text[0] in "Xx":
            text = text_of(token, work.encoding)
            if text is None:
                work.note(token, f"{token.text} isn't taken: it has characters that can't be printed")
            else:
                found[at] = token.made(Kind.LITERAL, quoted(text))
                count += 1
    work.tokens = found
    return count


REWRITING = Rewriting(
    name="hexadecimal",
    rule="a literal X'..' all of whose bytes are characters from space to tilde becomes that text; in a source in "
    "EBCDIC its bytes are read as EBCDIC",
    before="MOVE X'4142' TO A.",
    after="MOVE 'AB' TO A.",
    assumes="nothing",
    words=frozenset(),
    apply=apply,
)
