"""The words of a source in fixed form, with their places. The source is one that the program has taken, so that nothing
is refused here."""

import re
from dataclasses import dataclass
from enum import Enum, auto

from cobsound_report.scan import Joined


class Kind(Enum):
    WORD = auto()
    NUMBER = auto()
    TEXT = auto()
    RELATION = auto()
    MARK = auto()
    STOP = auto()
    PICTURE = auto()


@dataclass(frozen=True)
class Token:
    """A word, its text in capitals or, of a literal, what it says; with its line and column, both from 1."""

    kind: Kind
    text: str
    line: int
    column: int
    is_on_one_line: bool = True

    def is_word(self, *words: str) -> bool:
        return self.kind == Kind.WORD and self.text in words


PATTERN = re.compile(
    r"""(?P<TEXT>'(?:[^']|'')*'|"(?:[^"]|"")*")
    |(?P<NUMBER>(?:(?<=[\s(])[+-])?(?![0-9]*-*[A-Za-z0-9-]*[A-Za-z])(?:[0-9]+(?:\.[0-9]+)?|\.[0-9]+))
    |(?P<WORD>[A-Za-z0-9]+(?:-+[A-Za-z0-9]+)*)
    |(?P<RELATION><=|>=|[=<>])
    |(?P<MARK>[-+*/()])
    |(?P<STOP>\.(?=\s))""",
    re.X,
)
PICTURE = re.compile(r"\s+(?:IS\s+)?(\S+?)(?=[.,;]?\s)", re.I)


def tokens_of(lines: list[bytes]) -> list[Token]:
    """All tokens; commas and semicolons are left out."""
    joined = Joined(lines)
    found: list[Token] = []
    at = 0
    while match := PATTERN.search(joined.text, at):
        kind, raw, at = Kind[match.lastgroup or ""], match[0], match.end()
        line, column = joined.place(match.start())
        is_on_one_line = line == joined.place(at - 1)[0]
        if kind == Kind.TEXT:
            raw = raw[1:-1].replace(raw[0] * 2, raw[0])
        found.append(Token(kind, raw if kind == Kind.TEXT else raw.upper(), line, column, is_on_one_line))
        if kind == Kind.WORD and raw.upper() in ("PIC", "PICTURE"):
            picture = PICTURE.match(joined.text, at)
            if picture:
                found.append(Token(Kind.PICTURE, picture[1].upper(), *joined.place(picture.start(1))))
                at = picture.end()
    return found
