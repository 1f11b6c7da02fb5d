"""A line's text as tokens."""

import re
import sys

from .tokens import Block, Kind, Token

# The letters before a literal's mark are those of X'41' and the like. A sign is a number's where a space or a
# parenthesis stands before it.
TOKEN = re.compile(
    r"""(?P<LITERAL>(?:(?:NX|BX|HX|[XNZBHG])(?=["']))?(?:"(?:[^"]|"")*"|'(?:[^']|'')*'))
      | (?P<WORD>[^\W\d][\w-]*)
      | (?P<NUMBER>(?:(?<![^\s(])[+-])?(?:\d+(?:[.,]\d+)?|[.,]\d+)(?![\w-]))
      | (?P<NAME>\w[\w-]*)
      | (?P<STOP>\.)
      | (?P<COMMENT>\*>.*)
      | (?P<PSEUDO>==)
      | (?P<MARK><=|>=|<>|\*\*|[=<>()+\-*/&:])
      | (?P<COMMA>[,;])
      | (?P<OPEN>["'].*)
      | (?P<OTHER>\S)""",
    re.VERBOSE | re.IGNORECASE,
)
# a word that begins with a digit is a name; a literal without an end goes on to the end of the line
KINDS = {kind.name: kind for kind in Kind} | {"NAME": Kind.WORD, "OPEN": Kind.OTHER}


MARKS = re.compile(r"[\"']|\*>")


def mark_behind(text: str, mark: str) -> str:
    """The mark of the literal that is open behind a text, before which `mark` is open; empty where none is."""
    for match in MARKS.finditer(text):
        if match[0] == "*>":
            if not mark:
                break
        elif not mark:
            mark = match[0]
        elif mark == match[0]:
            mark = ""
    return mark


class Text:
    """The text of a block. Where it is joined from several lines, `parts` has where each begins in it: (place in the
    text, line, column)."""

    def __init__(self, text: str, line: int, column: int):
        self.pieces = [text]
        self.parts = [(0, line, column)]
        self.mark = ""

    def whole(self) -> str:
        return "".join(self.pieces)

    def join(self, text: str, line: int, column: int, width: int) -> None:
        """Joins a continuation: inside a literal, which the line before fills to its width, behind its first mark;
        else at its first character that is no space."""
        first = len(text) - len(text.lstrip())
        self.mark = mark_behind(self.pieces[-1], self.mark)
        if self.mark:
            before = self.parts[-1][2]
            self.pieces[-1] = self.pieces[-1].ljust(width - (before - column))
            first += 1 if text[first : first + 1] in ("'", '"') else 0
        else:
            self.pieces[-1] = self.pieces[-1].rstrip()
        self.parts.append((self.parts[-1][0] + len(self.pieces[-1]), line, column + first))
        self.pieces.append(text[first:])


def scanned(text: Text, block: Block) -> list[Token]:
    """The tokens of a text. A comment behind `*>` becomes the block's."""
    found = []
    behind = -1
    _, line, column = text.parts[0]
    part = iter((*text.parts[1:], (sys.maxsize, 0, 0)))
    start, (next_start, next_line, next_column) = 0, next(part)
    for match in TOKEN.finditer(text.whole()):
        at, end = match.span()
        while at >= next_start:
            start, line, column = next_start, next_line, next_column
            next_start, next_line, next_column = next(part)
        group = match.lastgroup
        if group == "COMMENT":
            block.comment = match[0]
            block.is_plain = False
            break
        found.append(Token(KINDS[group], match[0], block, line, column + at - start, at == behind))
        behind = end
    return found
