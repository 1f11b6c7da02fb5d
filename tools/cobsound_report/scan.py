"""The tokens of a source with their places, as far as a reader sees them. Nothing is refused here: what isn't rightly
written is passed over, so that all that is to be told of a source can be told at once."""

import re
from bisect import bisect_right
from dataclasses import dataclass
from enum import Enum, auto

from cobsound_prepare.lines import DIRECTIVE

class Sort(Enum):
    WORD = auto()
    NUMBER = auto()
    TEXT = auto()
    PICTURE = auto()
    MARK = auto()
    STOP = auto()


@dataclass(frozen=True)
class Token:
    """A token; words stand in capitals. Line, column and length are of the source's bytes, from 1."""

    sort: Sort
    text: str
    line: int
    column: int
    length: int

    def is_word(self, *words: str) -> bool:
        return self.sort == Sort.WORD and self.text in words


@dataclass(frozen=True)
class Spot:
    """A word, or another thing, that is told of a source, with its place."""

    text: str
    line: int
    column: int
    length: int


@dataclass(frozen=True)
class Piece:
    """A stretch of the joined text that stands on one line."""

    line: int
    column: int


# A closed literal, else one up to the end of its line, which the joined text closes.
TOKEN = re.compile(
    r"(?P<text>(?:[A-Z]{1,2}(?=['\"]))?(?:'(?:[^']|'')*'?|\"(?:[^\"]|\"\")*\"?))"
    r"|(?P<number>(?:(?<![A-Z0-9)])[+-])?[0-9]+(?:\.[0-9]+)?(?![A-Z0-9_-]))"
    r"|(?P<word>[A-Z0-9_]+(?:-+[A-Z0-9_]+)*)"
    r"|(?P<stop>\.(?=\s|$))"
    r"|(?P<mark>\*\*|<>|<=|>=|==|\S)",
    re.I,
)
PICTURE = re.compile(r"\s+(?:IS\s+)?(?P<picture>[^\s]*[^\s.,;])", re.I)
SORTS = {"text": Sort.TEXT, "number": Sort.NUMBER, "word": Sort.WORD, "stop": Sort.STOP, "mark": Sort.MARK}


class Joined:
    """The text of a source in one string, with the place of each character: comment lines are left out, continuations
    joined, what stands behind `*>` is dropped, and so are directives."""

    def __init__(self, lines: list[bytes], is_free: bool = False):
        self.lines = lines
        self.is_free = is_free
        self.pieces: list[Piece] = []
        self.offsets: list[int] = []
        self.parts: list[str] = []
        self.length = 0
        self.mark = ""
        self.notes: list[tuple[int, int]] = []
        self.directives: list[Spot] = []
        for number, raw in enumerate(lines, 1):
            self.add_line(number, raw.decode("latin-1"))
        self.text = "".join(self.parts)

    def add_line(self, number: int, line: str) -> None:
        line = line.expandtabs(8)
        text = line if self.is_free else line[6:72]
        if DIRECTIVE.match(text):
            self.add_directive(number, line, text.split("*>")[0].strip())
            return
        if self.is_free:
            self.add_text(number, 0, "" if line.lstrip().startswith(("*", "$")) else line)
            return
        line = line.ljust(72)[:72]
        if line[6] in "*/Dd" or not line[7:].strip():
            return
        if line[6] != "-":
            self.add_text(number, 7, line[7:])
            return
        start = 72 - len(line[7:].lstrip())
        if not self.mark:
            self.drop_blanks()
        self.add_text(number, start + bool(self.mark), line[start + bool(self.mark) :], is_continued=True)

    def add_directive(self, number: int, line: str, text: str) -> None:
        column = raw_column(self.lines[number - 1], line.index(text) + 1)
        self.directives.append(Spot(text, number, column, len(text)))

    def drop_blanks(self) -> None:
        """What a continuation joins: the text before it without its last spaces, and without a mark that closed it."""
        while self.parts and self.parts[-1].isspace():
            self.length -= len(self.parts.pop())
            self.pieces.pop()
            self.offsets.pop()
        if self.parts:
            kept = self.parts[-1].rstrip()
            self.length -= len(self.parts[-1]) - len(kept)
            self.parts[-1] = kept

    def add_text(self, number: int, start: int, text: str, is_continued: bool = False) -> None:
        """The text of a line from a place on, counted from 0. A literal that no continuation follows ends with its
        line."""
        if self.mark and not is_continued:
            self.append(number, 72, f"{self.mark} ")
            self.mark = ""
        note = -1 if self.mark else note_of(text)
        if note >= 0:
            self.notes.append((number, start + note + 1))
            text = text[:note]
        self.mark = mark_behind(text, self.mark)
        self.append(number, start, text if self.mark else f"{text} ")

    def append(self, number: int, start: int, text: str) -> None:
        self.pieces.append(Piece(number, start + 1))
        self.offsets.append(self.length)
        self.parts.append(text)
        self.length += len(text)

    def place(self, offset: int) -> tuple[int, int]:
        """The line and the column of a character, where a tab counts as one."""
        at = bisect_right(self.offsets, offset) - 1
        piece = self.pieces[at]
        return piece.line, raw_column(self.lines[piece.line - 1], piece.column + offset - self.offsets[at])

    def tokens(self) -> list[Token]:
        found: list[Token] = []
        at = 0
        while match := TOKEN.search(self.text, at):
            found.append(self.token(SORTS[match.lastgroup or "mark"], match[0], match.start()))
            at = match.end()
            picture = PICTURE.match(self.text, at) if found[-1].is_word("PIC", "PICTURE") else None
            if picture:
                found.append(self.token(Sort.PICTURE, picture["picture"].upper(), picture.start("picture")))
                at = picture.end()
        return found

    def token(self, sort: Sort, text: str, offset: int) -> Token:
        line, column = self.place(offset)
        return Token(sort, text.upper() if sort == Sort.WORD else text, line, column, len(text))


def note_of(text: str) -> int:
    """Where `*>` begins a comment outside literals, or -1."""
    at = text.find("*>")
    while at >= 0 and mark_behind(text[:at], ""):
        at = text.find("*>", at + 2)
    return at


def mark_behind(text: str, mark: str) -> str:
    """The quotation mark that is open behind a text, where this one is open before it. A doubled mark closes and
    opens."""
    for found in re.findall("[\"']", text):
        if mark in ("", found):
            mark = "" if mark else found
    return mark


def raw_column(raw: bytes, column: int) -> int:
    """The column of a line's bytes that stands at a column behind its tabs' ends."""
    if b"\t" not in raw:
        return column
    return next((at for at in range(1, len(raw) + 1) if len(raw[:at].expandtabs(8)) >= column), column)


def lines_of(raw: bytes) -> list[bytes]:
    """The lines of a source without their ends."""
    lines = [line.removesuffix(b"\r") for line in raw.split(b"\n")]
    return lines if lines[-1] else lines[:-1]


def spot(*tokens: Token, text: str = "") -> Spot:
    """The spot of neighbouring tokens, up to the last one on the line of the first."""
    first = tokens[0]
    last = [token for token in tokens if token.line == first.line][-1]
    length = last.column + last.length - first.column
    return Spot(text or " ".join(token.text for token in tokens), first.line, first.column, max(length, 1))
