"""Tokens of a source, and the blocks of lines on which they stand."""

from __future__ import annotations

from dataclasses import dataclass
from enum import Enum, auto


class Kind(Enum):
    """What a token is. Till COPY and REPLACE are done these are the words of the text; behind that a picture is one
    token, and commas are gone."""

    WORD = auto()
    NUMBER = auto()
    LITERAL = auto()
    PICTURE = auto()
    STOP = auto()
    COMMA = auto()
    MARK = auto()
    PSEUDO = auto()  # the two equal signs at each end of pseudo-text
    ENTRY = auto()  # a line of a comment-entry, as behind AUTHOR
    OTHER = auto()  # what begins no token, and a literal that isn't closed


class LineKind(Enum):
    """What a block's lines are."""

    CODE = auto()
    COMMENT = auto()
    BLANK = auto()
    IDLE = auto()  # a directive that says nothing of what the program does
    DIRECTIVE = auto()  # any other: it stays, and the program refuses it
    ODD = auto()  # an indicator that isn't known, or a continuation of nothing: likewise


@dataclass(frozen=True)
class Origin:
    """One reading of a file: the source itself, or a copybook with the COPY that asked for it."""

    file: str
    copied_by: Origin | None = None
    copied_at: int = 0  # the line of the COPY in the file that has it

    def way(self) -> list[Origin]:
        """The reading itself, and those with the COPYs that led to it, the source's last."""
        found = [self]
        while found[-1].copied_by:
            found.append(found[-1].copied_by)
        return found

    def copies(self) -> list[tuple[str, int]]:
        """The COPYs that led to it, the nearest first: the file and the line of each."""
        return [(origin.copied_by.file, origin.copied_at) for origin in self.way() if origin.copied_by]

    def chain(self) -> str:
        """The file, and the COPYs that led to it, the nearest first."""
        return self.file + "".join(f", copied by {file} line {line}" for file, line in self.copies())


class Block:
    """Lines of a file that hang together: one, or one with its continuations.

    `raw` are the lines as they were decoded, `number` the first one's, counted from 1. `is_plain` says that the
    lines are in the fixed form that the program reads, so that they can stand in the prepared source as they are.
    Once COPY and REPLACE are done, `count` is the number of its tokens, and None where these changed any.
    """

    __slots__ = ("comment", "count", "indent", "is_plain", "kind", "number", "order", "origin", "raw")

    def __init__(self, origin: Origin, number: int, raw: list[str], kind: LineKind, is_plain: bool):
        self.origin = origin
        self.number = number
        self.raw = raw
        self.kind = kind
        self.is_plain = is_plain
        self.comment = ""  # what stands behind `*>`
        self.indent = 0  # how far the text is moved to the right where it is printed in fixed form
        self.count: int | None = 0
        self.order = 0  # its place among the blocks of the whole text


class Token:
    """A token and where it stands. `column` is counted from 1 on the line with its tabs laid out, `is_glued` says that
    no space stands before it, `is_made` that it isn't in the source as it stands here. What is put in on a line of its
    own has that line's text as `own_line`."""

    __slots__ = ("block", "column", "is_glued", "is_made", "kind", "line", "own_line", "text", "upper")

    def __init__(self, kind: Kind, text: str, block: Block, line: int, column: int, is_glued: bool):
        self.kind = kind
        self.text = text
        self.upper = text.upper() if kind is Kind.WORD else text
        self.block = block
        self.line = line
        self.column = column
        self.is_glued = is_glued
        self.is_made = False
        self.own_line = ""

    def made(self, kind: Kind, text: str, is_glued: bool | None = None) -> Token:
        """A token in this one's place, glued as this one where that isn't said."""
        glued = self.is_glued if is_glued is None else is_glued
        token = Token(kind, text, self.block, self.line, self.column, glued)
        token.is_made = True
        return token

    def word(self, text: str) -> Token:
        return self.made(Kind.WORD, text)

    def stop(self) -> Token:
        """A point directly behind what stands before it."""
        return self.made(Kind.STOP, ".", is_glued=True)

    def is_word(self, *words: str) -> bool:
        return self.kind is Kind.WORD and self.upper in words

    def place(self) -> Place:
        return Place(self.block.origin, self.line, raw_column(self.block, self.line, self.column))

    def __repr__(self) -> str:
        return f"<{self.kind.name} {self.text} {self.line}:{self.column}>"


@dataclass(frozen=True)
class Place:
    """A place of a file as an editor shows it: line and column counted from 1."""

    origin: Origin
    line: int
    column: int

    def line_told(self) -> str:
        return f"{self.origin.file}:{self.line}"

    def __str__(self) -> str:
        return f"{self.line_told()}:{self.column}"


def raw_column(block: Block, line: int, column: int) -> int:
    """The column of a character where tabs are one column each."""
    raw = block.raw[line - block.number] if 0 <= line - block.number < len(block.raw) else ""
    if "\t" not in raw:
        return column
    at = 0
    for count, character in enumerate(raw, 1):
        at += 8 - at % 8 if character == "\t" else 1
        if at >= column:
            return count
    return column


class SourceError(Exception):
    """Why a source can't be prepared, with the place."""

    def __init__(self, place: Place, message: str):
        super().__init__(message)
        self.place = place

    def __str__(self) -> str:
        return f"{self.place}: error: {self.args[0]}"


@dataclass(frozen=True)
class Note:
    """What is told of a place of the source."""

    place: Place
    text: str

    def __str__(self) -> str:
        return f"{self.place}: note: {self.text}"
