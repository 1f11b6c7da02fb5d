"""Sources in fixed form: which files they are, and their lines as they can be shown."""

import os
import pathlib
from collections.abc import Iterator
from dataclasses import dataclass

from cobsound_prepare.tokens import Note

from .answers import Answer, Verdict
from .scan import lines_of
from .statements import Statement, Text

ENDINGS = (".cob", ".cbl", ".cobol")
STANDARD_INPUT = "-"


@dataclass(frozen=True)
class Original:
    """What a prepared source was made of: its own path, its copybooks, and their encoding; and what came of that: its
    sum, the file in which it is kept, and that of its places. Where it can't be prepared there is a refusal or a
    failure."""

    path: str
    copybooks: tuple[str, ...] = ()
    encoding: str = "auto"
    sum: str = ""
    kept: str = ""
    places: str = ""
    notes: tuple[Note, ...] = ()
    refusal: Note | None = None
    failure: str = ""

    @property
    def answer(self) -> Answer | None:
        """What is to be said in place of the program's answer."""
        if self.failure:
            return Answer(Verdict.FAILED, told=self.failure)
        return Answer(Verdict.REFUSED, told=self.refusal.text) if self.refusal else None


@dataclass(frozen=True)
class Source:
    """A source: the name under which it is told, and the path under which the program can read it, which is that of a
    copy where it is no file, or was prepared."""

    name: str
    path: str
    is_file: bool = True
    original: Original | None = None

    @classmethod
    def at(cls, path: str) -> "Source":
        return cls(path, path)

    @property
    def own_path(self) -> str:
        """The path of the file as it stands there."""
        return self.original.path if self.original else self.path

    def files(self) -> tuple[str, ...]:
        """All files that are read of it."""
        return (self.own_path, *(self.original.copybooks if self.original else ()))


def sources_at(paths: list[str], folder: pathlib.Path) -> list[Source]:
    """The files that are named, those below the folders that are, and what comes on standard input where a hyphen is
    named, which is kept in `folder`; each once."""
    found: dict[str, Source] = {}
    for path in paths:
        if path == STANDARD_INPUT:
            found.setdefault("<stdin>", standard_input(folder))
        else:
            names = (os.path.normpath(name) for name in sources_of(path))
            found.update((name, Source.at(name)) for name in names if name not in found)
    return list(found.values())


def standard_input(folder: pathlib.Path) -> Source:
    copy = folder / "stdin.cob"
    if not copy.exists():
        with open(0, "rb", closefd=False) as given:
            copy.write_bytes(given.read())
    return Source("<stdin>", str(copy), is_file=False)


def sources_of(path: str) -> Iterator[str]:
    if not os.path.isdir(path):
        yield path
        return
    names = sorted(os.path.join(folder, name) for folder, _, files in os.walk(path, onerror=stop) for name in files)
    sources = [name for name in names if name.lower().endswith(ENDINGS) and is_readable_to_its_end(name)]
    if not sources:
        raise OSError(f"{path}: no file below it ends in {' or '.join(ENDINGS)}")
    yield from sources


def is_readable_to_its_end(name: str) -> bool:
    """Whether it is a regular file, or leads nowhere, which is told. A pipe or a device may never end."""
    return os.path.isfile(name) or not os.path.exists(name)


def stop(error: OSError) -> None:
    raise error


@dataclass(frozen=True)
class Span:
    """Characters of a line, counted from 0."""

    first: int
    behind: int


@dataclass(frozen=True)
class Place:
    """Characters of a line as it is shown, with the column of the first byte, from 1. Of another file than the source's
    own it names that, and the COPYs that led there, the nearest first."""

    line: int
    column: int
    span: Span
    shown: str
    file: str = ""
    copies: tuple[tuple[str, int], ...] = ()


def shown(raw: bytes) -> str:
    """The bytes of a line as characters that a terminal and a page can show."""
    try:
        text = raw.decode()
    except UnicodeDecodeError:
        text = raw.decode("latin-1")
    return showable(text)


def showable(text: str) -> str:
    return "".join(c if c.isprintable() else " " if c == "\t" else "\N{REPLACEMENT CHARACTER}" for c in text)


class Listing:
    """The lines of a source, numbered from 1."""

    def __init__(self, source: Source):
        with open(source.path, "rb") as file:
            self.bytes = file.read()
        self.raw = lines_of(self.bytes)
        self.lines = [shown(line) for line in self.raw]
        self.text = Text(self.raw)

    def line(self, number: int) -> str:
        return self.lines[number - 1] if 1 <= number <= len(self.lines) else ""

    def statement(self, number: int) -> Statement | None:
        """A statement by its number, where there is one."""
        return self.text.statements[number - 1] if 1 <= number <= len(self.text.statements) else None

    def text_of(self, number: int) -> str:
        """What stands in columns 8 to 72 of a line."""
        return self.line(number)[7:72].strip()

    def line_told(self, number: int) -> str:
        return f"line {number}"

    def place(self, line: int, column: int, length: int) -> Place:
        """The place of so many bytes from a column on."""
        raw = self.raw[line - 1] if 1 <= line <= len(self.raw) else b""
        span = Span(*(len(shown(raw[:end])) for end in (column - 1, column - 1 + length)))
        return Place(line, column, span, self.line(line))

    def refusal_place(self, line: int, column: int | None) -> Place:
        """The character that a refusal names; the whole text of its line where it names none."""
        return self.place(line, column, 1) if column else self.text_place(line)

    def text_place(self, line: int) -> Place:
        """The place of a line's text, in columns 8 to 72."""
        raw = self.raw[line - 1][:72] if 1 <= line <= len(self.raw) else b""
        text = raw[7:].strip()
        return self.place(line, 1 + raw.find(text, 7) if text else 1, len(text))
