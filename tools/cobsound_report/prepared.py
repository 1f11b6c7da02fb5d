"""Sources that are prepared before the program reads them (docs/PREPARE.md), and the places of what is
told of them in the files from which they were made."""

import hashlib
import multiprocessing
import os
import pathlib
import re
import signal
from collections.abc import Iterator
from concurrent.futures import ProcessPoolExecutor
from dataclasses import dataclass, replace
from functools import partial

from cobsound_prepare import encoded
from cobsound_prepare.encodings import decoded
from cobsound_prepare.encodings import lines_of as text_lines
from cobsound_prepare.options import Way
from cobsound_prepare.places import Map
from cobsound_prepare.rewritings import assumptions
from cobsound_prepare.tokens import Note, SourceError
from cobsound_prepare.tokens import Place as Found

from . import outputs
from .program import made_path, told_of
from .sources import Listing, Original, Place, Source, Span, showable, shown

MAP = ".map.json"
WORD = re.compile(r"[\w:-]+|'[^']*'?|\"[^\"]*\"?|\S")


@dataclass(frozen=True)
class Preparation:
    """How sources are prepared, the folder in which that is done, and the one that keeps what came of it."""

    way: Way
    folder: pathlib.Path
    kept: pathlib.Path | None = None

    def made(self, source: Source) -> Source:
        """The source as it was prepared, or with why it can't be."""
        try:
            found = self.way.prepared(source.path)
        except SourceError as error:
            copybooks = tuple(above.file for above in error.place.origin.way()[:-1])
            refusal = Note(error.place, str(error.args[0]))
            return replace(source, original=Original(source.path, copybooks, self.way.encoding, refusal=refusal))
        except Exception as error:
            told = told_of(error) if isinstance(error, OSError) else f"{type(error).__name__}: {error}"
            return replace(source, original=Original(source.path, failure=told))
        name = made_path(source.name, ".txt")
        path = self.folder / name
        path.parent.mkdir(parents=True, exist_ok=True)
        text = encoded(found.text)
        path.write_bytes(text)
        places = pathlib.Path(f"{path}{MAP}")
        places.write_text(found.map.as_json())
        kept = str(self.kept / name) if self.kept else ""
        text_sum = hashlib.sha256(text).hexdigest()
        original = Original(source.path, found.files[1:], found.encoding, text_sum, kept, str(places), found.notes)
        return replace(source, path=str(path), original=original)

    def told(self) -> str:
        """Of what all that is told holds, where that is to be seen, and what is assumed."""
        where = f"are kept below {self.kept}" if self.kept else f"`{self.way.command()} SOURCE` shows"
        assumed = f"; assumed where statements gave way: {'; '.join(assumptions())}" if self.way.assumes else ""
        return shown(os.fsencode(f"what is told holds of the prepared sources, which {where}{assumed}"))

    def all_made(self, sources: list[Source], jobs: int) -> list[Source]:
        """Each source as it was prepared, side by side in processes of their own."""
        if min(jobs, len(sources)) < 2:
            return [self.made(source) for source in sources]
        fork = multiprocessing.get_context("fork")
        with ProcessPoolExecutor(jobs, fork, initializer=leave_signals) as pool:
            return list(pool.map(partial(Preparation.made, self), sources, chunksize=4))


def leave_signals() -> None:
    """A signal that stops the tool is the first process's to act on."""
    for kind in (signal.SIGINT, signal.SIGTERM, signal.SIGHUP):
        signal.signal(kind, signal.SIG_DFL if kind == signal.SIGTERM else signal.SIG_IGN)


def keep(sources: list[Source]) -> None:
    """Writes what is kept of prepared sources."""
    for kept, made in kept_files(sources):
        kept.parent.mkdir(parents=True, exist_ok=True)
        outputs.put(kept, made.read_bytes())


def kept_files(sources: list[Source]) -> Iterator[tuple[pathlib.Path, pathlib.Path]]:
    """What is kept of prepared sources: each file with the one that it is a copy of."""
    for source in sources:
        if source.original and source.original.kept:
            yield pathlib.Path(source.original.kept), pathlib.Path(source.path)
            yield pathlib.Path(source.original.kept + MAP), pathlib.Path(source.original.places)


class OwnFiles:
    """The files from which a prepared source was made, as they can be shown."""

    def __init__(self, source: Source, original: Original):
        self.source = source
        self.original = original
        self.read: dict[str, list[str]] = {}

    def lines(self, path: str) -> list[str]:
        if path not in self.read:
            text, _ = decoded(pathlib.Path(path).read_bytes(), self.original.encoding)
            self.read[path] = [showable(line) for line in text_lines(text)]
        return self.read[path]

    def line(self, path: str, number: int) -> str:
        lines = self.lines(path)
        return lines[number - 1] if 1 <= number <= len(lines) else ""

    def name(self, path: str) -> str:
        """The name of a file, empty where it is the source's own."""
        return "" if path == self.original.path else path

    def place(self, found: Found, text: str = "") -> Place:
        """The place of a text; of what stands there in its stead where that is another one."""
        path, first = found.origin.file, found.column - 1
        line = self.line(path, found.line)
        span = Span(first, first + length_there(line, first, text))
        copies = tuple((self.name(file) or self.source.name, at) for file, at in found.origin.copies())
        return Place(found.line, found.column, span, line, self.name(path), copies)


def length_there(line: str, first: int, text: str) -> int:
    """How long the text is that stands at a place of a line, or the word in its stead."""
    if text and line[first : first + len(text)].upper() == text.upper():
        return len(text)
    word = WORD.match(line, first)
    return len(word[0]) if word else 1


class PreparedListing(Listing):
    """The lines of a prepared source, whose places are those of the files from which it was made."""

    def __init__(self, source: Source, original: Original):
        super().__init__(source)
        self.files = OwnFiles(source, original)
        self.map = Map.read(pathlib.Path(original.places).read_text())

    def place(self, line: int, column: int, length: int) -> Place:
        behind = line > len(self.map.lines)
        line, column = (len(self.map.lines), 1) if behind else (line, column)
        text = self.raw[line - 1][column - 1 : column - 1 + length].decode("latin-1") if self.raw and not behind else ""
        return self.files.place(self.map.place(line, column), text)

    def line_told(self, number: int) -> str:
        place = self.map.place(number)
        file = self.files.name(place.origin.file)
        return f"line {place.line} of {file}" if file else f"line {place.line}"


def own_lines(source: Source, file: str = "") -> list[str]:
    """The lines of a source, or of a copybook of it, as they stand there; none where it can't be read."""
    path = file or source.own_path
    if not os.path.isfile(path) or not os.access(path, os.R_OK):
        return []
    return OwnFiles(source, source.original).lines(path) if source.original else Listing(source).lines


def listing_of(source: Source) -> Listing:
    return PreparedListing(source, source.original) if source.original else Listing(source)
