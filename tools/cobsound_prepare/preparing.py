"""From a file to its prepared source."""

import codecs
import os
from collections.abc import Iterator, Sequence
from dataclasses import dataclass

from .copying import Expander, with_replace
from .lexing import lexed
from .libraries import Library, is_file
from .lines import TAB, Form, guessed_form
from .places import Map, mapped
from .printing import printed
from .rewritings import NAMING, SAYING
from .tokens import Block, LineKind, Note, Origin, Place, Token, raw_column
from .work import Rewriting, Work


@dataclass(frozen=True)
class Applied:
    """A rewriting, and at how many places it was made."""

    rewriting: Rewriting
    count: int


@dataclass(frozen=True)
class Prepared:
    """A prepared source: its text, the map of its places, the files that were read, the encoding that was guessed of
    them or given, and what is to be told."""

    text: str
    map: Map
    files: tuple[str, ...]
    encoding: str
    applied: tuple[Applied, ...]
    notes: tuple[Note, ...]


def prepare(
    path: str | os.PathLike[str],
    folders: Sequence[str],
    form: Form | None = None,
    encoding: str = "auto",
    assumes: bool = False,
) -> Prepared:
    """Prepares the source at a path, with copybooks in its folder and in these; where it `assumes`, statements give way
    to what allows more than they do. A SourceError tells why it can't, an OSError what can't be read."""
    library = Library(list(folders), encoding)
    origin = Origin(os.fspath(path))
    if os.path.exists(path) and not is_file(path):
        raise OSError(f"{path} is no regular file")
    lines = library.lines(origin.file)
    form = form or guessed_form(lines)
    expander = Expander(library, form, False)
    tokens = expander.expanded(origin)
    if asks_for_debugging(tokens):
        expander = Expander(library, form, True)
        tokens = expander.expanded(origin)
    work = Work(lexed(with_replace(tokens)), library.encoding, list(odd_lines(expander.blocks)), assumes)
    applied = tuple(rewritten(work))
    lines = list(printed(work.tokens, expander.blocks))
    text = "".join(f"{line.text.rstrip(' ') if line.columns else line.text}\n" for line in lines)
    notes = tuple(work.notes)
    return Prepared(text, mapped(lines, origin), tuple(library.read), library.encoding, applied, notes)


def odd_lines(blocks: list[Block]) -> Iterator[Note]:
    """What is told of lines that stay as they are."""
    for block in blocks:
        line = block.raw[0].expandtabs(TAB)
        if block.kind is LineKind.DIRECTIVE:
            text = line[0 if block.indent else 6 :].lstrip()
            told, column = f"the directive {' '.join(text[:66].split())}", len(line) - len(text) + 1
        elif block.kind is LineKind.ODD:
            told, column = "a continuation of nothing" if line[6] == "-" else f"the indicator {line[6]}", 7
        else:
            continue
        yield Note(Place(block.origin, block.number, raw_column(block, block.number, column)), f"{told} isn't taken")


def asks_for_debugging(tokens: list[Token]) -> bool:
    """Whether WITH DEBUGGING MODE makes code of the lines with the indicator D."""
    for at, token in enumerate(tokens[:-1]):
        if token.upper == "DEBUGGING" and tokens[at + 1].upper == "MODE":
            return True
        if token.upper == "PROCEDURE" and tokens[at + 1].upper == "DIVISION":
            return False
    return False


def rewritten(work: Work) -> Iterator[Applied]:
    """Makes all rewritings, in the order of their tables."""
    yield from made(work, SAYING)
    if work.unknown:
        work.unknown.declare(work)
    yield from made(work, NAMING)


def made(work: Work, rewritings: tuple[Rewriting, ...]) -> Iterator[Applied]:
    words = work.words()
    for rewriting in rewritings:
        is_asked = work.assumes or not rewriting.is_assumed
        if not is_asked or rewriting.words and not rewriting.words & words:
            continue
        count = rewriting.apply(work)
        if count:
            words = work.words()
            yield Applied(rewriting, count)


def refused(error: UnicodeError) -> tuple[str, int]:
    """A character that no program of the profile has, for each that Latin-1 hasn't."""
    assert isinstance(error, UnicodeEncodeError)
    return "\N{INVERTED QUESTION MARK}" * (error.end - error.start), error.end


codecs.register_error("cobsound-refused", refused)


def encoded(text: str) -> bytes:
    """The bytes of a prepared source: one for each character, so that columns are what they were."""
    return text.encode("latin-1", "cobsound-refused")
