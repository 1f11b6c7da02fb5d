"""COPY and REPLACE: the text of a source with its copybooks in their places."""

import os
from collections.abc import Iterator

from .libraries import Library
from .lines import Form
from .lines import Reader as LineReader
from .replacing import Reader, Replacement, replaced
from .tokens import Block, Kind, Origin, SourceError, Token

MOST_LINES = 1_000_000
DEEPEST = 100


class Expander:
    """Expands a source. `blocks` are those of all files, in the order of the expanded text."""

    def __init__(self, library: Library, form: Form, is_debugged: bool):
        self.library = library
        self.form = form
        self.is_debugged = is_debugged
        self.blocks: list[Block] = []

    def expanded(self, origin: Origin, depth: int = 0) -> list[Token]:
        """The tokens of a file with its copybooks."""
        lines = self.library.lines(origin.file)
        reader = LineReader(origin, self.form, self.is_debugged, is_in_identification=depth == 0)
        found: list[Token] = []
        copy: list[Token] = []
        is_pseudo = False
        for block, tokens in reader.blocks(lines):
            block.order = len(self.blocks)
            self.blocks.append(block)
            if not copy and not any(token.upper == "COPY" for token in tokens):
                found += tokens
                continue
            for token in tokens:
                if not copy and not token.is_word("COPY"):
                    found.append(token)
                    continue
                copy.append(token)
                is_pseudo ^= token.kind is Kind.PSEUDO
                if token.kind is Kind.STOP and not is_pseudo:
                    found += self.copied(copy, depth)
                    copy = []
        if copy:
            raise SourceError(copy[0].place(), "COPY without the point that ends it")
        return found

    def copied(self, statement: list[Token], depth: int) -> list[Token]:
        """The tokens that take the place of a COPY statement; it itself where it is none."""
        copy = statement[0]
        reader = Reader(statement[1:])
        name, library = reader.take(), None
        if name.kind not in (Kind.WORD, Kind.LITERAL, Kind.NUMBER):
            return statement
        if reader.takes("OF", "IN"):
            library = reader.take()
        if reader.takes("SUPPRESS"):
            reader.takes("PRINTING")
        rows = reader.replacements() if reader.takes("REPLACING") else []
        ends = reader.take()
        if ends.kind is not Kind.STOP:
            raise SourceError(ends.place(), f"{ends.text} has no place in COPY")
        for token in statement:
            token.block.count = None
        tokens = self.expanded(self.opened(copy, text_of(name), text_of(library) if library else ""), depth + 1)
        return replaced(tokens, rows) if rows else tokens

    def opened(self, copy: Token, name: str, library: str) -> Origin:
        """The copybook of a COPY: the first of that name that isn't among those in which the COPY stands."""
        origin = copy.block.origin
        way = origin.way()
        if len(self.blocks) > MOST_LINES or len(way) > DEEPEST:
            raise SourceError(copy.place(), f"the text with its copybooks is too long or too deep{behind(origin)}")
        open_files = {os.path.realpath(above.file) for above in way}
        is_circle = False
        for path in self.library.found(name, library, origin.file):
            if os.path.realpath(path) not in open_files:
                return Origin(path, origin, copy.line)
            is_circle = True
        if is_circle:
            raise SourceError(copy.place(), f"copybook {name} copies itself{behind(origin)}")
        folders = ", ".join(self.library.searched(origin.file, library)) or "no folder"
        named = f"{name} of {library}" if library else name
        raise SourceError(copy.place(), f"copybook {named} isn't found in {folders}{behind(origin)}")


def behind(origin: Origin) -> str:
    """The chain of COPYs that led to a copybook; nothing for the source itself."""
    return f" ({origin.chain()})" if origin.copied_by else ""


def text_of(token: Token) -> str:
    return token.text[1:-1] if token.kind is Kind.LITERAL else token.text


def with_replace(tokens: list[Token]) -> list[Token]:
    """The tokens with what their REPLACE statements ask for, which stand no longer among them."""
    if not any(token.upper == "REPLACE" for token in tokens):
        return tokens
    found: list[Token] = []
    rows: list[Replacement] = []
    for segment in segments(tokens):
        if segment[0].is_word("REPLACE"):
            reader = Reader(segment)
            reader.take()
            rows_before = rows if reader.takes("ALSO") else []
            reader.takes("LAST")
            rows = [] if reader.takes("OFF") else reader.replacements() + rows_before
            for token in segment:
                token.block.count = None
        else:
            found += replaced(segment, rows) if rows else segment
    return found


def segments(tokens: list[Token]) -> Iterator[list[Token]]:
    """REPLACE statements, and what stands between them."""
    segment: list[Token] = []
    is_pseudo = False
    for at, token in enumerate(tokens):
        is_statement = bool(segment) and segment[0].is_word("REPLACE")
        if not is_statement and begins_replace(tokens, at):
            if segment:
                yield segment
            segment, is_pseudo, is_statement = [], False, True
        segment.append(token)
        is_pseudo ^= token.kind is Kind.PSEUDO
        if is_statement and token.kind is Kind.STOP and not is_pseudo:
            yield segment
            segment = []
    if segment and segment[0].is_word("REPLACE"):
        raise SourceError(segment[0].place(), "REPLACE without the point that ends it")
    if segment:
        yield segment


def begins_replace(tokens: list[Token], at: int) -> bool:
    """Whether the statement stands here, and not a name that isn't COBOL's."""
    if not tokens[at].is_word("REPLACE") or at + 1 == len(tokens):
        return False
    after = tokens[at + 1]
    return after.kind is Kind.PSEUDO or after.is_word("OFF", "LAST", "ALSO", "LEADING", "TRAILING")
