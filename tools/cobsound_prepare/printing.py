"""Tokens as lines in fixed form.

Lines whose tokens are all as they were read are printed as they stand. What else stands on a line keeps its column
where there is room, and goes on on lines of its own. Lines of which nothing is left become comments.
"""

from collections.abc import Iterator
from dataclasses import dataclass

from .tokens import Block, Kind, LineKind, Token

FIRST, LAST = 8, 72  # the columns of the text
DEEP = 40  # the last column in which what goes on begins
MARGIN = 12  # the column of a continuation's text


@dataclass(frozen=True)
class Line:
    """A line of the prepared source: its text, the block that it stands for, the line in that block's file, and the
    column of each token with that token; none where the columns are those of the file."""

    text: str
    block: Block
    number: int
    columns: tuple[tuple[int, Token], ...] = ()


def printed(tokens: list[Token], blocks: list[Block]) -> Iterator[Line]:
    """The lines of the tokens, and of the blocks that have none, in the order of the text."""
    passed = 0
    for run in runs(tokens):
        block = run[0].block
        for number in range(passed, block.order):
            yield from without_code(blocks[number])
        passed = max(passed, block.order + 1)
        if block.is_plain and block.count == len(run) and not any(token.is_made for token in run):
            yield from (Line(text, block, block.number + at) for at, text in enumerate(block.raw))
        else:
            yield from changed(block, run)
    for block in blocks[passed:]:
        yield from without_code(block)


def runs(tokens: list[Token]) -> Iterator[list[Token]]:
    """The tokens of one block that follow each other."""
    at = 0
    while at < len(tokens):
        block, end = tokens[at].block, at + 1
        while end < len(tokens) and tokens[end].block is block:
            end += 1
        yield tokens[at:end]
        at = end


def without_code(block: Block) -> Iterator[Line]:
    """The lines of a block of which no token is left."""
    if block.kind is LineKind.DIRECTIVE and block.indent:
        yield moved_directive(block)
        return
    for at, raw in enumerate(block.raw):
        yield Line(as_comment(block, raw), block, block.number + at)


def moved_directive(block: Block) -> Line:
    """A directive of free form in column 7, where the program refuses it."""
    line = block.raw[0].expandtabs()
    text = line.strip()
    token = Token(Kind.OTHER, text, block, block.number, line.index(text) + 1, False)
    return Line(f"      {text}", block, block.number, ((FIRST - 1, token),))


def as_comment(block: Block, raw: str) -> str:
    """A comment as it stands, where it is one that the program knows; else its text behind a star."""
    is_fixed = block.indent == 0
    kept = (LineKind.COMMENT, LineKind.ODD) if is_fixed else ()
    if block.kind in kept:
        return raw if block.is_plain or block.kind is LineKind.ODD else raw.expandtabs()
    if block.kind is LineKind.BLANK:
        return raw if is_fixed and not raw.strip(" ") else ""
    if block.kind is LineKind.DIRECTIVE:
        return raw
    text = raw.expandtabs()
    text = text[7:] if is_fixed else text.strip().removeprefix("*>")
    return f"      *{text}"


def changed(block: Block, run: list[Token]) -> Iterator[Line]:
    """A block's comment, and what is left of it."""
    if block.comment:
        yield Line(f"      *{block.comment[2:]}", block, run[0].line)
    line = Builder(block)
    for token in run:
        yield from line.put(token)
    yield from line.ended()


class Builder:
    """Builds the lines of a block."""

    def __init__(self, block: Block):
        self.block = block
        self.text = ""
        self.number = 0
        self.columns: list[tuple[int, Token]] = []
        self.indent = 0
        self.last: Token | None = None

    def put(self, token: Token) -> Iterator[Line]:
        """Puts a token; the lines that are full by then."""
        last = self.last
        if last and (last.line != token.line or last.own_line != token.own_line):
            yield from self.ended()
            self.indent = 0
        start = self.start_of(token)
        if start + len(token.text) - 1 > LAST and self.text:
            start = len(self.text) + self.space(token)
            if start + len(token.text) - 1 > LAST and len(token.text) <= LAST - MARGIN:
                yield from self.ended()
                start = self.start_of(token)
        if not self.text:
            self.number = token.line
            self.indent = self.indent or min(start + 4, DEEP)
        self.columns.append((start, token))
        self.text = self.text.ljust(start - 1)
        self.last = token
        if start + len(token.text) - 1 <= LAST:
            self.text += token.text
        else:
            yield from self.long(token)

    def space(self, token: Token) -> int:
        """How far behind the text the token may begin."""
        is_beside = token.is_glued and (token.kind is Kind.STOP or token.text in "()" or self.text.endswith("("))
        return 1 if is_beside else 2

    def start_of(self, token: Token) -> int:
        """The column in which the token begins, were there room: its own, or the first behind the text."""
        wanted = token.column + self.block.indent
        if self.text and token.kind is Kind.STOP and token.is_glued:
            return len(self.text) + 1
        if self.text:
            return max(wanted if not token.is_made else 0, len(self.text) + self.space(token))
        if self.indent:
            return self.indent if len(token.text) <= LAST - self.indent else MARGIN
        return wanted if FIRST <= wanted and wanted + len(token.text) - 1 <= LAST else max(FIRST, min(wanted, MARGIN))

    def long(self, token: Token) -> Iterator[Line]:
        """A token that no line holds, by continuations."""
        mark = token.text[0] if token.text[0] in "'\"" else ""
        text = token.text
        start = len(self.text)
        if mark:
            start = next((at for at in range(start, LAST) if splits_well(text, at, mark)), start)
        self.text = self.text.ljust(start) + text[: LAST - start]
        text = text[LAST - start :]
        while text:
            yield from self.ended()
            self.number = token.line
            self.text = " " * 6 + "-" + " " * (MARGIN - FIRST) + mark
            room = LAST - len(self.text)
            self.text += text[:room]
            text = text[room:]

    def ended(self) -> Iterator[Line]:
        if self.text:
            yield Line(self.text, self.block, self.number, tuple(self.columns))
        self.text, self.columns = "", []


def splits_well(text: str, start: int, mark: str) -> bool:
    """Whether no doubled mark is torn where the literal begins so far to the right."""
    at = LAST - start
    while at < len(text):
        if text[at] == mark and (text[:at].count(mark) - 1) % 2 == 1:
            return False
        at += LAST - MARGIN
    return True
