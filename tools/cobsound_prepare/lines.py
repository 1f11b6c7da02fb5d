"""The lines of a file as blocks, with the tokens of each.

Fixed form has an indicator in column 7 and its text in columns 8 to 72; free form has the whole line. Nothing of a
file is lost: its lines stand in the blocks as they are, in their order.
"""

import re
from collections.abc import Iterator
from dataclasses import dataclass
from enum import Enum

from .scanner import Text, scanned
from .tokens import Block, Kind, LineKind, Origin, Token

TAB = 8


class Form(Enum):
    FIXED = "fixed"
    FREE = "free"


# The comment-entries of the IDENTIFICATION DIVISION, and what ends one where it begins a line.
ENTRIES = ("AUTHOR", "INSTALLATION", "DATE-WRITTEN", "DATE-COMPILED", "SECURITY", "REMARKS")
ENTRY = re.compile(rf"\s*({'|'.join(ENTRIES)})(?![\w-])\s*(\.?)", re.I)
LATER = (
    r"(?:ENVIRONMENT|CONFIGURATION|DATA|PROCEDURE|SOURCE-COMPUTER|OBJECT-COMPUTER|SPECIAL-NAMES|FILE-CONTROL"
    r"|(?:INPUT-OUTPUT|FILE|WORKING-STORAGE|LINKAGE)\s+SECTION)(?![\w-])"
)
ENTRY_END = re.compile(rf"(?:{'|'.join(ENTRIES)}|PROGRAM-ID)(?![\w-])|{LATER}", re.I)
LATER_HEADER = re.compile(rf"\s*{LATER}", re.I)

FIRST_HEADER = re.compile(r"\s*(?:(?:IDENTIFICATION|ID)\s+DIVISION|PROGRAM-ID)(?![\w-])", re.I)
FORMAT = re.compile(
    r"\s*(?:>>\s*SOURCE\s+(?:FORMAT\s+)?(?:IS\s+)?(FIXED|FREE)\s*\.?"
    r"|\$\s*SET\s+SOURCEFORMAT\s*\(?\s*[\"']?(FIXED|FREE)[\"']?\s*\)?)\s*(?:\*>.*)?",
    re.I,
)
DIRECTIVE = re.compile(
    r"\s*(>>|\$\s*(SET|IF|ELSE|ELIF|END|END-IF|DISPLAY|REGION|END-REGION)(?![\w-])|\+\+\s*INCLUDE(?![\w-]))", re.I
)
LISTING = re.compile(r"\s*>>\s*(LISTING|PAGE)(?![\w-])", re.I)
DEBUGGING = re.compile(r"\s*>>\s*D(\s|$)", re.I)


def guessed_form(lines: list[str]) -> Form:
    """The form of a source: that of a directive if one comes first; free where the first header begins before column
    8; else fixed."""
    for line in lines:
        line = line.expandtabs(TAB)
        form = form_asked(line) or form_asked(line[6:72])
        if form:
            return form
        for start in (0, 7):
            header = FIRST_HEADER.match(line[start:])
            if header:
                return Form.FREE if start == 0 and len(line) - len(line.lstrip()) < 7 else Form.FIXED
    return Form.FIXED


def form_asked(directive: str) -> Form | None:
    """The form that a directive asks for, where it says that and nothing else."""
    found = FORMAT.fullmatch(directive)
    return Form[(found[1] or found[2]).upper()] if found else None


@dataclass
class Reader:
    """Reads one file. `is_debugged` says that lines with the indicator D are code."""

    origin: Origin
    form: Form
    is_debugged: bool = False
    is_in_identification: bool = False
    is_in_entry: bool = False

    def blocks(self, lines: list[str]) -> Iterator[tuple[Block, list[Token]]]:
        """The blocks in their order, each with its tokens."""
        at = 0
        while at < len(lines):
            line = lines[at].expandtabs(TAB) if "\t" in lines[at] else lines[at]
            behind = at + 1
            if self.form is Form.FREE:
                yield self.free_line(lines[at], line, at + 1)
            else:
                kind = self.fixed_kind(line)
                if kind is LineKind.CODE and not self.is_in_entry:
                    behind = self.end_of_block(lines, at)
                    kind = LineKind.CODE if line[6:7] in ("", " ", "D", "d") else LineKind.ODD
                yield self.fixed_lines(lines[at:behind], line, at + 1, kind)
            at = behind

    def fixed_kind(self, line: str) -> LineKind:
        indicator, text = line[6:7], line[7:72]
        if indicator and indicator in "*/" or indicator and indicator in "Dd" and not self.is_debugged:
            return LineKind.COMMENT
        if DIRECTIVE.match(line[6:72]):
            return self.directive_kind(line[6:72])
        if not text.strip() and indicator.strip() == "":
            return LineKind.BLANK
        return LineKind.CODE

    def end_of_block(self, lines: list[str], at: int) -> int:
        """Where the block that begins at a line of code ends: behind its last continuation."""
        behind = end = at + 1
        while end < len(lines):
            line = lines[end].expandtabs(TAB)
            end += 1
            if self.fixed_kind(line) is LineKind.CODE:
                if line[6:7] != "-":
                    break
                behind = end
        return behind

    def fixed_lines(self, raw: list[str], line: str, number: int, kind: LineKind) -> tuple[Block, list[Token]]:
        is_plain = not any("\t" in text for text in raw) and line[6:7] not in ("D", "d")
        block = Block(self.origin, number, raw, kind, is_plain)
        if kind is LineKind.IDLE:
            self.form = form_asked(line[6:72]) or self.form
        if kind is not LineKind.CODE:
            return block, []
        if self.is_in_identification:
            entry = self.entry_tokens(block, line[7:72], number, 8)
            if entry is not None:
                return block, entry
        text = Text(line[7:72], number, 8)
        for below, more in enumerate(raw[1:], 1):
            more = more.expandtabs(TAB)
            if self.fixed_kind(more) is LineKind.CODE:
                text.join(more[7:72], number + below, 8, 65)
        return block, scanned(text, block)

    def free_line(self, raw: str, line: str, number: int) -> tuple[Block, list[Token]]:
        content = line.lstrip()
        if not content:
            kind = LineKind.BLANK
        elif content.startswith("*>"):
            kind = LineKind.COMMENT
        elif DIRECTIVE.match(content):
            kind = self.directive_kind(content)
            self.form = form_asked(content) or self.form
        else:
            kind = LineKind.CODE
        block = Block(self.origin, number, [raw], kind, False)
        block.indent = 7
        if kind is LineKind.COMMENT:
            block.comment = content
        if kind is not LineKind.CODE:
            return block, []
        entry = self.entry_tokens(block, line, number, 1) if self.is_in_identification else None
        return block, scanned(Text(line, number, 1), block) if entry is None else entry

    def directive_kind(self, directive: str) -> LineKind:
        """Idle are the form of the lines behind it, what lays out a listing, and lines for debugging without it."""
        is_passed = not self.is_debugged and DEBUGGING.match(directive)
        is_idle = is_passed or LISTING.match(directive) or form_asked(directive)
        return LineKind.IDLE if is_idle else LineKind.DIRECTIVE

    def entry_tokens(self, block: Block, text: str, number: int, column: int) -> list[Token] | None:
        """The tokens of a line of a comment-entry, or None where it is none."""
        area = text[:4] if column == 8 else text
        if self.is_in_entry and not (area.strip() and ENTRY_END.match(text.lstrip())):
            content = text.strip()
            at = column + len(text) - len(text.lstrip())
            return [Token(Kind.ENTRY, content, block, number, at, False)]
        header = ENTRY.match(text)
        self.is_in_entry = bool(header)
        if LATER_HEADER.match(text):
            self.is_in_identification = False
        if not header:
            return None
        found = [Token(Kind.WORD, header[1], block, number, column + header.start(1), False)]
        if header[2]:
            found.append(Token(Kind.STOP, ".", block, number, column + header.start(2), True))
        rest = text[header.end() :]
        if rest.strip():
            at = column + header.end() + len(rest) - len(rest.lstrip())
            found.append(Token(Kind.ENTRY, rest.strip(), block, number, at, False))
        return found
