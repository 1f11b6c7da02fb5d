#!/usr/bin/env python3
"""Writes documents in Markdown as the manual page cobsound(1): `manual.py docs/GUIDE.md docs/TUTORIAL.md .. >cobsound.1`.

Of the first one the sections stand, behind its list of contents; each further one is a section of its own. Of Markdown it
knows what they have: headings, paragraphs, lists, tables, blocks of code, and marks within lines.
"""

import pathlib
import re
import sys
from collections.abc import Iterator

HEAD = r""".TH COBSOUND 1 "" "Cobsound {version}" "User Commands"
.SH NAME
cobsound \- find the faults that a COBOL\-85 batch program may meet, or prove that there are none
.SH SYNOPSIS
.nf
.B cobsound analyse \fISOURCE CERT\fB
.B cobsound check \fISOURCE CERT\fB
.B cobsound run \fISOURCE\fB [\-\-steps \fIN\fB] [\fINAME\fB=\fIPATH\fB]..
.B cobsound trial \fIN\fB
.B cobsound report \fISOURCE\fB..
.B cobsound witness \fISOURCE\fB
.B cobsound prepare \fISOURCE\fB
.B cobsound help \fR[\fICOMMAND\fR]
.fi"""


def plain(text: str) -> str:
    """A text in which nothing is a mark of the page."""
    text = text.replace("\\", r"\e").replace("-", r"\-")
    return re.sub(r"^([.'])", r"\\&\1", text)


def marked(text: str) -> str:
    """A line with its marks: code and stressed words in bold, and of links their text."""
    text = re.sub(r"\[([^]]*)\]\([^)]*\)", r"\1", text)
    parts = re.split(r"`([^`]*)`|\*\*([^*]*)\*\*|(?<!\w)\*([^*`]+)\*", text)
    shown = []
    for at in range(0, len(parts), 4):
        shown.append(plain(parts[at]))
        strong = next((part for part in parts[at + 1 : at + 4] if part), None)
        if strong is not None:
            shown.append(rf"\fB{plain(strong)}\fR")
    return "".join(shown)


def code(lines: list[str]) -> Iterator[str]:
    yield ".PP"
    yield ".RS 4"
    yield ".nf"
    yield from (plain(line) for line in lines)
    yield ".fi"
    yield ".RE"


def cells_of(line: str) -> list[str]:
    return [cell.strip() for cell in re.split(r"(?<!\\)\|", line.strip().strip("|"))]


def table(lines: list[str]) -> Iterator[str]:
    """A row each: its first cell, and below it the others, each behind the title of its column."""
    titles, rows = cells_of(lines[0]), [cells_of(line) for line in lines[2:]]
    for first, *others in rows:
        yield ".TP"
        yield marked(first) or r"\&"
        told = [f"{title}: {cell}" for title, cell in zip(titles[1:], others) if cell]
        yield "\n.br\n".join(marked(text) for text in told) or r"\&"


def item(line: str) -> Iterator[str]:
    mark, text = re.match(r"(-|[0-9]+\.) (.*)", line).groups()
    bullet = r"\(bu" if mark == "-" else mark
    yield f".IP {bullet} 4"
    yield marked(text)


def heading(line: str, section: str) -> str:
    marks, text = line.split(" ", 1)
    text = marked(text).replace('"', r"\(dq")
    return f'.SH "{text.upper()}"' if marks == section else f'.SS "{text}"'


def body(lines: list[str], section: str) -> Iterator[str]:
    """The page's lines for those of a document from its first section on, which begins with these marks."""
    at = next(number for number, line in enumerate(lines) if line.startswith(f"{section} "))
    while at < len(lines):
        line, at = lines[at], at + 1
        if line.startswith("```"):
            end = lines.index("```", at)
            yield from code(lines[at:end])
            at = end + 1
        elif line.startswith("|"):
            end = next((number for number in range(at, len(lines)) if not lines[number].startswith("|")), len(lines))
            yield from table(lines[at - 1 : end])
            at = end
        elif re.match(r"(-|[0-9]+\.) ", line):
            yield from item(line)
        elif line.startswith("#"):
            yield heading(line, section)
        elif line:
            yield ".PP"
            yield marked(line)


def main() -> int:
    version = (pathlib.Path(__file__).resolve().parents[1] / "VERSION").read_text().strip()
    guide, *others = (pathlib.Path(name).read_text("utf-8").splitlines() for name in sys.argv[1:])
    pages = [line for other in others for line in body(other, "#")]
    print("\n".join([HEAD.replace("{version}", version), *body(guide, "##"), *pages]))
    return 0


sys.exit(main())
