"""Headers that are left out."""

import re

from ..tokens import Kind, Token
from ..work import Rewriting, Work, division, line_of, sentences, token_at

# Each header with the one below which it stands.
ABOVE = {
    "PROGRAM-ID.": "IDENTIFICATION DIVISION.",
    "CONFIGURATION SECTION.": "ENVIRONMENT DIVISION.",
    "INPUT-OUTPUT SECTION.": "ENVIRONMENT DIVISION.",
    "FILE-CONTROL.": "INPUT-OUTPUT SECTION.",
    "SOURCE-COMPUTER.": "CONFIGURATION SECTION.",
    "OBJECT-COMPUTER.": "CONFIGURATION SECTION.",
    "SPECIAL-NAMES.": "CONFIGURATION SECTION.",
    "SELECT": "FILE-CONTROL.",
    "FILE SECTION.": "DATA DIVISION.",
    "WORKING-STORAGE SECTION.": "DATA DIVISION.",
    "FD": "FILE SECTION.",
    "ENTRY": "WORKING-STORAGE SECTION.",
}
SECTIONS = ("FILE SECTION.", "WORKING-STORAGE SECTION.", "LINKAGE SECTION.", "REPORT SECTION.", "SCREEN SECTION.")
LEVEL = re.compile(r"\d\d?$")


def heading(tokens: list[Token], first: int) -> str:
    """What a sentence begins, as it is named in ABOVE; empty where it is something else."""
    token, after = tokens[first], token_at(tokens, first + 1)
    if token.kind is Kind.NUMBER:
        return "ENTRY" if LEVEL.match(token.text) else ""
    if token.is_word("SELECT", "FD"):
        return token.upper
    if after.is_word("DIVISION", "SECTION"):
        return "IDENTIFICATION DIVISION." if token.is_word("ID") else f"{token.upper} {after.upper}."
    return f"{token.upper}." if after.kind is Kind.STOP or token.is_word("PROGRAM-ID") else ""


def lacking(name: str, seen: set[str]) -> list[str]:
    """The headers that must come before, from the outermost."""
    above = ABOVE.get(name)
    if above is None or above in seen or name == "ENTRY" and seen & {*SECTIONS}:
        return []
    return [*lacking(above, seen), above]


def apply(work: Work) -> int:
    tokens = work.tokens
    end = division(tokens, "PROCEDURE")
    seen: set[str] = set()
    found: list[Token] = []
    count = 0
    is_empty_section = False
    for first, behind in sentences(tokens, 0, end):
        name = heading(tokens, first)
        if is_empty_section and name not in ("FILE-CONTROL.", "SELECT"):
            # the section's header stands alone
            found += line_of(found[-1], "FILE-CONTROL.")
            count += 1
        for header in lacking(name, seen):
            found += line_of(tokens[first], header)
            seen.add(header)
            count += 1
        is_empty_section = name == "INPUT-OUTPUT SECTION."
        seen.add(name)
        found += tokens[first:behind]
    if is_empty_section:
        found += line_of(found[-1], "FILE-CONTROL.")
        count += 1
    if count:
        work.tokens = found + tokens[end:]
    return count


REWRITING = Rewriting(
    name="headers",
    rule="the headers of divisions, sections and FILE-CONTROL that must stand before what is there are put in",
    before="PROGRAM-ID. T. SELECT F ASSIGN G. FD F. 01 R PIC X. PROCEDURE DIVISION.",
    after="IDENTIFICATION DIVISION. PROGRAM-ID. T. ENVIRONMENT DIVISION. INPUT-OUTPUT SECTION. FILE-CONTROL. "
    "SELECT F ASSIGN G. DATA DIVISION. FILE SECTION. FD F. 01 R PIC X. PROCEDURE DIVISION.",
    assumes="nothing: compilers that take such sources read them so",
    words=frozenset(),
    apply=apply,
)
