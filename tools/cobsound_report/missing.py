"""Divisions, sections and paragraphs that are missing, each told where something stands that needs it."""

from collections.abc import Iterator

from .declared import Reading
from .scan import Sort, Spot, Token, spot

# What needs a header, from the most inner one: the words that stand below it.
NEEDED_BY = (
    ("ENVIRONMENT DIVISION", ("CONFIGURATION", "INPUT-OUTPUT", "FILE-CONTROL", "SELECT", "SOURCE-COMPUTER")),
    ("CONFIGURATION SECTION", ("SOURCE-COMPUTER", "OBJECT-COMPUTER")),
    ("INPUT-OUTPUT SECTION", ("FILE-CONTROL", "SELECT")),
    ("FILE-CONTROL", ("SELECT",)),
    ("DATA DIVISION", ("FILE SECTION", "WORKING-STORAGE SECTION", "FD")),
    ("FILE SECTION", ("FD",)),
)


def missing(source: Reading) -> Iterator[Spot]:
    """The headers that are missing, in their order, each at the first token that needs it."""
    tokens = source.tokens
    if not tokens:
        yield Spot("IDENTIFICATION DIVISION", 1, 8, 1)
        return
    if not tokens[0].is_word("IDENTIFICATION", "ID"):
        yield spot(tokens[0], text="IDENTIFICATION DIVISION")
    if not any(token.is_word("PROGRAM-ID") for token in tokens):
        yield spot(tokens[min(3, len(tokens) - 1)], text="PROGRAM-ID")
    for header, needing in NEEDED_BY:
        at = first_of(source, *needing)
        if at is not None and first_of(source, header) is None:
            yield spot(tokens[at], text=header)
    section = first_of(source, "INPUT-OUTPUT SECTION")
    if section is not None and first_of(source, "FILE-CONTROL", "SELECT", "I-O-CONTROL") is None:
        yield spot(tokens[min(section + 3, len(tokens) - 1)], text="FILE-CONTROL")
    yield from of_items(source)
    if first_of(source, "PROCEDURE DIVISION") is None:
        yield spot(first_verb(source) or tokens[-1], text="PROCEDURE DIVISION")


def first_of(source: Reading, *phrases: str) -> int | None:
    """The number of the first token at which one of the phrases stands: a single word where it begins a sentence."""
    for at, token in enumerate(source.tokens):
        if source.parts[at] == "PROCEDURE" and not token.is_word("PROCEDURE"):
            continue
        behind = source.tokens[at + 1].text if at + 1 < len(source.tokens) else ""
        begins = not at or source.tokens[at - 1].sort == Sort.STOP
        if f"{token.text} {behind}" in phrases or begins and token.text in phrases:
            return at
    return None


def of_items(source: Reading) -> Iterator[Spot]:
    """Items that stand before any section of the DATA DIVISION."""
    outer = next((entry for entry in source.entries if not entry.section), None)
    if outer:
        if first_of(source, "DATA DIVISION") is None:
            yield spot(outer.tokens[0], text="DATA DIVISION")
        yield spot(outer.tokens[0], text="WORKING-STORAGE SECTION")


def first_verb(source: Reading) -> Token | None:
    """The first verb that begins a sentence."""
    for before, token in zip(source.tokens, source.tokens[1:]):
        if before.sort == Sort.STOP and token.is_word(*source.verbs):
            return token
    return None
