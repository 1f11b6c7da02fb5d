"""The paragraphs and sections of a PROCEDURE DIVISION, and where they are named."""

from collections.abc import Iterator
from dataclasses import dataclass

from .tokens import Kind, Token
from .work import begins_sentence, behind_stop, division, token_at

# Statements that may stand alone before a point.
LONE = frozenset({"CONTINUE", "EXIT", "GOBACK", "EJECT", "SKIP1", "SKIP2", "SKIP3", "DECLARATIVES", "STOP"})


@dataclass(frozen=True)
class Header:
    """The name of a paragraph or a section, at its place among the tokens; `section` is the one in which a paragraph
    stands, empty before the first."""

    at: int
    name: str
    is_section: bool
    section: str


def headers(tokens: list[Token]) -> Iterator[Header]:
    """All headers, in their order."""
    section = ""
    for at in range(behind_stop(tokens, division(tokens, "PROCEDURE")), len(tokens)):
        if not begins_sentence(tokens, at) or not is_name(tokens[at]):
            continue
        after = token_at(tokens, at + 1)
        name = tokens[at].upper
        if after.is_word("SECTION"):
            section = name
            yield Header(at, name, True, "")
        elif after.kind is Kind.STOP and at + 1 < len(tokens):
            yield Header(at, name, False, section)


def is_name(token: Token) -> bool:
    return token.kind is Kind.WORD and token.upper not in LONE or token.kind is Kind.NUMBER and token.text.isdigit()


def named(tokens: list[Token], names: set[str]) -> Iterator[int]:
    """Where PERFORM and GO TO name one of these paragraphs or sections."""
    at = division(tokens, "PROCEDURE")
    while at < len(tokens):
        if tokens[at].is_word("PERFORM"):
            place = at + 1
            if token_at(tokens, place).upper in names and not token_at(tokens, place + 1).is_word("TIMES"):
                yield place
                place = behind_name(tokens, place)
                if token_at(tokens, place).is_word("THRU", "THROUGH") and token_at(tokens, place + 1).upper in names:
                    yield place + 1
        elif tokens[at].is_word("GO"):
            place = at + 2 if token_at(tokens, at + 1).is_word("TO") else at + 1
            while token_at(tokens, place).upper in names:
                yield place
                place = behind_name(tokens, place)
        at += 1


def behind_name(tokens: list[Token], at: int) -> int:
    """The place behind a name and its qualifier."""
    return at + 3 if token_at(tokens, at + 1).is_word("OF", "IN") else at + 1
