"""Clauses of SELECT and FD that say nothing of what the program does."""

from ..tokens import Kind, Token
from ..work import Edit, Rewriting, at_edits, operand_end, token_at

DEVICES = ("DISK", "DISC", "TAPE", "PRINTER", "CARD-READER", "CARD-PUNCH", "MAGNETIC-TAPE", "CASSETTE")
CLAUSES = "ORGANIZATION ACCESS FILE STATUS RESERVE SEQUENTIAL LINE INDEXED RELATIVE PADDING".split()


def change(tokens: list[Token], at: int) -> Edit | None:
    return {"RESERVE": reserve, "ASSIGN": assign, "BLOCK": block, "VALUE": value_of}[tokens[at].upper](tokens, at)


def reserve(tokens: list[Token], at: int) -> Edit | None:
    """RESERVE 2 ALTERNATE AREAS."""
    if not (token_at(tokens, at + 1).kind is Kind.NUMBER or token_at(tokens, at + 1).is_word("NO")):
        return None
    behind = at + 2
    while token_at(tokens, behind).is_word("ALTERNATE", "AREA", "AREAS"):
        behind += 1
    return Edit(at, behind)


def assign(tokens: list[Token], at: int) -> Edit | None:
    """ASSIGN TO DISK "NAME"."""
    place = at + 2 if token_at(tokens, at + 1).is_word("TO") else at + 1
    name = token_at(tokens, place + 1)
    if not token_at(tokens, place).is_word(*DEVICES) or name.kind not in (Kind.LITERAL, Kind.WORD):
        return None
    return None if name.is_word(*CLAUSES, "IS") else Edit(place, place + 1)


def block(tokens: list[Token], at: int) -> Edit | None:
    """BLOCK CONTAINS 5 TO 10 RECORDS."""
    first = at + 2 if token_at(tokens, at + 1).is_word("CONTAINS") else at + 1
    is_range = [token_at(tokens, first + number).kind for number in (0, 2)] == [Kind.NUMBER] * 2
    if not is_range or not token_at(tokens, first + 1).is_word("TO"):
        return None
    behind = first + 3
    return Edit(at, behind + 1 if token_at(tokens, behind).is_word("RECORDS", "CHARACTERS") else behind)


def value_of(tokens: list[Token], at: int) -> Edit | None:
    """VALUE OF FILE-ID IS "NAME", with each further name that has IS."""
    if not token_at(tokens, at + 1).is_word("OF"):
        return None
    behind = at + 2
    while token_at(tokens, behind).kind is Kind.WORD and token_at(tokens, behind + 1).is_word("IS"):
        behind = operand_end(tokens, behind + 2)
    return Edit(at, behind) if behind > at + 2 else None


REWRITING = Rewriting(
    name="file-clauses",
    rule="RESERVE AREAS, a device word before the name in ASSIGN, BLOCK CONTAINS with a range, and VALUE OF are "
    "dropped",
    before='SELECT F ASSIGN TO DISK "F" RESERVE 2 AREAS. FD F BLOCK CONTAINS 5 TO 10 RECORDS VALUE OF ID IS "F".',
    after='SELECT F ASSIGN TO "F". FD F.',
    assumes="blocks, buffers and labels say nothing of a file's records",
    words=frozenset({"SELECT"}),
    apply=at_edits("RESERVE ASSIGN BLOCK VALUE", change),
)
