"""Names that the program doesn't take: with underscores, too long, or of words that are reserved there alone."""

import re

from ..tokens import Kind, Token
from ..work import LONGEST, Rewriting, Work, division, free_name, token_at

LETTER = re.compile("[^0-9-]")
# Reserved by the program, and by no compiler or only in places of their own.
OWN = ("RECORD-SIZE", "END-PROGRAM", "RECORDING", "ID")


def is_wrong(tokens: list[Token], at: int) -> bool:
    token = tokens[at]
    if token.upper in OWN:
        return not is_in_place(tokens, at)
    return "_" in token.text or len(token.text) > LONGEST or not LETTER.search(token.text)


def is_in_place(tokens: list[Token], at: int) -> bool:
    """Whether a word of OWN stands where the program reads it as what it is."""
    if tokens[at].is_word("ID"):
        return token_at(tokens, at + 1).is_word("DIVISION")
    if tokens[at].is_word("RECORDING"):
        after = token_at(tokens, at + 1)
        return after.is_word("MODE", "F", "V", "U", "S", "IS") and not token_at(tokens, at - 1).kind is Kind.NUMBER
    return False


def plain(text: str) -> str:
    """The name in characters that the program takes."""
    name = re.sub(r"[^A-Za-z0-9-]", "-", text).strip("-")
    return name if LETTER.search(name) else f"N-{name}".rstrip("-")


def apply(work: Work) -> int:
    tokens = work.tokens
    used = work.words()
    given: dict[str, str] = {}
    found = list(tokens)
    environment = division(tokens, "DATA")
    count = 0
    for at, token in enumerate(tokens):
        if token.kind is not Kind.WORD or not is_wrong(tokens, at):
            continue
        count += 1
        if at < environment and is_external(tokens, at):
            found[at] = token.made(Kind.LITERAL, f"'{token.upper}'")
            continue
        if token.upper not in given:
            wanted = f"{token.text}-ITEM" if token.upper in OWN else plain(token.text)
            given[token.upper] = free_name(wanted, used)
            used.add(given[token.upper].upper())
        found[at] = token.word(given[token.upper])
    work.tokens = found
    return count


def is_external(tokens: list[Token], at: int) -> bool:
    """Whether it is the name behind ASSIGN, which is that of a file outside."""
    before = at - 2 if token_at(tokens, at - 1).is_word("TO") else at - 1
    return token_at(tokens, before).is_word("ASSIGN")


REWRITING = Rewriting(
    name="names",
    rule="names with underscores get hyphens in their place, names without a letter N- before them, names of more than "
    "30 characters are cut, and RECORD-SIZE, END-PROGRAM, RECORDING and ID as names get -ITEM behind them; each with a "
    "number behind it where the name is taken. A name behind ASSIGN becomes a literal",
    before="77 PAY_TOTAL PIC 9. 77 PAY-TOTAL PIC 9. 77 RECORD-SIZE PIC 9.",
    after="77 PAY-TOTAL-2 PIC 9. 77 PAY-TOTAL PIC 9. 77 RECORD-SIZE-ITEM PIC 9.",
    assumes="nothing",
    words=frozenset(),
    apply=apply,
)
