"""SPECIAL-NAMES, and REPOSITORY."""

from ..tokens import Kind, Token
from ..work import Edit, Rewriting, Work, behind_stop, begins_sentence, token_at

DEVICES = frozenset(
    "CONSOLE SYSIN SYSIPT SYSOUT SYSERR SYSLIST SYSLST SYSPUNCH SYSPCH PRINTER PRINTER-1 STDIN STDOUT STDERR FORMFEED "
    "TOP CSP S01 S02 S03 S04 S05".split()
) | {f"C{number:02}" for number in range(1, 13)}
HEADERS = "INPUT-OUTPUT FILE-CONTROL I-O-CONTROL DATA PROCEDURE SELECT FILE WORKING-STORAGE FD".split()


def change(work: Work, tokens: list[Token], at: int) -> Edit | None:
    """The paragraph, if all that it does is to name devices; else the clauses at its front that do."""
    if not begins_sentence(tokens, at) or token_at(tokens, at + 1).kind is not Kind.STOP:
        return None
    if tokens[at].is_word("REPOSITORY"):
        return Edit(at, behind_stop(tokens, at + 2))
    place = at + 2
    while token_at(tokens, place).kind is Kind.WORD:
        width = 3 if token_at(tokens, place + 1).is_word("IS") else 2
        if not tokens[place].is_word(*DEVICES) or token_at(tokens, place + width - 1).is_word("CRT"):
            break
        place += width
    if token_at(tokens, place).kind is Kind.STOP:
        return Edit(at, place + 1)
    if token_at(tokens, place).is_word(*HEADERS):
        # the header stands alone
        return Edit(at, place)
    work.note(token_at(tokens, place), f"{token_at(tokens, place).text} in SPECIAL-NAMES isn't taken")
    return Edit(at + 2, place) if place > at + 2 else None


def apply(work: Work) -> int:
    words = frozenset({"SPECIAL-NAMES", "REPOSITORY"})
    return work.edit(words, lambda tokens, at: change(work, tokens, at))


REWRITING = Rewriting(
    name="special-names",
    rule="in SPECIAL-NAMES the clauses that name a device or a channel are dropped, up to the first that does not, and "
    "the paragraph if nothing else stands in it; so is REPOSITORY",
    before="ENVIRONMENT DIVISION. CONFIGURATION SECTION. SPECIAL-NAMES. C01 IS TOP-OF-PAGE CONSOLE IS TERMINAL.",
    after="ENVIRONMENT DIVISION. CONFIGURATION SECTION.",
    assumes="the names stand in statements alone of which they are dropped too (DISPLAY UPON)",
    words=frozenset({"SPECIAL-NAMES", "REPOSITORY"}),
    apply=apply,
)
