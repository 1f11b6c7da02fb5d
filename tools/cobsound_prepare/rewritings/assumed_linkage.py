"""LINKAGE SECTION and USING: a program that is called."""

from ..tokens import Kind, Token
from ..work import Rewriting, Work, behind_stop, division, token_at

LENT = ("USING", "CHAINING", "RETURNING", "GIVING")


def apply(work: Work) -> int:
    """Makes the section a part of WORKING-STORAGE, drops USING, and ends the run where the program goes back."""
    tokens = work.tokens
    procedure = division(tokens, "PROCEDURE")
    is_called = token_at(tokens, procedure + 2).is_word(*LENT)
    found: list[Token] = []
    count, has_storage, at = 0, False, 0
    while at < len(tokens):
        token, after = tokens[at], token_at(tokens, at + 1)
        if at < procedure and after.is_word("SECTION") and token.is_word("WORKING-STORAGE", "LOCAL-STORAGE", "LINKAGE"):
            count += token.is_word("LINKAGE")
            if has_storage:
                at = behind_stop(tokens, at)
                continue
            has_storage = True
            found += [token.word("WORKING-STORAGE") if token.is_word("LINKAGE") else token, after]
            at += 2
        elif is_called and at > procedure and token.is_word("EXIT") and after.is_word("PROGRAM"):
            found += [token.word("STOP"), after.word("RUN")]
            at += 2
        elif is_called and at == procedure + 2:
            count += 1
            while tokens[at].kind is not Kind.STOP:
                at += 1
        else:
            found.append(token)
            at += 1
    if count:
        work.tokens = found
    return count


REWRITING = Rewriting(
    name="assumed-linkage",
    rule="LINKAGE SECTION becomes a part of WORKING-STORAGE, where its items hold anything at first, USING is dropped, "
    "and EXIT PROGRAM becomes STOP RUN beside it",
    before="DATA DIVISION. WORKING-STORAGE SECTION. 77 N PIC 9. LINKAGE SECTION. 01 A PIC 9. "
    "PROCEDURE DIVISION USING A. STOP RUN.",
    after="DATA DIVISION. WORKING-STORAGE SECTION. 77 N PIC 9. 01 A PIC 9. PROCEDURE DIVISION. STOP RUN.",
    assumes="the program is called once in a run, and what it is handed doesn't lie over one another",
    words=frozenset({"LINKAGE", "USING", "CHAINING"}),
    apply=apply,
    is_assumed=True,
)
