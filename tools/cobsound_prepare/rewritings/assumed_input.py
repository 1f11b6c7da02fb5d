"""ACCEPT."""

from ..assuming import Assumed, Parts
from ..items import reference_at
from ..structure import Statement
from ..tokens import Token
from ..work import Rewriting, Work

# What is always a number.
NUMBERS = frozenset({"DATE", "DAY", "TIME", "DAY-OF-WEEK"})


def accept(here: Assumed, made: Statement) -> Parts | None:
    head: list[Token] = here.head(made)
    names, behind = reference_at(head, 0)
    item = here.unknown.items.named(names)
    is_number = any(token.is_word("FROM") for token in head[behind:]) and any(token.upper in NUMBERS for token in head)
    text = here.unknown.forget(item, is_number) if item else None
    if text is None:
        here.refused(made)
        return None
    return [text, *here.chosen(made)]


def apply(work: Work) -> int:
    return Assumed(work, {"ACCEPT": accept}).applied()


REWRITING = Rewriting(
    name="assumed-input",
    rule="behind ACCEPT its item holds anything; FROM DATE, DAY, TIME and DAY-OF-WEEK any number",
    before="DATA DIVISION. WORKING-STORAGE SECTION. 77 A PIC X(2). "
    "PROCEDURE DIVISION. ACCEPT A. STOP RUN.",
    after="DATA DIVISION. WORKING-STORAGE SECTION. 77 A PIC X(2). "
    "PROCEDURE DIVISION. READ UNKNOWN-FILE MOVE UNKNOWN-RECORD TO A. STOP RUN.",
    assumes="nothing else than its item changes",
    words=frozenset({"ACCEPT"}),
    apply=apply,
    is_assumed=True,
)
