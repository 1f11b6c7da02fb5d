"""CALL and CANCEL."""

from ..assuming import Assumed, Parts
from ..items import Item, reference_at
from ..structure import Statement
from ..tokens import Kind
from ..work import Rewriting, Work

WORDS = ("BY", "USING", "GIVING", "RETURNING", "INTO")


def changed(here: Assumed, made: Statement) -> list[Item] | None:
    """The items that a CALL hands out by reference, and what it returns into; nothing where one isn't known."""
    head = here.head(made)
    at = next((place for place, token in enumerate(head) if token.is_word("USING", "GIVING", "RETURNING")), len(head))
    found: list[Item] = []
    is_lent = True
    while at < len(head):
        token = head[at]
        if token.is_word("REFERENCE", "CONTENT", "VALUE", "GIVING", "RETURNING"):
            is_lent = token.is_word("REFERENCE", "GIVING", "RETURNING")
        elif token.is_word("ADDRESS", "LENGTH"):
            return None
        elif token.kind is Kind.WORD and not token.is_word(*WORDS, "OMITTED"):
            names, behind = reference_at(head, at)
            item = here.unknown.items.named(names)
            if item is None or behind < len(head) and head[behind].text == "(":
                return None
            found += [item] if is_lent else []
            at = behind
            continue
        at += 1
    return found


def call(here: Assumed, made: Statement) -> Parts | None:
    items = changed(here, made)
    texts = None if items is None else [here.unknown.forget(item) for item in items]
    if texts is None or None in texts:
        here.refused(made)
        return None
    return [*(text for text in texts if text), *here.chosen(made)] or ["CONTINUE"]


def cancel(here: Assumed, made: Statement) -> Parts | None:
    return ["CONTINUE"]


def apply(work: Work) -> int:
    return Assumed(work, {"CALL": call, "CANCEL": cancel}).applied()


REWRITING = Rewriting(
    name="assumed-calls",
    rule="behind CALL the items that it hands out by reference, and the one that it returns into, hold anything; "
    "either list of ON EXCEPTION or OVERFLOW may be done; CANCEL does nothing",
    before="DATA DIVISION. WORKING-STORAGE SECTION. 77 A PIC 9. 77 B PIC X(2). "
    "PROCEDURE DIVISION. CALL 'P' USING B BY CONTENT A. STOP RUN.",
    after="DATA DIVISION. WORKING-STORAGE SECTION. 77 A PIC 9. 77 B PIC X(2). "
    "PROCEDURE DIVISION. READ UNKNOWN-FILE MOVE UNKNOWN-RECORD TO B. STOP RUN.",
    assumes="a called program changes nothing but what it is handed by reference, and comes back or ends the run",
    words=frozenset({"CALL", "CANCEL"}),
    apply=apply,
    is_assumed=True,
)
