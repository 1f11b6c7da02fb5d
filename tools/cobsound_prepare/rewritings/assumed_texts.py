"""STRING, UNSTRING and INSPECT."""

from collections.abc import Iterator

from ..assuming import Assumed, Parts
from ..items import reference_at
from ..structure import Statement
from ..tokens import Kind, Token
from ..work import Rewriting, Work

# Of UNSTRING, the words behind which something else than a receiver stands, and whether that is counted in.
ROLES = {"DELIMITER": False, "COUNT": True, "POINTER": True, "TALLYING": True}


def behind(head: list[Token], *texts: str) -> int:
    """The place behind the first of these words or marks."""
    return next((at + 1 for at, token in enumerate(head) if token.upper in texts), len(head))


def references(head: list[Token], at: int, is_number: bool) -> Iterator[tuple[list[str], bool]]:
    """The items named from a place on, each with whether it gets a number."""
    while at < len(head):
        token = head[at]
        if token.text == "(":
            at = behind(head[at:], ")") + at
        elif token.is_word(*ROLES):
            is_number = ROLES[token.upper]
            at += 1
        elif token.kind is not Kind.WORD or token.is_word("IN", "WITH"):
            at += 1
        else:
            names, at = reference_at(head, at)
            yield names, is_number
            is_number = False


def of_string(head: list[Token]) -> list[tuple[list[str], bool]]:
    return list(references(head, behind(head, "INTO"), False))


def of_inspect(head: list[Token]) -> list[tuple[list[str], bool]]:
    """Its counters, which stand before FOR, and its item where that is changed."""
    found = []
    if any(token.is_word("REPLACING", "CONVERTING") for token in head):
        found.append((reference_at(head, 0)[0], False))
    for at in range(1, len(head)):
        names, end = reference_at(head, at)
        is_counter = end < len(head) and head[end].is_word("FOR") and not head[at - 1].is_word("OF", "IN")
        if head[at].kind is Kind.WORD and is_counter:
            found.append((names, True))
    return found


def handled(here: Assumed, made: Statement) -> Parts | None:
    head = here.head(made)
    found = of_inspect(head) if made.verb == "INSPECT" else of_string(head)
    texts = []
    for names, is_number in found:
        item = here.unknown.items.named(names)
        texts.append(here.unknown.forget(item, is_number) if item else None)
    if None in texts:
        here.refused(made)
        return None
    return [*(text for text in texts if text), *here.chosen(made)] or ["CONTINUE"]


def apply(work: Work) -> int:
    return Assumed(work, dict.fromkeys(("STRING", "UNSTRING", "INSPECT"), handled)).applied()


REWRITING = Rewriting(
    name="assumed-texts",
    rule="behind STRING, UNSTRING and INSPECT what they change holds anything; their counters and pointers any "
    "number; either list of ON OVERFLOW may be done",
    before="DATA DIVISION. WORKING-STORAGE SECTION. 77 A PIC X(2). 77 B PIC 9(2). "
    "PROCEDURE DIVISION. INSPECT A TALLYING B FOR ALL 'X'. STOP RUN.",
    after="DATA DIVISION. WORKING-STORAGE SECTION. 77 A PIC X(2). 77 B PIC 9(2). "
    "PROCEDURE DIVISION. READ UNKNOWN-FILE MOVE UNKNOWN-RECORD TO B-ANY IF B NOT NUMERIC MOVE ZERO TO B END-IF. "
    "STOP RUN.",
    assumes="a count fits its item",
    words=frozenset({"STRING", "UNSTRING", "INSPECT"}),
    apply=apply,
    is_assumed=True,
)
