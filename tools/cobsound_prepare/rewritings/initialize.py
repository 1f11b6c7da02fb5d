"""INITIALIZE."""

from ..items import Item, Items, read, reference_at
from ..statements import statement_end
from ..tokens import Kind, Token
from ..work import Rewriting, Work, words_of

# What an item of each category gets; a group's items get it each.
DEFAULTS = {"number": "ZERO", "edited": "ZERO", "text": "SPACE"}
CATEGORIES = {"NUMERIC": "number", "ALPHANUMERIC": "text", "ALPHABETIC": "text", "NUMERIC-EDITED": "edited"}


def inner(item: Item) -> list[Item] | None:
    """The items that INITIALIZE of an item sets: those without items of their own, but for FILLER and what redefines;
    nothing where one is a table's."""
    if item.is_table or any(each.is_table for each in item.chain()):
        return None
    if not item.below:
        return [item]
    found: list[Item] = []
    for each in item.below:
        if each.redefines:
            continue
        if each.is_table:
            return None
        if not each.below and not each.name:
            continue
        more = inner(each)
        if more is None:
            return None
        found += more
    return found


def statement(items: Items, tokens: list[Token], at: int) -> tuple[list[Item], dict[str, str]] | None:
    """The items that the statement behind a place names, and what each category gets."""
    end = statement_end(tokens, at)
    targets: list[Item] = []
    while at < end and not tokens[at].is_word("REPLACING"):
        names, at = reference_at(tokens, at)
        target = items.named(names)
        found = inner(target) if target else None
        if found is None:
            return None
        targets += found
    if at == end:
        return targets, DEFAULTS
    given: dict[str, str] = {}
    at += 1
    while at < end:
        category, place = CATEGORIES.get(tokens[at].upper), at + 1
        place += place < end and tokens[place].is_word("DATA")
        if category is None or place + 1 >= end or not tokens[place].is_word("BY"):
            return None
        if tokens[place + 1].kind is Kind.WORD:
            names, behind = reference_at(tokens, place + 1)
            given[category] = " OF ".join(names)
        else:
            given[category], behind = tokens[place + 1].text, place + 2
        at = behind
    return targets, given


def moves(items: Items, targets: list[Item], given: dict[str, str]) -> str | None:
    """The MOVEs, one for each run of items that get the same."""
    made: list[tuple[str, list[str]]] = []
    for item in targets:
        value, name = given.get(item.category()), items.reference(item)
        if value is None:
            continue
        if name is None:
            return None
        if made and made[-1][0] == value:
            made[-1][1].append(name)
        else:
            made.append((value, [name]))
    return " ".join(f"MOVE {value} TO {' '.join(names)}" for value, names in made) or "CONTINUE"


def apply(work: Work) -> int:
    tokens = work.tokens
    items = read(tokens)
    count = 0
    for at in reversed([at for at, token in enumerate(tokens) if token.is_word("INITIALIZE")]):
        found = statement(items, tokens, at + 1)
        text = moves(items, *found) if found else None
        if text is None:
            work.note(tokens[at], "INITIALIZE isn't taken here: of a table, of what isn't known, or WITH FILLER")
            continue
        tokens = [*tokens[:at], *words_of(tokens[at], text), *tokens[statement_end(tokens, at + 1) :]]
        count += 1
    work.tokens = tokens
    return count


REWRITING = Rewriting(
    name="initialize",
    rule="INITIALIZE becomes MOVE ZERO of its numeric and edited items and MOVE SPACE of the others, one by one, but "
    "for FILLER and what redefines; with REPLACING it moves what that says; not of tables",
    before="DATA DIVISION. WORKING-STORAGE SECTION. 01 G. 05 A PIC 9. 05 FILLER PIC X. 05 B PIC X. 05 C PIC Z9. "
    "PROCEDURE DIVISION. INITIALIZE G.",
    after="DATA DIVISION. WORKING-STORAGE SECTION. 01 G. 05 A PIC 9. 05 FILLER PIC X. 05 B PIC X. 05 C PIC Z9. "
    "PROCEDURE DIVISION. MOVE ZERO TO A MOVE SPACE TO B MOVE ZERO TO C.",
    assumes="nothing",
    words=frozenset({"INITIALIZE"}),
    apply=apply,
)
