"""MOVE, ADD and SUBTRACT CORRESPONDING."""

from ..items import Item, Items, read, reference_at
from ..tokens import Token
from ..work import Rewriting, Work, token_at, words_of


def pairs(one: Item, other: Item, adds: bool) -> list[tuple[Item, Item]] | None:
    """The items of two groups that correspond, in the order of the first; nothing where a table is among them."""
    if one.is_table or other.is_table:
        return None
    found: list[tuple[Item, Item]] = []
    for item in one.below:
        twins = [each for each in other.below if item.name and each.name == item.name and not each.redefines]
        if item.redefines or len(twins) != 1:
            continue
        twin = twins[0]
        if item.is_table or twin.is_table:
            continue
        if item.below and twin.below:
            more = pairs(item, twin, adds)
            if more is None:
                return None
            found += more
        elif adds:
            if item.category() == "number" and twin.category() == "number":
                found.append((item, twin))
        elif not (item.below and twin.below):
            found.append((item, twin))
    return found


def groups_at(items: Items, tokens: list[Token], at: int, word: str) -> tuple[Item, Item, int] | None:
    """The two groups that stand with a word between them, and the place behind."""
    first, middle = reference_at(tokens, at)
    if not token_at(tokens, middle).is_word(word):
        return None
    second, behind = reference_at(tokens, middle + 1)
    one, other = items.named(first), items.named(second)
    return (one, other, behind) if one and other and one.below and other.below else None


def said(items: Items, verb: str, word: str, found: list[tuple[Item, Item]], is_rounded: bool) -> str | None:
    """A statement for each pair."""
    made = []
    for one, other in found:
        names = items.reference(one), items.reference(other)
        if None in names:
            return None
        made.append(f"{verb} {names[0]} {word} {names[1]}{' ROUNDED' if is_rounded else ''}")
    return " ".join(made) or "CONTINUE"


def apply(work: Work) -> int:
    tokens = work.tokens
    items = read(tokens)
    count = 0
    for at in reversed([at for at, token in enumerate(tokens) if token.is_word("CORRESPONDING", "CORR")]):
        verb = token_at(tokens, at - 1)
        word = {"MOVE": "TO", "ADD": "TO", "SUBTRACT": "FROM"}.get(verb.upper, "")
        found = groups_at(items, tokens, at + 1, word) if word else None
        text, behind = None, at
        if found:
            one, other, behind = found
            is_rounded = token_at(tokens, behind).is_word("ROUNDED")
            behind += is_rounded
            has_phrase = token_at(tokens, behind).is_word("ON", "SIZE", "NOT")
            both = None if has_phrase else pairs(one, other, verb.upper != "MOVE")
            text = said(items, verb.upper, word, both, is_rounded) if both is not None else None
        if text is None:
            work.note(tokens[at], "CORRESPONDING isn't taken here: of a table, of what isn't known, or with SIZE ERROR")
            continue
        behind += token_at(tokens, behind).is_word("END-ADD", "END-SUBTRACT")
        tokens = [*tokens[: at - 1], *words_of(verb, text), *tokens[behind:]]
        count += 1
    work.tokens = tokens
    return count


REWRITING = Rewriting(
    name="corresponding",
    rule="MOVE, ADD and SUBTRACT CORRESPONDING become a statement for each two items that correspond; not with SIZE "
    "ERROR",
    before="DATA DIVISION. WORKING-STORAGE SECTION. 01 G. 05 A PIC 9. 05 B PIC X. 01 H. 05 B PIC X. 05 A PIC 9. "
    "PROCEDURE DIVISION. MOVE CORR G TO H ADD CORRESPONDING G TO H.",
    after="DATA DIVISION. WORKING-STORAGE SECTION. 01 G. 05 A PIC 9. 05 B PIC X. 01 H. 05 B PIC X. 05 A PIC 9. "
    "PROCEDURE DIVISION. MOVE A OF G TO A OF H MOVE B OF G TO B OF H ADD A OF G TO A OF H.",
    assumes="nothing",
    words=frozenset({"CORRESPONDING", "CORR"}),
    apply=apply,
)
