"""Condition-names of a group."""

from ..items import Item, read
from ..tokens import Kind, Token
from ..work import Rewriting, Work, behind_stop, division, free_name, line_of, token_at


def is_record(tokens: list[Token], item: Item) -> bool:
    """Whether the entry is a record of a file."""
    at = item.first
    while at > 0 and not tokens[at].is_word("SECTION"):
        at -= 1
    return item.level == 1 and token_at(tokens, at - 1).is_word("FILE")


def end_of(item: Item) -> int:
    """The place behind all of its entries, but for condition-names of the last one."""
    return max(each.behind for each in item.all())


def behind_flags(tokens: list[Token], at: int) -> int:
    """The place behind entries of level 88 that stand at a place."""
    while token_at(tokens, at).kind is Kind.NUMBER and token_at(tokens, at).text == "88":
        at = behind_stop(tokens, at)
    return at


def apply(work: Work) -> int:
    """Moves them below an item as long as the group, which redefines it."""
    tokens = work.tokens
    used = work.words()
    put: dict[int, list[Token]] = {}
    moved: set[int] = set()
    renamed: dict[tuple[str, str], str] = {}  # of a condition-name and its group: the new item's name
    count = 0
    for item in read(tokens).all:
        if not item.below or not item.flags:
            continue
        head, size = tokens[item.first], item.size()
        if not size or not item.name:
            work.note(tokens[item.flags[0]], "88 of a group isn't taken here: of a table, or of an unknown length")
            continue
        name = free_name(f"{item.name}-TEXT", used)
        used.add(name)
        over = "" if is_record(tokens, item) else f" REDEFINES {item.redefines or item.name}"
        new = list(line_of(head, f"{head.text} {name}{over} PIC X({size}).", head.column))
        for flag in item.flags:
            behind = behind_stop(tokens, flag)
            new += tokens[flag:behind]
            moved |= set(range(flag, behind))
            renamed[tokens[flag + 1].upper, item.name] = name
            count += 1
        place = behind_flags(tokens, end_of(item))
        put[place] = new + put.get(place, [])
    if not count:
        return 0
    found: list[Token] = []
    procedure = division(tokens, "PROCEDURE")
    for at, token in enumerate(tokens):
        found += put.get(at, [])
        is_qualifier = at > procedure and token_at(tokens, at - 1).is_word("OF", "IN")
        name = renamed.get((token_at(tokens, at - 2).upper, token.upper)) if is_qualifier else None
        if at not in moved:
            found.append(token.word(name) if name else token)
    work.tokens = found + put.get(len(tokens), [])
    return count


REWRITING = Rewriting(
    name="group-conditions",
    rule="condition-names of a group become those of an item as long as the group, which redefines it",
    before="DATA DIVISION. WORKING-STORAGE SECTION. 01 G. 88 IS-A VALUE 'A1'. 05 A PIC X. 05 N PIC 9. "
    "PROCEDURE DIVISION. IF IS-A OF G STOP RUN.",
    after="DATA DIVISION. WORKING-STORAGE SECTION. 01 G. 05 A PIC X. 05 N PIC 9. 01 G-TEXT REDEFINES G PIC X(2). "
    "88 IS-A VALUE 'A1'. PROCEDURE DIVISION. IF IS-A OF G-TEXT STOP RUN.",
    assumes="nothing",
    words=frozenset({"88"}),
    apply=apply,
)
