"""VALUE of a group."""

from ..items import Item, read
from ..tokens import Kind, Token
from ..work import Rewriting, Work, free_name, line_of, token_at

FIGURATIVE = (
    *("SPACE", "SPACES", "ZERO", "ZEROS", "ZEROES", "QUOTE", "QUOTES"),
    *("HIGH-VALUE", "HIGH-VALUES", "LOW-VALUE", "LOW-VALUES"),
)


def literal_of(tokens: list[Token], item: Item, size: int) -> str | None:
    """The group's literal, as long as the group at most."""
    at = item.value or 0
    at += token_at(tokens, at).is_word("IS")
    is_all = token_at(tokens, at).is_word("ALL")
    token = token_at(tokens, at + is_all)
    if token.is_word(*FIGURATIVE):
        return token.upper
    if token.kind is not Kind.LITERAL or token.text[0] not in "'\"":
        return None
    mark = token.text[0]
    text = token.text[1:-1].replace(mark * 2, mark)
    text = (text * (size // max(len(text), 1) + 1) if is_all else text)[:size]
    return f"'{text.replace(chr(39), chr(39) * 2)}'" if text else None


def clause_of(tokens: list[Token], item: Item) -> range:
    """The places of the VALUE clause."""
    first = (item.value or 0) - 1
    behind = first + 1
    while tokens[behind].kind not in (Kind.LITERAL, Kind.STOP) and not tokens[behind].is_word(*FIGURATIVE):
        behind += 1
    return range(first, behind + 1)


def apply(work: Work) -> int:
    """Puts an item with the value before the group, which then redefines it."""
    tokens = work.tokens
    used = work.words()
    before: dict[int, list[Token]] = {}
    instead: dict[int, list[Token]] = {}
    dropped: set[int] = set()
    for item in read(tokens).all:
        if not item.below or item.value is None:
            continue
        head, size = tokens[item.first], item.size()
        literal = None if size is None or item.redefines or size == 0 else literal_of(tokens, item, size)
        if literal is None:
            work.note(head, "VALUE of a group isn't taken here: of a table, of what redefines, or of an unknown length")
            continue
        name = free_name(f"{item.name or 'GROUP'}-VALUE", used)
        used.add(name)
        before[item.first] = list(line_of(head, f"{head.text} {name} PIC X({size}) VALUE {literal}.", head.column))
        behind_name = item.first + (2 if item.name or tokens[item.first + 1].is_word("FILLER") else 1)
        filler = [] if behind_name > item.first + 1 else [head.word("FILLER")]
        instead[behind_name - 1] = [tokens[behind_name - 1], *filler, head.word("REDEFINES"), head.word(name)]
        dropped |= set(clause_of(tokens, item))
    found: list[Token] = []
    for at, token in enumerate(tokens):
        found += before.get(at, [])
        if at not in dropped:
            found += instead.get(at, [token])
    work.tokens = found
    return len(before)


REWRITING = Rewriting(
    name="group-value",
    rule="VALUE of a group becomes that of an item as long as the group before it, which the group then redefines",
    before="DATA DIVISION. WORKING-STORAGE SECTION. 01 G VALUE 'A12'. 05 A PIC X. 05 N PIC 99.",
    after="DATA DIVISION. WORKING-STORAGE SECTION. 01 G-VALUE PIC X(3) VALUE 'A12'. 01 G REDEFINES G-VALUE. "
    "05 A PIC X. 05 N PIC 99.",
    assumes="nothing",
    words=frozenset({"VALUE", "VALUES"}),
    apply=apply,
)
