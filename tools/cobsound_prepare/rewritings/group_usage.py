"""USAGE of a group."""

from ..items import USAGES, Item, read
from ..tokens import Kind, Token
from ..work import Rewriting, Work


def usage_of(tokens: list[Token], item: Item) -> range | None:
    """The places of an entry's own USAGE clause."""
    for at in range(item.first + 2, item.behind):
        if tokens[at].is_word("VALUE", "VALUES"):
            return None
        if tokens[at].kind is Kind.WORD and tokens[at].upper in USAGES:
            first = at
            while tokens[first - 1].is_word("USAGE", "IS"):
                first -= 1
            return range(first, at + 1)
    return None


def apply(work: Work) -> int:
    """Drops it, and gives it to each numeric item of the group that has none of its own."""
    tokens = work.tokens
    dropped: set[int] = set()
    given: dict[int, Token] = {}
    count = 0
    for item in read(tokens).all:
        clause = usage_of(tokens, item) if item.below else None
        if clause is None:
            continue
        dropped |= set(clause)
        count += 1
        for each in item.all():
            if not each.below and usage_of(tokens, each) is None:
                given[each.behind - 1] = tokens[clause[-1]]
    found: list[Token] = []
    for at, token in enumerate(tokens):
        if at in given:
            found.append(token.made(Kind.WORD, given[at].text, is_glued=False))
        if at not in dropped:
            found.append(token)
    work.tokens = found
    return count


REWRITING = Rewriting(
    name="group-usage",
    rule="USAGE of a group is dropped, and given to each of its items that has none of its own",
    before="DATA DIVISION. WORKING-STORAGE SECTION. 01 G USAGE COMP-3. 05 A PIC 9. 05 B PIC 9 BINARY.",
    after="DATA DIVISION. WORKING-STORAGE SECTION. 01 G. 05 A PIC 9 COMP-3. 05 B PIC 9 BINARY.",
    assumes="nothing",
    words=frozenset(USAGES),
    apply=apply,
)
