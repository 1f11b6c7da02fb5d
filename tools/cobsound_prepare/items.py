"""The items of a DATA DIVISION, as far as rewritings have to know them."""

import re
from collections.abc import Iterator
from dataclasses import dataclass, field

from .tokens import Kind, Token
from .work import division, sentences, token_at

REPEAT = re.compile(r"(.)\((\d+)\)")
USAGES = {
    **dict.fromkeys(("COMP", "COMPUTATIONAL", "BINARY", "COMP-4", "COMPUTATIONAL-4"), "BINARY"),
    **dict.fromkeys(("COMP-3", "COMPUTATIONAL-3", "PACKED-DECIMAL"), "PACKED"),
    "DISPLAY": "DISPLAY",
}



@dataclass(eq=False)
class Item:
    """An entry: its tokens' places, the first and the last of them, its level and name (empty for FILLER), the entry
    above it and those below it. `usage` is its own, or that of a group above it."""

    first: int
    behind: int
    head: Token
    last: Token
    level: int
    name: str
    above: "Item | None"
    picture: str = ""
    usage: str = "DISPLAY"
    redefines: str = ""
    is_table: bool = False
    value: int | None = None  # the place behind VALUE
    is_separate: bool = False
    flags: list[int] = field(default_factory=list)  # the places of its entries of level 88
    below: list["Item"] = field(default_factory=list)

    def chain(self) -> Iterator["Item"]:
        """The item, and those above it."""
        item: Item | None = self
        while item:
            yield item
            item = item.above

    def all(self) -> Iterator["Item"]:
        """The item, and all below it, in their order."""
        yield self
        for item in self.below:
            yield from item.all()

    def symbols(self) -> str:
        """The picture with each symbol as often as it counts."""
        return REPEAT.sub(lambda match: match[1] * int(match[2]), self.picture.upper())

    def category(self) -> str:
        """`group`, `number`, `edited` for what is edited as a number, or `text`."""
        if not self.picture:
            return "number" if not self.below and self.usage != "DISPLAY" else "group"
        symbols = set(self.symbols())
        if symbols <= set("9SVP"):
            return "number"
        return "text" if symbols & set("XA") else "edited"

    def size(self) -> int | None:
        """How many bytes it takes; nothing where that isn't known."""
        if self.is_table:
            return None
        if self.below:
            sizes = [item.size() for item in self.below if not item.redefines]
            return None if None in sizes else sum(size or 0 for size in sizes)
        symbols = self.symbols()
        if not symbols or "P" in symbols or self.usage not in ("DISPLAY", "PACKED", "BINARY"):
            return None
        digits = symbols.count("9")
        if self.usage == "PACKED":
            return digits // 2 + 1
        if self.usage == "BINARY":
            return 2 if digits < 5 else 4 if digits < 10 else 8
        return len(symbols) - symbols.count("V") - symbols.count("S") + self.is_separate


@dataclass
class Items:
    """All items, in their order, and where they are found by name."""

    all: list[Item]

    def named(self, names: list[str]) -> Item | None:
        """The one item with this name and these qualifiers, the nearest first."""
        found = [item for item in self.all if item.name == names[0] and is_below(item, names[1:])]
        return found[0] if len(found) == 1 else None

    def reference(self, item: Item) -> str | None:
        """A reference that means this item alone: its name with as few qualifiers as that needs."""
        names: list[str] = []
        for each in item.chain():
            if each.name:
                names.append(each.name)
            if names and names[0] == item.name and self.named(names) is item:
                return " OF ".join(names)
        return None


def is_below(item: Item, names: list[str]) -> bool:
    above = iter([each.name for each in item.chain()][1:])
    return all(name in above for name in names)


def read(tokens: list[Token]) -> Items:
    """The items of the DATA DIVISION."""
    found: list[Item] = []
    last: Item | None = None
    start = division(tokens, "DATA")
    for first, behind in sentences(tokens, start, division(tokens, "PROCEDURE")):
        head = token_at(tokens, first)
        if head.kind is not Kind.NUMBER or not head.text.isdigit():
            last = None if not head.is_word("COPY") else last
            continue
        level = int(head.text)
        if level == 88 and last:
            last.flags.append(first)
        if level in (66, 78, 88):
            continue
        last = entry(tokens, first, behind, level, above_of(last, level))
        if last.above:
            last.above.below.append(last)
        found.append(last)
    return Items(found)


def above_of(last: Item | None, level: int) -> Item | None:
    if level in (1, 77):
        return None
    while last and last.level >= level:
        last = last.above
    return last


def entry(tokens: list[Token], first: int, behind: int, level: int, above: Item | None) -> Item:
    """What an entry says."""
    name = token_at(tokens, first + 1)
    is_named = name.kind is Kind.WORD and name.upper not in {"FILLER", "PIC", "PICTURE", "REDEFINES", "USAGE", "VALUE"}
    own = name.upper if is_named and name.upper not in USAGES else ""
    item = Item(first, behind, tokens[first], tokens[behind - 1], level, own, above)
    item.usage = above.usage if above else "DISPLAY"
    for at in range(first + 1, behind):
        token = tokens[at]
        if token.kind is Kind.PICTURE:
            item.picture = token.text
        elif token.is_word("REDEFINES"):
            item.redefines = token_at(tokens, at + 1).upper
        elif token.is_word("OCCURS"):
            item.is_table = True
        elif token.is_word("SEPARATE"):
            item.is_separate = True
        elif token.is_word("VALUE", "VALUES") and item.value is None:
            item.value = at + 1
        elif token.kind is Kind.WORD and token.upper in USAGES and at > first + 1 and item.value is None:
            item.usage = USAGES[token.upper]
    return item


def reference_at(tokens: list[Token], at: int) -> tuple[list[str], int]:
    """The names of the reference at a place, and the place behind it."""
    names = [token_at(tokens, at).upper]
    at += 1
    while token_at(tokens, at).is_word("OF", "IN"):
        names.append(token_at(tokens, at + 1).upper)
        at += 2
    return names, at
