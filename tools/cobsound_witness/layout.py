"""The items of a program and the records of its files, as its DATA DIVISION describes them."""

import re
from collections.abc import Iterator
from dataclasses import dataclass, field
from enum import Enum, auto

from .tokens import Kind, Token

FIGURATIVE = {
    "ZERO": "0", "ZEROS": "0", "ZEROES": "0", "SPACE": " ", "SPACES": " ", "QUOTE": '"', "QUOTES": '"',
    "HIGH-VALUE": "\xff", "HIGH-VALUES": "\xff", "LOW-VALUE": "\0", "LOW-VALUES": "\0",
}  # fmt: skip
BINARY_WORDS = ("BINARY", "COMP", "COMPUTATIONAL")
PACKED_WORDS = ("PACKED-DECIMAL", "COMP-3", "COMPUTATIONAL-3")


class Usage(Enum):
    DISPLAY = auto()
    BINARY = auto()
    PACKED = auto()


class Separate(Enum):
    """Where a sign stands that has a byte of its own."""

    NO = auto()
    FIRST = auto()
    LAST = auto()


@dataclass(frozen=True)
class Picture:
    """What a picture says: a number of so many digits, or so many characters."""

    is_number: bool
    is_edited: bool
    digits: int
    scale: int
    is_signed: bool
    length: int


def picture_of(text: str) -> Picture:
    plain = re.sub(r"(.)\(0*([0-9]+)\)", lambda match: match[1] * int(match[2]), text)
    is_edited = bool(re.search(r"[Z,B0/.]", plain))
    is_number = not is_edited and "X" not in plain
    whole, _, part = plain.partition("." if is_edited else "V")
    digits = [sum(character in "9Z" for character in half) for half in (whole, part)]
    length = len(plain.replace("V", "").replace("S", ""))
    return Picture(is_number, is_edited, sum(digits), digits[1], "S" in plain, length)


@dataclass(frozen=True)
class Constant:
    """A literal or a figurative constant: its text, and its number where it has one."""

    text: str
    is_number: bool
    is_figurative: bool = False

    def units(self, scale: int) -> int | None:
        """Its number in units of the last of so many decimals, cut there."""
        if self.is_figurative:
            return 0 if self.text == "0" else None
        if not re.fullmatch(r"[+-]?([0-9]+(\.[0-9]+)?|\.[0-9]+)", self.text):
            return None
        whole, _, part = self.text.lstrip("+-").partition(".")
        units = int(f"0{whole}{part.ljust(scale, '0')[:scale]}")
        return -units if self.text.startswith("-") else units


def constant_of(token: Token) -> Constant | None:
    if token.kind in (Kind.NUMBER, Kind.TEXT):
        return Constant(token.text, token.kind == Kind.NUMBER)
    if token.kind == Kind.WORD and token.text in FIGURATIVE:
        return Constant(FIGURATIVE[token.text], token.text.startswith("ZERO"), True)
    return None


@dataclass(eq=False)
class Item:
    """An entry of the data description. `offset` counts from the start of its record."""

    level: int
    name: str
    line: int
    picture: Picture | None = None
    usage: Usage = Usage.DISPLAY
    separate: Separate = Separate.NO
    redefined: str = ""
    value: Constant | None = None
    parent: "Item | None" = None
    file: str = ""
    offset: int = 0
    length: int = 0
    children: list["Item"] = field(default_factory=list)
    conditions: dict[str, list[tuple[Constant, Constant]]] = field(default_factory=dict)

    def leaves(self) -> Iterator["Item"]:
        if not self.children:
            yield self
        for child in self.children:
            yield from child.leaves()

    def record(self) -> "Item":
        return self.parent.record() if self.parent else self

    def is_number(self) -> bool:
        return self.picture is not None and self.picture.is_number

    def most(self) -> int:
        """The greatest number that it holds, in its units."""
        return 10 ** self.picture.digits - 1 if self.picture else 0

    def scale(self) -> int:
        return self.picture.scale if self.picture else 0


def own_length(item: Item) -> int:
    """The bytes of an item without items below."""
    picture = item.picture
    if picture is None:
        return 0
    if picture.is_number and item.usage == Usage.PACKED:
        return picture.digits // 2 + 1
    if picture.is_number and item.usage == Usage.BINARY:
        return 2 if picture.digits <= 4 else 4 if picture.digits <= 9 else 8
    return picture.length + (item.separate != Separate.NO)


def place(item: Item, offset: int) -> int:
    """Gives the item and all below it their places from this offset; the length that it takes there."""
    item.offset = offset
    at = offset
    for child in item.children:
        if child.redefined:
            first = next(other for other in item.children if other.name == child.redefined)
            place(child, first.offset)
        else:
            at += place(child, at)
    item.length = at - offset if item.children else own_length(item)
    return item.length


@dataclass
class File:
    """A file of the program: its name inside, the name by which `run` knows it, and its records."""

    name: str
    external: str
    has_status: bool = False
    records: list[Item] = field(default_factory=list)

    def length(self) -> int:
        return max((record.length for record in self.records), default=0)


@dataclass
class Layout:
    files: dict[str, File]
    records: list[Item]

    def items(self) -> Iterator[Item]:
        def below(item: Item) -> Iterator[Item]:
            yield item
            for child in item.children:
                yield from below(child)

        for record in self.records:
            yield from below(record)


def layout_of(tokens: list[Token]) -> Layout:
    """The files and items of a source."""
    words = [token.text if token.kind == Kind.WORD else "" for token in tokens]
    end = next(at for at, word in enumerate(words) if word == "PROCEDURE" and words[at + 1 : at + 2] == ["DIVISION"])
    files = {file.name: file for file in selected(tokens[:end])}
    start = next((at for at in range(end) if words[at : at + 2] == ["DATA", "DIVISION"]), end)
    records: list[Item] = []
    file = ""
    for entry in entries(tokens[start:end]):
        if entry[0].is_word("FD"):
            file = entry[1].text
        elif entry[0].is_word("WORKING-STORAGE"):
            file = ""
        elif entry[0].kind == Kind.NUMBER:
            take(entry, records, file)
    for record in records:
        first = next((other for other in records if other.name == record.redefined), None) if record.redefined else None
        place(record, first.offset if first else 0)
        if record.file:
            files[record.file].records.append(record)
    return Layout(files, records)


def entries(tokens: list[Token]) -> Iterator[list[Token]]:
    """The tokens between two stops."""
    entry: list[Token] = []
    for token in tokens:
        if token.kind == Kind.STOP:
            if entry:
                yield entry
            entry = []
        else:
            entry.append(token)


def selected(tokens: list[Token]) -> Iterator[File]:
    for entry in entries(tokens):
        if not entry[0].is_word("SELECT"):
            continue
        at = next(number for number, token in enumerate(entry) if token.is_word("ASSIGN"))
        named = entry[at + 1 :]
        external = named[1] if named[0].is_word("TO") else named[0]
        yield File(entry[1].text, external.text, any(token.is_word("STATUS") for token in entry[at:]))


def take(entry: list[Token], records: list[Item], file: str) -> None:
    """Adds an entry of the data description to those before it."""
    level = int(entry[0].text)
    if level == 88:
        owner = last_of(records[-1])
        owner.conditions[entry[1].text] = ranges_of(entry[2:])
        return
    is_named = len(entry) > 1 and entry[1].kind == Kind.WORD and not is_clause(entry[1])
    item = Item(level, entry[1].text if is_named and not entry[1].is_word("FILLER") else "", entry[0].line, file=file)
    read_clauses(item, entry[2 if is_named else 1 :])
    if level in (1, 77):
        records.append(item)
        return
    parent = last_of(records[-1])
    while parent.level >= level and parent.parent:
        parent = parent.parent
    item.parent = parent
    parent.children.append(item)


def is_clause(token: Token) -> bool:
    return token.is_word(
        "PIC", "PICTURE", "REDEFINES", "VALUE", "VALUES", "USAGE", "DISPLAY", "SIGN", "LEADING", "TRAILING",
        *BINARY_WORDS, *PACKED_WORDS,
    )  # fmt: skip


def last_of(item: Item) -> Item:
    return last_of(item.children[-1]) if item.children else item


def read_clauses(item: Item, tokens: list[Token]) -> None:
    for at, token in enumerate(tokens):
        if token.kind == Kind.PICTURE:
            item.picture = picture_of(token.text)
        elif token.is_word(*BINARY_WORDS):
            item.usage = Usage.BINARY
        elif token.is_word(*PACKED_WORDS):
            item.usage = Usage.PACKED
        elif token.is_word("REDEFINES"):
            item.redefined = tokens[at + 1].text
        elif token.is_word("LEADING", "TRAILING"):
            item.separate = Separate.FIRST if token.text == "LEADING" else Separate.LAST
        elif token.is_word("VALUE", "VALUES"):
            ranges = ranges_of(tokens[at + 1 :])
            item.value = ranges[0][0] if ranges else None


def ranges_of(tokens: list[Token]) -> list[tuple[Constant, Constant]]:
    """The ranges of an 88; a single value is a range of itself."""
    found: list[tuple[Constant, Constant]] = []
    is_end = False
    for token in tokens:
        constant = constant_of(token)
        if token.is_word("THRU", "THROUGH"):
            is_end = True
        elif constant:
            found = [*found[:-1], (found[-1][0], constant)] if is_end else [*found, (constant, constant)]
            is_end = False
    return found
