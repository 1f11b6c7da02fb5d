"""Contents that nothing is known of.

A file that is never opened stands for them: behind a READ of it, which goes on since it has a FILE STATUS, its record
area may hold anything, and what is moved from there may, too.
"""

from collections.abc import Iterator
from dataclasses import dataclass, field

from .items import Item, Items, read
from .tokens import Token
from .work import Work, behind_stop, division, free_name, line_of, token_at

BYTE = "'A'"


@dataclass
class Unknown:
    """The file, and what is asked of it: how long its record must be, how many bytes of it decide, and which items need
    another one that redefines them, to be moved to as a text. Till it is declared the DATA DIVISION stays as it is."""

    items: Items
    used: set[str]
    longest: int = 1
    choices: int = 0
    views: dict[Item, str] = field(default_factory=dict)
    names: dict[str, str] = field(default_factory=dict)

    @classmethod
    def of(cls, work: Work) -> "Unknown":
        """The one of a source."""
        if work.unknown is None:
            work.unknown = cls(read(work.tokens), work.words())
        return work.unknown

    def name(self, wanted: str) -> str:
        if wanted not in self.names:
            self.names[wanted] = free_name(wanted, self.used)
            self.used.add(self.names[wanted])
        return self.names[wanted]

    def read(self) -> str:
        return f"READ {self.name('UNKNOWN-FILE')}"

    def choice(self) -> str:
        """A condition that may hold or not, behind a READ."""
        self.choices += 1
        return f"{self.name(f'UNKNOWN-{self.choices}')} = {BYTE}"

    def forget(self, item: Item, is_number: bool = False) -> str | None:
        """Statements behind which the item holds anything, or where it is a number any number of it; nothing where it
        can't be said."""
        size, name = item.size(), self.items.reference(item)
        if not size or name is None:
            return None
        self.longest = max(self.longest, size)
        place = name if item.category() in ("group", "text") else self.view(item, name)
        made = f"{self.read()} MOVE {self.name('UNKNOWN-RECORD')} TO {place}"
        if is_number and item.category() == "number":
            made += f" IF {name} NOT NUMERIC MOVE ZERO TO {name} END-IF"
        return made

    def view(self, item: Item, name: str) -> str:
        """The text that lies over an item."""
        if item not in self.views:
            self.views[item] = free_name(f"{item.name}-ANY", self.used)
            self.used.add(self.views[item])
        return self.views[item]

    def lines(self, item: Item) -> list[Token]:
        """The entry of the text over an item."""
        head = item.head
        entry = f"{head.text} {self.views[item]} REDEFINES {item.redefines or item.name} PIC X({item.size()})."
        return list(line_of(head, entry, head.column))

    def declare(self, work: Work) -> None:
        """Puts in the file and the texts over items, where they were asked for."""
        if not self.names:
            return
        tokens = self.with_views(work.tokens)
        record = [f"01 {self.name('UNKNOWN-RECORD')} PIC X({max(self.longest, self.choices)})."]
        if self.choices:
            record.append(f"01 {self.name('UNKNOWN-BYTES')}.")
            record += [f"   05 {self.name(f'UNKNOWN-{number}')} PIC X." for number in range(1, self.choices + 1)]
        file, status = self.name("UNKNOWN-FILE"), self.name("UNKNOWN-STATUS")
        select = f"SELECT {file} ASSIGN TO '{file}' FILE STATUS IS {status}."
        tokens = put(tokens, "FILE-CONTROL", [select])
        tokens = put(tokens, "FILE SECTION", [f"FD {file}.", *record])
        work.tokens = put(tokens, "WORKING-STORAGE SECTION", [f"77 {status} PIC XX."])

    def with_views(self, tokens: list[Token]) -> list[Token]:
        places = {id(token): at for at, token in enumerate(tokens)}
        views = {behind_flags(tokens, places[id(item.last)] + 1): item for item in self.views}
        found: list[Token] = []
        for at, token in enumerate(tokens):
            found += self.lines(views[at]) if at in views else []
            found.append(token)
        return found


def behind_flags(tokens: list[Token], at: int) -> int:
    """The place behind entries of level 88 that stand at a place."""
    while token_at(tokens, at).text == "88":
        at = behind_stop(tokens, at)
    return at


# Where each header stands, with the one above it: before DATA DIVISION or PROCEDURE DIVISION where it is lacking.
ABOVE = {
    "FILE-CONTROL": "INPUT-OUTPUT SECTION",
    "INPUT-OUTPUT SECTION": "ENVIRONMENT DIVISION",
    "FILE SECTION": "DATA DIVISION",
    "WORKING-STORAGE SECTION": "DATA DIVISION",
}
BEFORE = {"ENVIRONMENT DIVISION": ("DATA", "PROCEDURE"), "DATA DIVISION": ("PROCEDURE",)}


def header_at(tokens: list[Token], header: str) -> int | None:
    """The place behind a header and its point."""
    words = header.split()
    for at in range(division(tokens, "PROCEDURE")):
        if all(token_at(tokens, at + number).is_word(word) for number, word in enumerate(words)):
            return behind_stop(tokens, at)
    return None


def put(tokens: list[Token], header: str, lines: list[str]) -> list[Token]:
    """The tokens with these lines behind a header, which is put in where it is lacking, too."""
    at = header_at(tokens, header)
    while at is None:
        lines = [f"{header}.", *lines]
        above = ABOVE.get(header)
        if above is None:
            at = min(division(tokens, name) for name in BEFORE[header])
        elif header == "WORKING-STORAGE SECTION" and header_at(tokens, "FILE SECTION") is not None:
            at = end_of_files(tokens)
        elif header == "INPUT-OUTPUT SECTION" and header_at(tokens, above) is not None:
            at = min(division(tokens, name) for name in BEFORE[above])
        else:
            header, at = above, header_at(tokens, above)
    return [*tokens[:at], *made(tokens[min(at, len(tokens) - 1)], lines), *tokens[at:]]


def end_of_files(tokens: list[Token]) -> int:
    """Where the FILE SECTION ends."""
    at = header_at(tokens, "FILE SECTION") or 0
    while at < len(tokens) and not token_at(tokens, at + 1).is_word("SECTION", "DIVISION"):
        at += 1
    return at


def made(place: Token, lines: list[str]) -> Iterator[Token]:
    for line in lines:
        text = line.lstrip()
        yield from line_of(place, text, 8 + len(line) - len(text) if text[:2] in ("01", "77", "05") else 8)

