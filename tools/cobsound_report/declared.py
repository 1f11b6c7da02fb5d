"""What a source declares, as far as a reader sees it: its parts, its items, files and paragraphs."""

import difflib
import re
from collections.abc import Iterable
from dataclasses import dataclass, field
from enum import Enum, auto

from .profile import PARTS, Vocabulary
from .scan import Joined, Sort, Token

# The sections and paragraphs by which a part is known where its header is left out.
HEADERS = {
    "CONFIGURATION": "ENVIRONMENT",
    "INPUT-OUTPUT": "ENVIRONMENT",
    "FILE-CONTROL": "ENVIRONMENT",
    "SPECIAL-NAMES": "ENVIRONMENT",
    "WORKING-STORAGE": "DATA",
    "FILE": "DATA",
    "LINKAGE": "DATA",
}
# The paragraphs of the IDENTIFICATION DIVISION that are text.
REMARKS = ("AUTHOR", "INSTALLATION", "DATE-WRITTEN", "DATE-COMPILED", "SECURITY", "REMARKS")
# The words that begin a clause, before which an entry without a name has none.
CLAUSES = frozenset(
    "PIC PICTURE REDEFINES VALUE VALUES USAGE SIGN LEADING TRAILING DISPLAY BINARY COMP COMP-3 COMPUTATIONAL "
    "COMPUTATIONAL-3 PACKED-DECIMAL OCCURS SYNC SYNCHRONIZED JUST JUSTIFIED BLANK".split()
)


class Kind(Enum):
    GROUP = "a group"
    NUMBER = "a number"
    TEXT = "a text"
    EDITED = "an edited item"
    CONDITION = "a condition-name"
    OTHER = auto()


@dataclass
class Entry:
    """A data description entry: its name where it has one, its tokens, and the entry above it."""

    level: int
    name: Token | None
    tokens: list[Token]
    section: str
    above: "Entry | None" = None
    below: list["Entry"] = field(default_factory=list)

    @property
    def kind(self) -> Kind:
        if self.level == 88:
            return Kind.CONDITION
        if any(entry.level not in (66, 88) for entry in self.below):
            return Kind.GROUP
        picture = self.picture
        return kind_of(picture.text) if picture else Kind.OTHER

    @property
    def picture(self) -> Token | None:
        return next((token for token in self.tokens if token.sort == Sort.PICTURE), None)

    def token(self, *words: str) -> Token | None:
        return next((token for token in self.tokens if token.is_word(*words)), None)


def kind_of(picture: str) -> Kind:
    symbols = set(re.sub(r"\([0-9]+\)", "", picture))
    if symbols <= set("9SVP"):
        return Kind.NUMBER
    return Kind.TEXT if symbols <= set("XA9") else Kind.EDITED


class Reading:
    """The tokens of a source with the part in which each stands, and what is declared."""

    def __init__(self, lines: list[bytes], is_free: bool, vocabulary: Vocabulary):
        self.lines = lines
        joined = Joined(lines, is_free)
        self.notes = joined.notes
        self.directives = joined.directives
        self.tokens, self.parts = without_texts(joined.tokens())
        self.reserved = vocabulary.reserved
        self.verbs = vocabulary.verbs
        self.entries = entries_of(self.tokens, self.parts)
        self.items = by_name(entry for entry in self.entries if entry.name)
        self.files = names_behind(self.tokens, self.parts, "SELECT", "FD", "SD")
        self.paragraphs = self.found_paragraphs()

    def found_paragraphs(self) -> dict[str, Token]:
        """The words that stand alone between points in the PROCEDURE DIVISION, and those before SECTION."""
        found: dict[str, Token] = {}
        for at in range(1, len(self.tokens) - 1):
            before, token, behind = self.tokens[at - 1 : at + 2]
            begins = before.sort == Sort.STOP and (behind.sort == Sort.STOP or behind.is_word("SECTION"))
            if begins and self.parts[at] == "PROCEDURE" and token.sort in (Sort.WORD, Sort.NUMBER):
                if token.text not in self.reserved:
                    found.setdefault(token.text, token)
        return found

    def is_declared(self, name: str) -> bool:
        """Whether it is an item's or a file's name. A paragraph's says nothing: a word alone before a point is one."""
        return name in self.items or name in self.files

    def item_kind(self, name: str) -> Kind | None:
        """The kind of the item of a name, where there is exactly one."""
        found = self.items.get(name, [])
        return found[0].kind if len(found) == 1 else None


def parts_of(tokens: list[Token]) -> list[str]:
    """The part in which each token stands."""
    part, found = PARTS[0], []
    for at, token in enumerate(tokens):
        behind = tokens[at + 1].text if at + 1 < len(tokens) else ""
        if token.sort == Sort.WORD:
            if behind == "DIVISION":
                part = token.text if token.text in PARTS else PARTS[0]
            elif HEADERS.get(token.text) and (behind == "SECTION" or token.text == "FILE-CONTROL"):
                part = max(part, HEADERS[token.text], key=PARTS.index)
        if at and tokens[at - 1].sort == Sort.STOP and (token.is_word("FD") or token.text in ("01", "1", "77")):
            part = max(part, "DATA", key=PARTS.index)
        found.append(part)
    return found


def without_texts(tokens: list[Token]) -> tuple[list[Token], list[str]]:
    """The tokens and their parts without those whose words say nothing: the text of a paragraph of the IDENTIFICATION
    DIVISION, of COPY and REPLACE, and of EXEC."""
    parts = parts_of(tokens)
    kept: list[int] = []
    at = 0
    while at < len(tokens):
        kept.append(at)
        at = behind_text(tokens, parts, at)
    return [tokens[number] for number in kept], [parts[number] for number in kept]


def behind_text(tokens: list[Token], parts: list[str], at: int) -> int:
    """The token behind this one, or behind the text to which it leads."""
    token, behind = tokens[at], at + 1
    if token.is_word("COPY", "REPLACE"):
        while behind < len(tokens) and tokens[behind].sort != Sort.STOP:
            behind += 1
    elif token.is_word("EXEC"):
        while behind < len(tokens) and not tokens[behind].is_word("END-EXEC"):
            behind += 1
        behind += 1
    elif parts[at] == "IDENTIFICATION" and token.is_word(*REMARKS):
        while behind < len(tokens) and not is_header(tokens, parts, behind):
            behind += 1
    return behind


def is_header(tokens: list[Token], parts: list[str], at: int) -> bool:
    is_first = tokens[at].line > tokens[at - 1].line
    return parts[at] != "IDENTIFICATION" or is_first and tokens[at].is_word("PROGRAM-ID", *REMARKS)


def entries_of(tokens: list[Token], parts: list[str]) -> list[Entry]:
    """The entries with a level number, each with the one above it."""
    found: list[Entry] = []
    open_entries: list[Entry] = []
    section = ""
    for sentence in sentences(token for token, part in zip(tokens, parts) if part == "DATA"):
        if sentence[1:2] and sentence[1].is_word("SECTION"):
            section = sentence[0].text
        section = section or ("FILE" if sentence[0].is_word("FD", "SD") else "")
        if sentence[0].sort != Sort.NUMBER or not re.fullmatch("[0-9]{1,2}", sentence[0].text):
            open_entries = [] if sentence[0].sort == Sort.WORD else open_entries
            continue
        entry = entry_of(sentence, section)
        while open_entries and not is_below(entry, open_entries[-1]):
            open_entries.pop()
        if open_entries:
            entry.above = open_entries[-1]
            entry.above.below.append(entry)
        if entry.level not in (66, 88):
            open_entries.append(entry)
        found.append(entry)
    return found


def entry_of(sentence: list[Token], section: str) -> Entry:
    name = sentence[1] if len(sentence) > 1 and sentence[1].sort == Sort.WORD else None
    if name and (name.text in CLAUSES or name.text == "FILLER"):
        name = None
    return Entry(int(sentence[0].text), name, sentence, section)


def is_below(entry: Entry, other: Entry) -> bool:
    return entry.level == 88 or entry.level == 66 and other.level == 1 or other.level < entry.level < 50


def sentences(tokens: Iterable[Token]) -> Iterable[list[Token]]:
    """The tokens between points."""
    found: list[Token] = []
    for token in tokens:
        if token.sort != Sort.STOP:
            found.append(token)
        elif found:
            yield found
            found = []
    if found:
        yield found


def by_name(entries: Iterable[Entry]) -> dict[str, list[Entry]]:
    found: dict[str, list[Entry]] = {}
    for entry in entries:
        if entry.name:
            found.setdefault(entry.name.text, []).append(entry)
    return found


def names_behind(tokens: list[Token], parts: list[str], *words: str) -> dict[str, Token]:
    """The words that stand behind one of these words before the PROCEDURE DIVISION."""
    found: dict[str, Token] = {}
    for at, token in enumerate(tokens[:-1]):
        if token.is_word(*words) and parts[at] != "PROCEDURE":
            name = next((token for token in tokens[at + 1 : at + 3] if not token.is_word("OPTIONAL")), token)
            if name.sort == Sort.WORD:
                found.setdefault(name.text, name)
    return found


def nearest(name: str, names: Iterable[str]) -> str:
    """The name that is written most like this one, or nothing where none is like it."""
    return next(iter(difflib.get_close_matches(name, sorted(names), n=1, cutoff=0.7)), "")
