"""The words for alarms and refusals: those of the tables in docs/GUIDE.md and docs/PROFILE.md, and the rules in
docs/LANGUAGE.md."""

import re
from collections.abc import Iterator
from dataclasses import dataclass

from . import ROOT
from .answers import Alarm
from .remarks import FORM, MISSING, OUTSIDE, PARAGRAPH, UNDECLARED, Reader

# What an alarm says in a line.
SENTENCES = {
    "SIZE": "a result of this statement may not fit its receiver",
    "TRUNCATION": "what this statement moves may lose a high-order digit",
    "ZERO": "a divisor of this statement may be 0",
    "CLASS": "an operand of this statement may not be numeric",
}

# Of a source that can't be prepared.
UNPREPARED = "not-prepared"

# What the tool itself sees in a source, and what is to be done.
SEEN = {
    OUTSIDE: (
        "a word, or a way to write, that isn't in the profile",
        "see the table in PROFILE.md",
    ),
    UNDECLARED: ("a name that nothing declares as what it is used for", "declare it, or correct it"),
    MISSING: ("a division, section or paragraph is missing", "write its header"),
    FORM: ("a source in free form or in EBCDIC", "bring it into fixed form in ASCII"),
    UNPREPARED: (
        "a source that can't be prepared, as a copybook isn't found or copies itself, or COPY isn't rightly written",
        "give the folders of copybooks by -I, or correct it",
    ),
    PARAGRAPH: (
        "a word that begins statements elsewhere is taken as a paragraph's name, so that the program goes on behind it",
        "write what the profile has for it, or leave it out",
    ),
}

# The refusals of a source that have a row of their own in the guide.
PLAIN_REFUSALS = ("E5", "E6", "E7", "E8", "E11")


@dataclass(frozen=True)
class Entry:
    """Why something is told, and what is to be done."""

    cause: str
    advice: str


def sentence(alarm: Alarm) -> str:
    return f"{alarm.kind}: {SENTENCES[alarm.kind]} (statement {alarm.statement})"


def rule_of(refusal: str) -> str:
    """The name under which a refusal is listed: its number, for rules and limits with the one that is meant."""
    number, *words = refusal.split()
    return f"{number}-{words[0]}" if number in ("E9", "E10") and words else number


def rows(text: str, *columns: str) -> Iterator[list[str]]:
    """The cells below these columns in each table that has them, without marks."""
    wanted: list[int] = []
    for line in text.splitlines():
        cells = [plain(cell) for cell in line.strip().strip("|").split(" | ")]
        if not line.startswith("|"):
            wanted = []
        elif set(columns) <= set(cells):
            wanted = [cells.index(column) for column in columns]
        elif wanted and not line.startswith("|-"):
            yield [cells[at] if at < len(cells) else "" for at in wanted]


def plain(cell: str) -> str:
    """The text of a cell without marks, as it is read outside the guide."""
    return re.sub(r'("[^"]+") (?:above|below)', r"\1 in GUIDE.md", re.sub(r"[`*]", "", cell)).strip()


class Words:
    """All words, by the names of alarms and refusals."""

    def __init__(self, guide: str, language: str):
        self.reader = Reader(guide, language)
        self.kinds = {kind: Entry(*words) for kind, *words in rows(guide, "Kind", "Meaning", "What to do")}
        # the commands' own tables stand before the one of all refusals
        self.lines = [(line, Entry(*words)) for line, *words in rows(guide, "Line", "Cause", "What to do")]
        demands = rows(language, "Rule", "Demands")
        self.rules = {rule: f"this line breaks rule {rule} ({demand})" for rule, demand in demands}
        self.limits = {
            word: f"more {word} than the limit of {limit} ({counted})"
            for word, counted, limit in rows(guide, "Word", "Counted", "Limit")
        }

    def refusal(self, told: str) -> Entry:
        """What a line says that the program told in place of a report."""
        number, which = (*told.split(), "", "")[:2]
        found = (filled(entry, line, told) for line, entry in reversed(self.lines))
        entry = next(filter(None, found), Entry(told, ""))
        cause = self.rules.get(which) if number == "E9" else self.limits.get(which) if number == "E10" else None
        return Entry(cause or entry.cause, entry.advice)

    def listed(self) -> dict[str, Entry]:
        """Each alarm and each refusal of a source, by its name."""
        plain = {line.split()[0]: line for line, _ in self.lines}
        refusals = [plain[number] for number in PLAIN_REFUSALS]
        refusals += [f"E9 {rule} line L" for rule in self.rules] + [f"E10 {word} COUNT" for word in self.limits]
        seen = {name: Entry(*words) for name, words in SEEN.items()}
        return self.kinds | {rule_of(line): self.refusal(line) for line in refusals} | seen


def filled(entry: Entry, row: str, told: str) -> Entry | None:
    """The entry of a row where the line that was told is one of its kind, with what stands there for its capitals."""
    pattern = " ".join(rf"(?P<{word}>\S+)" if re.fullmatch("[A-Z]+", word) else re.escape(word) for word in row.split())
    match = re.fullmatch(pattern, told)
    if not match:
        return None
    values = match.groupdict()
    cause = re.sub(r"\b[A-Z]+\b", lambda word: values.get(word[0], word[0]), entry.cause)
    return Entry(cause, entry.advice)


def read_words() -> Words:
    guide, profile, language = (
        (ROOT / "docs" / name).read_text("utf-8") for name in ("GUIDE.md", "PROFILE.md", "LANGUAGE.md")
    )
    return Words(f"{guide}\n{profile}", language)
