"""What isn't in the profile: the table of docs/PROFILE.md, whose rows have the words as they are written and a way out.

A row's column "Written" has either phrases in code, or a description with phrases as examples behind "as". A phrase of
the first kind is a pattern of tokens: words in capitals, numbers and marks stand for themselves, `name`, `text` and
`number` for one of these, and `..` for whatever stands between in the same statement or entry. What is told is what
stands behind the last `..`. A row with a description is found by a function of `shapes`.
"""

import re
from collections.abc import Iterator
from dataclasses import dataclass

from .scan import Sort, Token

PARTS = ("IDENTIFICATION", "ENVIRONMENT", "DATA", "PROCEDURE")
COLUMNS = ("Part", "Written", "Answer", "Way out")
GAP = ".."
VERBS = frozenset(
    "ADD CLOSE COMPUTE CONTINUE DISPLAY DIVIDE EVALUATE EXIT GO IF MOVE MULTIPLY OPEN PERFORM READ SET STOP SUBTRACT "
    "WRITE".split()
)
SORTS = {"name": Sort.WORD, "text": Sort.TEXT, "number": Sort.NUMBER}


@dataclass(frozen=True)
class Row:
    """A row of the table: its description, which is empty where its phrases are patterns, and its phrases."""

    part: str
    description: str
    phrases: tuple[str, ...]
    answer: str
    way_out: str

    def is_of(self, part: str) -> bool:
        return self.part in ("anywhere", part)


def rows_of(guide: str) -> tuple[Row, ...]:
    """The rows of the table in the text of the guide."""
    _, _, behind = guide.partition(f"| {' | '.join(COLUMNS)} |\n")
    found = []
    for line in behind.splitlines()[1:]:
        if not line.startswith("| "):
            break
        part, written, answer, way_out = (cell.strip() for cell in line.strip("| ").split(" | "))
        description = re.sub(r"(, as)? `.*", "", f" {written}").strip()
        phrases = tuple(re.findall("`([^`]+)`", written))
        found.append(Row(part, description, phrases, answer, way_out.replace("`", "")))
    return tuple(found)


@dataclass(frozen=True)
class Pattern:
    """The elements of a phrase, and the row in which it stands."""

    row: Row
    phrase: str
    elements: tuple[str, ...]

    @property
    def told_from(self) -> int:
        """The first element of what is told."""
        begin = len(self.elements) - self.elements[::-1].index(GAP) if GAP in self.elements else 0
        return begin + (self.elements[begin] == ".")


class Patterns:
    """The patterns of rows, by the word with which they begin."""

    def __init__(self, rows: tuple[Row, ...], vocabulary: "Vocabulary"):
        self.vocabulary = vocabulary
        self.by_front: dict[str, list[Pattern]] = {}
        for row in rows:
            for phrase in () if row.description else row.phrases:
                pattern = Pattern(row, phrase, tuple(phrase.split()))
                self.by_front.setdefault(pattern.elements[0], []).append(pattern)

    def matches(self, tokens: list[Token], at: int, part: str) -> Iterator[tuple[Pattern, list[Token]]]:
        """The patterns that begin at a token, each with the tokens that are told."""
        for pattern in self.by_front.get(tokens[at].text, ()):
            if pattern.row.is_of(part):
                found = self.matched(pattern, tokens, at)
                if found:
                    yield pattern, found

    def matched(self, pattern: Pattern, tokens: list[Token], at: int) -> list[Token]:
        """The tokens of what is told, or none where the pattern doesn't go on so."""
        found: list[Token] = []
        is_gap = False
        for place, element in enumerate(pattern.elements):
            if element == GAP:
                is_gap = True
                continue
            while at < len(tokens) and not self.is_element(tokens[at], element):
                token = tokens[at]
                may_pass = token.is_word(*self.vocabulary.dropped) or is_gap and not self.is_end(token)
                if not may_pass or not place:
                    return []
                at += 1
            if at == len(tokens):
                return []
            if place >= pattern.told_from:
                found.append(tokens[at])
            at += 1
            is_gap = False
        return found

    def is_end(self, token: Token) -> bool:
        return token.sort == Sort.STOP or token.is_word(*self.vocabulary.verbs)

    def is_element(self, token: Token, element: str) -> bool:
        if element == "name" and token.text in self.vocabulary.reserved:
            return False
        return token.sort == SORTS[element] if element in SORTS else token.text == element


@dataclass(frozen=True)
class Vocabulary:
    """The words of the profile: those that are no names, those of them that say nothing to the grammar, and verbs."""

    reserved: frozenset[str]
    dropped: frozenset[str]
    verbs: frozenset[str]


def vocabulary_of(language: str) -> Vocabulary:
    return Vocabulary(reserved_words(language), dropped_words(language), VERBS)


def reserved_words(language: str) -> frozenset[str]:
    """The words that are no names, as docs/LANGUAGE.md has them: those of its grammar and of the rewriting of words."""
    grammar = re.search(r"^## Grammar\n.*?^```\n(.*?)^```$", language, re.M | re.S)
    rewriting = re.search(r"^Then words are rewritten.*$", language, re.M)
    text = f"{grammar[1] if grammar else ''} {rewriting[0] if rewriting else ''}"
    return frozenset(re.findall(r"(?<![\w-])[A-Z][A-Z0-9]+(?:-[A-Z0-9]+)*(?![\w-])", text)) | ends_of_verbs(language)


def ends_of_verbs(language: str) -> frozenset[str]:
    """The words that end the statements with a tail."""
    return frozenset(f"END-{verb}" for verb in re.findall(r"\b([A-Z]+) .* tail$", language, re.M))


def dropped_words(language: str) -> frozenset[str]:
    """The words that say nothing to the grammar."""
    dropped = re.search(r"([A-Z, ]+) and SIGN are dropped", language)
    return frozenset(re.findall("[A-Z]+", dropped[1] if dropped else "")) | {"SIGN"}
