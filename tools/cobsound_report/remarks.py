"""What a reader sees in a source that the program refuses, all at once: words and shapes that aren't in the profile,
names that nothing declares, and parts that are missing."""

from collections.abc import Iterator
from dataclasses import dataclass

from .declared import Reading
from .forms import Form, form_of
from .missing import missing
from .profile import Patterns, Row, rows_of, vocabulary_of
from .scan import Spot, Token, lines_of, spot
from .shapes import SHAPES
from .undeclared import Unknown, undeclared

OUTSIDE, UNDECLARED, MISSING, FORM = "outside-profile", "undeclared", "missing", "form"
PARAGRAPH = "statement-as-paragraph"
PLACES = {Form.FREE: "free form", Form.EBCDIC: "EBCDIC"}


@dataclass(frozen=True)
class Remark:
    """What is told of a spot, and what is to be done."""

    rule: str
    spot: Spot
    message: str
    advice: str = ""

    # whether the message is a name alone, of which a rule is to be told
    is_name: bool = False

    # the line of the source that is to be told behind the advice
    named_on: int = 0

    @property
    def place(self) -> tuple[int, int]:
        return self.spot.line, self.spot.column


@dataclass(frozen=True)
class Seen:
    """A source that was read, with all remarks in the order of its text."""

    source: Reading
    remarks: tuple[Remark, ...]


class Reader:
    """Reads sources by the tables of the documents."""

    def __init__(self, guide: str, language: str):
        self.vocabulary = vocabulary_of(language)
        self.rows = rows_of(guide)
        self.described = {row.description: row for row in self.rows if row.description}
        self.patterns = Patterns(self.rows, self.vocabulary)
        self.statements = {
            phrase: row
            for row in self.rows
            for phrase in row.phrases
            if row.part in ("PROCEDURE", "anywhere") and not row.description and " " not in phrase
        }

    def seen(self, raw: bytes) -> Seen:
        """All that is to be told of a source."""
        form = form_of(raw)
        if form == Form.EBCDIC:
            return Seen(Reading([], False, self.vocabulary), (self.of_form(form),))
        source = Reading(lines_of(raw), form == Form.FREE, self.vocabulary)
        outside = list(self.outside(source))
        told = frozenset(number for number, _, _ in outside)
        found = [outside_remark(row, place) for _, row, place in outside]
        found += [missing_remark(place) for place in missing(source)]
        spots = {remark.spot for remark in found}
        found += [undeclared_remark(unknown) for unknown in undeclared(source, told) if unknown.spot not in spots]
        found += [self.of_form(form)] if form == Form.FREE else []
        return Seen(source, tuple(sorted(dict.fromkeys(found), key=lambda remark: remark.place)))

    def warnings(self, lines: list[bytes]) -> list[Remark]:
        """Words that are taken as the names of paragraphs in a source that the program takes, and that no compiler
        takes so."""
        names = Reading(lines, False, self.vocabulary).paragraphs
        taken = (name for name in names if name in self.statements)
        return [paragraph_remark(self.statements[name], names[name]) for name in taken]

    def of_form(self, form: Form) -> Remark:
        name = PLACES[form]
        return Remark(FORM, Spot(name, 1, 1, 1), f"this looks like {name}", self.described[name].way_out)

    def outside(self, source: Reading) -> Iterator[tuple[int, Row, Spot]]:
        """Each row that is met, with the number of the token that is told, or -1 where no words of a pattern are."""
        for at, token in enumerate(source.tokens):
            for pattern, found in self.patterns.matches(source.tokens, at, source.parts[at]):
                if not source.is_declared(found[0].text):
                    yield source.tokens.index(found[0], at), pattern.row, spot(*found)
        for row in self.rows:
            for place in SHAPES[row.description](source) if row.description else ():
                yield -1, row, place


def outside_remark(row: Row, place: Spot) -> Remark:
    """The word that a row names, or what the row describes with the word at its place."""
    told = f"{row.description} isn't in the profile: {place.text}" if row.description else ""
    advice = "" if row.way_out == "none" else row.way_out
    return Remark(OUTSIDE, place, told or f"{place.text} isn't in the profile", advice)


def paragraph_remark(row: Row, token: Token) -> Remark:
    message = f"{token.text} is taken as a paragraph's name here, so that the program goes on behind it"
    return Remark(PARAGRAPH, spot(token), message, "" if row.way_out == "none" else row.way_out)


def missing_remark(place: Spot) -> Remark:
    return Remark(MISSING, place, f"{place.text} is missing before this")


def undeclared_remark(unknown: Unknown) -> Remark:
    message = f"{unknown.spot.text} isn't {unknown.wanted}"
    if not unknown.nearest_line:
        return Remark(UNDECLARED, unknown.spot, message, f"{unknown.nearest}?" if unknown.nearest else "")
    return Remark(UNDECLARED, unknown.spot, message, unknown.nearest, named_on=unknown.nearest_line)
