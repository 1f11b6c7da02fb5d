"""The map of places: where each line of a prepared source comes from."""

import json
from dataclasses import dataclass
from typing import NamedTuple

from .printing import Line
from .tokens import Origin, Place, Token

VERSION = 1


class Stretch(NamedTuple):
    """What begins at a column of a prepared line: the line and the column from which it comes, and how many of its
    characters stand there as they do here, none where something else does."""

    start: int
    line: int
    column: int
    same: int


@dataclass(frozen=True)
class Map:
    """The origins of a prepared source, each behind the one that copies it, and of each line its origin's number and
    the line there. A line that isn't as it was has its stretches, by its number."""

    origins: tuple[Origin, ...]
    lines: tuple[tuple[int, int], ...]
    columns: dict[int, tuple[Stretch, ...]]

    def place(self, line: int, column: int = 1) -> Place:
        """Where a place of the prepared source stands in the file from which it comes."""
        if not 1 <= line <= len(self.lines):
            return Place(self.origins[0], line, column)
        origin, number = self.lines[line - 1]
        there = column
        for stretch in self.columns.get(line, ()):
            if stretch.start > column:
                break
            number = stretch.line
            there = stretch.column + max(min(column - stretch.start, stretch.same - 1), 0)
        return Place(self.origins[origin], number, there)

    def as_json(self) -> str:
        """The map as it is written; docs/PREPARE.md has its form."""
        numbers = {origin: number for number, origin in enumerate(self.origins)}
        origins = []
        for origin in self.origins:
            row: dict[str, object] = {"file": origin.file}
            if origin.copied_by:
                row |= {"copied_by": numbers[origin.copied_by], "line": origin.copied_at}
            origins.append(row)
        told = {"version": VERSION, "origins": origins, "lines": self.lines, "columns": self.columns}
        return json.dumps(told) + "\n"

    @classmethod
    def read(cls, text: str) -> "Map":
        """The map that `as_json` wrote. A text that isn't one is an OSError."""
        try:
            told = json.loads(text)
            if told["version"] != VERSION:
                raise ValueError
            origins: list[Origin] = []
            for row in told["origins"]:
                above = origins[row["copied_by"]] if "copied_by" in row else None
                origins.append(Origin(str(row["file"]), above, int(row.get("line", 0))))
            lines = tuple((int(origin), int(number)) for origin, number in told["lines"])
            columns = {int(line): tuple(Stretch(*row) for row in rows) for line, rows in told["columns"].items()}
            if not origins or not all(0 <= origin < len(origins) for origin, _ in lines):
                raise ValueError
        except (ValueError, KeyError, TypeError, IndexError, AttributeError):
            raise OSError("this is no map of places") from None
        return cls(tuple(origins), lines, columns)


def mapped(lines: list[Line], source: Origin) -> Map:
    """The map of these lines, with the source's own origin first."""
    numbers = {source: 0}
    for line in lines:
        for origin in reversed(line.block.origin.way() if line.block.origin not in numbers else ()):
            numbers.setdefault(origin, len(numbers))
    columns = {
        number: tuple(stretch(start, token) for start, token in line.columns)
        for number, line in enumerate(lines, 1)
        if line.columns
    }
    return Map(tuple(numbers), tuple((numbers[line.block.origin], line.number) for line in lines), columns)


def stretch(start: int, token: Token) -> Stretch:
    place = token.place()
    return Stretch(start, place.line, place.column, 0 if token.is_made else len(token.text))
