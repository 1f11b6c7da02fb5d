"""The source of a search, as it was read or prepared."""

import pathlib
import re
from dataclasses import dataclass

from cobsound_prepare import Prepared, encoded
from cobsound_prepare.options import Way
from cobsound_prepare.tokens import Origin, Place

PLACE = re.compile(r" line ([0-9]+)(?: column ([0-9]+))?")


@dataclass(frozen=True)
class Read:
    """The name of a source, and the text that is analysed and run; with its places where that was prepared."""

    name: str
    text: bytes
    prepared: Prepared | None = None

    @classmethod
    def at(cls, path: str) -> "Read":
        return cls(path, pathlib.Path(path).read_bytes())

    @classmethod
    def prepared_at(cls, path: str, way: Way) -> "Read":
        prepared = way.prepared(path)
        return cls(path, encoded(prepared.text), prepared)

    def place(self, line: int, column: int = 1) -> Place:
        """Where a place of the text stands in the source, or in a copybook."""
        return self.prepared.map.place(line, column) if self.prepared else Place(Origin(self.name), line, column)

    def refusal(self, told: str) -> str:
        """What the program told in place of a report, with the file and the place in that."""
        match = PLACE.search(told)
        if not match or not self.prepared:
            return f"{self.name}: {told}"
        place = self.place(int(match[1]), int(match[2] or 1))
        column = f" column {place.column}" if match[2] else ""
        return f"{place.origin.file}: {told[: match.start()]} line {place.line}{column}{told[match.end() :]}"
