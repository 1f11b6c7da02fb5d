"""What the program said of a prepared source, with the places from which its lines come."""

import re
from collections.abc import Iterator

from .places import Map

PLACE = re.compile(r" line ([0-9]+)(?: column ([0-9]+))?$")


def placed(lines: Iterator[str], places: Map) -> Iterator[str]:
    """The lines of an answer, each that names a line of the prepared source behind its place."""
    for line in lines:
        match = PLACE.search(line.rstrip("\n"))
        if match and 1 <= int(match[1]) <= len(places.lines):
            place = places.place(int(match[1]), int(match[2] or 1))
            yield f"{place if match[2] else place.line_told()}: {line}"
        else:
            yield line
