"""What of a prepared source isn't in the profile, by the table of docs/PROFILE.md: the program will refuse it."""

import functools
from collections.abc import Iterator

from cobsound_report.remarks import OUTSIDE, Reader
from cobsound_report.words import read_words

from .preparing import Prepared, encoded
from .tokens import Note


@functools.cache
def reader() -> Reader:
    return read_words().reader


def untaken(prepared: Prepared) -> Iterator[Note]:
    """What a reader sees in it, each at its place of the source, but for lines of which something is told already."""
    told = {(note.place.origin, note.place.line) for note in prepared.notes}
    for remark in reader().seen(encoded(prepared.text)).remarks:
        place = prepared.map.place(remark.spot.line, remark.spot.column)
        if remark.rule == OUTSIDE and (place.origin, place.line) not in told:
            advice = f": {remark.advice}" if remark.advice else ""
            yield Note(place, remark.message + advice)
