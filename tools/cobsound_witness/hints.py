"""What a run compared with a field of a file may be worth standing in it."""

import re
from collections.abc import Iterator
from dataclasses import dataclass

from .fields import Field, number_bytes
from .layout import Item
from .model import Model
from .probes import Probed, Trace

MOST_READ = 60
MOST_HINTS = 16


@dataclass(frozen=True)
class Hint:
    """Contents with which a field was compared."""

    external: str
    field: Field
    content: bytes


def hints_of(trace: Trace, probed: Probed, model: Model) -> tuple[Hint, ...]:
    """The hints of a run, those of its last comparisons."""
    found: dict[Hint, None] = {}
    for number, contents in trace.compared[-MOST_READ:]:
        shown = dict(zip(probed.shown[number], contents))
        for pair in model.statements[number - 1].comparisons:
            if pair.item in shown and pair.other in shown and shown[pair.item] != shown[pair.other]:
                for hint in (*hints(model, pair.item, shown[pair.other]), *hints(model, pair.other, shown[pair.item])):
                    found.pop(hint, None)
                    found[hint] = None
    return tuple(found)[-MOST_HINTS:]


def hints(model: Model, item: Item, content: bytes) -> Iterator[Hint]:
    for file, one in model.fields_of(item):
        written = as_contents(one, content)
        if written is not None:
            yield Hint(file.external, one, written)


def as_contents(one: Field, shown: bytes) -> bytes | None:
    """The contents of a field that is shown so; None where a number isn't shown as one."""
    if not one.is_number():
        return shown[: one.length].ljust(one.length)
    match = re.fullmatch(rb"(-?)([0-9]*)\.?([0-9]*)", shown)
    if not match or not match[2] + match[3]:
        return None
    scale = one.item.scale()
    units = int(match[2] + match[3].ljust(scale, b"0")[:scale] or b"0")
    return number_bytes(one.item, -units if match[1] else units)


def relations_of(trace: Trace) -> Iterator[object]:
    """How compared items stand to each other, about how great they are: what tells runs apart that go the same ways."""
    for number, contents in trace.compared[-MOST_READ:]:
        plain = [content.strip(b"-").lstrip(b"0.") for content in contents]
        yield number, tuple((len(content), content == plain[0]) for content in plain)
