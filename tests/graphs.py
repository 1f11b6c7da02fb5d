"""Programs and their control graphs, as layer_driver shows them."""

import dataclasses

from tests.intervals import Range


@dataclasses.dataclass(frozen=True)
class Item:
    offset: int
    length: int
    kind: str
    digits: int
    scale: int
    is_signed: bool

    def meets(self, offset, length):
        return self.offset < offset + length and offset < self.offset + self.length

    def own(self):
        return own_range(self.digits, self.is_signed, self.scale)

    def is_number(self):
        return self.kind == "number"


def own_range(digits, is_signed, scale=0):
    most = 10**digits - 1
    return Range(-most if is_signed else 0, most, scale)


def item_of(offset, length, kind, digits=None, scale="0", sign="unsigned"):
    return Item(int(offset), int(length), kind, int(digits or length), int(scale), sign == "signed")


@dataclasses.dataclass
class Edge:
    source: int
    target: int
    action: str
    has_phrase: bool
    parts: list

    def is_handled(self):
        """It goes to the list of ON SIZE ERROR."""
        return self.action == "Size" and self.has_phrase


@dataclasses.dataclass
class Shown:
    items: dict
    cells: list
    homes: list
    nodes: int
    edges: list

    def place_of(self, home):
        """The number of a home's cell, if it has one."""
        return self.homes.index(home) if home in self.homes else None


def shown(lines):
    """Items by their words, cells as own ranges, homes as items' words and `count` with the statement's number."""
    items, cells, homes, edges, nodes = {}, [], [], [], 0
    for line in lines:
        word, *fields = line.split()
        if word == "item":
            items[f"i{fields[0]}"] = item_of(*fields[1:])
        elif word == "cell":
            homes.append(fields[0])
            cells.append(own_range(int(fields[1]), fields[3] == "signed", int(fields[2])))
        elif word == "nodes":
            nodes = int(fields[0])
        elif word == "edge":
            source, target, action, _, phrase = fields
            edges.append(Edge(int(source), int(target), action, phrase == "phrase", []))
        elif word == "part":
            edges[-1].parts.append(fields)
    return Shown(items, cells, with_counters(homes, edges), nodes, edges)


def with_counters(homes, edges):
    """Counters stand in the order of their statements, of which each has an edge that sets its own."""
    numbers = sorted({int(part[1]) for edge in edges for part in edge.parts if part[0] == "set_count"})
    counters = iter(f"count {number}" for number in numbers)
    return [next(counters) if home == "count" else home for home in homes]
