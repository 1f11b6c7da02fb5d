"""A plain reader of certificates' text, by the lines that the guide tells: the first line with which none goes on."""

import re

NUMBER = rb"(0|[1-9][0-9]*)"
VALUE = rb"(0|-?[1-9][0-9]*)"
COUNT_END = 2**32
CLAIM_END = 10**18
MOST_BOUND = 10**37
MOST_PACKS, MOST_IN_PACK = 32, 8


class Refused(Exception):
    """Its line is one with which no certificate goes on."""


def whole_lines(text):
    return text.split(b"\n")[:-1]


class Reader:
    """Reads whole lines one by one."""

    def __init__(self, text):
        self.text = text
        self.lines = whole_lines(text)
        self.at = 0

    def refuse(self):
        raise Refused(self.at + 1)

    def matched(self, pattern, is_right=lambda *numbers: True):
        """The numbers of the line here, which must be of this form."""
        match = re.fullmatch(pattern, self.lines[self.at]) if self.at < len(self.lines) else None
        numbers = [int(group) for group in match.groups()] if match else []
        if not match or not is_right(*numbers):
            self.refuse()
        self.at += 1
        return numbers

    def is_next(self, word):
        return self.at < len(self.lines) and self.lines[self.at].startswith(word + b" ")

    def pack(self, cells):
        """The number of cells of a pack."""
        words = rb"pack(?: (?:0|[1-9][0-9]*)){2,%d}" % MOST_IN_PACK
        line = self.lines[self.at] if self.at < len(self.lines) else b""
        numbers = [int(word) for word in line.split(b" ")[1:]] if re.fullmatch(words, line) else []
        if not numbers or numbers != sorted(set(numbers)) or not 1 <= numbers[0] <= numbers[-1] <= cells:
            self.refuse()
        self.at += 1
        return len(numbers)

    def node(self, number, cells, packs):
        if self.at < len(self.lines) and self.lines[self.at] == b"none %d" % number:
            self.at += 1
            return
        self.matched(b"node %d" % number)
        last = 0
        while self.is_next(b"c"):
            last, _, _ = self.matched(
                rb"c %b %b %b" % (NUMBER, VALUE, VALUE),
                lambda cell, low, high: last < cell <= cells and -CLAIM_END < low <= high < CLAIM_END,
            )
        self.bounds(packs)

    def bounds(self, packs):
        last = (0, 0, 0)
        while self.is_next(b"d"):
            *place, _ = self.matched(
                rb"d %b %b %b %b" % (NUMBER, NUMBER, NUMBER, VALUE),
                lambda pack, row, column, most: last < (pack, row, column)
                and pack <= len(packs)
                and pack > 0
                and max(row, column) <= packs[pack - 1]
                and row != column
                and abs(most) <= MOST_BOUND,
            )
            last = tuple(place)

    def read(self):
        """The numbers of cells, of nodes and of packs."""
        self.matched(rb"COBSOUND 1")
        (cells,) = self.matched(rb"cells " + NUMBER, lambda count: count < COUNT_END)
        (nodes,) = self.matched(rb"nodes " + NUMBER, lambda count: count < COUNT_END)
        (count,) = self.matched(rb"packs " + NUMBER, lambda count: count <= MOST_PACKS and (cells > 1 or not count))
        packs = [self.pack(cells) for _ in range(count)]
        for number in range(1, nodes + 1):
            self.node(number, cells, packs)
        self.matched(rb"end")
        if not self.text.endswith(b"end\n") or self.at < len(self.lines):
            self.refuse()
        return cells, nodes, count


def refusal_of(text, cells, nodes):
    """The line that a certificate is refused with before its claims are looked at, for a program of so many cells and
    nodes; nothing where it isn't."""
    try:
        found_cells, found_nodes, _packs = Reader(text).read()
    except Refused as refused:
        return f"E12 line {refused}"
    if found_cells != cells:
        return f"E13 cells found {found_cells} wanted {cells}"
    if found_nodes != nodes:
        return f"E13 nodes found {found_nodes} wanted {nodes}"
    return None
