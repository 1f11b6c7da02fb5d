"""What each part of an edge makes of what is known of a program's cells, and which faults that shows not to be met
(Cousot and Cousot 1977). An edge's parts are walked in turn."""

import dataclasses
import itertools
import typing

from tests.intervals import (
    OUTCOMES,
    TURNED,
    Range,
    between,
    cut,
    equal,
    exceeds,
    fitted,
    hull,
    lone_item,
    met,
    near,
    negative,
    operand_range,
    over,
    plus,
    point,
    product_range,
    rest,
    root,
    sum_range,
    times,
    unequal,
)
from tests.sums import read_sum

# ---- senders and what they are worth


def is_text(sender):
    return sender.startswith(("text", "fill"))


def sender_range(sender, range_of):
    if sender == "zero":
        return Range(0, 0)
    if sender.startswith("text"):
        return point(bytes(int(byte) for byte in sender.split(".")[1:]).decode("latin-1"))
    return operand_range(sender, range_of)


# ---- what a receiver is to get


@dataclasses.dataclass(frozen=True)
class Taken:
    """The operands of an amount, as they were before the first part that writes: a range, or what is divided and by
    what."""

    top: typing.Optional[Range]
    under: typing.Optional[Range] = None

    def is_there(self, divides):
        return self.top is not None and (self.under is not None or not divides)


@dataclasses.dataclass(frozen=True)
class Amount:
    how: str
    operand: typing.Any
    scale: int = 0

    def divides(self):
        return self.how in ("whole", "rest") and root(self.operand) is not None

    def taken(self, range_of):
        if self.how in ("moved", "augmented"):
            return Taken(sender_range(self.operand, range_of))
        if self.divides():
            above, below = root(self.operand)
            return Taken(product_range(above, range_of), sum_range(below, range_of))
        return Taken(sum_range(self.operand, range_of))

    def units(self, taken, own, scale, mode):
        """The least interval of results in units of the receiver's scale; None where there are none, since a divisor
        is 0 alone."""
        if not taken.is_there(self.divides()):
            return None
        if self.how == "under":
            return over(own, taken.top, scale, mode)
        if self.how == "whole" and self.divides():
            return over(taken.top, taken.under, scale, mode)
        return near(mode, scale, self.result(taken, own))

    def result(self, taken, own):
        match self.how:
            case "plus" | "augmented":
                return plus(own, taken.top)
            case "minus":
                return plus(own, negative(taken.top))
            case "times":
                return times(own, taken.top)
            case "rest":
                return rest(taken.top, taken.under, self.scale)
        return taken.top


def amount_of(how, *words):
    if how in ("moved", "augmented"):
        return Amount(how, words[0])
    if how == "rest":
        return Amount(how, read_sum(list(words[1:])), int(words[0]))
    return Amount(how, read_sum(list(words)))


# ---- values and ranges of values


def inside(a, low, high, range_of):
    """Those numbers of a that can lie between the ends. One item for both ends is one number."""
    if low == high:
        return equal(a, sender_range(low, range_of))
    return between(a, sender_range(low, range_of).fractions()[0], sender_range(high, range_of).fractions()[1])


def surely_inside(low, high, range_of):
    """Between which numbers none can lie outside; None where there are no such."""
    a, b = sender_range(low, range_of), sender_range(high, range_of)
    if low == high:
        return a.fractions() if a.low == a.high else None
    least, most = a.fractions()[1], b.fractions()[0]
    return (least, most) if least <= most else None


def member_kept(a, wanted, pairs, range_of):
    """The least interval of the numbers that can lie in one of the ranges, or in none."""
    if wanted:
        found = [kept for pair in pairs if (kept := inside(a, *pair, range_of))]
        return hull([end for kept in found for end in (kept.low, kept.high)], a.scale) if found else None
    sure = sorted(ends for pair in pairs if (ends := surely_inside(*pair, range_of)))
    for ends in [*sure, *reversed(sure)] * len(sure):
        a = a and unequal(a, *ends)
    return a


# ---- walking over the parts of an edge


class Unreached(Exception):
    """No run passes the part."""


class Moment:
    """What is known between two parts of an edge: a range in each cell, or None."""

    def __init__(self, given, edge, row):
        self.given, self.edge, self.row = given, edge, list(row)
        self.taken, self.may_divide_by_zero, self.may_have_failed = None, False, False

    # ---- cells

    def units_of(self, home):
        place = self.given.place_of(home)
        if place is None:
            return self.given.items[home].own()
        return self.row[place] or self.given.cells[place]

    def know(self, home, a):
        place = self.given.place_of(home)
        if place is not None:
            self.row[place] = a

    def is_known(self, home):
        place = self.given.place_of(home)
        return place is not None and self.row[place] is not None

    def forget(self, offset, length):
        for place, home in enumerate(self.given.homes):
            if not home.startswith("count") and self.given.items[home].meets(offset, length):
                self.row[place] = None

    def reaches(self, a):
        if a is None:
            raise Unreached
        return a

    # ---- operands

    def take(self):
        """Operands are taken before the first part that writes."""
        if self.taken is None:
            amounts = [amount_in(part) for part in self.edge.parts]
            self.taken = [amount and amount.taken(self.units_of) for amount in amounts]

    def results(self, k):
        """The units of what the store is to put into its receiver, None where there are none."""
        self.take()
        _, home, mode, *words = self.edge.parts[k]
        scale = self.given.items[home].scale
        return amount_of(*words).units(self.taken[k], self.units_of(home), scale, mode)

    # ---- parts

    def read(self, k, home):
        if not (self.edge.is_handled() and self.may_divide_by_zero):
            self.know(home, self.units_of(home))

    def may_not_come(self, last):
        """The turn of what a subscript belongs to."""
        return self.may_divide_by_zero or last == "true" and self.may_have_failed

    def subscript(self, k, last, home):
        if not self.may_not_come(last):
            self.know(home, self.units_of(home))

    def index(self, k, last, home, count):
        if not self.may_not_come(last):
            a = self.units_of(home)
            self.know(home, self.reaches(met(a, Range(1, int(count), a.scale))))

    def read_count(self, k, number):
        self.know(f"count {number}", self.units_of(f"count {number}"))

    def divide(self, k, *words):
        a = sum_range(read_sum(list(words)), self.units_of)
        if self.edge.is_handled():
            self.may_divide_by_zero |= a is None or a.holds(0)
        elif a is None or a.low == a.high == 0:
            raise Unreached

    def keeps_receiver(self):
        """On the edge to ON SIZE ERROR of one receiver, without REMAINDER, that one has failed."""
        return self.edge.is_handled() and [part[0] for part in self.edge.parts].count("store") == 1

    def store(self, k, home, mode, *words):
        item = self.given.items[home]
        units = self.results(k)
        new = None if self.keeps_receiver() else units and fitted(item.digits, item.is_signed, units)
        kept = list(self.row)
        if self.edge.is_handled() and self.may_fail(item, units, amount_of(*words)):
            self.may_have_failed = True
            if new is None:
                return
            self.put(home, new)
            self.row = [joined(a, b) for a, b in zip(kept, self.row)]
        else:
            self.put(home, self.reaches(new))

    def may_fail(self, item, units, amount):
        is_left_alone = amount.how == "rest" and self.may_have_failed
        return self.may_divide_by_zero or is_left_alone or units is None or exceeds(item.digits, units)

    def put(self, home, new):
        item = self.given.items[home]
        self.forget(item.offset, item.length)
        if item.is_number():
            self.know(home, new)

    def bytes(self, k, offset, length):
        self.take()
        self.forget(int(offset), int(length))

    def set_count(self, k, number, sender):
        self.take()
        self.know(f"count {number}", self.reaches(fitted(18, True, self.taken[k].top)))

    def lowered(self, number):
        return plus(self.units_of(f"count {number}"), Range(-1, -1))

    def count_down(self, k, number):
        self.know(f"count {number}", self.reaches(fitted(18, True, self.lowered(number))))

    def guard_count(self, k, wanted, number):
        outcome = OUTCOMES[">", wanted == "true"]
        self.know(f"count {number}", self.reaches(cut(self.units_of(f"count {number}"), outcome, Range(0, 0))))

    def guard(self, k, wanted, kind, *words):
        wanted = wanted == "true"
        if kind == "number":
            self.compare(wanted, *(list(side) for bar, side in itertools.groupby(words, "|".__ne__) if bar))
        elif kind == "member":
            self.choose(wanted, *words)
        elif kind == "numeric" and wanted:
            self.know(words[0], self.units_of(words[0]))
        elif kind == "numeric" and self.is_known(words[0]) or kind == "always" and not wanted:
            raise Unreached

    def compare(self, wanted, left, relation, right):
        """Both sides are cut from the moment before."""
        left, right = read_sum(left), read_sum(right)
        outcome = OUTCOMES[relation[0], wanted]
        a, b = (self.reaches(sum_range(side, self.units_of)) for side in (left, right))
        x, y = self.reaches(cut(a, outcome, b)), self.reaches(cut(b, TURNED.get(outcome, outcome), a))
        left, right = lone_item(left), lone_item(right)
        if left and left == right:
            x = y = self.reaches(met(x, y))
        for home, kept in ((left, x), (right, y)):
            if home:
                self.know(home, kept)

    def choose(self, wanted, home, *pairs):
        pairs = [tuple(pair.split(":")) for pair in pairs]
        if not self.are_numbers([home, *itertools.chain(*pairs)]):
            return
        self.know(home, self.reaches(member_kept(self.units_of(home), wanted, pairs, self.units_of)))

    def are_numbers(self, words):
        return all(self.given.items[word].is_number() if word.startswith("i") else not is_text(word) for word in words)

    # ---- what is cleared

    def lies_in_table(self, home, count):
        a = self.units_of(home)
        return 1 <= a.low and a.high <= count

    def clears(self, k, kind):
        word, *words = self.edge.parts[k]
        if kind == "CLASS":
            homes = {"read": words, "subscript": words[1:], "read_count": [f"count {number}" for number in words]}
            return word != "unread" and all(self.is_known(home) for home in homes.get(word, ()))
        if kind == "SUBSCRIPT":
            return word != "index" or self.lies_in_table(words[1], int(words[2]))
        if self.edge.has_phrase:
            return True
        if kind == "ZERO" and word == "divide":
            a = sum_range(read_sum(words), self.units_of)
            return a is None or not a.holds(0)
        if word == "store" and kind == ("TRUNCATION" if words[2] == "moved" else "SIZE"):
            units = self.results(k)
            return units is None or not exceeds(self.given.items[words[0]].digits, units)
        if kind == "SIZE" and word == "set_count":
            self.take()
            return not exceeds(18, self.taken[k].top)
        if kind == "SIZE" and word == "count_down":
            return not exceeds(18, self.lowered(words[0]))
        return True

    def step(self, k):
        word, *words = self.edge.parts[k]
        if word == "unread":
            raise Unreached
        getattr(self, word)(k, *words)


def amount_in(part):
    """What a part that stores takes."""
    word, *words = part
    if word == "set_count":
        return Amount("moved", words[1])
    return amount_of(*words[2:]) if word == "store" else None


def joined(a, b):
    return hull([a.low, a.high, b.low, b.high], a.scale) if a and b else None


def moments(given, edge, row):
    """The moment before each part that a run may come to, and None behind the last."""
    moment = Moment(given, edge, row)
    for k in range(len(edge.parts)):
        yield k, moment
        try:
            moment.step(k)
        except Unreached:
            return
    yield None, moment


def post(given, edge, row):
    """What the edge makes of the row, None where no run passes it."""
    for k, moment in moments(given, edge, row):
        if k is None and not (edge.is_handled() and not moment.may_have_failed):
            return moment.row
    return None


def behind(given, edge, row):
    """What all parts of the edge make of the row, None where no run passes them."""
    for k, moment in moments(given, edge, row):
        if k is None:
            return moment.row
    return None


def spares(given, edge, kind, row):
    """Whether no fault of the kind is met at the edge's last part."""
    last = len(edge.parts) - 1
    return all(moment.clears(k, kind) for k, moment in moments(given, edge, row) if k == last)


def clears(given, node, kind, row):
    edges = [edge for edge in given.edges if edge.source == node]
    return all(k is None or moment.clears(k, kind) for edge in edges for k, moment in moments(given, edge, row))
