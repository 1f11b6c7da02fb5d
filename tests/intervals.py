"""Ranges of decimals: what operations, stores and tests make of them, in exact numbers."""

import dataclasses
from fractions import Fraction

from tests.sums import NEAR, decimal

# ---- ranges: the numbers from one to another, in units of a scale


@dataclasses.dataclass(frozen=True)
class Range:
    low: int
    high: int
    scale: int = 0

    def holds(self, units):
        return self.low <= units <= self.high

    def at(self, scale):
        """Its ends in units of a finer scale."""
        up = 10 ** (scale - self.scale)
        return self.low * up, self.high * up

    def fractions(self):
        """Its ends."""
        return Fraction(self.low, 10**self.scale), Fraction(self.high, 10**self.scale)

    def telling(self):
        """All its numbers, where they are few; else those among which each operation has its least and its greatest
        result: the ends, and what is next to 0."""
        if self.high - self.low < 12:
            return range(self.low, self.high + 1)
        return [units for units in (self.low, -1, 1, self.high) if self.holds(units)]


def point(text):
    units, scale = decimal(text)
    return Range(units, units, scale)


def hull(units, scale):
    return Range(min(units), max(units), scale)


def negative(a):
    return Range(-a.high, -a.low, a.scale)


def plus(a, b):
    scale = max(a.scale, b.scale)
    (low, high), (less, more) = a.at(scale), b.at(scale)
    return Range(low + less, high + more, scale)


def times(a, b):
    return hull([x * y for x in a.telling() for y in b.telling()], a.scale + b.scale)


def over(a, b, scale, mode):
    """The quotients over the divisors that aren't 0, cut or rounded at a scale; None where there are none."""
    up = Fraction(10) ** (b.scale - a.scale)
    units = [NEAR[mode](Fraction(x, y) * up, scale) for x in a.telling() for y in b.telling() if y != 0]
    return hull(units, scale) if units else None


# ---- sums, operation by operation


def operand_range(operand, range_of):
    if isinstance(operand, list):
        return sum_range(operand, range_of)
    return range_of(operand) if operand.startswith("i") else point(operand)


def product_range(factors, range_of):
    total = Range(1, 1)
    for divides, minus, operand in factors:
        a = operand_range(operand, range_of)
        if a is None:
            return None
        a = negative(a) if minus else a
        total = over(total, a, max(6, total.scale, a.scale), "cut") if divides else times(total, a)
        if total is None:
            return None
    return total


def sum_range(parts, range_of):
    """None where a divisor is 0 alone."""
    total = Range(0, 0)
    for subtracted, factors in parts:
        a = product_range(factors, range_of)
        if a is None:
            return None
        total = plus(total, negative(a) if subtracted else a)
    return total


def root(parts):
    """What a quotient that is the last operation divides, and by what."""
    (subtracted, factors), *others = parts
    divides, minus, operand = factors[-1]
    if others or subtracted or not divides:
        return None
    return factors[:-1], [(False, [(False, minus, operand)])]


def lone_item(parts):
    """The item that a side is, alone and without a sign."""
    match parts:
        case [(False, [(False, False, str(item))])] if item.startswith("i"):
            return item
    return None


# ---- stores


def near(mode, scale, a):
    if a is None:
        return None
    return Range(*(NEAR[mode](end, scale) for end in a.fractions()), scale)


def rest(top, under, scale):
    """What is divided less divisor times cut quotient. Its size stays below that of the greatest divisor, times one unit
    of the quotient."""
    quotient = over(top, under, scale, "cut")
    if quotient is None:
        return None
    a = plus(top, negative(times(under, quotient)))
    most = max(map(abs, Range(under.low, under.high, under.scale + scale).at(a.scale))) - 1
    return Range(max(a.low, -most), min(a.high, most), a.scale)


def exceeds(digits, units):
    most = 10**digits - 1
    return units.low < -most or most < units.high


def fitted(digits, is_signed, units):
    """What a receiver holds behind a store that fits; None where none does."""
    most = 10**digits - 1
    low, high = max(units.low, -most), min(units.high, most)
    if low > high:
        return None
    if not is_signed:
        low, high = max(0, low, -high), max(-low, high)
    return Range(low, high, units.scale)


# ---- tests

OUTCOMES = {
    ("=", True): "equal",
    ("=", False): "differs",
    ("<", True): "below",
    ("<", False): "at least",
    (">", True): "above",
    (">", False): "at most",
    (">=", True): "at least",
    (">=", False): "below",
    ("<=", True): "at most",
    ("<=", False): "above",
}

TURNED = {"below": "above", "above": "below", "at least": "at most", "at most": "at least"}


def ceiling(value):
    return -(-value.numerator // value.denominator)


def between(a, low, high):
    """Those numbers of a that lie between two fractions, None where there are none."""
    up = 10**a.scale
    low = a.low if low is None else max(a.low, ceiling(low * up))
    high = a.high if high is None else min(a.high, (high * up).__floor__())
    return Range(low, high, a.scale) if low <= high else None


def unequal(a, low, high):
    """a without its numbers between two fractions, where they stand at its ends."""
    least, most = a.fractions()
    inner = between(a, low, high)
    if inner is None:
        return a
    low = inner.high + 1 if low <= least else a.low
    high = inner.low - 1 if most <= high else a.high
    return Range(low, high, a.scale) if low <= high else None


def equal(a, b):
    """Those numbers of a that are numbers of b, between the least and the greatest."""
    scale = min(a.scale, b.scale)
    step = 10 ** (a.scale - scale)
    common = between(Range(-(-a.low // step), a.high // step, scale), *b.fractions())
    return common and Range(common.low * step, common.high * step, a.scale)


def cut(a, outcome, b):
    """The least interval of those numbers of a beside which some number of b stands so; None where there are none."""
    low, high = b.fractions()
    unit = Fraction(1, 10**a.scale)
    match outcome:
        case "equal":
            return equal(a, b)
        case "differs":
            return a if low < high else unequal(a, low, high)
        case "at least":
            return between(a, low, None)
        case "at most":
            return between(a, None, high)
        case "above":
            return between(a, (low / unit).__floor__() * unit + unit, None)
        case "below":
            return between(a, None, ceiling(high / unit) * unit - unit)


def met(a, b):
    if a is None or b is None:
        return None
    low, high = max(a.low, b.low), min(a.high, b.high)
    return Range(low, high, a.scale) if low <= high else None
