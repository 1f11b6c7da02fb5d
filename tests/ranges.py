"""Ranges of numbers, answered by the program range_driver: those of sums, what tests leave of items, and what stores
make of them. What must come is worked out here from the language's rules, by brute force over all values of items of
one and two digits; where the ends are greater, from the corners alone."""

import dataclasses
import functools
import itertools
import subprocess
from fractions import Fraction

from tests.built import program
from tests.sums import NEAR, at_scale, decimal, exact, read_sum

PROGRAMS = ("range_driver",)

# ---- operations on decimals


def plus(a, b):
    scale = max(a[1], b[1])
    return a[0] * 10 ** (scale - a[1]) + b[0] * 10 ** (scale - b[1]), scale


def times(a, b):
    return a[0] * b[0], a[1] + b[1]


def over(a, b):
    """An inner quotient: it is cut at six decimals, or more where an operand has more."""
    scale = max(6, a[1], b[1])
    return at_scale(exact(a) / exact(b), scale), scale


def negative(a):
    return -a[0], a[1]


# ---- items, each with its digits, its scale, and the least and the greatest of its units


@dataclasses.dataclass(frozen=True)
class Item:
    digits: int
    scale: int
    low: int
    high: int

    def word(self):
        return f"{self.digits},{self.scale},{self.low},{self.high}"

    def values(self):
        return [(units, self.scale) for units in range(self.low, self.high + 1)]


ITEMS = {
    "A": Item(1, 0, 0, 9),
    "B": Item(1, 0, -9, 9),
    "C": Item(2, 0, -99, 99),
    "D": Item(2, 1, 0, 99),
    "E": Item(2, 1, -99, 99),
    "F": Item(2, 2, 0, 99),
    "G": Item(1, 1, -9, 9),
    "H": Item(1, 0, 2, 5),
    "I": Item(1, 0, -3, -1),
    "J": Item(2, 0, 10, 20),
    "K": Item(1, 0, -2, 4),
    "L": Item(1, 0, 0, 0),
    "M": Item(2, 1, -5, 15),
    "N": Item(1, 1, 1, 9),
}


# ---- sums


def letters(text):
    """The items of a text, each once, in their order."""
    return list(dict.fromkeys(word for word in text.replace(":", " ").split() if word in ITEMS))


def placed(text, places):
    """The text with places for letters."""
    names = {letter: f"i{place}" for place, letter in enumerate(places)}
    return " ".join(":".join(names.get(end, end) for end in word.split(":")) for word in text.split())


def operand_value(operand, values):
    if isinstance(operand, list):
        return sum_value(operand, values)
    return values[operand] if operand in values else decimal(operand)


def product_value(factors, values):
    total = (1, 0)
    for divides, minus, operand in factors:
        value = operand_value(operand, values)
        value = negative(value) if minus else value
        total = over(total, value) if divides else times(total, value)
    return total


def sum_value(parts, values):
    total = (0, 0)
    for subtracted, factors in parts:
        value = product_value(factors, values)
        total = plus(total, negative(value) if subtracted else value)
    return total


def stored_value(parts, values):
    """What is stored of a sum: a quotient that is its last operation stays exact."""
    (subtracted, factors), *others = parts
    divides, minus, operand = factors[-1]
    if others or subtracted or not divides:
        return exact(sum_value(parts, values))
    divisor = operand_value(operand, values)
    return exact(product_value(factors[:-1], values)) / exact(negative(divisor) if minus else divisor)


def all_values(text, value):
    """What a sum is worth for all values of its items, without those for which a divisor is 0, and whether there are
    such."""
    places, parts = letters(text), read_sum(text.split())
    found, vanishes = [], False
    for chosen in itertools.product(*(ITEMS[letter].values() for letter in places)):
        try:
            found.append(value(parts, dict(zip(places, chosen))))
        except ZeroDivisionError:
            vanishes = True
    return found, vanishes


def described(places):
    return " ".join(ITEMS[letter].word() for letter in places)


def sum_line(text):
    places = letters(text)
    return f"sum | {described(places)} | {placed(text, places)}"


# No item stands twice in these, and no divisor that is worked out holds 0 between numbers that it can be.
LEAST_SUMS = (
    "A",
    "~ B",
    "A + B",
    "A - B",
    "C + D",
    "C - E",
    "D + F - 12.345",
    "A * B",
    "B * K",
    "C * G",
    "E * M",
    "I * K",
    "~ I * H",
    "A + B * K",
    "~ A * B + D",
    "( A + B ) * K",
    "( A - 9 ) * ( B + 1 )",
    "C / H",
    "C / B",
    "E / ~ H",
    "A / K",
    "J / I * G",
    "( C + A ) / H",
    "A * 2.5 - B * -0.01",
    "C / 7",
    "C / -0.03",
    "M / N + K",
    "( A / H - G ) * I",
    "A / L",
    "A / ( H - 1 )",
    "L / B",
    "A * ( B / ( K + 3 ) )",
    "F / 0.0000003",
    "A / H / I",
)

# An item stands twice in these, or a divisor is worked out whose range has more numbers than it can be.
HELD_SUMS = (
    "A - A",
    "B * B",
    "C * C - C",
    "B / B",
    "( A + B ) / B",
    "A / ( B * K )",
    "A / ( 2 * B )",
    "K * ( K - 2 )",
    "J / ( K * K + 1 )",
    "A / ( B / J )",
    "( A - H ) / ( H - A )",
    "A / ( A + 1 )",
)


def sums():
    for text in LEAST_SUMS:
        found, vanishes = all_values(text, sum_value)
        told = f"{min(found)[0]} {max(found)[0]} {found[0][1]}" if found else "none"
        yield text, sum_line(text), f"{told} {str(vanishes).lower()}".__eq__


def holds_all(text):
    found, vanishes = all_values(text, sum_value)

    def is_held(answer):
        low, high, scale, may_vanish = answer.split()
        units = [units for units, _ in found]
        is_within = int(low) <= min(units) and max(units) <= int(high)
        return is_within and int(scale) == found[0][1] and (may_vanish == "true" or not vanishes)

    return is_held


def held_sums():
    for text in HELD_SUMS:
        yield text, sum_line(text), holds_all(text)


# ---- tests

RELATIONS = {
    "=": lambda x, y: x == y,
    "<": lambda x, y: x < y,
    ">": lambda x, y: x > y,
    ">=": lambda x, y: x >= y,
    "<=": lambda x, y: x <= y,
}

SIDES = (
    ("K", "H"),
    ("H", "K"),
    ("K", "M"),
    ("M", "K"),
    ("D", "4.95"),
    ("0.0", "G"),
    ("F", "G"),
    ("C", "1.5"),
    ("E", "J"),
    ("L", "0"),
    ("I", "A"),
    ("M", "0"),
    ("B", "-9"),
    ("A", "9"),
    ("H", "J - 8"),
    ("G", "( B )"),
    ("~ K", "H"),
)


def side_values(text):
    """A side as fractions. Each number of its range counts, whether the sum can be it or not."""
    found = [value for value, _ in all_values(text, sum_value)[0]], all_values(text, sum_value)[0][0][1]
    return [(units, found[1]) for units in range(min(found[0]), max(found[0]) + 1)]


def kept(text, places, numbers):
    """How what is left of a side is told, which is an item or isn't."""
    if text not in ITEMS:
        return "-"
    units = [units for units, _ in numbers]
    return f"i{places.index(text)} {min(units)} {max(units)}"


def guards():
    for (left, right), relation, wanted in itertools.product(SIDES, RELATIONS, (True, False)):
        xs, ys = side_values(left), side_values(right)
        standing = [
            (x, y) for x in xs for y in ys if RELATIONS[relation](*both_at_one_scale(x, y)) == wanted
        ]
        places = letters(f"{left} {right}")
        words = f"{placed(left, places)} | {relation} | {placed(right, places)}"
        line = f"guard | {described(places)} | {str(wanted).lower()} | {words}"
        told = "none"
        if standing:
            told = f"{kept(left, places, [x for x, _ in standing])} {kept(right, places, [y for _, y in standing])}"
        yield f"{left} {relation} {right}, {wanted}", line, told.__eq__


def both_at_one_scale(x, y):
    scale = max(x[1], y[1])
    return x[0] * 10 ** (scale - x[1]), y[0] * 10 ** (scale - y[1])


MEMBERS = (
    ("A", "3:7"),
    ("A", "7:3"),
    ("A", "0:4 6:9"),
    ("A", "0:9"),
    ("A", "3:4 1:2"),
    ("A", "0:2 2:9"),
    ("A", "0:3 5:9 4:4"),
    ("B", "-9:-2 3.5:9"),
    ("D", "H:J"),
    ("D", "H:H"),
    ("D", "4:H"),
    ("M", "-0.45:1.449"),
    ("M", "K:0.7"),
    ("G", "I:0 N:9"),
    ("C", "E:E"),
    ("F", "0.015:0.985"),
    ("L", "0:0"),
    ("L", "1:2"),
    ("J", "K:H"),
)


def end_values(end):
    return ITEMS[end].values() if end in ITEMS else [decimal(end)]


def is_possible(x, pair, wanted):
    """Whether the number can lie between the ends, or outside. An item that is both ends is one number."""
    low, high = pair.split(":")
    ends = itertools.product(end_values(low), end_values(high))
    if low == high:
        ends = ((end, end) for end in end_values(low))
    return any((exact(a) <= exact(x) <= exact(b)) == wanted for a, b in ends)


def is_member(x, pairs, wanted):
    """In one of the ranges, or outside of each."""
    quantifier = any if wanted else all
    return quantifier(is_possible(x, pair, wanted) for pair in pairs)


def members():
    for (item, ranges), wanted in itertools.product(MEMBERS, (True, False)):
        places = letters(f"{item} {ranges}")
        words = f"{placed(item, places)} | {placed(ranges, places)}"
        line = f"member | {described(places)} | {str(wanted).lower()} | {words}"
        found = [x for x in ITEMS[item].values() if is_member(x, ranges.split(), wanted)]
        told = f"{kept(item, places, found)} -" if found else "none"
        yield f"{item} in {ranges}, {wanted}", line, told.__eq__


# ---- stores, of ranges as their least and greatest units and their scale


def fitted(units, receiver):
    """What a receiver holds behind a store of the numbers from one to another, and whether one may not fit."""
    digits, _, sign = receiver
    most = 10**digits - 1
    low, high = max(min(units), -most), min(max(units), most)
    may_fail = str(min(units) < -most or most < max(units)).lower()
    if low > high:
        return f"none {may_fail}"
    if sign == "unsigned":
        low, high = max(0, low, -high), max(-low, high)
    return f"{low} {high} {may_fail}"


def corners(a):
    """Its ends, and the numbers next to 0 that it has."""
    low, high, scale = a
    return [Fraction(units, 10**scale) for units in sorted({low, high, *(n for n in (-1, 1) if low <= n <= high)})]


def numbers(a):
    """All of them, where there are few, else the corners: there each operation has its least and greatest result."""
    low, high, scale = a
    if high - low < 200:
        return [Fraction(units, 10**scale) for units in range(low, high + 1)]
    return corners(a)


HOWS = {
    "plus": lambda own, operand: own + operand,
    "minus": lambda own, operand: own - operand,
    "times": lambda own, operand: own * operand,
}


@functools.lru_cache(None)
def amounts(how, own, top, under):
    """The exact values that a receiver may be to get."""
    if how in HOWS:
        return {HOWS[how](x, y) for x in numbers(own) for y in numbers(top)}
    above, below = (top, under) if how == "whole" else (own, top)
    if below is None:
        return numbers(above)
    return {n / d for n in numbers(above) for d in numbers(below) if d != 0}


def stored(mode, receiver, found):
    return fitted([NEAR[mode](value, receiver[1]) for value in found], receiver) if found else "none false"


def word(fields):
    return ",".join(map(str, fields))


E18, E37 = 10**18 - 1, 10**37 - 1

# The receiver; how it gets what; its own range, the operand's, and the divisor's, if there is one.
STORES = (
    ((2, 0, "signed"), "whole", None, (-155, 155, 1), None),
    ((2, 0, "unsigned"), "whole", None, (-155, 49, 1), None),
    ((2, 0, "unsigned"), "whole", None, (-155, -44, 1), None),
    ((2, 1, "signed"), "whole", None, (-95, 95, 2), None),
    ((3, 2, "signed"), "whole", None, (-9, 12, 0), None),
    ((1, 0, "signed"), "whole", None, (10, 20, 0), None),
    ((1, 0, "signed"), "whole", None, (-20, -9, 0), None),
    ((1, 0, "unsigned"), "whole", None, (94, 95, 1), None),
    ((1, 1, "signed"), "whole", None, (-99, 99, 2), None),
    ((2, 0, "signed"), "whole", None, (-20, 99, 0), (-7, 3, 0)),
    ((2, 1, "unsigned"), "whole", None, (-20, 99, 0), (-7, 3, 1)),
    ((3, 2, "signed"), "whole", None, (1, 2, 0), (3, 3, 0)),
    ((3, 2, "signed"), "whole", None, (1, 2, 2), (-6, -3, 1)),
    ((2, 0, "signed"), "whole", None, (1, 9, 0), (0, 0, 0)),
    ((2, 0, "signed"), "whole", None, (-5, 5, 3), (0, 20, 3)),
    ((4, 3, "signed"), "whole", None, (2, 2, 0), (3, 9, 0)),
    ((2, 0, "signed"), "plus", (-99, 99, 0), (5, 15, 1), None),
    ((2, 0, "unsigned"), "plus", (0, 99, 0), (-105, 4, 1), None),
    ((2, 1, "signed"), "minus", (-99, 99, 1), (-15, 5, 2), None),
    ((2, 1, "unsigned"), "minus", (0, 99, 1), (0, 99, 1), None),
    ((2, 1, "signed"), "times", (-99, 99, 1), (-15, 12, 1), None),
    ((3, 0, "signed"), "times", (-99, 99, 0), (-150, 250, 2), None),
    ((2, 0, "signed"), "under", (-99, 99, 0), (-3, 8, 0), None),
    ((2, 1, "unsigned"), "under", (1, 99, 1), (6, 8, 0), None),
    ((18, 0, "signed"), "whole", None, (-E18, E18, 0), None),
    ((18, 0, "signed"), "whole", None, (-10 * E18, 10 * E18 + 5, 1), None),
    ((18, 0, "unsigned"), "whole", None, (-E18 - 1, E18 + 1, 0), None),
    ((18, 18, "signed"), "whole", None, (-E18, E18, 18), None),
    ((18, 0, "signed"), "whole", None, (-E37, E37, 0), None),
    ((18, 0, "signed"), "whole", None, (-E37, E37, 37), None),
    ((18, 18, "unsigned"), "whole", None, (-E37, E37, 37), None),
    ((18, 0, "signed"), "whole", None, (-E37, E37, 19), None),
    ((18, 0, "signed"), "whole", None, (-E37, E37, 0), (-E18, E18, 0)),
    ((18, 18, "signed"), "whole", None, (1, E37, 37), (3, E37, 37)),
    ((18, 0, "signed"), "plus", (-E18, E18, 0), (-E18, E18, 0), None),
    ((18, 0, "signed"), "times", (-E18, E18, 0), (-E18, E18, 0), None),
    ((18, 9, "unsigned"), "under", (-E18, E18, 9), (-E18, E18, 18), None),
    ((1, 0, "signed"), "whole", None, (E37, E37, 37), None),
)

NO_RANGE = (0, 0, 0)


def stores():
    for (receiver, how, own, top, under), mode in itertools.product(STORES, NEAR):
        operands = f"{how} {word(own or NO_RANGE)} {word(top)}" + (f" {word(under)}" if under else "")
        line = f"store | {mode} {word(receiver)} | {operands}"
        yield line, line, stored(mode, receiver, amounts(how, own, top, under)).__eq__


# ---- remainders: the receiver, what is divided, the divisor, and the scale of the quotient

RESTS = (
    ((2, 0, "signed"), (0, 99, 0), (7, 7, 0), 0),
    ((2, 0, "unsigned"), (0, 999, 0), (100, 100, 0), 0),
    ((2, 0, "signed"), (-99, 99, 0), (-9, 9, 0), 0),
    ((2, 0, "unsigned"), (-99, 50, 0), (-9, 9, 0), 0),
    ((3, 2, "signed"), (0, 99, 0), (3, 8, 0), 1),
    ((4, 2, "signed"), (-99, 99, 1), (-15, 25, 1), 1),
    ((4, 3, "unsigned"), (0, 9, 0), (1, 99, 1), 2),
    ((2, 0, "signed"), (5, 9, 0), (0, 0, 0), 0),
    ((2, 0, "signed"), (0, 3, 0), (7, 9, 0), 0),
    ((1, 0, "signed"), (-99, 99, 0), (50, 60, 0), 0),
    ((2, 1, "signed"), (-55, -45, 1), (2, 4, 0), 0),
    ((18, 0, "signed"), (-E18, E18, 0), (-E18, E18, 0), 0),
)


def product(a, b):
    found = [x * y for x in a for y in b]
    return min(found), max(found)


@functools.lru_cache(None)
def rests_within(top, under, scale):
    """What is divided less divisor times cut quotient, each whatever it can be; but less than the greatest divisor,
    times one unit of the quotient, by one unit of the remainder's own scale."""
    below = [d for d in corners(under) if d != 0]
    if not below:
        return []
    quotients = [Fraction(at_scale(n / d, scale), 10**scale) for n in numbers(top) for d in numbers(under) if d != 0]
    ends = [Fraction(units, 10 ** under[2]) for units in under[:2]]
    low, high = product(ends, (min(quotients), max(quotients)))
    limit = Fraction(max(map(abs, ends)), 10**scale) - Fraction(1, 10 ** max(top[2], under[2] + scale))
    least, greatest = (Fraction(units, 10 ** top[2]) for units in top[:2])
    return [max(least - high, -limit), min(greatest - low, limit)]


@functools.lru_cache(None)
def all_rests(top, under, scale):
    pairs = itertools.product(numbers(top), numbers(under))
    return {n - d * Fraction(at_scale(n / d, scale), 10**scale) for n, d in pairs if d != 0}


def is_rest_held(mode, receiver, top, under, scale):
    """The range holds each remainder that fits, and is the one that the rule gives."""
    within = rests_within(top, under, scale)
    wanted = stored(mode, receiver, within)
    most = 10 ** receiver[0] - 1
    units = [NEAR[mode](value, receiver[1]) for value in all_rests(top, under, scale)]
    held = [abs(unit) if receiver[2] == "unsigned" else unit for unit in units if abs(unit) <= most]

    def is_right(answer):
        if held and not int(answer.split()[0]) <= min(held) <= max(held) <= int(answer.split()[1]):
            return False
        return answer == wanted and (answer.endswith("true") or len(held) == len(units))

    return is_right


def rests():
    for (receiver, top, under, scale), mode in itertools.product(RESTS, NEAR):
        line = f"rest | {mode} {word(receiver)} | {word(top)} {word(under)} {scale}"
        yield line, line, is_rest_held(mode, receiver, top, under, scale)


# ---- sums that are stored

STORED_SUMS = (
    ((2, 0, "signed"), "C / H"),
    ((2, 1, "signed"), "C / B"),
    ((3, 2, "unsigned"), "A / ~ K"),
    ((2, 0, "signed"), "A * B / 7"),
    ((4, 2, "signed"), "( A + B ) / I"),
    ((2, 1, "signed"), "C / H * G"),
    ((3, 2, "signed"), "2 / 3"),
    ((3, 2, "signed"), "2 / 3 + 0"),
    ((1, 0, "unsigned"), "A - B"),
    ((2, 1, "unsigned"), "M / N / H"),
    ((2, 0, "signed"), "A / L"),
    ((18, 10, "signed"), "J / 0.7"),
)


def stored_sums():
    for (receiver, text), mode in itertools.product(STORED_SUMS, NEAR):
        places = letters(text)
        line = f"compute | {mode} {word(receiver)} | {described(places)} | {placed(text, places)}"
        yield text, line, stored(mode, receiver, all_values(text, stored_value)[0]).__eq__


# ---- all cases


def told(name, line, answer, is_right):
    return None if is_right(answer) else f"{name}: {answer!r} to {line}"


def checks():
    cases = list(itertools.chain(sums(), held_sums(), guards(), members(), stores(), rests(), stored_sums()))
    lines = "".join(f"{line}\n" for _, line, _ in cases)
    done = subprocess.run([program("range_driver")], input=lines.encode(), capture_output=True)
    answers = done.stdout.decode().split("\n")
    answers += [""] * (len(cases) - len(answers))
    for (name, line, is_right), answer in zip(cases, answers):
        yield lambda given=(name, line, answer, is_right): told(*given)
