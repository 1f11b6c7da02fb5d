"""What each part of an edge makes of what is known of differences of cells in packs, beside what is known of the cells
alone, and which faults both show not to be met (Miné 2001). A matrix has row and column 0 for the number 0, and one for
each cell; its word in row i and column j is the most by which value i is above value j, in the pack's unit, or None."""

import dataclasses
from fractions import Fraction

from tests.intervals import NEAR, OUTCOMES, Range, operand_range, product_range, root, sum_range
from tests.steps import Moment, Unreached, amount_of, sender_range
from tests.sums import decimal, exact, read_sum

LARGEST = 10**37

# ---- words


def cut(total):
    """A least sum as a word: None above the largest, and the least below."""
    return None if total is None or total > LARGEST else max(total, -LARGEST)


def added(*numbers):
    return None if None in numbers else sum(numbers)


def least(*numbers):
    return min((number for number in numbers if number is not None), default=None)


def at_most(a, b):
    return b is None or (a is not None and a <= b)


# ---- matrices


def no_bounds(cells):
    return [[0 if row == column else None for column in range(cells + 1)] for row in range(cells + 1)]


def bottom(cells):
    return [[0 if row == column else -LARGEST for column in range(cells + 1)] for row in range(cells + 1)]


def off_diagonal(m):
    return [(i, j) for i in range(len(m)) for j in range(len(m)) if i != j]


def closed(m):
    """The least sums over all paths; None where a cycle is negative."""
    sums = [row[:] for row in m]
    for k in range(len(m)):
        for i in range(len(m)):
            for j in range(len(m)):
                sums[i][j] = least(sums[i][j], added(sums[i][k], sums[k][j]))
    if any(sums[k][k] < 0 for k in range(len(m))):
        return None
    return [[cut(total) for total in row] for row in sums]


def lowered(m, words):
    changed = [row[:] for row in m]
    for (row, column), word in words.items():
        changed[row][column] = least(changed[row][column], word)
    return changed


def forgotten(m, place):
    return [[word if i == j or place not in (i, j) else None for j, word in enumerate(row)] for i, row in enumerate(m)]


# ---- forms: a coefficient for each cell, and both ends of a constant, in the pack's unit


@dataclasses.dataclass(frozen=True)
class Form:
    coefs: tuple
    low: int
    high: int

    def plus(self, other):
        return Form(tuple(map(sum, zip(self.coefs, other.coefs))), self.low + other.low, self.high + other.high)

    def times(self, by):
        ends = (self.low * by, self.high * by)
        return Form(tuple(c * by for c in self.coefs), min(ends), max(ends))

    def without(self, *places):
        return Form(tuple(0 if k in places else c for k, c in enumerate(self.coefs, 1)), self.low, self.high)

    def less(self, place):
        """The form less the value at a place, of which place 0 is the number 0."""
        coefs = tuple(c - (k == place) for k, c in enumerate(self.coefs, 1))
        return Form(coefs, self.low, self.high)

    def is_small(self):
        return all(abs(number) < LARGEST for number in (*self.coefs, self.low, self.high))

    def terms(self):
        return [(k, c) for k, c in enumerate(self.coefs, 1) if c]


def small(form):
    return form if form is not None and form.is_small() else None


def sum_of(a, b):
    return None if a is None or b is None else small(a.plus(b))


def multiple(a, by):
    return None if a is None else small(a.times(by))


def bound_of(m, place, coefficient):
    """The most of a multiple of a value, by its bound against 0."""
    word = m[place][0] if coefficient > 0 else m[0][place]
    return None if word is None else cut(abs(coefficient) * word)


def upper(m, form):
    """The least bound of a form: every cell against 0, or one pair of opposite coefficients by its difference."""
    if small(form) is None:
        return None
    bounds = [cut(added(*(bound_of(m, k, c) for k, c in form.terms()), form.high))]
    for x, c in form.terms():
        for y, d in form.terms():
            if c > 0 and c == -d:
                pair = None if m[x][y] is None else cut(c * m[x][y])
                others = form.without(x, y).terms()
                bounds.append(cut(added(pair, *(bound_of(m, k, e) for k, e in others), form.high)))
    return least(*bounds)


def assigned(m, x, form):
    """The words of a cell that gets what a form is."""
    changed = [row[:] for row in m]
    for place in range(len(m)):
        if place != x:
            changed[x][place] = upper(m, form.less(place))
            changed[place][x] = upper(m, form.less(place).times(-1))
    return changed


def demands(m, form):
    """By which words a matrix is lowered where a form is at most 0."""
    words = {}
    for x, c in form.terms():
        for j in (0, *(k for k, d in form.terms() if d == -c)):
            bound = upper(m, form.without(x, j).times(-1))
            if bound is not None:
                words[(x, j) if c > 0 else (j, x)] = bound // abs(c)
    return words


# ---- packs


@dataclasses.dataclass(frozen=True)
class Pack:
    """The numbers of its cells from 0 on, and their homes."""

    cells: tuple
    homes: tuple
    scales: tuple

    @property
    def scale(self):
        return max(self.scales)

    def place_of(self, home):
        return self.homes.index(home) + 1 if home in self.homes else None

    def unit_of(self, place):
        return 10 ** (self.scale - self.scales[place - 1])

    # ---- matrices

    def put(self, m, row):
        """Lowered to what is known of each cell alone, and closed."""
        words = {}
        for place, cell in enumerate(self.cells, 1):
            if row[cell]:
                words[place, 0] = row[cell].high * self.unit_of(place)
                words[0, place] = -row[cell].low * self.unit_of(place)
        return closed(lowered(m, words))

    # ---- forms

    def constant(self, a):
        """A range, widened outwards to whole units."""
        if a is None:
            return None
        low, high = (end * 10**self.scale for end in a.fractions())
        return small(Form((0,) * len(self.cells), low.__floor__(), high.__ceil__()))

    def cell(self, place):
        return Form(tuple(int(k == place) for k in range(1, len(self.cells) + 1)), 0, 0)

    def home_form(self, home, range_of):
        place = self.place_of(home)
        return self.cell(place) if place else self.constant(range_of(home))

    def operand_form(self, operand, range_of):
        if isinstance(operand, list):
            return self.sum_form(operand, range_of)
        if is_item(operand):
            return self.home_form(operand, range_of)
        return self.constant(operand_range(operand, range_of))

    def product_form(self, factors, range_of):
        *front, (divides, minus, operand) = factors
        total = product_range(factors, range_of)
        if total is None or all(is_literal(factor[2]) for factor in factors):
            return self.constant(total)
        if not front:
            form = self.operand_form(operand, range_of)
            return multiple(form, -1) if minus else form
        by = whole_factor(factors[-1])
        if by is not None:
            return multiple(self.product_form(front, range_of), by)
        by = whole_factor(front[0]) if len(front) == 1 else None
        if by is not None and not divides:
            return multiple(self.operand_form(operand, range_of), -by if minus else by)
        return self.constant(total)

    def sum_form(self, parts, range_of):
        total = Form((0,) * len(self.cells), 0, 0)
        for subtracted, factors in parts:
            form = self.product_form(factors, range_of)
            total = sum_of(total, multiple(form, -1) if subtracted else form)
        return total


def is_item(operand):
    return isinstance(operand, str) and operand.startswith("i")


def is_literal(operand):
    return isinstance(operand, str) and not is_item(operand)


def whole_factor(factor):
    """The whole number that a factor multiplies by, if it is such a literal."""
    divides, minus, operand = factor
    if divides or not is_literal(operand):
        return None
    value = exact(decimal(operand)) * (-1 if minus else 1)
    return int(value) if value.denominator == 1 else None


def whole_literal(parts):
    """The whole number that a sum is, if it is one literal."""
    match parts:
        case [(subtracted, [factor])]:
            by = whole_factor(factor)
            return -by if by is not None and subtracted else by
    return None


def items_of(parts):
    for _, factors in parts:
        for _, _, operand in factors:
            if isinstance(operand, list):
                yield from items_of(operand)
            elif is_item(operand):
                yield operand


# ---- a store


def error_of(mode, is_whole, not_negative, not_positive, unit):
    """Between which numbers lies what a store adds by dropping decimals."""
    if is_whole or (not_negative and not_positive):
        return 0, 0
    if mode == "cut" and not_negative:
        return -unit, 0
    if mode == "cut" and not_positive:
        return 0, unit
    return -unit, unit


def is_low(bound):
    return bound is not None and bound <= 0


def stored(pack, m, x, item, mode, form, result):
    """The matrix behind a store of what a form is, whose exact range is known."""
    if form is None:
        return forgotten(m, x)
    low, high = result.fractions()
    not_negative = low >= 0 or is_low(upper(m, form.times(-1)))
    not_positive = high <= 0 or is_low(upper(m, form))
    less, more = error_of(mode, result.scale <= item.scale, not_negative, not_positive, pack.unit_of(x))
    form = Form(form.coefs, form.low + less, form.high + more)
    if item.is_signed:
        return assigned(m, x, form)
    kept, turned = assigned(m, x, form), assigned(m, x, form.times(-1))
    if not_negative and not_positive:
        return [list(map(least, *rows)) for rows in zip(kept, turned)]
    return kept if not_negative else turned if not_positive else forgotten(m, x)


# ---- walking over the parts of an edge


class Beside(Moment):
    """What is known between two parts of an edge: of the cells, and a matrix for each pack."""

    def __init__(self, given, edge, row, packs, matrices):
        super().__init__(given, edge, row)
        self.packs, self.wrote = packs, []
        self.matrices = self.closed_by_row(matrices)

    def closed_by_row(self, matrices):
        lower = [pack.put(m, self.row) for pack, m in zip(self.packs, matrices)]
        if None in lower:
            raise Unreached
        return lower

    def step(self, k):
        word, *words = self.edge.parts[k]
        change = getattr(self, f"{word}_differences", None)
        changed = [change(k, pack, m, *words) if change else m for pack, m in zip(self.packs, self.matrices)]
        super().step(k)
        self.wrote += self.written_by(word, words)
        self.matrices = self.closed_by_row(changed)

    # ---- what is written

    def written_by(self, word, words):
        if word == "store" and self.keeps_receiver():
            return []
        if word == "store":
            return [(self.given.items[words[0]].offset, self.given.items[words[0]].length)]
        return [(int(words[0]), int(words[1]))] if word == "bytes" else []

    def is_written(self, homes):
        return any(self.given.items[home].meets(*area) for home in homes for area in self.wrote)

    # ---- forms of amounts

    def kept(self, pack, k):
        """The operands as a constant, as they were when they were taken."""
        self.take()
        return None if self.taken[k].under is not None else pack.constant(self.taken[k].top)

    def sender_form(self, pack, k, sender):
        if not is_item(sender):
            return pack.constant(sender_range(sender, self.units_of))
        return self.kept(pack, k) if self.is_written([sender]) else pack.home_form(sender, self.units_of)

    def operands_form(self, pack, k, parts):
        if self.is_written(items_of(parts)):
            return self.kept(pack, k)
        return pack.sum_form(parts, self.units_of)

    def product_with_own(self, pack, k, home, parts):
        by = whole_literal(parts)
        if by is not None:
            return multiple(pack.home_form(home, self.units_of), by)
        self.take()
        return pack.constant(self.exact_result(k))

    def amount_form(self, pack, k, home, amount):
        own = pack.home_form(home, self.units_of)
        match amount.how:
            case "moved":
                return self.sender_form(pack, k, amount.operand)
            case "augmented":
                return sum_of(own, self.sender_form(pack, k, amount.operand))
            case "whole":
                is_root = root(amount.operand) is not None
                return None if is_root else self.operands_form(pack, k, amount.operand)
            case "plus":
                return sum_of(own, self.operands_form(pack, k, amount.operand))
            case "minus":
                return sum_of(own, multiple(self.operands_form(pack, k, amount.operand), -1))
            case "times":
                return self.product_with_own(pack, k, home, amount.operand)
        return None

    def exact_result(self, k):
        """The range of what is to be stored, before decimals are dropped."""
        self.take()
        _, home, _, *words = self.edge.parts[k]
        amount, taken = amount_of(*words), self.taken[k]
        return amount.result(taken, self.units_of(home)) if taken.is_there(amount.divides()) else None

    # ---- parts

    def store_differences(self, k, pack, m, home, mode, *words):
        item, amount = self.given.items[home], amount_of(*words)
        units, x = self.results(k), pack.place_of(home)
        fits = units is not None and fits_somewhere(item, units)
        if self.keeps_receiver():
            return m
        if self.edge.is_handled() and self.may_fail(item, units, amount):
            return self.forgotten_over(pack, m, item) if fits else m
        if x and fits:
            m = stored(pack, m, x, item, mode, self.amount_form(pack, k, home, amount), self.exact_result(k))
        return self.forgotten_over(pack, m, item, but=home)

    def forgotten_over(self, pack, m, item, but=None):
        return self.bytes_differences(None, pack, m, item.offset, item.length, but)

    def bytes_differences(self, k, pack, m, offset, length, but=None):
        for place, home in enumerate(pack.homes, 1):
            is_item = not home.startswith("count") and home != but
            if is_item and self.given.items[home].meets(int(offset), int(length)):
                m = forgotten(m, place)
        return m

    def counted(self, pack, m, number, form):
        x = pack.place_of(f"count {number}")
        if not x:
            return m
        return forgotten(m, x) if form is None else assigned(m, x, form)

    def set_count_differences(self, k, pack, m, number, sender):
        self.take()
        return self.counted(pack, m, number, self.sender_form(pack, k, sender))

    def lowered_form(self, pack, number):
        return sum_of(pack.home_form(f"count {number}", self.units_of), pack.constant(Range(-1, -1)))

    def count_down_differences(self, k, pack, m, number):
        return self.counted(pack, m, number, self.lowered_form(pack, number))

    # ---- tests

    def guard_count_differences(self, k, pack, m, wanted, number):
        form = pack.home_form(f"count {number}", self.units_of)
        return ordered(m, pack, form, OUTCOMES[">", wanted == "true"], True)

    def guard_differences(self, k, pack, m, wanted, kind, *words):
        if kind != "number":
            return m
        bars = [at for at, word in enumerate(words) if word == "|"]
        sides = read_sum(list(words[: bars[0]])), read_sum(list(words[bars[1] + 1 :]))
        ranges = [sum_range(side, self.units_of) for side in sides]
        if None in ranges:
            return m
        left, right = (pack.sum_form(side, self.units_of) for side in sides)
        is_fine = all(a.scale <= pack.scale for a in ranges)
        outcome = OUTCOMES[words[bars[0] + 1], wanted == "true"]
        return ordered(m, pack, sum_of(left, multiple(right, -1)), outcome, is_fine)

    # ---- what is cleared

    def shown(self, test, forms):
        """Whether the bound of a form passes the test in some pack."""
        pairs = zip(self.packs, self.matrices, forms)
        return any((bound := upper(m, form)) is not None and test(pack, bound) for pack, m, form in pairs)

    def ends_fit(self, digits, scale, mode, units, forms):
        most = 10**digits - 1

        def high_fits(pack, bound):
            return NEAR[mode](Fraction(bound, 10**pack.scale), scale) <= most

        negative = [multiple(form, -1) for form in forms]
        return (units.high <= most or self.shown(high_fits, forms)) and (
            -most <= units.low or self.shown(high_fits, negative)
        )

    def clears(self, k, kind):
        if super().clears(k, kind):
            return True
        word, *words = self.edge.parts[k]
        if kind == "ZERO" and word == "divide":
            forms = [pack.sum_form(read_sum(list(words)), self.units_of) for pack in self.packs]
            negative = [multiple(form, -1) for form in forms]
            return any(self.shown(lambda _, bound: bound < 0, each) for each in (forms, negative))
        if word == "store" and kind != "CLASS":
            item, amount = self.given.items[words[0]], amount_of(*words[2:])
            forms = [self.amount_form(pack, k, words[0], amount) for pack in self.packs]
            return self.ends_fit(item.digits, item.scale, words[1], self.results(k), forms)
        if word == "set_count" and kind == "SIZE":
            forms = [self.sender_form(pack, k, words[1]) for pack in self.packs]
            return self.ends_fit(18, 0, "cut", self.taken[k].top, forms)
        if word == "count_down" and kind == "SIZE":
            forms = [self.lowered_form(pack, words[0]) for pack in self.packs]
            return self.ends_fit(18, 0, "cut", self.lowered(words[0]), forms)
        return False


def fits_somewhere(item, units):
    most = 10**item.digits - 1
    return units.low <= most and -most <= units.high


def ordered(m, pack, form, outcome, is_fine):
    """The matrix where a form stands so to 0. Demands look at it as it was."""
    one = pack.constant(Range(1, 1, pack.scale))
    below = sum_of(form, one) if is_fine else form
    turned = multiple(form, -1)
    above = sum_of(turned, one) if is_fine else turned
    wanted = {
        "at most": [form],
        "below": [below],
        "at least": [turned],
        "above": [above],
        "equal": [form, turned],
        "differs": [],
    }[outcome]
    kept = m
    for demand in wanted:
        if demand is not None:
            kept = lowered(kept, demands(m, demand))
    return kept


def moments(given, edge, row, packs, matrices):
    """The moment before each part that a run may come to, and None behind the last."""
    try:
        moment = Beside(given, edge, row, packs, matrices)
        for k in range(len(edge.parts)):
            yield k, moment
            moment.step(k)
    except Unreached:
        return
    yield None, moment


def post(given, edge, row, packs, matrices):
    """The matrices behind an edge. Where no run passes it nothing is left in any pack."""
    if row is not None:
        for k, moment in moments(given, edge, row, packs, matrices):
            if k is None and not (edge.is_handled() and not moment.may_have_failed):
                return moment.matrices
    return [bottom(len(pack.cells)) for pack in packs]


def clears(given, node, kind, row, packs, matrices):
    if row is None:
        return True
    for edge in given.edges:
        if edge.source == node:
            for k, moment in moments(given, edge, row, packs, matrices):
                if k is not None and not moment.clears(k, kind):
                    return False
    return True


def entry(row, packs):
    """The matrices where a run begins, by what is known of the cells there."""
    lower = [pack.put(no_bounds(len(pack.cells)), row) for pack in packs]
    return [bottom(len(pack.cells)) for pack in packs] if None in lower else lower
