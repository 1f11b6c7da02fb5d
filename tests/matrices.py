"""Difference-bound matrices, linear forms, ranges and classes, answered by the program matrix_driver. What must come is
worked out here: closures by the least sums over all paths, bounds of forms by trying all their groupings, what assignments
and demands leave by those bounds, and the ends of differences by all differences of ends. Values that stand in a matrix
must stand in what is left of it. The crate's own lines have what was worked out by hand."""

import itertools
import random
import subprocess

from tests.built import program

PROGRAMS = ("matrix_driver",)

PLACES, LARGEST, NONE = 9, 10**37, 10**38

# ---- words; None is no bound


def cut(total):
    """A sum as a word: none above the largest, and the least below."""
    return None if total is None or total > LARGEST else max(total, -LARGEST)


def added(*numbers):
    return None if None in numbers else sum(numbers)


def least(numbers):
    return min((number for number in numbers if number is not None), default=None)


def off_diagonal():
    return itertools.permutations(range(PLACES), 2)


def least_over(m, sums, i, j):
    return least([sums[i][j], *(added(sums[i][k], m[k][j]) for k in range(PLACES))])


def closure(m):
    """The cut of the least sum over all paths, or None where a cycle is negative. Paths with one edge more at a time, until
    nothing is lowered: without a negative cycle eight edges suffice."""
    sums, lower = None, [row[:] for row in m]
    while lower != sums:
        if any(lower[place][place] < 0 for place in range(PLACES)):
            return None
        sums, lower = lower, [[least_over(m, lower, i, j) for j in range(PLACES)] for i in range(PLACES)]
    return [[cut(total) for total in row] for row in sums]


def lowered(m, words):
    changed = [row[:] for row in m]
    for (row, column), word in words.items():
        changed[row][column] = least([changed[row][column], word])
    return changed


# ---- forms: eight coefficients, and both ends of the constant


def sum_of(a, b):
    return [x + y for x, y in zip(a, b)]


def multiple(form, by):
    *coefs, low, high = (number * by for number in form)
    return [*coefs, min(low, high), max(low, high)]


def if_small(form):
    return form if all(abs(number) < LARGEST for number in form) else None


def without(form, *places):
    return [0 if place in places else number for place, number in enumerate(form, 1)]


def less(form, place):
    """The form less the value at a place."""
    return [number - (place == at) if at < PLACES else number for at, number in enumerate(form, 1)]


def term(m, place, coefficient):
    """A bound of the coefficient times the value, by the value's bound against 0."""
    if coefficient == 0:
        return 0
    word = m[place][0] if coefficient > 0 else m[0][place]
    return None if word is None else cut(abs(coefficient) * word)


def terms(m, form):
    return [term(m, place, coefficient) for place, coefficient in enumerate(form[:8], 1)]


def pair_bound(m, form, x, y):
    """The bound by the difference of two values, where their coefficients are opposite."""
    if form[x - 1] <= 0 or form[x - 1] + form[y - 1] != 0 or m[x][y] is None:
        return None
    return cut(added(cut(form[x - 1] * m[x][y]), *terms(m, without(form, x, y)), form[9]))


def upper(m, form):
    pairs = itertools.permutations(range(1, PLACES), 2)
    return least([cut(added(*terms(m, form), form[9])), *(pair_bound(m, form, x, y) for x, y in pairs)])


def bound_or_none(m, form):
    return None if if_small(form) is None else upper(m, form)


def assigned(m, to, form):
    left = [row[:] for row in m]
    for place in range(PLACES):
        if place != to:
            left[to][place] = bound_or_none(m, less(form, place))
            left[place][to] = bound_or_none(m, multiple(less(form, place), -1))
    return left


def demanded(m, form):
    """Each word is lowered whose two places have opposite coefficients, or one of them where the other place is 0."""
    words = {}
    for row, column in off_diagonal():
        factors = ([form[row - 1]] if row else []) + ([-form[column - 1]] if column else [])
        if factors[0] > 0 and factors[0] == factors[-1]:
            bound = upper(m, multiple(without(form, row, column), -1))
            words[row, column] = None if bound is None else bound // factors[0]
    return lowered(m, words)


# ---- values


def stand(m, values):
    return all(m[i][j] is None or values[i] - values[j] <= m[i][j] for i, j in off_diagonal())


def ends(form, values):
    total = sum(coefficient * value for coefficient, value in zip(form, values[1:]))
    return total + form[8], total + form[9]


# ---- cases: a line and the answer that must come


def numbers_of(m):
    return [NONE if word is None else word for row in m for word in row]


def written(answer):
    if answer is None:
        return "none"
    numbers = numbers_of(answer) if isinstance(answer[0], list) else answer
    return " ".join(map(str, numbers))


def case(call, numbers, answer):
    return f"{call} {' '.join(map(str, numbers))}", written(answer)


def some_values(chance):
    return [0] + [chance.randint(-20, 20) for _ in range(8)]


def some_matrix(chance, values, slack, share):
    """Bounds of some differences of the values, each up to so much greater."""
    m = [[0 if row == column else None for column in range(PLACES)] for row in range(PLACES)]
    for row, column in off_diagonal():
        if chance.random() < share:
            m[row][column] = values[row] - values[column] + chance.randint(0, slack)
    return m


def some_form(chance):
    low = chance.randint(-20, 20)
    return [*(chance.randint(-2, 2) for _ in range(8)), low, low + chance.randint(0, 3)]


def row_words(chance, values, at, slack):
    """New words for a row and for its column. A slack below 0 can make a negative cycle."""
    words = {}
    for place in range(PLACES):
        if place != at and chance.random() < 0.6:
            words[at, place] = values[at] - values[place] + chance.randint(slack, 40)
            words[place, at] = values[place] - values[at] + chance.randint(slack, 40)
    return words


def row_case(m, at, words):
    row = [words.get((at, place), NONE) for place in range(PLACES)]
    column = [words.get((place, at), NONE) for place in range(PLACES)]
    return case("row", [at, *numbers_of(m), *row, *column], closure(lowered(closure(m), words)))


def closings(chance):
    """Whole matrices, and the same changed in one row."""
    for _ in range(200):
        values, at = some_values(chance), chance.randrange(PLACES)
        m = some_matrix(chance, values, 40, chance.choice((0.2, 0.5, 1)))
        words = row_words(chance, values, at, chance.choice((0, 0, -10)))
        yield case("close", numbers_of(m), closure(m))
        yield row_case(m, at, words)
        yield case("close", numbers_of(lowered(m, words)), closure(lowered(m, words)))


def great_closings(chance):
    """Sums that are cut, in both directions."""
    for _ in range(40):
        values = [0] + [chance.randint(-LARGEST // 2, LARGEST // 2) for _ in range(8)]
        m = some_matrix(chance, values, 10**36, 0.4)
        m = [[cut(word) for word in row] for row in m]
        yield case("close", numbers_of(m), closure(m))


def storages(chance):
    """Forms over matrices in which values stand, and what they make of them."""
    for _ in range(500):
        values, form = some_values(chance), some_form(chance)
        m, to = closure(some_matrix(chance, values, 40, chance.choice((0.3, 0.7, 1)))), chance.randint(1, 8)
        numbers, (low, high) = numbers_of(m), ends(form, values)
        bound, behind, held = upper(m, form), assigned(m, to, form), demanded(m, form)
        assert bound is None or high <= bound
        for value in {low, high}:
            assert stand(behind, values[:to] + [value] + values[to + 1 :])
        assert low > 0 or stand(held, values)
        yield case("upper", numbers + form, [NONE if bound is None else bound])
        yield case("assign", [to, *numbers, *form], behind)
        yield case("demand", numbers + form, held)
        yield case("reclose", [to, *numbers, *form], closure(assigned(closure(m), to, form)))


def great_forms(chance):
    """Coefficients and constants near the limit, and terms that are cut."""
    near = (LARGEST - 1, 1 - LARGEST, LARGEST // 2, -LARGEST // 2, 5 * 10**36, 1, -1, 0, 3)
    for _ in range(60):
        values = some_values(chance)
        m = closure(some_matrix(chance, values, 40, 0.7))
        a, b = ([*(chance.choice(near) for _ in range(8)), *sorted(chance.choices(near, k=2))] for _ in range(2))
        by, to = chance.choice((*near, 2, -2)), chance.randint(1, 8)
        yield case("add", a + b, if_small(sum_of(a, b)))
        yield case("scale", [by, *a], if_small(multiple(a, by)))
        bound = upper(m, a)
        yield case("upper", numbers_of(m) + a, [NONE if bound is None else bound])
        yield case("assign", [to, *numbers_of(m), *a], assigned(m, to, a))
        yield case("demand", numbers_of(m) + a, demanded(m, a))


def small_forms(chance):
    for _ in range(40):
        a, b, by = some_form(chance), some_form(chance), chance.randint(-9, 9)
        yield case("add", a + b, sum_of(a, b))
        yield case("scale", [by, *a], multiple(a, by))


def differences(chance):
    """Of small and great ranges, whose ends have 18 digits at most."""
    for most in (3, 20, 10**18 - 1):
        for _ in range(40):
            a, b = (sorted(chance.randint(-most, most) for _ in range(2)) for _ in range(2))
            ends = [x - y for x, y in itertools.product(a, b)]
            yield case("difference", a + b, [min(ends), max(ends)])


def classes(chance):
    """Numeric is only what both know to be."""
    for a, b in itertools.product(("unknown", "numeric"), repeat=2):
        yield f"class {a} {b}", "numeric" if a == b == "numeric" else "unknown"


def cases():
    chance = random.Random(2001)
    kinds = (closings, great_closings, storages, great_forms, small_forms, differences, classes)
    return [line for kind in kinds for line in kind(chance)]


def checks():
    """One check for all lines."""

    def check():
        lines = cases()
        text = "".join(line + "\n" for line, _ in lines)
        told = subprocess.run([program("matrix_driver")], input=text, capture_output=True, text=True).stdout.splitlines()
        told += [""] * (len(lines) - len(told))
        wrong = [(line, answer, wanted) for (line, wanted), answer in zip(lines, told) if answer.strip() != wanted]
        if not wrong:
            return None
        line, answer, wanted = wrong[0]
        return f"matrix_driver: {len(wrong)} of {len(lines)} cases; {line}: {answer} in place of {wanted}"

    return [check]
