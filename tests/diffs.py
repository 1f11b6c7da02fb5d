"""What edges of a program's control graph make of differences of cells in packs, beside what is known of the cells, and
which faults both show not to be met, answered by the program layer_driver for random rows and matrices. What must come
is worked out by `differences`, from what each part of an edge does. Of two cases of which one knows at least as much as
the other, its answer does too.

The gate tries the programs that are made for this, and one of fifteen others; `--large` has all tried, with more than
20,000 pairs of cases."""

import json
import random
import sys

from tests import differences
from tests.built import CASES
from tests.differences import LARGEST, Pack, at_most, no_bounds, off_diagonal
from tests.edges import KINDS, answers, met_with_own, random_cell, random_number, words_of
from tests.graphs import shown
from tests.intervals import Range

PROGRAMS = ("layer_driver",)

# ---- packs


def scale_of(given, home):
    return 0 if home.startswith("count") else given.items[home].scale


def pack_of(given, cells):
    homes = tuple(given.homes[cell] for cell in cells)
    return Pack(tuple(cells), homes, tuple(scale_of(given, home) for home in homes))


def mentioned(given, edges):
    """The numbers of the cells that parts of edges name."""
    words = [part for edge in edges for part in edge.parts]
    homes = {word for part in words for word in part}
    homes |= {f"count {part[1]}" for part in words if part[0] in ("set_count", "count_down")}
    return [cell for cell, home in enumerate(given.homes) if home in homes]


def random_packs(chance, given, edges):
    named, packs = mentioned(given, edges), []
    for _ in range(chance.choice((1, 1, 2, 3))):
        size = min(len(given.cells), chance.choices(range(2, 9), (60, 60, 20, 4, 2, 2, 2))[0])
        some = chance.sample(named, min(len(named), size, chance.choice((0, 1, 2, 8, 8, 8, 8, 8))))
        others = [cell for cell in range(len(given.cells)) if cell not in some]
        packs.append(pack_of(given, sorted(some + chance.sample(others, size - len(some)))))
    return packs


def words_of_pack(pack):
    return ".".join(str(cell + 1) for cell in pack.cells)


# ---- rows and matrices


def near_number(chance, own, unit):
    """A range that is narrow, and often near 0."""
    low = chance.choice((0, 0, unit, -unit, 10 * unit, random_number(chance, own)))
    low = min(max(own.low, low), own.high)
    return Range(low, min(own.high, low + chance.choice((0, 1, unit, 9 * unit, 40 * unit))), own.scale)


def random_row(chance, given):
    return [
        near_number(chance, own, 10**own.scale) if chance.random() < 0.6 else random_cell(chance, own)
        for own in given.cells
    ]


def slack(chance, unit):
    return chance.choice((0, 0, 0, 1, -1, unit, 2 * unit, chance.randint(0, 9 * unit), 100 * unit))


def random_matrix(chance, given, pack, row):
    """Bounds of differences of values that the row lets be; now and then one that contradicts them."""
    units = [pack.unit_of(place) for place in range(1, len(pack.cells) + 1)]
    ranges = [row[cell] or given.cells[cell] for cell in pack.cells]
    values = [0] + [chance.randint(a.low, max(a.low, a.high)) * unit for a, unit in zip(ranges, units)]
    share, m = chance.choice((0.1, 0.4, 0.8)), no_bounds(len(pack.cells))
    for i, j in off_diagonal(m):
        if chance.random() < share:
            word = values[i] - values[j] + max(slack(chance, max(units)), -(chance.random() < 0.03))
            m[i][j] = chance.choice((LARGEST, LARGEST - 1, -LARGEST)) if chance.random() < 0.003 else word
    return m


def words_of_matrices(matrices):
    return " ".join("-" if word is None else str(word) for m in matrices for row in m for word in row)


# ---- what knows at least as much


def narrower(chance, own, a):
    if a is None:
        return near_number(chance, own, 10**own.scale) if chance.random() < 0.3 else None
    low = chance.randint(a.low, a.high) if a.low < a.high and chance.random() < 0.3 else a.low
    high = chance.randint(low, a.high) if low < a.high and chance.random() < 0.3 else a.high
    return Range(low, high, a.scale)


def lower_matrix(chance, given, pack, row, m):
    other = random_matrix(chance, given, pack, row) if chance.random() < 0.1 else no_bounds(len(pack.cells))
    lower = [row[:] for row in m]
    for i, j in off_diagonal(m):
        word = m[i][j] if m[i][j] is None else max(-LARGEST, m[i][j] - (chance.random() < 0.1))
        lower[i][j] = differences.least(word, other[i][j])
    return lower


def is_below(a, b):
    return all(at_most(x, y) for m, n in zip(a, b) for row, other in zip(m, n) for x, y in zip(row, other))


# ---- cases: a line for the driver, and what must come

ROWS_OF_EDGE = 4
ROWS_OF_NODE = 4


def written(call, packs, row, matrices):
    words = [words_of(row), words_of_matrices(matrices)]
    return " | ".join([call, " ".join(map(words_of_pack, packs)), *words])


def random_case(chance, given, edges):
    packs, row = random_packs(chance, given, edges), random_row(chance, given)
    return packs, row, [random_matrix(chance, given, pack, row) for pack in packs]


def lower_case(chance, given, packs, row, matrices):
    row = [narrower(chance, own, a) for own, a in zip(given.cells, row)]
    return row, [lower_matrix(chance, given, pack, row, m) for pack, m in zip(packs, matrices)]


def post_case(given, number, edge, packs, row, matrices):
    wanted = differences.post(given, edge, met_with_own(given, row), packs, matrices)
    return written(f"post {number}", packs, row, matrices), words_of_matrices(wanted)


def edge_pairs(chance, given):
    """Pairs of cases, of which the first knows at least as much."""
    for number, edge in enumerate(given.edges, 1):
        for _ in range(ROWS_OF_EDGE if edge.parts else 1):
            packs, row, matrices = random_case(chance, given, [edge])
            lower = lower_case(chance, given, packs, row, matrices)
            yield post_case(given, number, edge, packs, *lower), post_case(given, number, edge, packs, row, matrices)


def clears_case(given, node, kind, packs, row, matrices):
    told = differences.clears(given, node, kind, met_with_own(given, row), packs, matrices)
    return written(f"clears {node} {kind}", packs, row, matrices), str(told).lower()


def open_kinds(given, node):
    """The kinds of faults that a node may meet where nothing is known."""
    unknown = [None] * len(given.cells)
    return [kind for kind in KINDS if not differences.clears(given, node, kind, unknown, [], [])]


def node_pairs(chance, given):
    for node in range(1, given.nodes + 1):
        edges = [edge for edge in given.edges if edge.source == node]
        # the others are asked for once
        for kinds in [KINDS] + [open_kinds(given, node)] * (ROWS_OF_NODE - 1):
            packs, row, matrices = random_case(chance, given, edges)
            lower = lower_case(chance, given, packs, row, matrices)
            for kind in kinds:
                yield tuple(clears_case(given, node, kind, packs, *each) for each in (lower, (row, matrices)))


def words_in(answer):
    return [None if word == "-" else int(word) for word in answer.split()]


def keeps_order(first, second):
    """Whether the answer to what knows more tells at least as much."""
    if second in ("true", "false"):
        return first == "true" or second == "false"
    pairs = zip(words_in(first), words_in(second), strict=True)
    return all(at_most(a, b) for a, b in pairs)


def pairs_of(name, given):
    chance = random.Random(name)
    return [*edge_pairs(chance, given), *node_pairs(chance, given)] if len(given.cells) > 1 else []


def wrong_among(pairs, came):
    cases = [case for pair in pairs for case in pair]
    if len(came) != len(cases):
        yield f"{len(came)} answers to {len(cases)} cases"
        return
    for (line, wanted), answer in zip(cases, came):
        if answer != wanted:
            yield f"{answer!r} in place of {wanted!r} to {line}"
    for k, (_, (line, _)) in enumerate(pairs):
        if not keeps_order(came[2 * k], came[2 * k + 1]):
            yield f"{came[2 * k]!r} isn't at most {came[2 * k + 1]!r} to {line}"


def told(name, source):
    """What is wrong with the answers for a source."""
    given = shown(answers(source, ["show"]))
    pairs = pairs_of(name, given)
    came = answers(source, [line for pair in pairs for line, _ in pair])
    wrong = list(wrong_among(pairs, came))
    return f"{name}: {len(wrong)} wrong, the first: {wrong[0]}" if wrong else None


# One of so many programs that aren't made for this is tried.
SHARE = 1 if "--large" in sys.argv[1:] else 15


def programs():
    for file, share in (("differences.jsonl", 1), ("edges.jsonl", SHARE), ("analyses.jsonl", SHARE)):
        for number, line in enumerate((CASES / file).open(), 1):
            if number % share == 0:
                yield f"{file} {number}", json.loads(line)["source"]


def checks():
    for given in programs():
        yield lambda given=given: told(*given)
