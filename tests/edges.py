"""What edges of a program's control graph make of what is known of its cells, and which faults that shows not to be
met, answered by the program layer_driver for random rows; likewise a part of a subscript, which no edge has, behind an
edge's own. What must come is worked out by `steps`, from what each part does, in exact numbers; that of
edges_by_rule.jsonl by hand."""

import dataclasses
import json
import pathlib
import random
import subprocess
import tempfile

from tests.built import CASES, program
from tests.graphs import shown
from tests.intervals import Range, hull, met
from tests.reference import cases_of
from tests.steps import behind, clears, post, spares

PROGRAMS = ("layer_driver",)

KINDS = ("SIZE", "TRUNCATION", "ZERO", "CLASS", "SUBSCRIPT")

# ---- rows


def met_with_own(given, row):
    """None where nothing is left of a cell."""
    cells = [a and met(a, own) for a, own in zip(row, given.cells)]
    return None if any(a and not b for a, b in zip(row, cells)) else cells


def words_of(row):
    if row is None:
        return "unreached"
    return " ".join(f"{a.low} {a.high}" if a else "- -" for a in row)


def random_number(chance, own):
    near = [own.low, own.high, 0, 1, -1, 10**own.scale, *(chance.randint(own.low, own.high) for _ in range(3))]
    return chance.choice([units for units in near if own.holds(units)])


def random_cell(chance, own):
    kinds = {"unknown": 200, "zero": 60, "own": 100, "wider": 20, "outside": 3, "narrow": 220, "any": 400}
    match chance.choices(list(kinds), kinds.values())[0]:
        case "unknown":
            return None
        case "zero":
            return Range(0, 0, own.scale)
        case "own":
            return own
        case "wider":
            return Range(own.low - 1, own.high + 1, own.scale)
        case "outside":
            return Range(own.high + 1, own.high + 2, own.scale)
        case "narrow":
            low = random_number(chance, own)
            return Range(low, min(own.high, low + chance.randint(0, 12)), own.scale)
    return hull([random_number(chance, own), random_number(chance, own)], own.scale)


def random_row(chance, given):
    return [random_cell(chance, own) for own in given.cells]


# ---- cases: a line for the driver, and what must come

ROWS_OF_EDGE = 6
ROWS_OF_NODE = 3


def edge_cases(chance, given):
    for number, edge in enumerate(given.edges, 1):
        for _ in range(ROWS_OF_EDGE if edge.parts else 1):
            row = random_row(chance, given)
            cells = met_with_own(given, row)
            yield f"post {number} | {words_of(row)}", words_of(cells and post(given, edge, cells))


def node_cases(chance, given):
    for node in range(1, given.nodes + 1):
        for _ in range(ROWS_OF_NODE):
            row = random_row(chance, given)
            cells = met_with_own(given, row)
            for kind in KINDS:
                told = cells is None or clears(given, node, kind, cells)
                yield f"clears {node} {kind} | {words_of(row)}", str(told).lower()


COUNTS = (1, 2, 3, 5, 9, 10, 40, 99, 100, 500, 1000)


def subscript_part(chance, homes):
    """A part that no edge has by itself."""
    last, home = chance.choice(("true", "false")), chance.choice(homes)
    return chance.choice((["subscript", last, home], ["index", last, home, str(chance.choice(COUNTS))]))


def part_cases(chance, given):
    homes = [home for home, item in given.items.items() if item.is_number()]
    for number, edge in enumerate(given.edges, 1) if homes else ():
        for _ in range(ROWS_OF_EDGE):
            part, row = subscript_part(chance, homes), random_row(chance, given)
            cells = met_with_own(given, row)
            longer = dataclasses.replace(edge, parts=[*edge.parts, part])
            case = f"{' '.join(part)} | {words_of(row)}"
            yield f"part {number} {case}", words_of(cells and behind(given, longer, cells))
            kind = chance.choice(KINDS)
            told = cells is None or spares(given, longer, kind, cells)
            yield f"spared {number} {kind} {case}", str(told).lower()


def answers(source, lines):
    """The driver's answers."""
    with tempfile.TemporaryDirectory() as folder:
        path = pathlib.Path(folder, "S")
        path.write_text(source, "latin-1")
        given = "".join(f"{line}\n" for line in lines).encode()
        done = subprocess.run([program("layer_driver"), path], input=given, capture_output=True)
    return done.stdout.decode().split("\n")[:-1]


def told(name, source):
    """What is wrong with the answers for a source."""
    given = shown(answers(source, ["show"]))
    chance = random.Random(name)
    cases = [*edge_cases(chance, given), *node_cases(chance, given), *part_cases(chance, given)]
    came = answers(source, [line for line, _ in cases])
    pairs = [(line, wanted, answer) for (line, wanted), answer in zip(cases, came) if answer != wanted]
    wrong = [f"{answer!r} in place of {wanted!r} to {line}" for line, wanted, answer in pairs]
    if not cases or len(came) != len(cases):
        wrong.append(f"{len(came)} answers to {len(cases)} cases")
    return f"{name}: {len(wrong)} wrong, the first: {wrong[0]}" if wrong else None


def told_by_rule(name, case):
    came = answers(case["source"], case["lines"])
    return None if came == case["answers"] else f"{name}: {came} in place of {case['answers']}"


def checks():
    for name, case in cases_of("edges_by_rule.jsonl"):
        yield lambda given=(name, case): told_by_rule(*given)
    for number, line in enumerate((CASES / "edges.jsonl").open(), 1):
        source = json.loads(line)["source"]
        yield lambda given=(f"edges.jsonl {number}", source): told(*given)
