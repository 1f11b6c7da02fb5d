"""The plain slow step, whose contract is the language's meaning, does what the interpreter does.

The program slow_run is tried on every program of `programs` that is run with no more words than its source, and must
answer as is told there. And both are run side by side on the samples and on the sources of the reference cases, with
files and without: status, text and files must be the same.
"""

import dataclasses
import itertools
import random
import re

from tests import programs
from tests.built import ROOT, program, program_path, ran
from tests.reference import cases_of

PROGRAMS = ("slow_run",)

# The ends of a run that the meaning knows: by itself, by a fault, by a status that nothing handles.
ENDS = (0, 1, 11)

# slow_run stops behind as many steps as a run without `--steps`.
SPENT = 10

REFERENCES = ("checked.jsonl", "straight.jsonl", "thin.jsonl", "certified_by_rule.jsonl", "profile.jsonl", "grammar.jsonl")

# Of records whose length divides it there is a whole number.
FILE_LENGTH = 5040

ASSIGNED = re.compile(r"ASSIGN\s+(?:TO\s+)?('[^']*'|[A-Z0-9-]+)")


# ---- against what is told


def is_compared(case):
    return case.words == ["run", "S"] and case.status in ENDS


def of_programs():
    path = program("slow_run")
    for case in filter(is_compared, itertools.chain(programs.listed(), programs.samples())):
        slow = dataclasses.replace(case, name=f"slowly, {case.name}", words=["S"])
        yield lambda slow=slow: slow.tried(path)


# ---- side by side


def sources():
    """Each source once, with a name."""
    found = {}
    for path in sorted(ROOT.glob("samples/**/*.cob")):
        found.setdefault(path.read_text("latin-1"), path.name)
    for name, case in itertools.chain(*map(cases_of, REFERENCES)):
        if not case.get("refused"):
            found.setdefault(case["source"], name)
    return found


def files_of(name, text):
    """Digits, and some blanks, for each file of the source."""
    names = {word.strip("'") for word in ASSIGNED.findall(text.upper())}
    chance = random.Random(name)
    return {file: bytes(chance.choices(b"0123456789 ", [9] * 10 + [2], k=FILE_LENGTH)) for file in sorted(names)}


def given():
    """Each source without files, with some by chance, and the water bills with their meters too."""
    for text, name in sources().items():
        yield name, {"S": text}
        files = files_of(name, text)
        if files:
            yield f"{name} with files", {"S": text, **files}
        if (ROOT / "samples/water" / name).exists():
            yield f"{name} with meters", {"S": text, "METERS": (ROOT / "samples/water/METERS").read_bytes()}


def told(fast, slow, name, files):
    """What slow_run does otherwise; nothing where the source is refused, of which it doesn't ask all."""
    wanted = ran(fast, ["run", "S"], files)
    if wanted[0] not in (*ENDS, SPENT):
        return None if wanted[0] == 2 else f"side by side, {name}: status {wanted[0]}"
    answer = ran(slow, ["S"], files)
    return None if answer == wanted else f"side by side, {name}: {answer} in place of {wanted}"


def side_by_side():
    fast, slow = program_path(), program("slow_run")
    for name, files in given():
        yield lambda name=name, files=files: told(fast, slow, name, files)


def checks():
    return itertools.chain(of_programs(), side_by_side())
