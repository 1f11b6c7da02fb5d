"""The command."""

import argparse
import os
import pathlib
import sys

from tests.built import ROOT
from tests.hostile_use import damaged, disks, large, memory
from tests.hostile_use.trials import Stopped

PARTS = {
    "sources": damaged.sources,
    "certificates": damaged.certificates,
    "large": large.large,
    "outside": disks.disks,
    "memory": memory.memory,
}


def found_program():
    return pathlib.Path(os.environ.get("COBSOUND_PROGRAM") or ROOT / "release/cobsound").resolve()


def parsed(words):
    parser = argparse.ArgumentParser(
        prog="tests/hostile",
        description="Uses the program hostilely, and says which answers aren't the specified ones. It tries the "
        "program that COBSOUND_PROGRAM names, or the released one, one start after the other.",
        epilog="Exit status: 0 where every answer is specified, 1 where there are faults.",
    )
    parser.add_argument("parts", nargs="*", metavar="PART", help=f"of {', '.join(PARTS)}; all without a word")
    parser.add_argument("--count", metavar="N", type=int, default=20_000, help="damaged texts of each kind (20000)")
    parser.add_argument("--seed", metavar="N", type=int, default=1, help="another seed gives other damages (1)")
    parser.add_argument("--keep", metavar="FOLDER", type=pathlib.Path, default=ROOT / "out/hostile",
                        help="where the files of each fault are kept (out/hostile)")  # fmt: skip
    options = parser.parse_args(words)
    for part in options.parts:
        if part not in PARTS:
            parser.error(f"no part {part}")
    options.program = found_program()
    return options


def shown(tally):
    """The summary of a part: a row for each command, status and refusal."""
    print(f"\n{tally.name}: {tally.tried} tried, {len(tally.faults)} faults, slowest {tally.slowest:.2f} seconds")
    for (command, status, refusal), count in sorted(tally.answers.items(), key=str):
        print(f"  {command} {status} {refusal}: {count}")
    for note in tally.notes:
        print(f"  {note}")


def main(words):
    options = parsed(words)
    tallies = []
    try:
        for part in options.parts or PARTS:
            for tally in PARTS[part](options):
                tallies.append(tally)
                shown(tally)
    except Stopped:
        print("too many faults")
        return 1
    return 1 if any(tally.faults for tally in tallies) else 0
