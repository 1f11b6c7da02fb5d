"""What each function's proof costs, by what a check from nothing has left in out/incremental of a crate's folder.

A check keeps each module that it has checked there, in the order in which it checks them, so that the time between two
files is the later one's. For each function they are added up, in seconds: the body lowered step by step (`Lts`, which
grows with what the body owns where it may leave), the proof (`Proof`, mostly searches, which an answer in proofs/
spares), and the rest. Where others work on the machine the times are longer.
"""

import collections
import os
import pathlib
import re
import sys

ROOT = pathlib.Path(__file__).resolve().parent.parent
MADE = "Kinds Code Layout Lts Met Tie Proof Symbol Named TheLink TheLinks Reads Statement Carried Goals Given Paired"
MADE += " StandsFor Parent Answers Invariants Mir Parts MadeProof LinkOfFunction"
MODULE = re.compile(rf"(.*?)\.({'|'.join(MADE.split())})([.-].*)?$")


def files_of(folder):
    """The kept modules with the time at which each was written, the first one first."""
    found = []
    for at, _, names in os.walk(folder):
        found += [(os.stat(f"{at}/{name}").st_mtime, name) for name in names if name.endswith(".oantt")]
    return sorted(found)


def costs_of(crate, folder):
    """Seconds by function and kind of module."""
    costs, before = collections.defaultdict(collections.Counter), None
    for when, name in files_of(folder):
        seconds, before = when - (before or when), when
        named = re.match(rf"Rattle-{crate}-(?:proofs|specs)\.(.*?)(?:\.decls)?\.oantt$", name)
        module = MODULE.match(named[1]) if named else None
        if module:
            kind = module[2] if module[2] in ("Lts", "Proof") else "rest"
            costs[module[1]][kind] += seconds
        elif named:
            costs["lemmas " + named[1]]["rest"] += seconds
    return costs


def print_functions(crates, most):
    """Prints the dearest functions of these crates; the status."""
    rows = []
    for crate in crates:
        folder = ROOT / "crates" / crate / "out" / "incremental"
        if not folder.is_dir():
            print(f"{crate}: no check has left anything in {folder.relative_to(ROOT)}", file=sys.stderr)
            return 2
        rows += [(sum(costs.values()), crate, name, costs) for name, costs in costs_of(crate, folder).items()]
    rows.sort(key=lambda row: -row[0])
    print(f"{sum(row[0] for row in rows):.0f} seconds in all; Lts, Proof, the rest:")
    for seconds, crate, name, costs in rows[:most]:
        parts = " ".join(f"{costs[kind]:6.1f}" for kind in ("Lts", "Proof", "rest"))
        print(f"{seconds:7.1f} {parts}  {crate} {name}")
    return 0
