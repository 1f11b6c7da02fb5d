"""The script `tests/costs`: a command is watched, and the page is printed from what was written down."""

import json
import os
import pathlib
import subprocess
import sys
import tempfile

from tests.built import ROOT
from tests.report import told

COSTS = ROOT / "tests/costs"
LIBRARY = "--crate-name sample --statements"
# What each check that `rt` starts is for, by its words.
KINDS = {
    f"build {LIBRARY}": "proof",
    f"build {LIBRARY} --crate-checked made": "program",
    f"check {LIBRARY} --incremental /tmp/rt-edits-1-x/seed": "base",
    f"check {LIBRARY} --incremental /tmp/rt-edits-1-x/12": "edit",
    f"check {LIBRARY} --test": "tests",
    f"check {LIBRARY} --only x": "other",
}
RUN = {
    "command": ".ci/run",
    "begun": "2026-12-01 11:05",
    "commit": "abc",
    "kit": "rattle-kit-13f logic 1",
    "machine": "A machine",
    "machine_memory": 23_000_000_000,
    "processors": 4,
    "lanes": 4,
    "seconds": 600.0,
    "processor": 1500.0,
    "others": 60.0,
    "stolen": 0.0,
    "status": 0,
}


def check_of(crate, kind, minutes, began=0.0, memory=1_000_000_000):
    """A check whose process had the processor for all of its time."""
    ended = began + 60 * minutes
    times = {"began": began, "ended": ended, "processor": 60.0 * minutes, "memory": memory}
    return {"check": {"crate": crate, "kind": kind, **times}}


def watched(folder, words):
    """The status of a shell's line, and the checks and runs that were written down."""
    file = pathlib.Path(folder, "costs.jsonl")
    done = subprocess.run([COSTS, "watch", file, "--", *words], cwd=folder, capture_output=True, text=True)
    lines = [json.loads(line) for line in file.read_text().splitlines()]
    return done.returncode, [line["check"] for line in lines if "check" in line], [line["run"] for line in lines if "run" in line]


def of_watching():
    """Programs named as the kit's are seen, with what they are for; the command's status is handed on."""
    with tempfile.TemporaryDirectory() as folder:
        os.symlink(sys.executable, f"{folder}/rattle")
        for name in ("build", "check"):
            pathlib.Path(folder, name).write_text("import time; time.sleep(3)\n")
        line = " ".join(f"./rattle {words} &" for words in KINDS) + " wait; exit 7"
        status, checks, runs = watched(folder, ["sh", "-c", line])
    kinds = sorted((check["crate"], check["kind"]) for check in checks)
    wanted = sorted(("sample", kind) for kind in KINDS.values())
    return told("a watched command", (status, kinds, [run["status"] for run in runs]), (7, wanted, [7]))


def of_a_signal():
    """A command that a signal ends has a shell's status for that."""
    with tempfile.TemporaryDirectory() as folder:
        status, checks, runs = watched(folder, ["sh", "-c", "kill -9 $$"])
    return told("a command that is ended", (status, checks, [run["status"] for run in runs]), (137, [], [137]))


def of_the_page():
    """Minutes are added up by crate and kind, the dearest crate first, the cheap ones in one row; a page keeps earlier runs."""
    checks = [
        check_of("cheap", "proof", 0.5),
        check_of("dear", "proof", 2),
        check_of("dear", "program", 1, 120.0, 3_000_000_000),
        check_of("dear", "base", 4, 60.0),
        check_of("dear", "edit", 1, 300.0),
        check_of("plain", "proof", 1.5, 30.0),
        check_of("dear", "other", 9),
    ]
    with tempfile.TemporaryDirectory() as folder:
        file = pathlib.Path(folder, "costs.jsonl")
        file.write_text("".join(json.dumps(line) + "\n" for line in (*checks, {"run": RUN})))
        done = subprocess.run([COSTS, "page", file], capture_output=True, text=True)
        earlier = pathlib.Path(folder, "earlier.md")
        earlier.write_text(done.stdout.replace("| **10.0** |", "| **20.0** |"))
        both = subprocess.run([COSTS, "page", file, earlier], capture_output=True, text=True)
    table = done.stdout.split("## By crate")[1].splitlines()
    rows = [
        "| Crate | Proof | Base | Edits | All | Most memory, GB |",
        "|---|---|---|---|---|---|",
        "| dear | 3.0 | 4.0 | 1.0 | 8.0 | 3.0 |",
        "| plain | 1.5 |  |  | 1.5 | 1.0 |",
        "| the other 1 | 0.5 |  |  | 0.5 | 1.0 |",
        "| all | 5.0 | 4.0 | 1.0 | 10.0 | 3.0 |",
    ]
    facts = ["| **Minutes by the clock** | **10.0** |", "| until all was proved | 3.0 |", "| until all edits were tried | 6.0 |"]
    facts += ["| **Processor minutes** | **25** |", "| of proof | 5 |", "| Crates proved | 3 |", "| Edits tried | 1 |"]
    found = [fact for fact in facts if fact in done.stdout.splitlines()]
    beside = "| **Minutes by the clock** | **10.0** | **20.0** |" in both.stdout.splitlines()
    return told("the page", ([line for line in table if line.startswith("|")], found, beside), (rows, facts, True))


def checks():
    yield from (of_watching, of_a_signal, of_the_page)
