"""The tool `tools/cobsound-prepare`: each rewriting on sources of cases/prepare.

A file there has the sources of a rewriting, with at least one of each kind: `plain`, `border`, and `left`, which it
must leave alone (where it says `same`, the prepared source is the source). A row has its program as those of
cases/programs have it, or as `lines`, and what a run of the prepared source shows. `cobc` are more words for that
compiler, null where it can't serve, as `why` says; `cobc_differs` is the one difference that the rewriting says of what
is shown.
"""

import json
import pathlib
import re
import subprocess
import sys
import tempfile

from tests import programs
from tests.built import CASES, ROOT, program_path

sys.path.insert(0, str(ROOT / "tools"))

from cobsound_prepare import encoded, prepare  # noqa: E402, F401
from cobsound_prepare.lexing import lexed  # noqa: E402
from cobsound_prepare.rewritings import REWRITINGS  # noqa: E402
from cobsound_prepare.scanner import Text, scanned  # noqa: E402
from cobsound_prepare.tokens import Block, LineKind, Origin  # noqa: E402
from cobsound_prepare.work import Work  # noqa: E402

KINDS = {"plain", "border", "left"}
ASSUMED = {rewriting.name for rewriting in REWRITINGS if rewriting.is_assumed}
ALARM = re.compile(r"([A-Z]+) statement [0-9]+ line ([0-9]+)")


def rows():
    """All rows, each with the name of its rewriting."""
    for path in sorted((CASES / "prepare").glob("*.jsonl")):
        for line in path.open():
            yield path.stem, json.loads(line)


def source_of(row):
    if "lines" in row:
        return "".join(f"       {line}\n" for line in row["lines"])
    return programs.source_of(row)


def prepared(source, folders=(), **more):
    """The prepared form of a source, in a file of its own."""
    with tempfile.TemporaryDirectory() as folder:
        path = pathlib.Path(folder, "S")
        path.write_bytes(source if isinstance(source, bytes) else source.encode())
        return prepare(str(path), list(folders), **more)


def of_row(name, row, program):
    """The prepared source answers as its row says, and the rewriting was made, or not where it must leave it alone."""
    source = source_of(row)
    found = prepared(source, assumes=name in ASSUMED)
    made = {applied.rewriting.name for applied in found.applied}
    if (name in made) != (row["kind"] != "left"):
        return f"prepare, {name}, {row['rule']}: {sorted(made)} were made"
    if row.get("same") and found.text != source:
        return f"prepare, {name}, {row['rule']}: {found.text!r} in place of the source"
    if "alarms" in row:
        alarms = alarms_of(found, program)
        wanted = [] if alarms == row["alarms"] else [f"prepare, {name}, {row['rule']}: {alarms} of {found.text}"]
        return wanted[0] if wanted else None
    prepared_row = {**row, "source": found.text}
    return programs.case_of(f"prepare, {name}", prepared_row).tried(program)


def alarms_of(found, program):
    """The kind of each alarm of a prepared source, with the line of the source from which its line comes."""
    with tempfile.TemporaryDirectory() as folder:
        pathlib.Path(folder, "S").write_bytes(encoded(found.text))
        done = subprocess.run([program, "analyse", "S", "C"], cwd=folder, capture_output=True, text=True)
    alarms = [ALARM.fullmatch(line) for line in done.stdout.splitlines()]
    told = [f"{alarm[1]} line {found.map.place(int(alarm[2])).line}" for alarm in alarms if alarm]
    return told if done.returncode < 2 else done.stdout.splitlines()


def tokens_of(text):
    block = Block(Origin("example"), 1, [text], LineKind.CODE, True)
    return lexed(scanned(Text(text, 1, 8), block))


def of_example(rewriting):
    """What a rewriting makes of its example."""
    work = Work(tokens_of(rewriting.before))
    rewriting.apply(work)
    found = [token.text for token in work.tokens]
    wanted = [token.text for token in tokens_of(rewriting.after)]
    return None if found == wanted else f"prepare, {rewriting.name}: {' '.join(found)!r} of its example"


def of_the_table():
    """Each rewriting has its sources of each kind, and its row in docs/PREPARE.md."""
    kinds = {}
    for name, row in rows():
        kinds.setdefault(name, set()).add(row["kind"])
    page = (ROOT / "docs/PREPARE.md").read_text("utf-8")
    for rewriting in REWRITINGS:
        if kinds.pop(rewriting.name, None) != KINDS:
            return f"prepare: not all kinds of sources for {rewriting.name}"
        if f"| `{rewriting.name}` |" not in page:
            return f"prepare: docs/PREPARE.md has no row for {rewriting.name}"
    return f"prepare: sources for {sorted(kinds)}, which aren't rewritings" if kinds else None


def checks():
    program = program_path()
    for name, row in rows():
        yield lambda name=name, row=row: of_row(name, row, program)
    for rewriting in REWRITINGS:
        yield lambda rewriting=rewriting: of_example(rewriting)
    yield of_the_table
