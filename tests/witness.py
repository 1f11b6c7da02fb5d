"""The tool `tools/cobsound-witness`, on the samples and on the programs in `tests/shop`.

Each alarm of these programs is by intent, and columns 73 to 80 of its line say what must come of it: `SIZE`, `TRUN`,
`ZERO` or `CLAS` for a fault that files meet, two of them where a statement has two, and `NOT` behind the kind where no
file does. Their heads say why. What is counted is runs, not seconds, so that the machine's speed changes nothing.
"""

import filecmp
import hashlib
import json
import os
import pathlib
import re
import shlex
import shutil
import subprocess
import sys
import tempfile

from tests.built import ROOT, program_path
from tests.report import reported, script
from tests.report_files import faults

TOOL = ROOT / "tools/cobsound-witness"
SHOP = sorted((ROOT / "tests/shop").glob("*.cob"))
KINDS = {"SIZE": "SIZE", "TRUN": "TRUNCATION", "ZERO": "ZERO", "CLAS": "CLASS"}

# the ledger's tenth page ends with record 600, and each record counts once
LEAST_RECORDS = {("ledger.cob", 91): 600}

# three times as many as the slowest fault needed; the fast part has one program and fewer
RUNS = 3000
FAST = "stock.cob"
FAST_RUNS = 1000

# each paragraph performs the next one twice: some 2,400 nodes, and too many in the copy that shows where a run goes
LEVELS = 9


def called(words, cwd=ROOT, program=None):
    """The status of the tool, and what it shows on standard output and standard error."""
    env = {**os.environ, **({"COBSOUND_PROGRAM": str(program)} if program else {})}
    done = subprocess.run([TOOL, *words], cwd=cwd, env=env, capture_output=True, text=True)
    return done.returncode, done.stdout, done.stderr


def marks_of(source):
    """The line and the kind of each alarm, and whether files meet it."""
    found = {}
    for number, line in enumerate(source.read_text().splitlines(), 1):
        marks = line[72:80].ljust(8)
        for mark in filter(None, (marks[:4].strip(), marks[4:].strip())):
            if mark != "NOT":
                found[number, KINDS[mark]] = marks[4:].strip() != "NOT"
    return found


def results_of(folder):
    return json.loads((folder / "witness.json").read_text())


def of_program(source, runs):
    """Each fault by intent is met, and the files show it; no alarm that is false by intent is."""
    with tempfile.TemporaryDirectory() as place:
        folder = pathlib.Path(place, "found")
        status, out, err = called([source, "--runs", str(runs), "-o", folder])
        if status != 1 or err:
            return f"witness of {source.name}: status {status}, {out!r}, {err!r}"
        results = results_of(folder)
        found = {(alarm["line"], alarm["kind"]): alarm["state"] == "met" for alarm in results["alarms"]}
        if found != marks_of(source) or results["faultsWithoutAlarm"]:
            return f"witness of {source.name}: {found} in place of {marks_of(source)}"
        return next(filter(None, (of_alarm(source, alarm, place) for alarm in results["alarms"])), None)


def of_alarm(source, alarm, place):
    """The command of an alarm that is met shows its fault; of the others the runs are told."""
    if alarm["state"] != "met":
        return None if alarm["runs"] >= 1000 else f"an alarm with {alarm['runs']} runs"
    words = shlex.split(alarm["command"])
    done = subprocess.run([program_path(), *words[1:]], cwd=place, capture_output=True, text=True)
    last = done.stdout.splitlines()[-1]
    wanted = f"E18 {alarm['kind']} statement {alarm['statement']} step {alarm['step']}"
    records = sum(file["records"] or 0 for file in alarm["files"])
    if records != LEAST_RECORDS.get((source.name, alarm["line"]), records):
        return f"{alarm['command']}: {records} records"
    return None if (done.returncode, last) == (1, wanted) else f"{alarm['command']}: {last} in place of {wanted}"


def of_orders():
    """The sample's total grows; a thousand amounts of 999,999.99 make 999,999,990.00, which it holds, and one more
    doesn't. The count of four digits is full behind 9,999 orders."""
    with tempfile.TemporaryDirectory() as place:
        called([ROOT / "samples/orders.cob", "--runs", str(RUNS), "-o", place])
        alarms = {(alarm["line"], alarm["kind"]): alarm for alarm in results_of(pathlib.Path(place))["alarms"]}
    states = {key: alarm["state"] for key, alarm in alarms.items()}
    wanted = {(27, "ZERO"), (39, "SIZE"), (39, "CLASS"), (40, "TRUNCATION"), (43, "SIZE")}
    records = [file["records"] for file in alarms[43, "SIZE"].get("files", ())]
    growth = alarms[42, "SIZE"].get("growth")
    is_right = (
        {key for key, state in states.items() if state == "met"} == wanted
        and (growth, records) == ({"item": "TOTAL", "additions": 1001}, [10000])
    )
    return None if is_right else f"witness of orders.cob: {states}, {growth}, {records}"


def of_water():
    """Of the first step of the water bills a file of 99,999 meters and more fills the count; the others are met."""
    with tempfile.TemporaryDirectory() as place:
        called([ROOT / "samples/water/step1.cob", "--runs", str(RUNS), "-o", place])
        alarms = results_of(pathlib.Path(place))["alarms"]
    found = [(alarm["line"], alarm["kind"], alarm["state"]) for alarm in alarms]
    wanted = [(60, "SIZE", "growth"), (61, "CLASS", "met"), (71, "SIZE", "met"), (78, "ZERO", "met")]
    wanted.append((82, "TRUNCATION", "met"))
    growth = alarms[0].get("growth")
    is_right = found == wanted and growth == {"item": "METER-COUNT", "additions": 100000}
    return None if is_right else f"witness of step1.cob: {found}, {growth}"


def of_the_same_seed():
    """Runs side by side and one by one find the same files."""
    with tempfile.TemporaryDirectory() as place:
        for jobs in ("1", "3"):
            folder = pathlib.Path(place, jobs, "found")
            folder.parent.mkdir()
            shutil.copy(ROOT / "tests/shop/match.cob", folder.parent)
            called(["match.cob", "--runs", "1000", "--jobs", jobs, "-o", "found"], folder.parent)
        one, other = (sorted(pathlib.Path(place, jobs).glob("found/**/*")) for jobs in ("1", "3"))
        same = [pair[0].is_dir() or filecmp.cmp(*pair, shallow=False) for pair in zip(one, other)]
    return None if len(one) == len(other) > 1 and all(same) else f"the same seed: {one}, {other}, {same}"


def of_clean(name):
    with tempfile.TemporaryDirectory() as place:
        status, out, _ = called([ROOT / f"samples/{name}.cob", "--runs", "1000", "-o", place])
        found = results_of(pathlib.Path(place))["alarms"]
    return None if (status, found) == (0, []) and ": clean; " in out else f"witness of {name}: {status}, {out!r}"


def with_levels(text):
    """The program with a PERFORM of paragraphs that do nothing, before its loop."""
    lines = text.splitlines()
    lines.insert(next(at for at, line in enumerate(lines) if "UNTIL" in line), "           PERFORM LEVEL-1.")
    for level in range(1, LEVELS + 1):
        body = f"PERFORM LEVEL-{level + 1}." if level < LEVELS else "CONTINUE."
        lines += [f"       LEVEL-{level}.", f"           {body}", f"           {body}"]
    return "\n".join([*lines, ""])


def of_many_nodes():
    """A program whose copy has too many nodes is searched without one."""
    with tempfile.TemporaryDirectory() as place:
        source, folder = pathlib.Path(place, "many.cob"), pathlib.Path(place, "found")
        source.write_text(with_levels((ROOT / "tests/shop/stock.cob").read_text()))
        _, out, err = called([source, "--runs", str(RUNS // 2), "-o", folder])
        alarms = results_of(folder)["alarms"]
    states = [alarm["state"] for alarm in alarms]
    is_right = states == ["open", *["met"] * 4] and alarms[0]["runsAtStatement"] == 0
    return None if is_right else f"witness of many nodes: {states}, {out!r}, {err!r}"


def of_an_error():
    """A fault where no alarm stands is told loudly, with its files."""
    with tempfile.TemporaryDirectory() as place:
        run = f'[ "$1" = run ] && exec {shlex.quote(str(program_path()))} "$@"\n'
        program = script(place, f'{run}cp {ROOT}/samples/first.cert "$3"\necho clean\n')
        source = pathlib.Path(place, "first.cob")
        source.write_text((ROOT / "samples/first.cob").read_text().replace("ADD 1", "ADD 2"))
        status, out, _ = called([source, "-o", "found"], place, program)
        found = results_of(pathlib.Path(place, "found"))["faultsWithoutAlarm"]
    faults = [(fault["kind"], fault["statement"]) for fault in found]
    is_right = (status, faults) == (4, [("SIZE", 1)]) and "NO ALARM STANDS THERE" in out
    return None if is_right else f"a fault without an alarm: {status}, {out!r}, {faults}"


# what came of the alarms of samples/orders.cob: the statement, the kind, the state and more, in the order of the source
ORDERS = [
    {"statement": 4, "kind": "ZERO", "state": "growth", "runs": 1000, "growth": {"item": "N", "additions": 5}},
    {"statement": 12, "kind": "SIZE", "state": "open", "runs": 1000},
    {"statement": 12, "kind": "CLASS", "state": "met", "command": "cobsound run S", "files": [{"path": "012/ORDERS"}]},
]
RANKED = [("CLASS", 39), ("SIZE", 39), ("TRUNCATION", 40), ("SIZE", 42), ("SIZE", 43), ("ZERO", 27)]


def of_a_report():
    """The report's alarms stand in the order of their ranks, in SARIF with the files that meet them."""
    with tempfile.TemporaryDirectory() as place:
        source = ROOT / "samples/orders.cob"
        inner = pathlib.Path(place, "found/orders")
        inner.mkdir(parents=True)
        results = {"format": 1, "sha256": hashlib.sha256(source.read_bytes()).hexdigest(), "alarms": ORDERS}
        (inner / "witness.json").write_text(json.dumps(results))
        words = [source, "--witness", "found", "--sarif", "r.sarif", "--html", "pages"]
        status, out, err = reported(words, place)
        log = json.loads(pathlib.Path(place, "r.sarif").read_text())
        page = next(pathlib.Path(place, "pages/sources").glob("**/*.html")).read_text()
        wrong = [reported([source, "--witness", folder], place)[0] for folder in ("none", "pages")]
    order = [(kind, int(line)) for line, kind in re.findall(r"orders.cob:([0-9]+): warning: ([A-Z]+): ", out)]
    notes = re.findall(r"orders.cob:([0-9]+): note: (.*)", out)
    told = [("39", "a run meets this: cobsound run S"), ("39", "no run of 1,000 met this")]
    told.append(("27", "no run of 1,000 met this; N is full behind 5 additions at the least"))
    found = log["runs"][0]["results"]
    ranks = [result.get("rank") for result in found]
    files = [result["attachments"][0]["artifactLocation"]["uri"] for result in found if "attachments" in result]
    is_right = (
        (status, order, notes, wrong) == (1, RANKED, told, [3, 3])
        and (ranks, files) == ([90, 50, None, None, None, 10], ["found/orders/012/ORDERS"])
        and "found/orders/012/ORDERS" in page
        and not list(faults("log", log))
    )
    found = (status, order, notes, ranks, files, wrong, err)
    return None if is_right else f"a report with witnesses: {found}"


def of_wrong_calls():
    """A refused source, none, wrong words, and a folder with other files: their statuses, and nothing is written."""
    with tempfile.TemporaryDirectory() as place:
        strange = pathlib.Path(place, "strange")
        strange.mkdir()
        (strange / "notes").write_text("mine")
        first = ROOT / "samples/first.cob"
        calls = {
            (ROOT / "samples/indexed.cob", "-o", "a"): 2,
            ("nosuch.cob", "-o", "a"): 3,
            (first, "--runs", "999", "-o", "a"): 3,
            (first, "--seconds", "0", "-o", "a"): 3,
            (first, "--seconds", "1", "--runs", "1000", "-o", "a"): 3,
            (first, "-o", strange): 3,
        }
        found = {words: called(words, place)[0] for words in calls}
        left = sorted(path.name for path in pathlib.Path(place).iterdir())
    return None if (found, left) == (calls, ["strange"]) else f"wrong calls of witness: {found}, {left}"


def whole():
    """The whole takes some minutes of processor time."""
    for source in SHOP:
        yield lambda source=source: of_program(source, RUNS)
    for name in ("first", "payroll", "listing", "orders_mended"):
        yield lambda name=name: of_clean(name)
    yield from (of_orders, of_water, of_the_same_seed, of_many_nodes)


def checks():
    yield lambda: of_program(ROOT / "tests/shop" / FAST, FAST_RUNS)
    yield from (of_an_error, of_wrong_calls, of_a_report)
    if {"--witness", "--all"} & set(sys.argv[1:]):
        yield from whole()
