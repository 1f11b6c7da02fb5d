"""What the tool `tools/cobsound-report` holds beside earlier days and other machines: a baseline through edits of a
source, suppressions, and shards that are put together."""

import hashlib
import json
import os
import pathlib
import re
import shutil
import subprocess
import tempfile

from tests.built import ROOT
from tests.report import ORDERS, TOOL, alarm_lines, reported, told
from tests.witness import ORDERS as SEARCHED

SOURCE = "src/orders.cob"
LAST = "           ADD 1 TO ORDER-COUNT.\n"


def placed(folder, *names):
    pathlib.Path(folder, "src").mkdir()
    for name in names:
        shutil.copy(ROOT / f"samples/{name}.cob", pathlib.Path(folder, "src"))
    return pathlib.Path(folder, "src")


def edited(text):
    """Lines inserted in each division, the paragraph TAKE-ORDER moved behind ADD-ORDER, and the last statement
    changed."""
    paragraph = re.search(r"^       TAKE-ORDER\.\n.*?(?=^       ADD-ORDER)", text, re.M | re.S)[0]
    text = text.replace(paragraph, "").replace("       PROGRAM-ID", "      * As of today.\n\n       PROGRAM-ID")
    text = text.replace("       77 AMOUNT", "       77 SPARE PIC X.\n       77 AMOUNT")
    text = text.replace("           CLOSE ORDER-FILE.\n", "           DISPLAY 'END'.\n           CLOSE ORDER-FILE.\n")
    return text.replace(LAST, f"           ADD 2 TO\n               ORDER-COUNT.\n{paragraph}")


def states(folder, *words):
    """How many results of SARIF there are of each state."""
    results = json.loads(reported([*words, "--format", "sarif"], folder)[1])["runs"][0]["results"]
    found = [result["baselineState"] for result in results]
    return {state: found.count(state) for state in ("new", "unchanged", "absent")}


def of_a_baseline():
    """What it knows isn't told and doesn't count; behind an edit one alarm is new, and one is gone."""
    with tempfile.TemporaryDirectory() as folder:
        source = placed(folder, "orders") / "orders.cob"
        first = reported(["src", "--write-baseline", "known"], folder)
        second = reported(["src", "--baseline", "known"], folder)
        source.write_text(edited(source.read_text()))
        status, out, _ = reported(["src", "--baseline", "known", "--write-baseline", "known"], folder)
        counts = states(folder, "src", "--baseline", "known")
        line = source.read_text().split("\n").index("           ADD 2 TO") + 1
    wanted = [
        f"{SOURCE}:{line}: warning: SIZE: a result of this statement may not fit its receiver (statement 15)",
        "           ADD 2 TO",
        "           ^~~",
        f"{SOURCE}: note: gone: SIZE in ADD-ORDER: ADD 1 TO ORDER-COUNT",
        "1 source: 1 with 6 alarms; 1 new, 5 known, 1 gone",
    ]
    found = (first[0], second[:2], status, out.splitlines(), counts)
    known = "1 source: 1 with 6 alarms; 0 new, 6 known, 0 gone\n"
    return told("a baseline", found, (1, (0, known), 1, wanted, {"new": 0, "unchanged": 6, "absent": 0}))


def of_states():
    """The states of SARIF: an alarm that is new, those that are known, and one that is gone."""
    with tempfile.TemporaryDirectory() as folder:
        source = placed(folder, "orders") / "orders.cob"
        reported(["src", "--write-baseline", "known"], folder)
        source.write_text(edited(source.read_text()))
        counts = states(folder, "src", "--baseline", "known")
    return told("states", counts, {"new": 1, "unchanged": 5, "absent": 1})


def of_sources_that_go():
    """Of a source that isn't asked for nothing is gone, and all of one that isn't there; of one that can't be analysed
    nothing is known, and it counts each time."""
    with tempfile.TemporaryDirectory() as folder:
        source = placed(folder, "orders", "first") / "orders.cob"
        reported(["src", "src/nosuch.cob", "--write-baseline", "known"], folder)
        other = reported(["src/first.cob", "--baseline", "known"], folder)[:2]
        source.unlink()
        gone = reported(["src/first.cob", "--baseline", "known"], folder)[1].splitlines()
        failed = reported(["src/nosuch.cob", "--baseline", "known"], folder)[0]
    found = (other, len(gone), gone[-1], failed)
    wanted = ((0, "1 source: 1 clean; 0 new, 0 known, 0 gone\n"), 7, "1 source: 1 clean; 0 new, 0 known, 6 gone", 3)
    return told("sources that go", found, wanted)


def of_known_refusals():
    """A refusal that is known doesn't count until another is seen in the source; alarms of a source that is refused now
    aren't gone."""
    with tempfile.TemporaryDirectory() as folder:
        place = placed(folder, "indexed", "orders")
        reported(["src", "--write-baseline", "known"], folder)
        known = reported(["src", "--baseline", "known"], folder)[:2]
        indexed, orders = place / "indexed.cob", place / "orders.cob"
        indexed.write_text(indexed.read_text() + "           CALL 'SUB'.\n")
        orders.write_text(orders.read_text().replace("STOP RUN", "STOP RUN 4"))
        status, out, _ = reported(["src", "--baseline", "known"], folder)
    summary = "2 sources: 1 with 6 alarms, 1 refused; 0 new, 10 known, 0 gone\n"
    lines = [line.split(": ", 1)[1] for line in out.splitlines() if ": error: " in line]
    wanted = ["error: CALL isn't in the profile", "error: E8: STOP RUN 4 isn't in the profile"]
    return told("known refusals", (known, status, lines), ((0, summary), 2, wanted))


def fingerprints(folder):
    return [finding["fingerprint"] for finding in json.loads(pathlib.Path(folder, "known").read_text())["findings"]]


SUPPRESSIONS = """# what the shop lets stand
[src/orders.cob {0}]
reason = the day's orders are counted by the file's trailer:
    never none
who = M. Weber
until = 9999-12-31
[src/orders.cob {1}]
reason = to be mended
who = M. Weber
until = 2026-01-31
[src/orders.cob 0123456789abcdef]
reason = no more
who = M. Weber
until = 9999-12-31
"""


def of_suppressions():
    """One that fits, one that has run out, and one that fits nothing."""
    with tempfile.TemporaryDirectory() as folder:
        placed(folder, "orders")
        reported(["src", "--write-baseline", "known"], folder)
        first, second, *_ = fingerprints(folder)
        pathlib.Path(folder, "let").write_text(SUPPRESSIONS.format(first, second))
        status, out, _ = reported(["src", "--suppressions", "let"], folder)
        sarif = json.loads(reported(["src", "--suppressions", "let", "--format", "sarif"], folder)[1])
        reported(["src", "--suppressions", "let", "--write-baseline", "known"], folder)
        rest = len(fingerprints(folder))
    text = [line.replace("samples", "src") for line in alarm_lines("samples/orders.cob", ORDERS[1:])]
    idle = [
        f"suppressions: warning: the suppression {second} of src/orders.cob has run out on 2026-01-31",
        "suppressions: warning: the suppression 0123456789abcdef of src/orders.cob fits nothing",
    ]
    results = [result.get("suppressions") for result in sarif["runs"][0]["results"]]
    reason = "the day's orders are counted by the file's trailer: never none (M. Weber)"
    given = [{"kind": "external", "status": "accepted", "justification": reason}]
    wanted = (1, [*text, *idle, "1 source: 1 with 6 alarms; 1 suppressed"], [given, *[None] * 5], 5)
    return told("suppressions", (status, out.splitlines(), results, rest), wanted)


def of_all_suppressed():
    """Where all alarms of a source are suppressed it doesn't count."""
    with tempfile.TemporaryDirectory() as folder:
        placed(folder, "orders")
        reported(["src", "--write-baseline", "known"], folder)
        sections = (f"[src/orders.cob {one}]\nreason=r\nwho=w\nuntil=9999-12-31\n" for one in fingerprints(folder))
        pathlib.Path(folder, "let").write_text("".join(sections))
        found = reported(["src", "--suppressions", "let"], folder)[:2]
    return told("all suppressed", found, (0, "1 source: 1 with 6 alarms; 6 suppressed\n"))


SECTION = "[a.cob 0123]\nreason = r\nwho = w\nuntil = 2027-12-31\n"

# files that aren't written rightly, by the option
WRONG = [
    ("--baseline", ""),
    ("--baseline", "[]"),
    ("--baseline", '{"form": 2, "findings": []}'),
    ("--baseline", '{"form": 1, "findings": [{"source": "a"}]}'),
    ("--suppressions", "reason = r\n"),
    ("--suppressions", SECTION.replace("who", "whom")),
    ("--suppressions", SECTION.replace("= r", "=")),
    ("--suppressions", SECTION.replace("2027-12-31", "soon")),
    ("--suppressions", SECTION.replace(" 0123", "")),
    ("--suppressions", SECTION * 2),
    ("--merge", "{}"),
]


def of_a_wrong_file(option, text):
    """A file that isn't written rightly, or isn't there, is told in a line, and nothing is reported."""
    with tempfile.TemporaryDirectory() as folder:
        placed(folder, "first")
        pathlib.Path(folder, "given").write_text(text)
        sources = [] if option == "--merge" else ["src/first.cob"]
        status, out, err = reported([*sources, option, "given"], folder)
    is_right = (status, out, err.count("\n")) == (3, "", 1) and "Error" not in err
    return None if is_right else f"{option} {text!r}: {status}, {out!r}, {err!r}"


TREE = ("first", "orders", "indexed", "payroll", "orders", "first", "listing")


def made(folder):
    """What a call has written, with the times that it took left out."""
    files = {str(path.relative_to(folder)): path.read_bytes() for path in folder.rglob("*") if path.is_file()}
    return {name: re.sub(rb'"seconds": [0-9.]+', b"", content) for name, content in files.items()}


def called(folder, *words):
    """The status and the text of a call at a time that is always the same."""
    env = {**os.environ, "SOURCE_DATE_EPOCH": "1800000000"}
    done = subprocess.run([TOOL, *words], cwd=folder, env=env, capture_output=True)
    return done.returncode, done.stdout


def outputs(place):
    return ["--html", f"{place}/html", "--sarif", f"{place}/sarif", "--write-baseline", f"{place}/known"]


def tree(folder, names):
    """Sources with other names and texts, so that no two are the same."""
    for number, name in enumerate(names):
        path = pathlib.Path(folder, f"src/{number % 3}/{name}{number}.cob")
        path.parent.mkdir(parents=True, exist_ok=True)
        text = (ROOT / f"samples/{name}.cob").read_text()
        path.write_text(text.replace("       DATA DIVISION", f"      * number {number}\n       DATA DIVISION", 1))


def shards(folder, count, *words):
    """The reports of all shards."""
    for number in range(1, count + 1):
        status, out = called(folder, "src", "--shard", f"{number}/{count}", "--format", "json", *words)
        pathlib.Path(folder, f"{number}.json").write_bytes(out)
        yield status


def searched(source, folder):
    """What a search for input files might have left of a source with the alarms of samples/orders.cob."""
    results = {"format": 1, "sha256": hashlib.sha256(source.read_bytes()).hexdigest(), "alarms": SEARCHED}
    folder.mkdir()
    (folder / "witness.json").write_text(json.dumps(results))


def of_shards():
    """Put together they are what one call writes, byte for byte: text, SARIF, pages and the baseline; with fewer
    sources than shards too, beside a baseline, and with what a search left of a source."""
    with tempfile.TemporaryDirectory() as folder:
        place = pathlib.Path(folder)
        tree(folder, TREE)
        called(folder, "src/0", "--write-baseline", "old")
        searched(next(place.glob("src/*/orders*.cob")), place / "found")
        words = ["--baseline", "old", "--witness", "found"]
        whole = called(folder, "src", *words, *outputs("whole"))
        if b"a run meets this" not in whole[1]:
            return f"shards: {whole} without what a search left"
        for count in (3, 9):
            statuses = list(shards(folder, count))
            given = [f"{number}.json" for number in range(count, 0, -1)]
            put = called(folder, "--merge", *given, *words, *outputs(f"put{count}"))
            if put != whole or made(place / f"put{count}") != made(place / "whole") or max(statuses) != 2:
                return f"{count} shards: {put}, {statuses} in place of {whole}"
    return told("shards", whole[0], 2)


def of_broken_shards():
    """A shard that is missing or twice there, one of another list of sources, and a source that was changed."""
    with tempfile.TemporaryDirectory() as folder:
        tree(folder, TREE)
        list(shards(folder, 2))
        calls = [["1.json"], ["1.json", "1.json"], ["2.json", "1.json"]]
        found = [called(folder, "--merge", *given)[0] for given in calls]
        source = pathlib.Path(folder, "src/0/first0.cob")
        text = source.read_text()
        source.write_text(text + "      * more\n")
        found.append(called(folder, "--merge", "1.json", "2.json")[0])
        source.write_text(text)
        pathlib.Path(folder, "src/3.cob").write_text(text)
        next(shards(folder, 2))
        found.append(called(folder, "--merge", "1.json", "2.json")[0])
        wrong = (["3/2"], ["0/2"], ["1/2"], ["1/2", "--merge"])
        found += [called(folder, "src", "--shard", *words)[0] for words in wrong]
    return told("broken shards", found, [3, 3, 2, 3, 3, 3, 3, 3, 3])


def checks():
    yield from (of_a_baseline, of_states, of_sources_that_go, of_known_refusals, of_suppressions, of_all_suppressed)
    for option, text in WRONG:
        yield lambda option=option, text=text: of_a_wrong_file(option, text)
    yield from (of_shards, of_broken_shards)
