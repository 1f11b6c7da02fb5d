"""The tool `tools/cobsound-report`, on the samples and on each answer that a program can give.

What it must say of the samples was worked out from the rules by hand. An answer that the real program doesn't give at
will is given by a script in its place.
"""

import os
import pathlib
import pty
import re
import shlex
import shutil
import subprocess
import sys
import tempfile

from tests.built import ROOT, program_path
from tests.reference import cases_of

sys.path.insert(0, str(ROOT / "tools"))

from cobsound_report.program import Analyser, Program  # noqa: E402
from cobsound_report.sources import Source  # noqa: E402
from cobsound_report.statements import Text  # noqa: E402

TOOL = ROOT / "tools/cobsound-report"

# the alarms of samples/orders.cob: line, kind and statement, and the column of the statement's verb
ORDERS = [
    (27, "ZERO", 4, 12),
    (39, "SIZE", 12, 12),
    (39, "CLASS", 12, 12),
    (40, "TRUNCATION", 13, 12),
    (42, "SIZE", 15, 12),
    (43, "SIZE", 16, 12),
]
SENTENCES = {
    "SIZE": "a result of this statement may not fit its receiver",
    "TRUNCATION": "what this statement moves may lose a high-order digit",
    "ZERO": "a divisor of this statement may be 0",
    "CLASS": "an operand of this statement may not be numeric",
}
INDEXED_LINE = 8
CLEAN = ("first", "listing", "orders_mended", "payroll")
SAMPLES = (*CLEAN, "orders", "indexed")


def reported(words, cwd=ROOT, program=None, **more):
    """The status of the tool, and what it shows on standard output and standard error."""
    env = {**os.environ, **({"COBSOUND_PROGRAM": str(program)} if program else {})}
    done = subprocess.run([TOOL, *words], cwd=cwd, env=env, capture_output=True, text=True, **more)
    return done.returncode, done.stdout, done.stderr


def script(folder, text):
    """A program of a shell's lines. A process of its own writes it: one that another thread starts just then would hold
    a file that is open here, and the system starts no program that is held open for writing."""
    path = pathlib.Path(folder, "program")
    written = ["sh", "-c", 'cat >"$0" && chmod 755 "$0"', path]
    subprocess.run(written, input=f"#!/bin/sh\n{text}", text=True, check=True)
    return path


def alarm_lines(name, alarms):
    """What is shown of the alarms of a source: a line, the source's line, and a caret below its verb."""
    lines = (ROOT / name).read_text().splitlines()
    for line, kind, statement, column in alarms:
        verb = lines[line - 1].split()[0]
        yield f"{name}:{line}: warning: {kind}: {SENTENCES[kind]} (statement {statement})"
        yield lines[line - 1]
        yield " " * (column - 1) + "^" + "~" * (len(verb) - 1)


def told(name, found, wanted):
    return None if found == wanted else f"{name}: {found!r} in place of {wanted!r}"


def of_clean_samples():
    sources = [f"samples/{name}.cob" for name in CLEAN]
    return told("clean samples", reported(sources), (0, "4 sources: 4 clean\n", ""))


def of_alarms():
    wanted = [*alarm_lines("samples/orders.cob", ORDERS), "1 source: 1 with 6 alarms", ""]
    return told("alarms", reported(["samples/orders.cob"]), (1, "\n".join(wanted), ""))


def of_a_refusal():
    """The word that the program's refusal means, with its way out, and what else isn't in the profile."""
    status, out, _ = reported(["samples/indexed.cob"])
    first, line, caret, note, *_ = out.split("\n") + [""] * 4
    last = out.splitlines()[-1]
    seen = re.findall(r"^samples/indexed.cob:(\d+):(\d+): error: (\w+) isn't in the profile$", out, re.M)
    others = [(int(line), int(column), word) for line, column, word in seen]
    place = f"samples/indexed.cob:{INDEXED_LINE}:"
    is_right = (
        first == f"{place}32: error: E8: INDEXED isn't in the profile"
        and (line, caret) == (" " * 15 + "ORGANIZATION IS INDEXED", " " * 31 + "^" + "~" * 6)
        and note == f"{place}32: note: unload the file to a sequential one before the run"
        and others == [(9, 31, "RANDOM"), (10, 23, "KEY"), (22, 16, "INVALID")]
        and (status, last) == (2, "1 source: 1 refused")
    )
    return None if is_right else f"a refusal: {status}, {out!r}"


def of_a_place():
    """A refusal with a column."""
    with tempfile.TemporaryDirectory() as folder:
        text = (ROOT / "samples/first.cob").read_text().replace("ADD 1", "ADD -A")
        pathlib.Path(folder, "S.cob").write_text(text)
        status, out, _ = reported(["S.cob"], folder)
    cause = "S.cob:7:12: error: E7: -A is no word, number or mark, or none ends here"
    return told("a place", (status, out.split("\n")[:3]), (2, [cause, "       ADD -A TO N.", " " * 11 + "^~"]))


def verbs_of(source):
    """The line, the column and the length of the verb of each statement."""
    verbs = (statement.verb for statement in Text(source.split(b"\n")).statements)
    return [(verb.line, verb.column, verb.length) for verb in verbs]


def of_verbs():
    """Where the verbs of statements stand: the alarms of the reference cases stand on their lines, and literals,
    comments, names and continued lines mislead nobody."""
    for file in ("analyses.jsonl", "checked.jsonl", "thin.jsonl", "straight.jsonl"):
        for name, case in cases_of(file):
            verbs = verbs_of(case["source"].encode("latin-1"))
            lines = [*(case.get("least") or ()), *(case.get("most") or ()), *case.get("out", "").split("\n")]
            for line in filter(None, map(ALARM_LINE.fullmatch, lines)):
                if verbs[int(line[1]) - 1][0] != int(line[2]):
                    return f"verbs of {name}: statement {line[1]} on line {verbs[int(line[1]) - 1][0]}"
    lines = [
        "       77 MOVE-COUNT PIC 9 VALUE 1. PROCEDURE DIVISION. ADD-UP.",
        "           display 'STOP RUN. ' MOVE-COUNT IF MOVE-COUNT = 1",
        "      * ADD 1 TO MOVE-COUNT",
        "000100     ADD 1 TO MOVE-COUNT END-IF. MU".ljust(72) + "STOP RUN",
        "      -    LTIPLY 2 BY MOVE-COUNT. DISPLAY 'IT''S ".ljust(72),
        "      -    'MOVE 1 TO' MOVE-COUNT. CLOSE F.",
    ]
    found = verbs_of("\n".join(lines).encode())
    wanted = [(2, 12, 7), (2, 44, 2), (4, 12, 3), (4, 40, 8), (5, 36, 7), (6, 36, 5)]
    return told("verbs", found, wanted)


ALARM_LINE = re.compile(r"[A-Z]+ statement ([0-9]+) line ([0-9]+)")


def of_the_worst():
    """The worst of all sources is the status."""
    mixed = ["samples/first.cob", "samples/orders.cob", "samples/indexed.cob", "samples/nosuch.cob"]
    statuses = [reported(mixed[: count + 1])[0] for count in range(4)]
    _, out, _ = reported(["samples/nosuch.cob"])
    absent = "samples/nosuch.cob: error: not analysed: E2: there is no file samples/nosuch.cob"
    return told("the worst", (statuses, out.split("\n")[0]), ([0, 1, 2, 3], absent))


ALARM = "SIZE statement 1 line 7\n"

# each answer of the program, its status, and the exit status of the tool
ANSWERS = [
    ("clean\n", 0, 0),
    (f"{ALARM}alarms 1\n", 1, 1),
    (f"{ALARM}TRUNCATION statement 1 line 7\nZERO statement 1 line 7\nCLASS statement 1 line 7\nalarms 4\n", 1, 1),
    ("E5 source too long\n", 2, 2),
    ("E6 line 7 column 11\n", 2, 2),
    ("E7 line 7 column 12\n", 2, 2),
    ("E8 line 8\n", 2, 2),
    *((f"E9 {rule} line 5\n", 2, 2) for rule in ("L3", "L12", "Q1", "N5")),
    *((f"E10 {word} 513\n", 9, 2) for word in ("nesting", "items", "storage", "files", "cells", "nodes")),
    ("E11 certificate too long\n", 3, 2),
    ("E12 line 3\n", 3, 3),
    ("E13 cells found 1 wanted 2\n", 3, 3),
    ("E13 nodes found 1 wanted 2\n", 3, 3),
    ("E14 layer 1 edge 1 reach\n", 3, 3),
    ("E14 layer 2 edge 1 pack 1 row 1 column 2 reached none claimed -2\n", 3, 3),
    ("E1 usage analyse\n", 4, 3),
    ("E3 read\n", 5, 3),
    ("E4 write\n", 6, 3),
    ("E2 absent S.cob\n", 7, 3),
    ("E19 memory\n", 8, 3),
    ("", 8, 3),
    ("", 70, 3),
    # none of the program's answers
    *((out, 0, 3) for out in ("", "clean", "clean\nclean\n", "Clean\n", " clean\n", f"{ALARM}alarms 1\n")),
    *((out, 1, 3) for out in ("", "clean\n", "alarms 0\n", f"{ALARM}alarms 2\n", f"{ALARM}alarms 1", ALARM)),
    *(("E8 line 3\n", status, 3) for status in (0, 1)),
    *((out, 2, 3) for out in ("", "clean\n", "E10 cells 513\n", "E8 line 3", "E8 line 3\nE8 line 3\n")),
    *(("clean\n", status, 3) for status in (3, 9, 70, 127)),
]


def answering(folder, analysed, checked):
    """A program that answers `analyse` and `check` so, and writes a certificate."""
    ways = (("analyse", *analysed), ("check", *checked))
    said = " ".join(f"{word}) printf {shlex.quote(out)}; {end} ;;" for word, out, end in ways)
    write = f"[ $1 = check ] || cat {shlex.quote(str(ROOT / 'samples/first.cert'))} >\"$3\"\n"
    return script(folder, f"{write}case $1 in {said} esac\n")


def of_an_answer(analysed, checked, wanted):
    """The status of the verdict on a source; the tool's is the worst of them. A certificate is kept where the program
    wrote one that it answers likewise, beside its note where there are alarms, and nothing else is left."""
    with tempfile.TemporaryDirectory() as folder:
        program = answering(folder, analysed, checked)
        analyser = Analyser(Program(str(program)), pathlib.Path(folder, "certs"), 60)
        result = analyser.result(Source.at("samples/first.cob"))
        left = sorted(path.name for path in pathlib.Path(folder, "certs/samples").iterdir())
    wanted_left = [[f"first.cob.{ending}" for ending in endings] for endings in (["cert"], ["cert", "made"], [], [])]
    found = (result.answer.verdict.status, left)
    return told(f"answers {analysed}, {checked}", found, (wanted, wanted_left[wanted]))


def answers():
    for out, status, wanted in ANSWERS:
        both = (out, f"exit {status}")
        yield lambda both=both, wanted=wanted: of_an_answer(both, both, wanted)
    clean, alarms = ("clean\n", "exit 0"), (f"{ALARM}alarms 1\n", "exit 1")
    killed = ("clean\n", "kill -9 $$")
    refused = ("E12 line 3\n", "exit 3")
    for pair in ((clean, alarms), (alarms, clean), (clean, refused), (killed, killed), (clean, killed)):
        yield lambda pair=pair: of_an_answer(*pair, 3)


def of_no_program():
    """No program, a folder without sources, no sources, wrong words, a file that can't be written, and a certificate
    that would replace a source."""
    with tempfile.TemporaryDirectory() as folder:
        statuses = [
            reported(["samples/first.cob"], program=pathlib.Path(folder, "none"))[0],
            reported([folder])[0],
            reported([])[0],
            reported(["--certs"])[0],
            reported(["samples/first.cob", "--sarif", folder])[0],
        ]
        for name in ("S", "S.cert"):
            shutil.copy(ROOT / "samples/first.cob", pathlib.Path(folder, name))
        statuses.append(reported(["S", "S.cert", "--certs", "."], folder)[0])
    return told("failures of the outside", statuses, [3] * 6)


def counting(folder):
    """The real program, behind a script that notes each command."""
    log = shlex.quote(str(pathlib.Path(folder, "log")))
    return script(folder, f'echo "$1" >>{log}\nexec {shlex.quote(str(program_path()))} "$@"\n')


def of_kept_certificates():
    """A second call asks for checks alone; a changed source, or certificate, is analysed, and what another program said
    that isn't clean."""
    with tempfile.TemporaryDirectory() as folder:
        place = pathlib.Path(folder)
        (place / "src/deep").mkdir(parents=True)
        for name, source in (("src/first.cob", "first"), ("src/deep/pay.CBL", "payroll"), ("src/orders.cob", "orders")):
            shutil.copy(ROOT / f"samples/{source}.cob", place / name)
        program = counting(folder)

        def asked():
            (place / "log").write_text("")
            status, out, _ = reported(["--certs", "certs", "src"], folder, program)
            words = (place / "log").read_text().split()
            return status, words.count("analyse"), words.count("check"), out.splitlines()[-1].split(": ")[1]

        found = [asked(), asked()]
        kept = sorted(str(path.relative_to(place)) for path in place.glob("certs/**/*") if path.is_file())
        (place / "certs/src/first.cob.cert").write_text("COBSOUND 1\n")
        found.append(asked())
        first = place / "src/first.cob"
        first.write_text(first.read_text().replace("ADD 1", "ADD 2"))
        found += [asked(), asked()]
        program.write_text(program.read_text() + "# another program\n")
        found.append(asked())
    told_first, told_last = "2 clean, 1 with 6 alarms", "1 clean, 2 with 7 alarms"
    wanted = [(1, 3, 3, told_first)]
    wanted += [(1, 0, 3, f"{told_first}; 3 by kept certificates"), (1, 1, 4, f"{told_first}; 2 by kept certificates")]
    wanted += [(1, 1, 4, f"{told_last}; 2 by kept certificates"), (1, 0, 3, f"{told_last}; 3 by kept certificates")]
    wanted += [(1, 2, 5, f"{told_last}; 1 by kept certificates")]
    names = ("deep/pay.CBL.cert", "first.cob.cert", "orders.cob.cert", "orders.cob.made")
    return told("kept certificates", (found, kept), (wanted, [f"certs/src/{name}" for name in names]))


def of_many():
    """Two hundred sources in one call, with a line of progress on a terminal. Elsewhere there is none, as the other
    calls show."""
    with tempfile.TemporaryDirectory() as folder:
        copies = [SAMPLES[number % len(SAMPLES)] for number in range(200)]
        for number, name in enumerate(copies):
            shutil.copy(ROOT / f"samples/{name}.cob", pathlib.Path(folder, f"{number:03}.cob"))
        main, terminal = pty.openpty()
        # the terminal's end is no error of the reader
        reader = subprocess.Popen(["cat"], stdin=main, stdout=subprocess.PIPE, stderr=subprocess.DEVNULL)
        with open(terminal, "wb") as screen:
            done = subprocess.run([TOOL, folder], stdout=subprocess.PIPE, stderr=screen, text=True)
        shown = reader.communicate()[0].decode()
        os.close(main)
    shown_at_all = all(f"\r\033[K{count} of 200 sources, " in shown for count in (1, 100, 200))
    clean, alarmed, refused = sum(map(copies.count, CLEAN)), copies.count("orders"), copies.count("indexed")
    last = f"200 sources: {clean} clean, {alarmed} with {alarmed * len(ORDERS)} alarms, {refused} refused"
    found = (done.returncode, done.stdout.splitlines()[-1], shown_at_all, shown.endswith("\r\033[K"))
    return told("many sources", found, (2, last, True, True))


def checks():
    yield from (of_clean_samples, of_alarms, of_a_refusal, of_a_place, of_verbs, of_the_worst, of_no_program)
    yield from answers()
    yield from (of_kept_certificates, of_many)
