"""Files and standard outputs that fail: a folder in place of a file, paths that end in a slash, names that are too
long, links, a standard output that is full, closed or without a reader, and one file where two are meant.

These need no rights beyond those on a folder. `tests/hostile` tries full disks, files without rights and the like."""

import dataclasses
import itertools
import os
import pathlib
import subprocess
import sys
import tempfile
import typing

from tests.built import ROOT, Case, checks_of, latin, program_path, refusal
from tests.reference import CERTIFICATE
from tests.sample import PAYROLL, SAMPLE

LONG = "N" * 5_000
PAY = (ROOT / "samples/PAYIN").read_bytes()
PAID = b"00042  45.5       965.00" b"TOTAL GROSS       965.00"
SHOWN = "RUN DATE 20240131\nDETAILS 00001 BAD 00000\n"
READ, WRITTEN = (5, "E3 read\n"), (6, "E4 write\n")

# writes a file, and then shows a text
WRITER = """       IDENTIFICATION DIVISION.
       PROGRAM-ID. W.
       ENVIRONMENT DIVISION.
       INPUT-OUTPUT SECTION.
       FILE-CONTROL.
       SELECT F ASSIGN TO OUT.
       DATA DIVISION.
       FILE SECTION.
       FD F.
       01 R PIC X.
       PROCEDURE DIVISION.
       OPEN OUTPUT F.
       WRITE R FROM 'A'.
       CLOSE F.
       DISPLAY 'B'.
"""

# shows 200 kB, more than a pipe holds
TALKING = SAMPLE.replace("ADD 1 TO N.", f"PERFORM 5000 TIMES\n       DISPLAY '{'A' * 40}'\n       END-PERFORM.")

# how the shell starts the program with a standard output
SINKS = {"full": ">/dev/full", "closed": ">&-", "all closed": "<&- >&- 2>&-"}

# Starts a program whose standard output has no reader. A process of its own, since one that another case starts just then
# would hold the reader for a moment.
GONE = """import os, signal, sys
reader, writer = os.pipe()
os.close(reader)
os.dup2(writer, 1)
signal.signal(signal.SIGPIPE, signal.SIG_DFL)
os.execv(sys.argv[1], sys.argv[1:])
"""


class Front:
    """What equals each front of these bytes."""

    def __init__(self, content):
        self.content = content

    def __eq__(self, other):
        return other is not None and self.content.startswith(other)


class Whole:
    """What equals each certificate that is written to its end."""

    def __eq__(self, other):
        return other is not None and other.startswith(b"COBSOUND 1\n") and other.endswith(b"\nend\n")


def left_in(folder):
    """The files of a folder with their bytes, and folders and links that lead nowhere with None."""
    paths = pathlib.Path(folder).iterdir()
    return {path.name: path.read_bytes() if path.is_file() else None for path in paths}


def ended(started):
    """The status and what is shown."""
    out = started.communicate()[0] or b""
    return started.returncode, out.decode("latin-1")


def started_by_shell(command, folder, redirection):
    words = ["sh", "-c", f'exec "$0" "$@" {redirection}', *command]
    return ended(subprocess.Popen(words, cwd=folder, stdout=subprocess.PIPE))


def launched_by_shell(command, folder, redirection):
    """By the launcher, which itself puts something in the place of each standard stream that is closed. It is told the
    program, not itself."""
    words = ["sh", "-c", f'exec "$0" "$@" {redirection}', ROOT / "cobsound", *command[1:]]
    env = {**os.environ, "COBSOUND_PROGRAM": str(program_path())}
    return ended(subprocess.Popen(words, cwd=folder, stdout=subprocess.PIPE, env=env))


def with_sink(command, folder, sink):
    """Starts the program with this standard output: `gone` has no reader from the start, and the reader of `one line`
    goes when it has that line."""
    if sink == "launched":
        return launched_by_shell(command, folder, SINKS["all closed"])
    if sink in SINKS:
        return started_by_shell(command, folder, SINKS[sink])
    if sink == "gone":
        return ended(subprocess.Popen([sys.executable, "-c", GONE, *command], cwd=folder))
    started = subprocess.Popen(command, cwd=folder, stdout=subprocess.PIPE, stderr=subprocess.DEVNULL, bufsize=0)
    if sink == "one line":
        started.stdout.readline()
        started.stdout.close()
        return started.wait(), ""
    return ended(started)


@dataclasses.dataclass
class Outer(Case):
    """A case with a standard output, behind what `ready` does in the folder."""

    sink: str = "pipe"
    ready: typing.Optional[typing.Callable] = None

    def tried(self, path):
        with tempfile.TemporaryDirectory() as folder:
            for name, content in latin(self.files).items():
                pathlib.Path(folder, name).write_bytes(content)
            if self.ready:
                self.ready(pathlib.Path(folder))
            status, out = with_sink([path, *self.words], folder, self.sink)
            left = left_in(folder)
        if self.is_answered(status, out, left):
            return None
        return f"{self.name}, {' '.join(self.words)[:80]}: {(status, out, left)} in place of {(self.status, self.out)}"


GIVEN = {"S": SAMPLE, "C": CERTIFICATE}
PAYING = {"S": PAYROLL, "PAYIN": PAY}


def folders():
    """A folder in place of each file."""

    def make(folder):
        (folder / "D").mkdir()

    paid = {**PAYING, "D": None}
    for words in (["check", "D", "C"], ["check", "S", "D"], ["analyse", "D", "C"], ["run", "D"]):
        yield Outer("a folder", words, GIVEN, *READ, {**GIVEN, "D": None}, ready=make)
    yield Outer("a folder", ["analyse", "S", "D"], GIVEN, *WRITTEN, {**GIVEN, "D": None}, ready=make)
    # a folder can be opened, and its first READ fails
    yield Outer("a folder", ["run", "S", "PAYIN=D"], PAYING, *READ, {**paid, "PAYOUT": ""}, ready=make)
    yield Outer("a folder", ["run", "S", "PAYOUT=D"], PAYING, *WRITTEN, paid, ready=make)


def slashes():
    """A path that ends in a slash names no file; where there is none of that name either, it is absent."""
    for words in (["check", "S/", "C"], ["check", "S", "C/"], ["analyse", "S/", "C"], ["run", "S/"]):
        yield Outer("a slash", words, GIVEN, *READ)
    for name in ("NOSUCH/", "NOSUCH/S"):
        yield Outer("a slash", ["check", name, "C"], GIVEN, 7, f"E2 absent {name}\n")
        yield Outer("a slash", ["check", "S", name], GIVEN, 7, f"E2 absent {name}\n")
        yield Outer("a slash", ["run", name], GIVEN, 7, f"E2 absent {name}\n")
    for name in ("NEW/", "C/", "C/NEW"):
        yield Outer("a slash", ["analyse", "S", name], GIVEN, *WRITTEN)
    yield Outer("a slash", ["run", "S", "PAYIN=PAYIN/"], PAYING, *READ)
    for name in ("NEW/", "PAYIN/", "PAYIN/NEW"):
        yield Outer("a slash", ["run", "S", f"PAYOUT={name}"], PAYING, *WRITTEN)


def names():
    """Names of 255 letters can be had, and of 5,000 can't."""
    for words in (["check", LONG, "C"], ["check", "S", LONG], ["analyse", LONG, "C"], ["run", LONG]):
        yield Outer("5,000 letters", words, GIVEN, *READ)
    yield Outer("5,000 letters", ["analyse", "S", LONG], GIVEN, *WRITTEN)
    yield Outer("5,000 letters", ["run", "S", f"PAYIN={LONG}"], PAYING, *READ)
    yield Outer("5,000 letters", ["run", "S", f"PAYOUT={LONG}"], PAYING, *WRITTEN)
    yield Outer("5,000 letters", [LONG, "S", "C"], GIVEN, 4, f"E1 usage {LONG}\n")
    yield Outer("5,000 letters", ["run", "S", f"{LONG}=x"], PAYING, 4, f"E1 usage {LONG}=x\n")
    longest = LONG[:255]
    yield Outer("255 letters", ["analyse", "S", longest], GIVEN, 0, "clean\n", {**GIVEN, longest: CERTIFICATE})
    yield Outer("256 letters", ["analyse", "S", LONG[:256]], GIVEN, *WRITTEN)
    for words in (["check", "", "C"], ["check", "S", ""], ["run", ""]):
        yield Outer("no letter", words, GIVEN, 7, "E2 absent \n")
    yield Outer("no letter", ["analyse", "S", ""], GIVEN, *WRITTEN)


def links():
    """A link is what it leads to; one that leads nowhere is absent, and made; one to itself can't be had."""

    def make(folder):
        for name, target in (("TO-S", "S"), ("TO-C", "C"), ("TO-NEW", "NEW"), ("LOOP", "LOOP")):
            (folder / name).symlink_to(target)

    left = {**GIVEN, "TO-S": SAMPLE, "TO-C": CERTIFICATE, "TO-NEW": None, "LOOP": None}
    made = {**left, "NEW": CERTIFICATE, "TO-NEW": CERTIFICATE}
    listed = [
        (["check", "TO-S", "TO-C"], 0, "clean\n", left),
        (["check", "TO-NEW", "C"], 7, "E2 absent TO-NEW\n", left),
        (["analyse", "S", "TO-NEW"], 0, "clean\n", made),
        (["check", "LOOP", "C"], *READ, left),
        (["analyse", "S", "LOOP"], *WRITTEN, left),
    ]
    for words, status, out, behind in listed:
        yield Outer("a link", words, GIVEN, status, out, behind, ready=make)


def sinks():
    """A standard output that can't be written. A report ends with status 6, a refusal with its own; CERT is whole."""
    bad = SAMPLE.replace("RUN.", "RUN")
    paid = {**PAYING, "PAYOUT": Front(PAID)}
    for sink in (*SINKS, "launched", "gone"):
        yield Outer(f"{sink}", ["check", "S", "C"], GIVEN, 6, "", sink=sink)
        yield Outer(f"{sink}", ["analyse", "S", "NEW"], GIVEN, 6, "", {**GIVEN, "NEW": CERTIFICATE}, sink=sink)
        yield Outer(f"{sink}", ["run", "S"], PAYING, 6, "", paid, sink=sink)
        yield Outer(f"{sink}", ["run", "W"], {"W": WRITER}, 6, "", {"W": WRITER, "OUT": "A"}, sink=sink)
        yield Outer(f"{sink}", ["trial", "1"], {}, 6, "", {"TRIAL": Whole()}, sink=sink)
        for words, status in ((["check", "NOSUCH", "C"], 7), (["check", "S", "."], 5), (["check"], 4), ([], 4)):
            yield Outer(f"{sink}", words, GIVEN, status, "", sink=sink)
        for words in (["check", "S", "C"], ["analyse", "S", "C"], ["run", "S"]):
            yield Outer(f"{sink}", words, {"S": bad, "C": CERTIFICATE}, 2, "", sink=sink)
        silent = SAMPLE.replace("ADD 1", "MOVE 1")
        yield Outer(f"{sink}", ["run", "S"], {"S": silent}, 0, "", sink=sink)


def readers():
    """A reader that goes away behind the first line, where more is shown than a pipe holds."""
    adding = SAMPLE[: SAMPLE.index("       ADD")] + 4_000 * "       ADD 1 TO N.\n"
    nodes = "".join(f"node {number}\n" for number in range(1, 4_002))
    bare = f"COBSOUND 1\ncells 1\nnodes 4001\npacks 0\n{nodes}end\n"
    yield Outer("one line", ["run", "S"], {"S": TALKING}, 6, "", sink="one line")
    yield Outer("one line", ["check", "S", "C"], {"S": adding, "C": bare}, 6, "", sink="one line")


def devices():
    """CERT and a file of a program on a device that is always full, and one that takes all."""
    yield Outer("/dev/full", ["analyse", "S", "/dev/full"], GIVEN, *WRITTEN)
    yield Outer("/dev/full", ["run", "S", "PAYOUT=/dev/full"], PAYING, 6, lambda out: out == SHOWN + "E4 write\n")
    yield Outer("/dev/null", ["analyse", "S", "/dev/null"], GIVEN, 0, "clean\n")
    yield Outer("/dev/null", ["check", "/dev/null", "C"], GIVEN, *refusal("E8 line 1"))
    yield Outer("/dev/null", ["check", "S", "/dev/null"], GIVEN, 3, "E12 line 1\n")
    yield Outer("/dev/null", ["run", "S", "PAYOUT=/dev/null"], PAYING, 0, SHOWN)


def same_files():
    """One file where two are meant. The launcher refuses what would lose the source; the program alone doesn't."""
    yield Outer("CERT is SOURCE", ["check", "S", "S"], GIVEN, 3, "E12 line 1\n")
    yield Outer("CERT is SOURCE", ["analyse", "S", "S"], GIVEN, 0, "clean\n", {**GIVEN, "S": CERTIFICATE})
    bad = {"S": SAMPLE.replace("RUN.", "RUN")}
    yield Outer("CERT is SOURCE", ["analyse", "S", "S"], bad, *refusal("E8 line 8"))
    for words in (["PAYIN=x", "PAYOUT=x"], ["PAYOUT=PAYIN"], ["PAYIN=PAYOUT"]):
        refused = words[-1] if "PAYOUT" in words[-1][:6] else "PAYOUT"
        yield Outer("one path", ["run", "S", *words], PAYING, 4, f"E1 usage {refused}\n")


def launched():
    """The launcher refuses SOURCE as CERT, by whatever path."""

    def make(folder):
        (folder / "LINK").symlink_to("S")
        os.link(folder / "S", folder / "HARD")
        (folder / "D").mkdir()

    left = {"S": SAMPLE, "LINK": SAMPLE, "HARD": SAMPLE, "D": None}
    for name in ("S", "./S", "D/../S", "LINK", "HARD"):
        yield Outer("the launcher", ["analyse", "S", name], {"S": SAMPLE}, 64, "", left, ready=make)
    for words in (["analyse", "--", "S", "S"], ["analyse", "S", "--", "S"]):
        yield Outer("the launcher", words, {"S": SAMPLE}, 64, "", left, ready=make)
    yield Outer("the launcher", ["--", "analyse", "S", "S"], {"S": SAMPLE}, 4, "E1 usage --\n", left, ready=make)


def checks():
    kinds = (folders, slashes, names, links, sinks, readers, devices)
    yield from checks_of(itertools.chain.from_iterable(kind() for kind in kinds))
    for path, cases in ((program_path(), same_files()), (ROOT / "cobsound", launched())):
        for case in cases:
            yield lambda path=path, case=case: case.tried(path)
