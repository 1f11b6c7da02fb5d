"""Bytes one by one: pipes in the place of files that give a byte at a time, or never end, and files that take no more
than so many bytes."""

import dataclasses
import errno
import fcntl
import itertools
import os
import pathlib
import struct
import subprocess
import sys
import tempfile
import termios
import threading
import time

from tests.built import ROOT, Case, checks_of, latin, program_path, ran
from tests.outside import PAID, PAY, PAYING, SHOWN, WRITER, WRITTEN, ended, left_in
from tests.reference import CERTIFICATE
from tests.sample import PAYROLL, SAMPLE

LISTING = (ROOT / "samples/listing.cob").read_text("latin-1")

# shows what the OPEN of a file that may be absent answers
OPENER = """       IDENTIFICATION DIVISION.
       PROGRAM-ID. T.
       ENVIRONMENT DIVISION.
       INPUT-OUTPUT SECTION.
       FILE-CONTROL.
       SELECT F ASSIGN TO INP FILE STATUS IS S.
       DATA DIVISION.
       FILE SECTION.
       FD F.
       01 R PIC X(80).
       WORKING-STORAGE SECTION.
       77 S PIC XX.
       PROCEDURE DIVISION.
       OPEN INPUT F.
       DISPLAY S.
"""

# reads one record of a file
READER = OPENER.replace(" FILE STATUS IS S", "").replace("DISPLAY S", "READ F").replace("77 S PIC XX.", "")

RECORD = "A" * 80

# the most seconds that a program is waited for
LONGEST = 300

# Starts a program whose files can't grow past so many bytes.
LIMITED = """import os, resource, signal, sys
most = int(sys.argv[1])
signal.signal(signal.SIGXFSZ, signal.SIG_IGN)
resource.setrlimit(resource.RLIMIT_FSIZE, (most, most))
os.execv(sys.argv[2], sys.argv[2:])
"""


# ---- pipes


def waiting(pipe):
    """How many bytes wait in a pipe to be read."""
    return struct.unpack("i", fcntl.ioctl(pipe, termios.FIONREAD, bytes(4)))[0]


def writer_of(path, is_over):
    """The end of a pipe that takes bytes, as soon as a reader has the other one; None where none comes."""
    while not is_over.is_set():
        try:
            return os.open(path, os.O_WRONLY | os.O_NONBLOCK)
        except OSError as error:
            if error.errno != errno.ENXIO:
                raise
            time.sleep(0.001)
    return None


def feed(path, content, is_held, is_over):
    """Puts each byte into a pipe when the one before was read; a pipe that is held stays open till all is over."""
    pipe = writer_of(path, is_over)
    if pipe is None:
        return
    try:
        for byte in content:
            os.write(pipe, bytes([byte]))
            while waiting(pipe) and not is_over.is_set():
                time.sleep(0)
        if is_held:
            is_over.wait()
    except BrokenPipeError:
        pass
    finally:
        os.close(pipe)


def started_with(command, folder, pipes, is_held):
    """The status of a program and what it shows, while its pipes are fed."""
    is_over = threading.Event()
    feeders = []
    for name, content in pipes.items():
        os.mkfifo(folder / name)
        feeders.append(threading.Thread(target=feed, args=(folder / name, content, is_held, is_over)))
    started = subprocess.Popen(command, cwd=folder, stdin=subprocess.DEVNULL, stdout=subprocess.PIPE)
    for feeder in feeders:
        feeder.start()
    try:
        out = started.communicate(timeout=LONGEST)[0]
    except subprocess.TimeoutExpired:
        started.kill()
        out = started.communicate()[0] + b"(it doesn't end)"
    is_over.set()
    for feeder in feeders:
        feeder.join()
    return started.returncode, out.decode("latin-1")


@dataclasses.dataclass
class Piped(Case):
    """A case with pipes beside its files. They give what they hold by a byte at a time, and end behind it unless they
    are held."""

    pipes: dict = dataclasses.field(default_factory=dict)
    is_held: bool = False

    def tried(self, path):
        with tempfile.TemporaryDirectory() as name:
            folder = pathlib.Path(name)
            for file, content in latin(self.files).items():
                (folder / file).write_bytes(content)
            status, out = started_with([path, *self.words], folder, latin(self.pipes), self.is_held)
            left = {file: content for file, content in left_in(folder).items() if file not in self.pipes}
        if self.is_answered(status, out, left):
            return None
        return f"{self.name}, {' '.join(self.words)}: {(status, out, left)} in place of {(self.status, self.out)}"


def commands():
    """Each command that reads a file, all of whose files are pipes."""
    kind = "a byte at a time"
    made = {"C": CERTIFICATE}
    yield Piped(kind, ["check", "S", "C"], {}, 0, "clean\n", pipes={"S": SAMPLE, "C": CERTIFICATE})
    yield Piped(kind, ["analyse", "S", "C"], {}, 0, "clean\n", made, pipes={"S": SAMPLE})
    yield Piped(kind, ["run", "W"], {}, 0, "B\n", {"OUT": "A"}, pipes={"W": WRITER})
    paid = {"PAYOUT": PAID}
    yield Piped(kind, ["run", "P"], {}, 0, SHOWN, paid, pipes={"P": PAYROLL, "PAYIN": PAY})


def records():
    """Files of records by a byte at a time, and all at once: an empty one, one of two records, one whose end is cut, and
    none."""
    two = f"{RECORD}\n{RECORD}\n"
    cut = f"{RECORD}\nE15 INP length 81\n"
    for content, status, out in (("", 0, ""), (2 * RECORD, 0, two), (RECORD + "A", 12, cut)):
        yield Piped("records", ["run", "L"], {"L": LISTING}, status, out, pipes={"INP": content})
        yield Piped("records", ["run", "L"], {"INP": content}, status, out, pipes={"L": LISTING})
        yield Case("records", ["run", "L"], {"L": LISTING, "INP": content}, status, out)
    for source, status, out in ((LISTING, 11, "E17 status 35 statement 1\n"), (OPENER, 0, "35\n")):
        yield Piped("no file", ["run", "S"], {}, status, out, pipes={"S": source})
        yield Case("no file", ["run", "S"], {"S": source}, status, out)


def ends():
    """A READ doesn't look for the end behind its record: it takes all bytes of a pipe that never ends."""
    for content in (RECORD, RECORD + "A"):
        yield Piped("no end", ["run", "R"], {"R": READER}, 0, "", pipes={"INP": content}, is_held=True)


# ---- files that take few bytes


@dataclasses.dataclass
class Limited(Case):
    """A case in which no file can grow past so many bytes."""

    most: int = 0

    def tried(self, path):
        with tempfile.TemporaryDirectory() as folder:
            for name, content in latin(self.files).items():
                pathlib.Path(folder, name).write_bytes(content)
            command = [sys.executable, "-c", LIMITED, str(self.most), path, *self.words]
            status, out = ended(subprocess.Popen(command, cwd=folder, stdout=subprocess.PIPE))
            left = left_in(folder)
        if self.is_answered(status, out, left):
            return None
        return f"{self.name}, {self.most}: {(status, out, left)} in place of {(self.status, self.out, self.left)}"


def limited(words, files, name, whole, refused, fine):
    """A file that takes each number of bytes below those of the whole, and these: the bytes before the write that fails
    are in it."""
    whole = whole.encode("latin-1") if isinstance(whole, str) else whole
    for most in range(len(whole)):
        left = {**files, name: whole[:most]}
        yield Limited(f"bytes of {name}", words, files, 6, refused, left, most=most)
    yield Limited(f"bytes of {name}", words, files, 0, fine, {**files, name: whole}, most=len(whole))


def full_files():
    given = {"S": SAMPLE}
    yield from limited(["analyse", "S", "C"], given, "C", CERTIFICATE, WRITTEN[1], "clean\n")
    yield from limited(["run", "S"], PAYING, "PAYOUT", PAID, SHOWN + WRITTEN[1], SHOWN)
    yield from limited(["run", "W"], {"W": WRITER}, "OUT", "A", WRITTEN[1], "B\n")


def of_a_trial(path):
    """Tells what is wrong with a trial whose certificate can't be written whole."""
    _, _, left = ran(path, ["trial", "2"], {})
    whole = left["TRIAL"]
    for most in (0, 1, len(whole) // 2, len(whole) - 1):
        case = Limited("bytes of TRIAL", ["trial", "2"], {}, *WRITTEN, {"TRIAL": whole[:most]}, most=most)
        wrong = case.tried(path)
        if wrong:
            return wrong
    return None


def checks():
    kinds = (commands, records, ends, full_files)
    yield from checks_of(itertools.chain.from_iterable(kind() for kind in kinds))
    yield lambda: of_a_trial(program_path())
