"""Refused memory: each allocation of a command by itself, and with all behind it; and less and less address space.

The answer must be the command's own, or status 8 with a front of what it shows; and what it writes must stand there
whole, or as it was, or, behind status 8, hold a front."""

import collections
import dataclasses
import json
import os
import pathlib
import shutil
import subprocess

from bench.sources import trial
from tests.built import CASES, ROOT
from tests.hostile_use.damaged import CERT, OLD, SOURCE
from tests.hostile_use.trials import Folder, Tally

HERE = pathlib.Path(__file__).resolve().parent
REFUSED = b"refused\n"
WORDS = {command: [command, SOURCE, CERT] for command in ("analyse", "check")}
# what the commands write
WRITES = {"analyse": CERT, "run": "PAYOUT", "check": None, "trial": "TRIAL"}
STEP_KILOBYTES = 4
LARGE_STEP_KILOBYTES = 64


@dataclasses.dataclass
class Command:
    """A command on files, what it answers undisturbed, and what it then leaves in the file that it writes."""

    name: str
    words: list
    files: dict
    own: tuple = ()
    written: bytes = b""

    def target(self):
        return WRITES[self.words[0]]

    def learn(self, folder):
        folder.put(self.files)
        answer = folder.asked(*self.words)
        self.own = (answer.status, answer.out)
        self.written = folder.known.get(self.target())

    def is_front(self, out):
        """Whether this is a front of what is shown, in `run` with a front of the refusal's line behind it; or such a
        front alone."""
        line = b"E19 memory\n"
        shown = [out.removesuffix(line[:length]) for length in range(len(line) + 1) if out.endswith(line[:length])]
        whole = self.own[1] if self.words[0] == "run" else b""
        return self.own[1].startswith(out) or any(whole.startswith(front) for front in shown)

    def faults(self, answer, left):
        """What isn't specified where memory is refused."""
        before = self.files.get(self.target())
        if (answer.status, answer.out) == self.own:
            if left != self.written:
                yield "doesn't leave what it should"
        elif answer.status != 8:
            yield "neither its own answer nor status 8"
        elif not self.is_front(answer.out):
            yield "shows something else"
        elif left != before and not (left is not None and self.written.startswith(left)):
            yield "leaves something else than a front"
        others = [name for name in answer.changed if name != self.target()]
        if others:
            yield f"changes {others}"


def sample(name):
    return (ROOT / f"samples/{name}").read_bytes()


def packed():
    """A certificate with packs that is accepted, and its source."""
    cases = map(json.loads, (CASES / "checked.jsonl").open())
    case = next(case for case in cases if "\npack " in case["certificate"] and case["status"] < 2)
    return {SOURCE: case["source"].encode("latin-1"), CERT: case["certificate"].encode("latin-1")}


def commands():
    first = {SOURCE: sample("first.cob"), CERT: sample("first.cert")}
    payroll = {SOURCE: sample("payroll.cob"), CERT: sample("payroll.cert")}
    for name, files in (("first", first), ("payroll", payroll)):
        yield Command(f"check of {name}", WORDS["check"], files)
        yield Command(f"analyse of {name}", WORDS["analyse"], {**files, CERT: OLD})
    run = ["run", SOURCE]
    yield Command("run of payroll", run, {SOURCE: payroll[SOURCE], "PAYIN": sample("PAYIN"), "PAYOUT": OLD})
    yield Command("check of packs", WORDS["check"], packed())
    yield Command("analyse of orders", WORDS["analyse"], {SOURCE: sample("orders.cob")})
    yield Command("trial of 2 paragraphs", ["trial", "2"], {"TRIAL": OLD})


def large_commands():
    """Of a program with 4,091 nodes; and a run that reads and writes more than a megabyte."""
    source = trial(681).encode()
    yield Command("analyse of 4,091 nodes", WORDS["analyse"], {SOURCE: source, CERT: OLD})
    records = sample("PAYIN")[:12] + sample("PAYIN")[12:24] * 90_000
    files = {SOURCE: sample("payroll.cob"), "PAYIN": records}
    yield Command("run of 90,000 records", ["run", SOURCE, "--steps", "9999999"], files)


def library(folder):
    """The library that refuses; None where there is no compiler of C."""
    compiler = shutil.which("cc")
    if not compiler:
        return None
    path = folder / "refused_memory.so"
    subprocess.run([compiler, "-O2", "-shared", "-fPIC", "-o", path, HERE / "refused_memory.c"], check=True)
    return path


def told_ranges(numbers):
    """Rising numbers as ranges."""
    ranges = []
    for number in numbers:
        if ranges and ranges[-1][1] == number - 1:
            ranges[-1][1] = number
        else:
            ranges.append([number, number])
    return ", ".join(f"{one}" if one == last else f"{one} to {last}" for one, last in ranges)


class Refusing:
    """A tally of what comes of a command under growing or falling bounds; like faults count as one."""

    def __init__(self, options, name):
        self.tally = Tally(name, options.keep)
        self.found = collections.defaultdict(list)

    def add(self, command, answer, left, number):
        answer.errors = b""
        self.tally.add(answer, [], {}, command.name)
        self.tally.step()
        for fault in command.faults(answer, left):
            self.found[command.name, answer.text(), fault].append(number)

    def done(self, command, unit):
        for (name, text, fault), numbers in self.found.items():
            self.tally.fault(f"{name}, {unit} {told_ranges(numbers)}: {text}: {fault}", command.files)
        self.found.clear()


def one_by_one(options, folder, command, preload, is_lasting, refusing):
    """Refuses allocation after allocation, until a run meets none that is refused; answers how many there are."""
    command.learn(folder)
    number = 0
    while True:
        number += 1
        names = {"LD_PRELOAD": str(preload), "REFUSED_ALLOCATION": str(number)}
        names |= {"REFUSED_LATER": "1"} if is_lasting else {}
        folder.put(command.files)
        answer = folder.asked(*command.words, names=names)
        if not answer.errors.startswith(REFUSED):
            return number - 1
        refusing.add(command, answer, folder.known.get(command.target()), number)


def allocations(options, is_lasting):
    kind = "an allocation and all behind it" if is_lasting else "single allocations"
    refusing = Refusing(options, f"refused {kind}")
    with Folder(options.program) as tools, Folder(options.program) as folder:
        preload = library(tools.path)
        if not preload:
            refusing.tally.notes.append("left out: there is no compiler of C (cc)")
            return refusing.tally
        for command in commands():
            count = one_by_one(options, folder, command, preload, is_lasting, refusing)
            refusing.tally.notes.append(f"{command.name}: {count} allocations")
            refusing.done(command, "allocation")
    return refusing.tally


def limited(folder, command, kilobytes):
    """The answer in so much address space; None where the program doesn't start in it."""
    folder.put(command.files)
    shell = ["/bin/sh", "-c", f'ulimit -v {kilobytes}; exec "$0" "$@"']
    return folder.asked(*command.words, shell=shell)


def least_kilobytes(folder):
    """The least address space in which the program starts: where it answers to no words."""
    nothing = Command("no words", [], {})
    for kilobytes in range(1_000, 100_000, STEP_KILOBYTES):
        answer = limited(folder, nothing, kilobytes)
        if (answer.status, answer.out) == (4, b"E1 usage\n"):
            return kilobytes
    raise OSError("the program doesn't start in 100 MB")


def fall(options, folder, command, least, step, refusing):
    """Goes up from the least address space until the command has given its own answer several times."""
    command.learn(folder)
    kilobytes, own = least, 0
    while own < 5:
        answer = limited(folder, command, kilobytes)
        left = folder.known.get(command.target())
        refusing.add(command, answer, left, kilobytes)
        own = own + 1 if (answer.status, answer.out) == command.own else 0
        kilobytes += step
    refusing.tally.notes.append(f"{command.name}: its own answer from {kilobytes - 5 * step} kilobytes on")
    refusing.done(command, "kilobytes")


def address_space(options):
    refusing = Refusing(options, "refused address space")
    with Folder(options.program) as folder:
        least = least_kilobytes(folder)
        refusing.tally.notes.append(f"the program starts from {least} kilobytes on")
        for command in commands():
            fall(options, folder, command, least, STEP_KILOBYTES, refusing)
        for command in large_commands():
            fall(options, folder, command, least, LARGE_STEP_KILOBYTES, refusing)
    return refusing.tally


def memory(options):
    yield allocations(options, is_lasting=False)
    yield allocations(options, is_lasting=True)
    yield address_space(options)
