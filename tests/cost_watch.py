"""Watches a command, as the gate, and writes down what each check of the kit within it takes.

Every two seconds it looks at the processes below the command. A check is a process `rattle` with all that it has forked:
its processor time is what these have used, with that of those of them that have ended. What it used behind the last look,
one second on average where it works on one processor, is added. Its memory is the most that one process of it held.
"""

import contextlib
import dataclasses
import datetime
import enum
import json
import os
import pathlib
import resource
import signal
import subprocess
import sys
import time
import traceback
import typing

ROOT = pathlib.Path(__file__).resolve().parent.parent
SECONDS_BETWEEN_LOOKS = 2.0
TICKS = os.sysconf("SC_CLK_TCK")


class Kind(str, enum.Enum):
    """What `rt` starts a check for."""

    PROOF = "proof"
    # A proved program is compiled.
    PROGRAM = "program"
    # A crate is proved once more, or looked at once more, for its must-fail edits.
    BASE = "base"
    EDIT = "edit"
    TESTS = "tests"
    OTHER = "other"


@dataclasses.dataclass
class Check:
    """A check of a crate, as it was seen last: seconds since the run began, seconds of processors, bytes."""

    crate: str
    kind: Kind
    began: float
    ended: float
    processor: float = 0.0
    memory: int = 0


@dataclasses.dataclass
class Run:
    """A run of a command: on which machine, and, once it has ended, how, with what other work and the host took meanwhile."""

    command: str
    begun: str
    commit: str
    kit: str
    machine: str
    machine_memory: int
    processors: int
    lanes: typing.Optional[int] = None
    seconds: float = 0.0
    processor: float = 0.0
    others: float = 0.0
    stolen: float = 0.0
    status: typing.Optional[int] = None


@dataclasses.dataclass
class Process:
    """What the system tells of a process: its parent, its beginning since the system's, its ticks with those of its children that ended."""

    name: str
    parent: int
    began: int
    ticks: int


def said_by(*words):
    """The first line that a command says, nothing where it can't be had."""
    try:
        done = subprocess.run(words, cwd=ROOT, capture_output=True, text=True)
    except OSError:
        return ""
    return done.stdout.partition("\n")[0].strip()


def line_of(path, word):
    """What a file of the system says behind a word and a colon."""
    lines = (line.partition(":") for line in pathlib.Path(path).read_text().splitlines())
    return next((after.strip() for head, _, after in lines if head.strip() == word), "")


def spent_by_children():
    """Seconds of processors of the processes that this one has started and that have ended, with those below them."""
    spent = resource.getrusage(resource.RUSAGE_CHILDREN)
    return spent.ru_utime + spent.ru_stime


def spent_by_all():
    """Seconds of processors that the system has worked since it began, and those that its host has taken from it."""
    words = pathlib.Path("/proc/stat").read_text().split("\n", 1)[0].split()
    user, nice, system, _, _, interrupts, soft, stolen = (int(word) / TICKS for word in words[1:9])
    return user + nice + system + interrupts + soft, stolen


def run_of(command):
    """A run that begins now."""
    return Run(
        command=" ".join(command),
        begun=datetime.datetime.now(datetime.timezone.utc).strftime("%Y-%m-%d %H:%M"),
        commit=said_by("git", "describe", "--always", "--dirty"),
        kit=said_by("rt", "version"),
        machine=line_of("/proc/cpuinfo", "model name"),
        machine_memory=int(line_of("/proc/meminfo", "MemTotal").split()[0]) * 1024,
        processors=len(os.sched_getaffinity(0)),
    )


def processes():
    """The system's processes by number."""
    found = {}
    for number in filter(str.isdigit, os.listdir("/proc")):
        with contextlib.suppress(OSError, IndexError, ValueError):
            head, _, tail = pathlib.Path("/proc", number, "stat").read_text(errors="replace").rpartition(")")
            words = tail.split()
            ticks = sum(map(int, words[11:15]))
            found[int(number)] = Process(head.partition("(")[2], int(words[1]), int(words[19]), ticks)
    return found


def below(top, children):
    """A process and all below it, each behind its parent."""
    found = [top]
    for number in found:
        found += children.get(number, [])
    return found


def word_after(words, flag):
    return words[words.index(flag) + 1] if flag in words[:-1] else ""


def kind_of(words, folder):
    """What a check with these words, in this folder, is for, as `rt` starts it."""
    kept = os.path.basename(word_after(words, "--incremental"))
    if words[1:2] not in (["check"], ["build"]) or "--only" in words:
        return Kind.OTHER
    if "--test" in words:
        return Kind.TESTS
    if "--crate-checked" in words:
        return Kind.PROGRAM
    if kept == "seed":
        return Kind.BASE
    return Kind.EDIT if kept.isdigit() or os.path.basename(folder).startswith("rt-edit-") else Kind.PROOF


def most_held(number):
    """The most bytes that a process has held, 0 where it has ended."""
    with contextlib.suppress(OSError, IndexError, ValueError):
        return int(line_of(f"/proc/{number}/status", "VmHWM").split()[0]) * 1024
    return 0


class Watcher:
    """Looks at what runs below a process."""

    def __init__(self, top, file):
        self.top, self.file, self.began = top, file, time.monotonic()
        self.checks: dict[tuple[int, int], Check] = {}
        self.processors = self.lanes = None

    def note(self, kind, record):
        self.file.write(json.dumps({kind: dataclasses.asdict(record)}) + "\n")
        self.file.flush()

    def look(self):
        now, found = time.monotonic() - self.began, processes()
        children = {}
        for number, process in found.items():
            children.setdefault(process.parent, []).append(number)
        seen, left = set(), [self.top]
        while left:
            number = left.pop()
            if number in found and found[number].name == "rattle":
                parts = [(it, found[it]) for it in below(number, children)]
                seen.add(self.see(number, found[number], now, parts))
            else:
                left += children.get(number, [])
        for key in self.checks.keys() - seen:
            self.end(key)

    def see(self, number, process, now, parts):
        """Notes a check with the processes that it consists of; its key."""
        key = (number, process.began)
        if key not in self.checks:
            with contextlib.suppress(OSError):
                self.checks[key] = self.begun(number, now)
        check = self.checks.get(key)
        if check:
            check.ended = now
            check.processor = max(check.processor, sum(part.ticks for _, part in parts) / TICKS)
            check.memory = max([check.memory, *(most_held(it) for it, _ in parts)])
        return key

    def begun(self, number, now):
        words = pathlib.Path("/proc", str(number), "cmdline").read_bytes().decode(errors="replace").split("\0")
        folder = os.readlink(f"/proc/{number}/cwd")
        if self.processors is None:
            self.processors = len(os.sched_getaffinity(number))
            self.lanes = lanes_of(number)
        return Check(word_after(words, "--crate-name"), kind_of(words, folder), round(now, 1), now)

    def end(self, key):
        check = self.checks.pop(key)
        check.processor, check.ended = round(check.processor + SECONDS_BETWEEN_LOOKS / 2, 1), round(check.ended, 1)
        self.note("check", check)

    def close(self, run):
        for key in list(self.checks):
            self.end(key)
        self.note("run", run)


def lanes_of(number):
    """How many checks at a time RT_JOBS allows a process."""
    words = pathlib.Path("/proc", str(number), "environ").read_bytes().decode(errors="replace").split("\0")
    told = [word.partition("=")[2] for word in words if word.startswith("RT_JOBS=")]
    return int(told[0]) if told and told[0].isdigit() else None


def looked_till_its_end(child, watcher):
    """Looks until the process has ended. What goes wrong with looking is told, and is nothing to the process."""
    is_well = True
    while child.poll() is None:
        try:
            if is_well:
                watcher.look()
        except Exception:  # noqa: BLE001 (whatever it is, the command goes on)
            is_well = False
            print("costs: looks no more:", traceback.format_exc(), file=sys.stderr)
        with contextlib.suppress(subprocess.TimeoutExpired):
            child.wait(SECONDS_BETWEEN_LOOKS)


def watch(command, run, file):
    """Runs a command to its end, and notes how that went."""
    before, (worked, stolen) = spent_by_children(), spent_by_all()
    child = subprocess.Popen(command)
    # The terminal sends its signals to the command too; one that reaches this process alone is handed on.
    signal.signal(signal.SIGINT, lambda *_: None)
    signal.signal(signal.SIGTERM, lambda *_: child.terminate())
    watcher = Watcher(child.pid, file)
    looked_till_its_end(child, watcher)
    run.status = child.returncode if child.returncode >= 0 else 128 - child.returncode
    run.seconds, run.processor = time.monotonic() - watcher.began, spent_by_children() - before
    run.processors, run.lanes = watcher.processors or run.processors, watcher.lanes
    run.others, run.stolen = spent_by_all()[0] - worked - run.processor, spent_by_all()[1] - stolen
    watcher.close(run)


def watched(command, path):
    """Runs a command and writes what its checks take to a file. Its status, or 2 where it couldn't be started."""
    run = run_of(command)
    try:
        with open(path, "w", encoding="utf-8") as file:
            watch(command, run, file)
    except OSError as error:
        print(f"costs: {error}", file=sys.stderr)
    return 2 if run.status is None else run.status


def read(path):
    """The run that a file tells of, with its checks."""
    run, checks = None, []
    for line in pathlib.Path(path).read_text().splitlines():
        told = json.loads(line)
        if "check" in told:
            checks.append(Check(**{**told["check"], "kind": Kind(told["check"]["kind"])}))
        else:
            run = Run(**told["run"])
    return run, checks
