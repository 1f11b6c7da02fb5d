"""The program in a folder of files: what it answers, what it changes there, and a tally of that."""

import collections
import dataclasses
import os
import pathlib
import re
import resource
import shutil
import signal
import subprocess
import sys
import tempfile

# an answer may take so many seconds of the processor's time; the program is stopped after so many on the clock
MOST_SECONDS = 10
LONGEST_WAIT = 300

STOPPED = None

# folders are made in memory, where that can be had
MEMORY = "/dev/shm" if os.access("/dev/shm", os.W_OK) else None


@dataclasses.dataclass
class Answer:
    """How the program ended (None where it was stopped), what it showed, and what changed: each name with its bytes
    before and behind, None where the file isn't there."""

    words: list
    status: int | None
    out: bytes
    errors: bytes
    seconds: float
    changed: dict

    def line(self):
        """The line of a refusal: the last one shown."""
        return self.out.removesuffix(b"\n").rsplit(b"\n", 1)[-1].decode("latin-1")

    def text(self):
        words = " ".join(word if len(word) < 60 else f"{word[:20]}..({len(word)})" for word in map(str, self.words))
        return f"{words}: status {self.status}, {self.out[-200:]!r}"


def processor_seconds():
    used = resource.getrusage(resource.RUSAGE_CHILDREN)
    return used.ru_utime + used.ru_stime


class Shown:
    """A file that takes what a program shows."""

    def __init__(self):
        self.file = tempfile.TemporaryFile()

    def emptied(self):
        """Its descriptor, behind what the program before has shown is gone."""
        self.file.seek(0)
        self.file.truncate()
        return self.file.fileno()

    def content(self):
        self.file.seek(0)
        return self.file.read()


def too_long(*_):
    raise TimeoutError


def waited(pid):
    """How a program ended, and the processor's seconds that it took. It is stopped where it takes too long."""
    signal.signal(signal.SIGALRM, too_long)
    signal.alarm(LONGEST_WAIT)
    try:
        _, ended, used = os.wait4(pid, 0)
    except TimeoutError:
        os.kill(pid, signal.SIGKILL)
        _, _, used = os.wait4(pid, 0)
        return STOPPED, used.ru_utime + used.ru_stime
    finally:
        signal.alarm(0)
    return os.waitstatus_to_exitcode(ended), used.ru_utime + used.ru_stime


class Folder:
    """A folder with files, in which the program is started. Its files are known, so that each change is seen."""

    def __init__(self, program, path=None):
        self.program = program
        self.kept = None if path else tempfile.TemporaryDirectory(prefix="hostile-", dir=MEMORY)
        self.path = pathlib.Path(path or self.kept.name)
        self.known = {}
        self.out, self.errors = Shown(), Shown()

    def __enter__(self):
        return self

    def __exit__(self, *_):
        os.chdir("/")
        if self.kept:
            self.kept.cleanup()

    def found(self):
        """The files with their bytes, and folders with None in place of them."""
        files = {}
        for entry in os.scandir(self.path):
            files[entry.name] = pathlib.Path(entry.path).read_bytes() if entry.is_file() else None
        return files

    def put(self, files):
        """Makes these the only files."""
        for name in self.known:
            if name not in files:
                path = self.path / name
                shutil.rmtree(path) if path.is_dir() else path.unlink()
        for name, content in files.items():
            if self.known.get(name) != content:
                (self.path / name).write_bytes(content)
        self.known = dict(files)

    def changes(self):
        """What has changed since the last look."""
        found = self.found()
        names = [*self.known, *(name for name in found if name not in self.known)]
        changed = {
            name: (self.known.get(name), found.get(name))
            for name in names
            if name not in found or name not in self.known or self.known[name] != found[name]
        }
        self.known = found
        return changed

    def asked(self, *words, names=None, shell=()):
        """The answer to these words, by the quickest way to start a program: with more names in its environment, or by
        the words of a shell."""
        os.chdir(self.path)
        command = [*shell, str(self.program), *words]
        actions = [
            (os.POSIX_SPAWN_OPEN, 0, os.devnull, os.O_RDONLY, 0),
            (os.POSIX_SPAWN_DUP2, self.out.emptied(), 1),
            (os.POSIX_SPAWN_DUP2, self.errors.emptied(), 2),
        ]
        pid = os.posix_spawn(command[0], command, {**os.environ, **(names or {})}, file_actions=actions)
        status, seconds = waited(pid)
        return Answer(list(words), status, self.out.content(), self.errors.content(), seconds, self.changes())

    def asked_with(self, *words, **more):
        """The answer to these words, where `more` says how the program is started."""
        more = {"stdout": subprocess.PIPE, "stderr": subprocess.PIPE, "stdin": subprocess.DEVNULL, **more}
        before = processor_seconds()
        try:
            done = subprocess.run([self.program, *words], cwd=self.path, timeout=LONGEST_WAIT, **more)
            status, out, errors = done.returncode, done.stdout or b"", done.stderr or b""
        except subprocess.TimeoutExpired as stopped:
            status, out, errors = STOPPED, stopped.stdout or b"", stopped.stderr or b""
        return Answer(list(words), status, out, errors, processor_seconds() - before, self.changes())


class Stopped(Exception):
    """Too many faults."""


class Tally:
    """What was tried in a part, how it was answered, and the faults."""

    MOST_FAULTS = 50

    def __init__(self, name, keep, count=None):
        self.name = name
        self.keep = keep
        self.count = count
        self.tried = 0
        self.answers = collections.Counter()
        self.slowest = 0.0
        self.faults = []
        self.notes = []

    def shown_progress(self):
        """A line that tells how far it is: on a terminal always the same, else one now and then."""
        whole = f" of {self.count}" if self.count else ""
        line = f"{self.name}: {self.tried}{whole}, {len(self.faults)} faults"
        if sys.stderr.isatty():
            print(f"\r\033[K{line}", end="", file=sys.stderr, flush=True)
        elif self.tried % 500 == 0:
            print(line, file=sys.stderr, flush=True)

    def add(self, answer, faults, files, kind=None):
        """Counts an answer, by its command and how its line begins. The files are kept where there is a fault."""
        command = kind or (str(answer.words[0]) if answer.words else "")
        refusal = re.match(r"E[0-9]+", answer.line())
        self.answers[command, answer.status, refusal[0] if refusal and answer.status else ""] += 1
        self.slowest = max(self.slowest, answer.seconds)
        if answer.status is STOPPED or answer.seconds > MOST_SECONDS:
            faults = [*faults, f"takes {answer.seconds:.1f} seconds"]
        for fault in faults:
            self.fault(f"{answer.text()}: {fault}", files)

    def step(self):
        self.tried += 1
        if self.tried % 20 == 0:
            self.shown_progress()

    def fault(self, text, files):
        self.faults.append(text)
        folder = self.keep / f"{self.name.replace(' ', '-')}-{len(self.faults)}"
        folder.mkdir(parents=True, exist_ok=True)
        for name, content in files.items():
            if content is not None:
                (folder / name.replace("/", "_")).write_bytes(content)
        (folder / "FAULT").write_text(text + "\n")
        print(f"\n{self.name}: {text}\n  kept in {folder}", flush=True)
        if len(self.faults) >= self.MOST_FAULTS:
            raise Stopped
