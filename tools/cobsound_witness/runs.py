"""Starts runs of a program on files of this search, side by side."""

import pathlib
import re
import shutil
import subprocess
import threading
from collections.abc import Iterator
from dataclasses import dataclass
from enum import Enum, auto
from typing import IO

from .makers import Files

FAULT = re.compile(rb"E18 (SIZE|TRUNCATION|ZERO|CLASS) statement ([0-9]+) step ([0-9]+)\n\Z")
# the status of a run that goes on behind its budget of steps
STEPS_SPENT = 10

MOST_READ = 65_536
MOST_KEPT = 4_096
LEAST_ROOM = 1 << 30

STOPPED = re.compile(rb"E1[5-7] [^\n]*\n\Z")


@dataclass(frozen=True)
class Fault:
    kind: str
    statement: int


@dataclass(frozen=True)
class Outcome:
    """How a run ended: its status, the fault that it met and in which step, and what it showed before."""

    status: int
    shown: bytes
    fault: Fault | None = None
    step: int = 0


def outcome_of(status: int, shown: bytes) -> Outcome:
    match = FAULT.search(shown) if status == 1 else None
    if match:
        return Outcome(status, shown[: match.start()], Fault(match[1].decode(), int(match[2])), int(match[3]))
    stopped = STOPPED.search(shown) if status in (10, 11, 12) else None
    return Outcome(status, shown[: stopped.start()] if stopped else shown)


class Keep(Enum):
    """How much is kept of what a run shows."""

    ALL = auto()
    END = auto()


class Runner:
    """Runs with a program. Each thread has a folder of its own for the files of its runs. What a run writes into
    `outputs` is lost; `works` are files that it may read again."""

    def __init__(self, program: str, folder: str, outputs: list[str], works: list[str]):
        self.program = program
        self.folder = folder
        self.outputs = outputs
        self.works = works
        self.threads = threading.local()

    def own_folder(self) -> pathlib.Path:
        if not hasattr(self.threads, "folder"):
            self.threads.folder = pathlib.Path(self.folder, str(threading.get_ident()))
            self.threads.folder.mkdir(exist_ok=True)
        return self.threads.folder

    def run(self, source: str, files: Files, steps: int, keep: Keep = Keep.END) -> Outcome:
        words = [self.program, "run", source, "--steps", str(steps), *self.paths(files)]
        streams = {"stdin": subprocess.DEVNULL, "stdout": subprocess.PIPE, "stderr": subprocess.DEVNULL}
        with subprocess.Popen(words, **streams) as process:
            shown = process.stdout.read() if keep == Keep.ALL else end_of(process.stdout)
        return outcome_of(process.returncode, shown)

    def paths(self, files: Files) -> Iterator[str]:
        """Writes the input files; the words that give all files their paths, no two of which are the same word."""
        folder = self.own_folder()
        for number, (external, records) in enumerate(files.items()):
            path = folder / f"in{number}"
            if records is None:
                path.unlink(missing_ok=True)
            else:
                path.write_bytes(b"".join(records))
            yield f"{external}={path}"
        for number, external in enumerate(self.works):
            (folder / f"work{number}").unlink(missing_ok=True)
            yield f"{external}={folder / f'work{number}'}"
        for number, external in enumerate(self.outputs):
            yield f"{external}=/dev/{'./' * number}null"


def end_of(stream: IO[bytes]) -> bytes:
    """The last bytes of a stream, read to its end."""
    end = b""
    while part := stream.read(MOST_READ):
        end = (end + part)[-MOST_KEPT:]
    return end


def fast_folder() -> str | None:
    """A folder in memory for files of runs, where there is one with room."""
    try:
        return "/dev/shm" if shutil.disk_usage("/dev/shm").free >= LEAST_ROOM else None
    except OSError:
        return None
