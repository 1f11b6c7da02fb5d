"""The built programs, and how a case is tried with one."""

import dataclasses
import os
import pathlib
import subprocess
import tempfile
import typing

ROOT = pathlib.Path(__file__).resolve().parent.parent
CASES = ROOT / "tests/cases"


def program(crate):
    """The program of a crate that the gate left, or the one that an environment variable names, as CASE_DRIVER_PROGRAM
    that of case_driver; None where there is none."""
    other = os.environ.get(f"{crate.upper()}_PROGRAM")
    path = pathlib.Path(other) if other else ROOT / "crates" / crate / "out" / crate
    return path if path.exists() else None


def program_path():
    """The program that COBSOUND_PROGRAM names, as `tests/run` does; or else the one that the launcher starts."""
    named = os.environ.get("COBSOUND_PROGRAM")
    if named:
        return pathlib.Path(named).resolve()
    env = {**os.environ, "COBSOUND_FIND": "1"}
    return pathlib.Path(subprocess.run([ROOT / "cobsound"], env=env, capture_output=True, text=True).stdout.rstrip("\n"))


def latin(files):
    return {name: text.encode("latin-1") if isinstance(text, str) else text for name, text in files.items()}


@dataclasses.dataclass
class Case:
    """Words, the files that they find, and what must come of them. `out` is the text that is shown, or a test of it;
    `left` are the files behind it, where they aren't those that were given."""

    name: str
    words: list
    files: dict
    status: typing.Any
    out: typing.Any
    left: typing.Optional[dict] = None

    def is_answered(self, status, out, left):
        wanted = latin(self.files if self.left is None else self.left)
        if callable(self.out):
            return self.out(out)
        return (status, out, left) == (self.status, self.out, wanted)

    def tried(self, path):
        """Tries the case in a folder of its own, and tells what is wrong."""
        try:
            status, out, left = ran(path, self.words, self.files)
        except OSError as error:
            return f"{self.name}: {error}"
        if self.is_answered(status, out, left):
            return None
        wanted = (self.status, self.out, self.left)
        return f"{self.name}: {(status, out, left)} in place of {wanted}"


def ran(path, words, files):
    """The status, what is shown, and the files behind it."""
    with tempfile.TemporaryDirectory() as folder:
        for name, content in latin(files).items():
            pathlib.Path(folder, name).write_bytes(content)
        done = subprocess.run([path, *words], cwd=folder, stdin=subprocess.DEVNULL, capture_output=True)
        left = {file.name: file.read_bytes() for file in pathlib.Path(folder).iterdir()}
    return done.returncode, done.stdout.decode("latin-1"), left


def refusal(line):
    """The status and the text of a refused source."""
    return (9 if line.startswith("E10") else 2), line + "\n"


def checks_of(cases):
    """One check for each case."""
    path = program_path()
    return [lambda case=case: case.tried(path) for case in cases]
