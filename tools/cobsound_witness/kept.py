"""The results as files: those that meet a fault, each fault's in a folder of its own, and `witness.json`."""

import hashlib
import json
import pathlib
import re
import shlex
import shutil
from dataclasses import dataclass

from cobsound_report.answers import Alarm
from cobsound_report.witnesses import FORMAT, NAME, State

from .growth import Growth
from .makers import Files
from .read import Read
from .search import Met

DEFAULT_STEPS = 1_000_000

# the prepared source that is run, where there is one, and its map of places
PREPARED = "prepared.cob"
PREPARED_PLACES = f"{PREPARED}.map.json"


@dataclass(frozen=True)
class Finding:
    """What came of an alarm, or a fault where no alarm stands: files that meet it, or the growth that it takes. The
    search has seen so many runs at its statement."""

    alarm: Alarm
    met: Met | None
    growth: Growth | None
    reached: int

    @property
    def state(self) -> State:
        return State.MET if self.met else State.GROWTH if self.growth else State.OPEN

    @property
    def folder_name(self) -> str:
        return f"{self.alarm.statement:03}-{self.alarm.kind}"


@dataclass(frozen=True)
class Results:
    """What a search has found out of a source. `outputs` are the files that the program writes."""

    source: Read
    seed: int
    runs: int
    findings: list[Finding]
    unforeseen: list[Finding]
    outputs: list[str]

    def ranked(self) -> list[Finding]:
        order = list(State)
        return sorted(self.findings, key=lambda finding: order.index(finding.state))


def refuse_strangers(folder: pathlib.Path) -> None:
    """Refuses a folder that holds files, but no results of a search."""
    if folder.exists() and not (folder / NAME).is_file() and (not folder.is_dir() or any(folder.iterdir())):
        raise OSError(f"{folder} isn't the folder of an earlier search, and isn't empty: give another by -o")


def emptied(folder: pathlib.Path) -> None:
    """Makes the folder, or takes away what an earlier search left in it."""
    refuse_strangers(folder)
    folder.mkdir(parents=True, exist_ok=True)
    for name in (NAME, PREPARED, PREPARED_PLACES):
        (folder / name).unlink(missing_ok=True)
    for inner in folder.iterdir():
        if re.fullmatch(r"[0-9]{3,}-[A-Z]+", inner.name) and inner.is_dir() and not inner.is_symlink():
            shutil.rmtree(inner)


def paths_of(folder: pathlib.Path, finding: Finding) -> dict[str, pathlib.Path]:
    """The path of each input file: its name where it is a plain one."""
    names = list(finding.met.files) if finding.met else []
    return {
        name: folder / finding.folder_name / (name if re.fullmatch(r"[A-Za-z0-9_-]+", name) else f"file{number}")
        for number, name in enumerate(names, 1)
    }


def words_of(folder: pathlib.Path, results: Results, finding: Finding) -> list[str]:
    """The words of a call of `run` that shows the fault. Files that the program writes get paths beside the others."""
    assert finding.met
    words = ["run", str(folder / PREPARED) if results.source.prepared else results.source.name]
    if finding.met.step > DEFAULT_STEPS:
        words += ["--steps", str(finding.met.step)]
    words += [f"{name}={path}" for name, path in paths_of(folder, finding).items()]
    inner = folder / finding.folder_name
    return words + [f"{name}={inner / f'written{number}'}" for number, name in enumerate(results.outputs, 1)]


def command_of(folder: pathlib.Path, results: Results, finding: Finding) -> str:
    return shlex.join(["cobsound", *words_of(folder, results, finding)])


def write(folder: pathlib.Path, results: Results) -> None:
    emptied(folder)
    for finding in (*results.findings, *results.unforeseen):
        if finding.met:
            write_files(folder, finding, finding.met.files)
    if results.source.prepared:
        (folder / PREPARED).write_bytes(results.source.text)
        (folder / PREPARED_PLACES).write_text(results.source.prepared.map.as_json())
    text = json.dumps(as_object(folder, results), indent=1)
    (folder / NAME).write_text(f"{text}\n", "utf-8")


def write_files(folder: pathlib.Path, finding: Finding, files: Files) -> None:
    (folder / finding.folder_name).mkdir(parents=True, exist_ok=True)
    for name, path in paths_of(folder, finding).items():
        records = files[name]
        if records is not None:
            path.write_bytes(b"".join(records))


def as_object(folder: pathlib.Path, results: Results) -> dict:
    prepared = {"prepared": PREPARED} if results.source.prepared else {}
    return prepared | {
        "format": FORMAT,
        "source": results.source.name,
        "sha256": hashlib.sha256(results.source.text).hexdigest(),
        "seed": results.seed,
        "runs": results.runs,
        "alarms": [finding_object(folder, results, finding) for finding in results.findings],
        "faultsWithoutAlarm": [finding_object(folder, results, finding) for finding in results.unforeseen],
    }


def finding_object(folder: pathlib.Path, results: Results, finding: Finding) -> dict:
    alarm, met, growth = finding.alarm, finding.met, finding.growth
    place = results.source.place(alarm.line)
    found = {"kind": alarm.kind, "statement": alarm.statement, "line": place.line, "state": finding.state.value}
    if results.source.prepared:
        found["file"] = place.origin.file
        found["copied_by"] = [{"file": file, "line": line} for file, line in place.origin.copies()]
    if met:
        paths = paths_of(folder, finding)
        found["step"] = met.step
        found["run"] = met.run
        found["command"] = command_of(folder, results, finding)
        found["files"] = [
            {
                "name": name,
                "path": str(paths[name].relative_to(folder)) if records is not None else None,
                "records": len(records) if records is not None else None,
            }
            for name, records in met.files.items()
        ]
    else:
        found["runs"] = results.runs
        found["runsAtStatement"] = finding.reached
    if growth:
        found["growth"] = {"item": growth.receiver, "additions": growth.additions}
    return found
