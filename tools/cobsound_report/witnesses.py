"""What `cobsound witness` found out of alarms, from the folders of its results (docs/WITNESS.md has their form)."""

import json
import pathlib
from collections.abc import Iterator
from dataclasses import dataclass, replace
from enum import Enum

from .findings import SourceReport
from .program import sum_of

NAME = "witness.json"
FORMAT = 1


class State(Enum):
    """What came of an alarm, in the order in which alarms are worth work."""

    MET = "met"
    OPEN = "open"
    GROWTH = "growth"


# SARIF's ranks go from 0 to 100, the greatest first.
RANKS = {State.MET: 90, State.OPEN: 50, State.GROWTH: 10}


@dataclass(frozen=True)
class Witness:
    """What is known of an alarm, in words; the call that shows its fault, and the files that it takes."""

    state: State
    told: str
    command: str = ""
    files: tuple[pathlib.Path, ...] = ()

    @property
    def rank(self) -> int:
        return RANKS[self.state]


Key = tuple[str, str, int]


class Witnesses:
    """All that stands in these folders, by the sums of sources, and the kinds and statements of alarms."""

    def __init__(self, folders: list[pathlib.Path]):
        self.found: dict[Key, Witness] = {}
        for folder in folders:
            files = sorted(folder.glob(f"**/{NAME}"))
            if not files:
                raise OSError(f"{folder}: no results of a search, {NAME}, stand in it")
            for file in files:
                self.found.update(witnesses_in(file))

    def ranked(self, report: SourceReport) -> SourceReport:
        """The report of a source with what is known of its alarms, those that are met first."""
        if not self.found or not report.alarms():
            return report
        original = report.source.original
        source = original.sum if original else sum_of(report.source.path)
        found = [
            replace(finding, witness=self.found.get((source, finding.rule, finding.statement or 0)))
            for finding in report.findings
        ]
        # what wasn't looked for stands with what is open
        found.sort(key=lambda finding: -(finding.witness.rank if finding.witness else RANKS[State.OPEN]))
        return replace(report, findings=tuple(found))


def witnesses_in(file: pathlib.Path) -> Iterator[tuple[Key, Witness]]:
    try:
        results = json.loads(file.read_text("utf-8"))
        if results["format"] != FORMAT:
            raise ValueError
        for alarm in results["alarms"]:
            key = (str(results["sha256"]), str(alarm["kind"]), int(alarm["statement"]))
            yield key, witness_of(alarm, file.parent)
    except (ValueError, KeyError, TypeError):
        raise OSError(f"{file} isn't written as results of a search are") from None


def witness_of(alarm: dict, folder: pathlib.Path) -> Witness:
    state = State(alarm["state"])
    if state == State.MET:
        files = tuple(folder / file["path"] for file in alarm["files"] if file["path"] is not None)
        return Witness(state, f"a run meets this: {alarm['command']}", str(alarm["command"]), files)
    told = f"no run of {int(alarm['runs']):,} met this"
    if state == State.GROWTH:
        growth = alarm["growth"]
        told += f"; {growth['item']} is full behind {int(growth['additions']):,} additions at the least"
    return Witness(state, told)
