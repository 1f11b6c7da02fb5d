"""What is told of the results on standard output."""

import pathlib
from collections.abc import Iterator

from cobsound_report.witnesses import State

from . import kept
from .kept import Finding, Results
from .search import Met


def lines(folder: pathlib.Path, results: Results) -> Iterator[str]:
    """The lines on each alarm, those that are met first, and a summary."""
    if results.source.prepared:
        yield f"{results.source.name}: what is told holds of the prepared source, {folder / kept.PREPARED}"
    for finding in results.ranked():
        yield from lines_of(folder, results, finding)
    for finding in results.unforeseen:
        yield f"{place_of(results, finding)}: A RUN MEETS THIS FAULT, AND NO ALARM STANDS THERE."
        yield "  This is an error of Cobsound. Please send its makers the source and these files:"
        yield f"  {kept.command_of(folder, results, finding)}"
    states = [finding.state for finding in results.findings]
    counts = ", ".join(f"{states.count(state)} {state.value}" for state in State if state in states) or "clean"
    yield f"{results.source.name}: {counts}; {results.runs:,} {'run' if results.runs == 1 else 'runs'}"


def place_of(results: Results, finding: Finding) -> str:
    alarm = finding.alarm
    place = results.source.place(alarm.line)
    copies = "".join(f", copied by {file} line {line}" for file, line in place.origin.copies())
    return f"{place.line_told()}: {alarm.kind} at statement {alarm.statement}{copies}"


def lines_of(folder: pathlib.Path, results: Results, finding: Finding) -> Iterator[str]:
    place, growth = place_of(results, finding), finding.growth
    if finding.met:
        yield f"{place}: met, with {contents_of(finding.met)}"
        yield f"  {kept.command_of(folder, results, finding)}"
        return
    yield f"{place}: not met in {results.runs:,} runs; {finding.reached:,} were seen at the statement"
    if growth:
        yield f"  {growth.receiver} grows: it is full behind {growth.additions:,} additions at the least"


def contents_of(met: Met) -> str:
    return ", ".join(f"{count_of(records)} {name}" for name, records in met.files.items()) or "no input files"


def count_of(records: tuple[bytes, ...] | None) -> str:
    if records is None:
        return "no file"
    return f"{len(records):,} record{'' if len(records) == 1 else 's'} in"
