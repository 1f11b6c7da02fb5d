"""A search on one source from its analysis to small files."""

import os
import pathlib
import subprocess
import time
from concurrent.futures import ThreadPoolExecutor
from dataclasses import dataclass, replace

from cobsound_report.answers import Alarm, Answer, Verdict, answer_of
from cobsound_report.program import as_name
from cobsound_report.scan import lines_of

from .growth import Growth, growth_of
from .kept import Finding, Results
from .layout import layout_of
from .makers import Files
from .model import Model
from .probes import Probed
from .read import Read
from .runs import Fault, Runner
from .search import ROUND, SHORT_STEPS, Met, Search
from .shrink import Budget, shrunk
from .statements import statements_of
from .tokens import tokens_of

LEAST_RUNS = 1_000


@dataclass(frozen=True)
class Length:
    """How long a search goes on while alarms are open: for so many runs, or where these are 0 for so many seconds, and
    then until the least number of runs is done."""

    seconds: float
    runs: int = 0

    def is_spent(self, end: float, count: int) -> bool:
        if self.runs:
            return count >= self.runs
        return time.monotonic() >= end and count >= LEAST_RUNS


@dataclass(frozen=True)
class Wish:
    """What is asked for."""

    source: Read
    seed: int
    jobs: int
    length: Length


class Refused(Exception):
    """The source isn't analysed; with the answer of the analysis."""

    def __init__(self, source: Read, answer: Answer):
        super().__init__(source.refusal(answer.told))
        self.answer = answer


def look(wish: Wish, program: str, folder: str) -> Results:
    """The results of a search that has this folder for its files."""
    text = wish.source.text
    copied = os.path.join(folder, "source")
    pathlib.Path(copied).write_bytes(text)
    answer = analysed(program, copied, folder)
    if answer.verdict > Verdict.ALARMS:
        raise Refused(wish.source, answer)
    alarms = {Fault(alarm.kind, alarm.statement): alarm.line for alarm in answer.alarms}
    model = model_of(text, alarms)
    search = search_of(wish, model, alarms, Runner(program, folder, model.outputs, model.works), copied)
    copy = os.path.join(folder, "probed")
    probed = Probed(text, model.statements)
    pathlib.Path(copy).write_bytes(probed.source)
    search.use_copy(probed, copy)
    pool = ThreadPoolExecutor(wish.jobs)
    try:
        go_on(search, pool, wish.length)
        small = made_small(search, pool)
    finally:
        pool.shutdown(cancel_futures=True)
    return results_of(wish, search, small)


def analysed(program: str, source: str, folder: str) -> Answer:
    """The answer of the source's analysis."""
    words = [program, "analyse", as_name(source), os.path.join(folder, "certificate")]
    done = subprocess.run(words, stdin=subprocess.DEVNULL, stdout=subprocess.PIPE)
    return answer_of(done.returncode, done.stdout.decode("latin-1"))


def model_of(text: bytes, alarms: dict[Fault, int]) -> Model:
    """What the source is made of, as this tool reads it. The alarms must stand where it finds their statements."""
    tokens = tokens_of(lines_of(text))
    layout = layout_of(tokens)
    statements = statements_of(tokens, layout)
    for fault, line in alarms.items():
        if fault.statement > len(statements) or statements[fault.statement - 1].first.line != line:
            raise OSError(f"statement {fault.statement} isn't found on line {line}: this tool misreads the source")
    return Model(layout, statements)


def search_of(wish: Wish, model: Model, alarms: dict[Fault, int], runner: Runner, source: str) -> Search:
    growths = {fault: growth_of(fault.kind, model.statements[fault.statement - 1], model) for fault in alarms}
    return Search(model, runner, source, growths, wish.seed)


def go_on(search: Search, pool: ThreadPoolExecutor, length: Length) -> None:
    """Looks until all alarms are met or its time is over; where there are none, for the least number of runs. A
    program that reads no file has one run."""
    end = time.monotonic() + length.seconds
    while True:
        is_clean = not search.alarms and search.count >= (length.runs or LEAST_RUNS)
        is_done = bool(search.alarms) and not search.open_alarms()
        is_same = not search.model.inputs and search.count > 0
        if is_clean or is_done or is_same or length.is_spent(end, search.count):
            return
        room = length.runs - search.count if length.runs else ROUND
        search.run_round(pool, room if search.model.inputs else 1)


def made_small(search: Search, pool: ThreadPoolExecutor) -> dict[Fault, Met]:
    """All faults that were met, with small files."""

    def small(one: Met) -> Met:
        steps = 2 * max(one.step, SHORT_STEPS)

        def is_met(files: Files) -> bool:
            return search.runner.run(search.source, files, steps).fault == one.fault

        fields = search.model.sources(search.model.statements[one.fault.statement - 1])
        files = shrunk(search.model, one.files, fields, Budget(is_met, one.step))
        return replace(one, files=files, step=search.runner.run(search.source, files, steps).step)

    return {one.fault: one for one in pool.map(small, [*search.met.values(), *search.unforeseen.values()])}


def results_of(wish: Wish, search: Search, small: dict[Fault, Met]) -> Results:
    def finding(fault: Fault, growth: Growth | None) -> Finding:
        line = search.model.statements[fault.statement - 1].first.line
        alarm = Alarm(fault.kind, fault.statement, line)
        return Finding(alarm, small.get(fault), growth, search.known.reached[fault.statement])

    return Results(
        source=wish.source,
        seed=wish.seed,
        runs=search.count,
        findings=[finding(fault, growth) for fault, growth in search.alarms.items()],
        unforeseen=[finding(fault, None) for fault in search.unforeseen],
        outputs=[*search.model.outputs, *search.model.works],
    )
