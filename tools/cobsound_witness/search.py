"""The search: rounds of runs on files that are made out of what the rounds before have learned.

A round's files depend on the seed, the number of each run, and what is known when the round begins; what runs did is
learned in the order of their numbers. So the machine's speed and the number of runs at a time change nothing but how
many rounds there are, where seconds are the budget.
"""

from concurrent.futures import ThreadPoolExecutor
from dataclasses import dataclass
from random import Random

from .fields import Field
from .growth import Growth
from .hints import hints_of
from .known import Known
from .makers import Aim, Entry, Files, Maker
from .model import InputFile, Model
from .probes import Probed, Trace
from .runs import STEPS_SPENT, Fault, Keep, Outcome, Runner

ROUND = 64
LONG_ROUND = 12
# one round in so many is of long files
LONG_ROUNDS = 4
SHORT_STEPS = 12_000
LONG_STEPS = 1_000_000
MOST_RECORDS = 20_000
LENGTHS = (50, 150, 400, 700, 1_200, 2_500, 5_000)


@dataclass(frozen=True)
class Plan:
    files: Files
    is_long: bool


@dataclass(frozen=True)
class Met:
    """A fault with files that meet it, how many steps the run takes till then, and the search's run that met it."""

    fault: Fault
    files: Files
    step: int
    run: int


class Search:
    def __init__(self, model: Model, runner: Runner, source: str, alarms: dict[Fault, Growth | None], seed: int):
        self.model = model
        self.runner = runner
        self.source = source
        self.alarms = alarms
        self.seed = seed
        self.probed: Probed | None = None
        self.copy = ""
        self.known = Known()
        self.met: dict[Fault, Met] = {}
        self.unforeseen: dict[Fault, Met] = {}
        self.count = 0
        self.rounds = 0
        self.most_records = 2 * MOST_RECORDS
        self.sources: dict[int, list[tuple[InputFile, Field]]] = {}

    def use_copy(self, probed: Probed, path: str) -> None:
        """Lets short runs be those of the copy that shows where they go, where the program takes it."""
        empty: Files = {file.external: () for file in self.model.inputs}
        if self.runner.run(path, empty, 1).status == STEPS_SPENT:
            self.probed, self.copy = probed, path

    def open_alarms(self) -> list[Fault]:
        return [fault for fault in self.alarms if fault not in self.met]

    def run_round(self, pool: ThreadPoolExecutor, most: int) -> None:
        """A round of at most so many runs."""
        is_long = self.rounds % LONG_ROUNDS == LONG_ROUNDS - 1
        size = min(LONG_ROUND if is_long else ROUND, most)
        plans = [self.plan(self.count + number, is_long) for number in range(size)]
        stopped = 0
        for plan, (outcome, trace) in zip(plans, pool.map(self.tried, plans)):
            self.count += 1
            stopped += outcome.status == STEPS_SPENT
            self.learn(plan, outcome, trace)
        self.rounds += 1
        if is_long and stopped > size // 2:
            # each record takes many steps
            self.most_records = max(LENGTHS[0], min(self.most_records, LENGTHS[-1]) // 4)

    def plan(self, number: int, is_long: bool) -> Plan:
        if not self.model.inputs:
            return Plan({}, False)
        random = Random(f"{self.seed} {number}")
        maker = Maker(self.model, random)
        target = random.choice(self.open_alarms()) if self.open_alarms() else None
        near = self.nearest(target) if target else 0
        is_fresh = not self.known.entries or maker.happens(15)
        entry = Entry(maker.fresh()) if is_fresh else self.parent(near, random)
        aim = self.aim(target, near) if target else None
        if is_long:
            count = min(self.length(target, random), self.most_records)
            return Plan(maker.long(entry.files, count, aim), True)
        return Plan(entry.files if is_fresh else maker.changed(entry, aim), False)

    def nearest(self, target: Fault) -> int:
        """The last statement up to the one that is aimed at to which known files lead; 0 where there is none."""
        return next((number for number in range(target.statement, 0, -1) if number in self.known.by_statement), 0)

    def parent(self, near: int, random: Random) -> Entry:
        """Files to change: mostly some that lead to this statement."""
        known = self.known.by_statement.get(near, [])
        if not known or random.random() < 0.25:
            known = self.known.entries
        return random.choice(known[-8:] if random.random() < 0.4 else known)

    def aim(self, target: Fault, near: int) -> Aim:
        """What is to be changed: what the statement's operands come from, or those of the nearest one before it."""
        is_there = near in (0, target.statement)
        number = target.statement if is_there else near
        if number not in self.sources:
            self.sources[number] = self.model.sources(self.model.statements[number - 1])
        return Aim(target.kind if is_there else "", self.sources[number])

    def length(self, target: Fault | None, random: Random) -> int:
        """About how many records a long file has: often as many as fill the item that is aimed at, one each."""
        growth = self.alarms.get(target) if target else None
        if growth and growth.additions <= MOST_RECORDS and random.random() < 0.5:
            return random.choice((1, 1, 2)) * growth.additions + random.choice((0, growth.additions // 8 + 1))
        return random.choice(LENGTHS)

    def tried(self, plan: Plan) -> tuple[Outcome, Trace | None]:
        if plan.is_long:
            return self.runner.run(self.source, plan.files, LONG_STEPS), None
        if not self.probed:
            outcome = self.runner.run(self.source, plan.files, SHORT_STEPS, Keep.ALL)
            step = outcome.step or self.steps_by_halves(plan.files, outcome)
            return Outcome(outcome.status, outcome.shown, outcome.fault, step), None
        outcome = self.runner.run(self.copy, plan.files, 2 * SHORT_STEPS, Keep.ALL)
        trace = self.probed.trace(outcome.shown)
        if outcome.fault:
            fault = Fault(outcome.fault.kind, self.probed.statement(outcome.fault.statement))
            outcome = Outcome(outcome.status, b"", fault, outcome.step)
        return outcome, trace

    def steps_by_halves(self, files: Files, outcome: Outcome) -> int:
        """A power of two that is about the number of steps of a run that no fault ends."""
        least, most = 0, SHORT_STEPS.bit_length()
        while outcome.status != STEPS_SPENT and least < most:
            middle = (least + most) // 2
            if self.runner.run(self.source, files, 2**middle).status == STEPS_SPENT:
                least = middle + 1
            else:
                most = middle
        return 2**most

    def learn(self, plan: Plan, outcome: Outcome, trace: Trace | None) -> None:
        if outcome.fault:
            self.take(plan.files, outcome.fault)
        if plan.is_long:
            return
        features = self.known.features_of(outcome, trace)
        if self.known.is_new(features, trace):
            hints = hints_of(trace, self.probed, self.model) if trace and self.probed else ()
            self.known.add(Entry(plan.files, hints), features, trace)

    def take(self, files: Files, fault: Fault) -> None:
        """Takes a fault that the program itself meets with these files."""
        if fault in self.met or fault in self.unforeseen:
            return
        outcome = self.runner.run(self.source, files, LONG_STEPS)
        if outcome.fault:
            found = self.met if outcome.fault in self.alarms else self.unforeseen
            found.setdefault(outcome.fault, Met(outcome.fault, files, outcome.step, self.count))
