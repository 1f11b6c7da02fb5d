"""What a search has learned of the files that it tried."""

import re
from collections import Counter
from dataclasses import dataclass, field

from .hints import relations_of
from .makers import Entry
from .probes import Trace
from .runs import Outcome

MOST_SHAPES = 400
MOST_SHAPE = 40
# ways that are gone so often or more count alike
MOST_OFTEN = 6


@dataclass
class Known:
    """Files worth changing, in the order in which they were found, and by the statements that runs on them came to;
    and how many runs came to each statement."""

    entries: list[Entry] = field(default_factory=list)
    by_statement: dict[int, list[Entry]] = field(default_factory=dict)
    features: set[object] = field(default_factory=set)
    shapes: set[bytes] = field(default_factory=set)
    reached: Counter[int] = field(default_factory=Counter)

    def is_new(self, features: set[object], trace: Trace | None) -> bool:
        """Counts a run, and says whether it has a feature that none had before."""
        self.reached.update(set(trace.numbers) if trace else ())
        return not features <= self.features

    def add(self, entry: Entry, features: set[object], trace: Trace | None) -> None:
        self.features |= features
        self.entries.append(entry)
        for number in set(trace.numbers) if trace else ():
            self.by_statement.setdefault(number, []).append(entry)

    def features_of(self, outcome: Outcome, trace: Trace | None) -> set[object]:
        """What tells a run from others: the ways between statements, about how often; how what it compares stands to
        each other; its status; the lines that it shows, without their numbers; and where it wasn't one of the copy,
        about how many steps it took."""
        lines = trace.lines if trace else outcome.shown.split(b"\n")
        shapes = {re.sub(rb"[0-9]+", b"0", line)[:MOST_SHAPE] for line in lines}
        if len(self.shapes) < MOST_SHAPES:
            self.shapes |= shapes
        found: set[object] = {("status", outcome.status), *(shapes & self.shapes)}
        if not trace:
            return found | {("steps", outcome.step.bit_length())}
        ways = Counter(zip(trace.numbers, trace.numbers[1:]))
        found |= {(way, min(count.bit_length(), MOST_OFTEN)) for way, count in ways.items()}
        return found.union(relations_of(trace))
