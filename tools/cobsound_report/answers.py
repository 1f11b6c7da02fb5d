"""What the program answered. Whatever isn't exactly one of its answers is a failure."""

import re
from dataclasses import dataclass
from enum import IntEnum


class Verdict(IntEnum):
    """How the analysis of a source ended, the worst last. WARNED is what the program calls clean, and the tool itself
    has something to tell of."""

    CLEAN = 0
    WARNED = 1
    ALARMS = 2
    REFUSED = 3
    TIMEOUT = 4
    FAILED = 5

    @property
    def status(self) -> int:
        """The exit status of the tool where no source has a worse one."""
        return (0, 1, 1, 2, 3, 3)[self]


@dataclass(frozen=True)
class Alarm:
    kind: str
    statement: int
    line: int


@dataclass(frozen=True)
class Answer:
    """A verdict with the alarms of a report, or the line that was told in place of one."""

    verdict: Verdict
    alarms: tuple[Alarm, ...] = ()
    told: str = ""

    def place(self) -> tuple[int | None, int | None]:
        """The line and the column of the source that a refusal names."""
        told = self.told if self.verdict == Verdict.REFUSED else ""
        line, column = (re.search(rf" {word} ([0-9]+)", told) for word in ("line", "column"))
        return int(line[1]) if line else None, int(column[1]) if column else None


ALARM = re.compile(r"(SIZE|TRUNCATION|ZERO|CLASS) statement ([0-9]+) line ([0-9]+)")

# The refusals of a source, by their status.
REFUSALS = {
    2: r"E5 source too long|E[67] line [0-9]+ column [0-9]+|E8 line [0-9]+|E9 [LQN][0-9]+ line [0-9]+",
    3: r"E11 certificate too long",
    9: r"E10 [a-z-]+ [0-9]+",
}


def answer_of(status: int, out: str) -> Answer:
    """The answer of `analyse` or `check` that ended with this status and showed this text."""
    *lines, rest = out.split("\n")
    if not rest and lines:
        if status == 0 and lines == ["clean"]:
            return Answer(Verdict.CLEAN)
        alarms = alarms_of(lines)
        if status == 1 and alarms:
            return Answer(Verdict.ALARMS, alarms)
        if len(lines) == 1 and re.fullmatch(REFUSALS.get(status, "(?!)"), lines[0]):
            return Answer(Verdict.REFUSED, told=lines[0])
        if len(lines) == 1 and re.match(r"E[0-9]+ ", lines[0]) and status not in (0, 1):
            return Answer(Verdict.FAILED, told=lines[0])
    return Answer(Verdict.FAILED, told=f"the program ended with status {status} and showed {out[:200]!r}")


def alarms_of(lines: list[str]) -> tuple[Alarm, ...]:
    """The alarms of a report; none where it isn't one, or doesn't count them rightly."""
    found = [ALARM.fullmatch(line) for line in lines[:-1]]
    if not all(found) or lines[-1] != f"alarms {len(found)}":
        return ()
    return tuple(Alarm(match[1], int(match[2]), int(match[3])) for match in found)
