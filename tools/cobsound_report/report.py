"""A whole report: what is told of all sources, and of the call that made it."""

import datetime
import os
import subprocess
from collections import Counter
from collections.abc import Iterator
from dataclasses import dataclass

from .answers import Verdict
from .findings import Finding, SourceReport
from .baseline import Baseline, Known
from .history import Earlier
from .shards import Shard

UNITS = {Verdict.CLEAN: "clean", Verdict.REFUSED: "refused", Verdict.TIMEOUT: "out of time", Verdict.FAILED: "failed"}


@dataclass(frozen=True)
class Call:
    """When a report was made, in which folder and at which commit of it, if it has one, and by which program."""

    when: datetime.datetime
    folder: str
    commit: str
    program_sum: str

    @classmethod
    def now(cls, program_sum: str) -> "Call":
        return cls.at(time_now(), program_sum)

    @classmethod
    def at(cls, when: datetime.datetime, program_sum: str) -> "Call":
        return cls(when, os.getcwd(), commit_here(), program_sum)


def time_now() -> datetime.datetime:
    """The time; where it must be the same each time, that of SOURCE_DATE_EPOCH, as reproducible builds have it."""
    given = os.environ.get("SOURCE_DATE_EPOCH", "")
    if given.isascii() and given.isdigit():
        return datetime.datetime.fromtimestamp(int(given), datetime.timezone.utc)
    return datetime.datetime.now().astimezone().replace(microsecond=0)


def commit_here() -> str:
    try:
        words = ["git", "rev-parse", "--short", "HEAD"]
        return subprocess.run(words, capture_output=True, text=True, check=True).stdout.strip()
    except (OSError, subprocess.CalledProcessError):
        return ""


@dataclass(frozen=True)
class Report:
    """What is told of the sources; beside a baseline also what is gone of it, and of suppressions which are idle. A
    shard has the sum of the list of all sources; `prepared` says of what all this holds where sources were prepared."""

    call: Call
    sources: tuple[SourceReport, ...]
    earlier: Earlier | None = None
    baseline: Baseline | None = None
    gone: tuple[Known, ...] = ()
    idle: tuple[str, ...] = ()
    shard: Shard | None = None
    list_sum: str = ""
    prepared: str = ""

    @property
    def worst(self) -> Verdict:
        """The worst verdict as it counts for the status."""
        return max((source.weight for source in self.sources), default=Verdict.CLEAN)

    def findings(self) -> Iterator[tuple[SourceReport, Finding]]:
        return ((source, finding) for source in self.sources for finding in source.findings)

    def summary(self) -> str:
        """How many sources there are, and what came of them."""
        count = Counter(source.verdict for source in self.sources)
        kept = sum(source.is_kept for source in self.sources)
        told = ", ".join(f"{count[verdict]} {self.unit(verdict)}" for verdict in Verdict if count[verdict])
        told = f"{counted(len(self.sources), 'source')}: {told}" if told else "0 sources"
        return told + (f"; {kept} by kept certificates" if kept else "") + self.standing()

    def standing(self) -> str:
        """How many findings count, and how many don't."""
        found = [finding for _, finding in self.findings()]
        known, suppressed = sum(finding.is_known for finding in found), sum(bool(finding.reason) for finding in found)
        new = sum(finding.counts for finding in found)
        told = f"; {new} new, {known} known, {len(self.gone)} gone" if self.baseline else ""
        return told + (f"; {suppressed} suppressed" if suppressed else "")

    def unit(self, verdict: Verdict) -> str:
        """What there is of the sources with a verdict."""
        sources = [source for source in self.sources if source.verdict == verdict]
        alarms = counted(sum(len(source.alarms()) for source in sources), "alarm")
        warnings = counted(sum(len(source.warnings()) for source in sources), "warning")
        if verdict == Verdict.WARNED:
            return f"clean but for {warnings}"
        if verdict == Verdict.ALARMS:
            return f"with {alarms}" + ("" if warnings.startswith("0 ") else f" and {warnings}")
        return UNITS[verdict]


def counted(number: int, word: str) -> str:
    return f"{number} {word}" if number == 1 else f"{number} {word}s"
