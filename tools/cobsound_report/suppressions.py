"""Findings that don't count, each for a reason that somebody gave in a file of its own, and up to a day.

A section of the file is called by the source and the fingerprint of a finding, and says `reason`, `who` and `until`.
"""

import configparser
import datetime
import os
import pathlib
from collections.abc import Iterator
from dataclasses import dataclass, replace

from .baseline import may_be_known
from .findings import SourceReport
from .history import key_of


@dataclass(frozen=True)
class Suppression:
    source: str
    fingerprint: str
    reason: str
    who: str
    until: datetime.date

    @property
    def key(self) -> tuple[str, str]:
        return self.source, self.fingerprint


class Suppressions:
    """The suppressions of a file, on a day. The last day of each still counts."""

    def __init__(self, file: pathlib.Path, found: list[Suppression], today: datetime.date):
        self.file = file
        self.found = found
        self.today = today

    @classmethod
    def at(cls, file: pathlib.Path, today: datetime.date) -> "Suppressions":
        parser = configparser.ConfigParser(interpolation=None, delimiters=("=",), empty_lines_in_values=False)
        try:
            parser.read_string(file.read_text("utf-8"), str(file))
            found = [suppression_of(name, dict(parser[name])) for name in parser.sections()]
        except configparser.Error as error:
            raise OSError(" ".join(str(error).split())) from None
        except ValueError as error:
            raise OSError(f"{file}: {error}") from None
        return cls(file, found, today)

    def is_over(self, suppression: Suppression) -> bool:
        return suppression.until < self.today

    def marked(self, reports: list[SourceReport]) -> list[SourceReport]:
        """The reports, with the reason of each finding that is suppressed."""
        reasons = {found.key: f"{found.reason} ({found.who})" for found in self.found if not self.is_over(found)}

        def marked(report: SourceReport) -> SourceReport:
            name = key_of(report) if may_be_known(report) else ""
            found = (replace(f, reason=reasons.get((name, f.fingerprint), "")) for f in report.findings)
            return replace(report, findings=tuple(found))

        return [marked(report) for report in reports]

    def idle(self, reports: list[SourceReport], is_whole: bool) -> Iterator[str]:
        """What is to be told of suppressions that have run out or fit nothing. Where these reports aren't the whole,
        or a source is there and isn't among them, it may fit elsewhere."""
        here = {key_of(report): report for report in reports}
        fitting = {(name, finding.fingerprint) for name, report in here.items() for finding in report.findings}
        for found in self.found:
            is_judged = may_be_known(here[found.source]) if found.source in here else is_whole and is_absent(found)
            if found.key in fitting and self.is_over(found):
                yield f"the suppression {found.fingerprint} of {found.source} has run out on {found.until}"
            elif found.key not in fitting and is_judged:
                yield f"the suppression {found.fingerprint} of {found.source} fits nothing"


def is_absent(suppression: Suppression) -> bool:
    return not os.path.lexists(suppression.source)


def suppression_of(name: str, given: dict[str, str]) -> Suppression:
    """The suppression of a section. What is missing or more is an error, with the section's name."""
    source, _, fingerprint = name.rpartition(" ")
    wanted = {"reason", "who", "until"}
    if not source or set(given) != wanted or not all(given.values()):
        raise ValueError(f"[{name}] must be called by a source and a fingerprint, and say reason, who and until")
    try:
        until = datetime.date.fromisoformat(given["until"])
    except ValueError:
        raise ValueError(f"[{name}] must say until as 2027-12-31") from None
    return Suppression(source, fingerprint, " ".join(given["reason"].split()), given["who"], until)
