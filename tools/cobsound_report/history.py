"""What is new beside an earlier report."""

import json
import os
import pathlib
from dataclasses import dataclass, replace

from .findings import SourceReport


@dataclass(frozen=True)
class Earlier:
    """An earlier report: when it was made, and for each source the fingerprints of its findings."""

    when: str
    findings: dict[str, frozenset[str]]

    @classmethod
    def at(cls, file: pathlib.Path) -> "Earlier | None":
        """The report that stands in a file in the form of `as_json`, where one does."""
        try:
            told = json.loads(file.read_text("ascii"))
            found = {
                source["source"]: frozenset(finding["fingerprint"] for finding in source["findings"])
                for source in told["sources"]
            }
            return cls(told["when"], found)
        except (OSError, ValueError, KeyError, TypeError):
            return None

    def marked(self, reports: list[SourceReport]) -> list[SourceReport]:
        """The reports, with each finding that is new."""
        return [
            replace(
                report,
                findings=tuple(replace(f, is_new=f.fingerprint not in self.known(report)) for f in report.findings),
            )
            for report in reports
        ]

    def known(self, report: SourceReport) -> frozenset[str]:
        return self.findings.get(key_of(report), frozenset())

    def gone(self, reports: list[SourceReport]) -> int:
        """How many findings of the earlier report there aren't any more, in the sources that there are."""
        now = {key_of(report): {finding.fingerprint for finding in report.findings} for report in reports}
        return sum(len(self.findings.get(name, frozenset()) - found) for name, found in now.items())


def key_of(report: SourceReport) -> str:
    """The name of a source in a report that was written."""
    return os.fsencode(report.source.name).decode("utf-8", "backslashreplace")
