"""What is known of an earlier day: findings of a baseline don't count again, and those that are gone are told."""

import json
import os
import pathlib
from collections.abc import Iterator
from dataclasses import asdict, dataclass, replace

from . import VERSION
from .answers import Verdict
from .findings import Finding, SourceReport
from .history import key_of
from .remarks import PARAGRAPH
from .words import SENTENCES

# Another number stands for another form.
FORM = 1


@dataclass(frozen=True)
class Known:
    """A finding of the baseline, by its fingerprint in its source; the rest is for whoever reads it, also the file where
    it stands in a copybook."""

    source: str
    rule: str
    paragraph: str
    text: str
    fingerprint: str
    file: str = ""

    @property
    def is_refusal(self) -> bool:
        """Whether it is one of a source that was refused."""
        return self.rule not in SENTENCES and self.rule != PARAGRAPH

    def as_object(self) -> dict[str, str]:
        return {name: value for name, value in asdict(self).items() if name != "file" or value}

    def told(self) -> str:
        place = f" in {self.paragraph}" if self.paragraph else ""
        return f"gone: {self.rule}{place}: {self.text}" if self.text else f"gone: {self.rule}{place}"


class Baseline:
    """The findings of a file that `written` made."""

    def __init__(self, known: list[Known]):
        self.known = known
        self.keys = {(known.source, known.fingerprint) for known in known}

    @classmethod
    def at(cls, file: pathlib.Path) -> "Baseline":
        try:
            told = json.loads(file.read_text("ascii"))
            if told["form"] != FORM:
                raise ValueError
            return cls([Known(**finding) for finding in told["findings"]])
        except (ValueError, KeyError, TypeError):
            raise OSError(f"{file} isn't written as a baseline is") from None

    def marked(self, reports: list[SourceReport]) -> list[SourceReport]:
        """The reports, with each finding that is known."""
        return [replace(report, findings=tuple(self.marked_in(report))) for report in reports]

    def marked_in(self, report: SourceReport) -> Iterator[Finding]:
        for finding in report.findings:
            yield replace(finding, is_known=(key_of(report), finding.fingerprint) in self.keys and may_be_known(report))

    def gone(self, reports: list[SourceReport], is_whole: bool) -> list[Known]:
        """The findings that there aren't any more. Of a source that isn't among these nothing is known but where it
        isn't there and these are the whole; nor of the alarms of one that has no report."""
        found = {(key_of(report), finding.fingerprint) for report in reports for finding in report.findings}
        verdicts = {key_of(report): report.verdict for report in reports}

        def is_gone(known: Known) -> bool:
            if known.source not in verdicts:
                return is_whole and not os.path.lexists(known.source)
            worst = Verdict.REFUSED if known.is_refusal else Verdict.ALARMS
            return verdicts[known.source] <= worst and (known.source, known.fingerprint) not in found

        return [known for known in self.known if is_gone(known)]


def may_be_known(report: SourceReport) -> bool:
    """A source that wasn't analysed for a cause of the outside counts each time."""
    return report.verdict <= Verdict.REFUSED


def written(reports: list[SourceReport]) -> str:
    """The findings that count or are known, each on a line of its own. Those that are suppressed stay so."""
    known = [
        Known(key_of(report), finding.rule, finding.paragraph, finding.text, finding.fingerprint, finding.file)
        for report in reports
        for finding in report.findings
        if may_be_known(report) and not finding.reason
    ]
    lines = ",\n".join(json.dumps(finding.as_object()) for finding in known)
    return f'{{"form": {FORM}, "tool": "{VERSION}", "findings": [\n{lines}\n]}}\n'
