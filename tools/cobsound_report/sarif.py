"""The report in SARIF 2.1.0, for code scanning (OASIS, Static Analysis Results Interchange Format)."""

import json
import os
import pathlib
import urllib.parse

from . import ROOT, VERSION
from .answers import Verdict
from .baseline import Known
from .findings import Finding, Item, Level, SourceReport
from .report import Report
from .sources import Source, Span
from .remarks import PARAGRAPH
from .words import SEEN, SENTENCES, UNPREPARED, Entry, Words

SCHEMA = "https://docs.oasis-open.org/sarif/sarif/v2.1.0/errata01/os/schemas/sarif-schema-2.1.0.json"
GUIDE, PREPARE, PROFILE = ((ROOT / f"docs/{name}.md").as_uri() for name in ("GUIDE", "PREPARE", "PROFILE"))

# Relative addresses of sources begin in the folder of the call.
BASE = "%SRCROOT%"

# The name says how the fingerprint is made.
FINGERPRINT = "ruleParagraphStatementOccurrence/v1"


def written(report: Report, words: Words) -> str:
    return json.dumps(log(report, words), indent=2) + "\n"


def log(report: Report, words: Words) -> dict:
    rules = words.listed()
    names = list(rules)
    failed = [pair for pair in report.findings() if is_failure(pair[0])]
    found = [pair for pair in report.findings() if not is_failure(pair[0])]
    invocation = {
        "executionSuccessful": not failed,
        "exitCode": report.worst.status,
        "toolExecutionNotifications": [notification(source, finding) for source, finding in failed],
    }
    found_told = [result(source, finding, names, report) for source, finding in found]
    run = {
        "tool": {"driver": driver(rules), "extensions": [analyser(report)]},
        "invocations": [invocation],
        "originalUriBaseIds": {BASE: {"uri": pathlib.Path(report.call.folder).as_uri() + "/"}},
        "columnKind": "unicodeCodePoints",
        "results": [*found_told, *(absent(known, names) for known in report.gone)],
    }
    if report.prepared:
        run["properties"] = {"prepared": report.prepared}
    return {"$schema": SCHEMA, "version": "2.1.0", "runs": [run]}


def driver(rules: dict[str, Entry]) -> dict:
    return {
        "name": "cobsound-report",
        "version": VERSION,
        "semanticVersion": VERSION,
        "informationUri": GUIDE,
        "rules": [rule(name, entry) for name, entry in rules.items()],
    }


def analyser(report: Report) -> dict:
    """The program that answered, by its sum."""
    return {"name": "cobsound", "version": VERSION, "properties": {"sha256": report.call.program_sum}}


def is_failure(source: SourceReport) -> bool:
    return source.verdict > Verdict.REFUSED


def rule(name: str, entry: Entry) -> dict:
    is_alarm = name in SENTENCES
    level = Level.WARNING if is_alarm or name == PARAGRAPH else Level.ERROR
    return {
        "id": name,
        "shortDescription": {"text": SENTENCES.get(name, entry.cause)},
        "fullDescription": {"text": entry.cause},
        "help": {"text": entry.advice or entry.cause},
        "helpUri": place(name),
        "defaultConfiguration": {"level": level.value},
    }


def place(name: str) -> str:
    """The document that has a rule, and the heading there."""
    if name in SENTENCES:
        return f"{GUIDE}#the-report"
    if name == UNPREPARED:
        return PREPARE
    return PROFILE if name in SEEN else f"{GUIDE}#refusals"


def result(source: SourceReport, finding: Finding, rules: list[str], report: Report) -> dict:
    """A result of SARIF for an alarm, a warning or a refusal."""
    told = {
        "ruleId": finding.rule,
        "ruleIndex": rules.index(finding.rule) if finding.rule in rules else -1,
        "level": finding.level.value,
        "message": {"text": finding.message},
        "locations": [location(finding.file or source.source.name, finding.line, finding.span)],
        "partialFingerprints": {FINGERPRINT: finding.fingerprint},
    }
    if report.baseline:
        told["baselineState"] = "unchanged" if finding.is_known else "new"
    if finding.reason:
        told["suppressions"] = [{"kind": "external", "status": "accepted", "justification": finding.reason}]
    related = [declaration(source.source, item) for item in finding.items]
    related += [copied(file, line) for file, line in finding.copies]
    if related:
        told["relatedLocations"] = [{"id": number} | place for number, place in enumerate(related, 1)]
    if finding.witness:
        told["rank"] = finding.witness.rank
        if finding.witness.files:
            told["attachments"] = [attachment(file) for file in finding.witness.files]
    if finding.statement is not None:
        told["properties"] = {"statement": finding.statement, "paragraph": finding.paragraph, "text": finding.text}
    return told


def attachment(file: pathlib.Path) -> dict:
    """An input file with which a run meets the fault."""
    text = f"{file.name}, an input file of a run that meets this"
    return {"description": {"text": text}, "artifactLocation": artifact(str(file))}


def absent(known: Known, rules: list[str]) -> dict:
    """A finding of the baseline that is gone."""
    return {
        "ruleId": known.rule,
        "ruleIndex": rules.index(known.rule) if known.rule in rules else -1,
        "message": {"text": known.told()},
        "locations": [location(known.file or known.source, None, None)],
        "partialFingerprints": {FINGERPRINT: known.fingerprint},
        "baselineState": "absent",
    }


def declaration(source: Source, item: Item) -> dict:
    """Where an item of the statement is declared."""
    message = {"text": f"{item.name} is declared here"}
    return {"message": message, **location(item.file or source.name, item.line, item.span)}


def copied(file: str, line: int) -> dict:
    """A COPY that led to the file of a finding."""
    return {"message": {"text": "copied by this"}, **location(file, line, None)}


def notification(source: SourceReport, finding: Finding) -> dict:
    return {
        "level": "error",
        "message": {"text": finding.message},
        "locations": [location(source.source.name, None, None)],
    }


def location(name: str, line: int | None, span: Span | None) -> dict:
    place: dict = {"artifactLocation": artifact(name)}
    return {"physicalLocation": place | ({"region": region(line, span)} if line else {})}


def region(line: int, span: Span | None) -> dict:
    """Characters of a line, or the whole line."""
    columns = {"startColumn": span.first + 1, "endColumn": max(span.behind, span.first + 1) + 1} if span else {}
    return {"startLine": line, **columns}


def artifact(name: str) -> dict:
    """The source's path from the folder of the call; where it lies elsewhere, its whole address."""
    path = pathlib.PurePath(name)
    if path.is_absolute() or path.parts[:1] == ("..",):
        return {"uri": pathlib.Path(os.path.abspath(name)).as_uri()}
    return {"uri": urllib.parse.quote(os.fsencode(name)), "uriBaseId": BASE}
