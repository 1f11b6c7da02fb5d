"""The report as test cases in the form of JUnit, a source each, for build servers."""

from xml.etree import ElementTree

from .answers import Verdict
from .findings import SourceReport
from .report import Report
from .text import Style, lines_of


def written(report: Report) -> str:
    failures = sum(Verdict.CLEAN < source.weight <= Verdict.REFUSED for source in report.sources)
    errors = sum(source.weight > Verdict.REFUSED for source in report.sources)
    suite = ElementTree.Element(
        "testsuite",
        name="cobsound",
        tests=str(len(report.sources)),
        failures=str(failures),
        errors=str(errors),
        skipped="0",
        time=f"{sum(source.seconds for source in report.sources):.3f}",
        timestamp=report.call.when.isoformat(),
    )
    if report.prepared:
        properties = ElementTree.SubElement(suite, "properties")
        ElementTree.SubElement(properties, "property", name="prepared", value=report.prepared)
    suite.extend(case(source) for source in report.sources)
    suites = ElementTree.Element("testsuites")
    suites.append(suite)
    ElementTree.indent(suites)
    return '<?xml version="1.0" encoding="UTF-8"?>\n' + ElementTree.tostring(suites, "us-ascii").decode() + "\n"


def case(source: SourceReport) -> ElementTree.Element:
    """A source is a case, which fails where it isn't clean, and is in error where it wasn't analysed. What
    doesn't count fails nothing."""
    found = ElementTree.Element("testcase", name=source.name, classname="cobsound", time=f"{source.seconds:.3f}")
    if source.weight != Verdict.CLEAN:
        kind = "error" if source.verdict > Verdict.REFUSED else "failure"
        message = "; ".join(finding.message for finding in source.findings if finding.counts)
        told = ElementTree.SubElement(found, kind, type=source.verdict.name.lower(), message=message)
        told.text = "\n".join(lines_of(source, Style()))
    return found
