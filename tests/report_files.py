"""The files that `tools/cobsound-report` writes on the samples: SARIF by the fields that its schema demands, and pages,
also in a browser where one is installed."""

import atexit
import functools
import hashlib
import json
import pathlib
import re
import shutil
import struct
import subprocess
import tempfile
from html.parser import HTMLParser
from urllib.parse import unquote

from tests.built import ROOT, program_path
from tests.report import CLEAN, INDEXED_LINE, ORDERS, SAMPLES, reported, told

# From the schema of SARIF 2.1.0, of each object that the tool writes: the fields that must be there, and those that may
# be; each with what it holds. The schema allows no others.
LEVELS = {"none", "note", "warning", "error"}
POSITIVE = range(1, 2**31)
SUPPRESSION_STATES = {"accepted", "underReview", "rejected"}
SCHEMA = {
    "log": ({"version": {"2.1.0"}, "runs": ["run"]}, {"$schema": str}),
    "run": (
        {"tool": "tool"},
        {
            "invocations": ["invocation"],
            "results": ["result"],
            "columnKind": {"utf16CodeUnits", "unicodeCodePoints"},
            "originalUriBaseIds": dict,
            "properties": dict,
        },
    ),
    "tool": ({"driver": "component"}, {"extensions": ["component"]}),
    "component": (
        {"name": str},
        {"version": str, "semanticVersion": str, "informationUri": str, "rules": ["rule"], "properties": dict},
    ),
    "rule": (
        {"id": str},
        {
            "shortDescription": "text",
            "fullDescription": "text",
            "help": "text",
            "helpUri": str,
            "defaultConfiguration": "configuration",
        },
    ),
    "text": ({"text": str}, {}),
    "configuration": ({}, {"level": LEVELS}),
    "invocation": ({"executionSuccessful": bool}, {"exitCode": int, "toolExecutionNotifications": ["notification"]}),
    "notification": ({"message": "text"}, {"level": LEVELS, "locations": ["location"]}),
    "result": (
        {"message": "text"},
        {
            "ruleId": str,
            "ruleIndex": range(-1, 2**31),
            "level": LEVELS,
            "locations": ["location"],
            "relatedLocations": ["location"],
            "partialFingerprints": dict,
            "rank": range(101),
            "attachments": ["attachment"],
            "properties": dict,
            "baselineState": {"new", "unchanged", "updated", "absent"},
            "suppressions": ["suppression"],
        },
    ),
    "attachment": ({"artifactLocation": "artifactLocation"}, {"description": "text"}),
    "suppression": ({"kind": {"inSource", "external"}}, {"status": SUPPRESSION_STATES, "justification": str}),
    "location": ({}, {"id": range(-1, 2**31), "message": "text", "physicalLocation": "physicalLocation"}),
    "physicalLocation": ({"artifactLocation": "artifactLocation"}, {"region": "region"}),
    "artifactLocation": ({"uri": str}, {"uriBaseId": str}),
    "region": ({"startLine": POSITIVE}, {"startColumn": POSITIVE, "endColumn": POSITIVE}),
}


def faults(kind, value, place="log"):
    """Where a value isn't of its kind: a set of values or a range, a list of a kind, an object of SCHEMA, or a type."""
    if isinstance(kind, list):
        if not isinstance(value, list):
            yield f"{place} is no list"
        for number, item in enumerate(value):
            yield from faults(kind[0], item, f"{place}[{number}]")
    elif isinstance(kind, set | range):
        if value not in kind:
            yield f"{place} is {value!r}"
    elif isinstance(kind, str):
        needed, more = SCHEMA[kind]
        yield from (f"{place} lacks {name}" for name in needed if name not in value)
        for name, inner in value.items():
            if name not in needed | more:
                yield f"{place} has {name}"
            else:
                yield from faults((needed | more)[name], inner, f"{place}.{name}")
    elif not isinstance(value, kind):
        yield f"{place} is {value!r}"


# A source whose name and lines could be taken for marks of a page, with SIZE at its second statement.
ODD = "odd & <b>"
ODD_TEXT = (ROOT / "samples/first.cob").read_text().replace(" ADD 1", " DISPLAY '</td><script>'. ADD 2")
ODD_TEXT = ODD_TEXT.replace("       PROCEDURE", "      * \x1b[1m <a href=x> \xe9\n       PROCEDURE")


@functools.cache
def written():
    """The folder with the files on the samples, the odd source and one that isn't there, of one call for all checks."""
    folder = pathlib.Path(tempfile.mkdtemp(prefix="report"))
    atexit.register(shutil.rmtree, folder)
    (folder / "samples").mkdir()
    for name in SAMPLES:
        shutil.copy(ROOT / f"samples/{name}.cob", folder / "samples")
    (folder / f"samples/{ODD}.cob").write_text(ODD_TEXT, "latin-1")
    reported(["samples", "nosuch.cob", "--html", "pages", "--sarif", "report.sarif"], folder)
    return folder


def of_sarif():
    log = json.loads((written() / "report.sarif").read_text())
    wrong = list(faults("log", log))
    if wrong:
        return f"SARIF: {wrong[:5]}"
    (run,) = log["runs"]
    rules = run["tool"]["driver"]["rules"]
    found = []
    for result in run["results"]:
        place = result["locations"][0]["physicalLocation"]
        region = place["region"]
        found.append((place["artifactLocation"]["uri"], result["ruleId"], region["startLine"], region["startColumn"]))
        if rules[result["ruleIndex"]]["id"] != result["ruleId"]:
            return f"SARIF: {result['ruleId']} isn't rule {result['ruleIndex']}"
    wanted = [("samples/indexed.cob", "E8", INDEXED_LINE, 32)]
    wanted += [("samples/indexed.cob", "outside-profile", *place) for place in ((9, 31), (10, 23), (22, 16))]
    wanted += [("samples/odd%20%26%20%3Cb%3E.cob", "SIZE", 8, 33)]
    wanted += [("samples/orders.cob", kind, line, column) for line, kind, _, column in ORDERS]
    (invocation,) = run["invocations"]
    ended = (invocation["exitCode"], invocation["executionSuccessful"], len(invocation["toolExecutionNotifications"]))
    return told("SARIF", (found, ended), (wanted, (3, False, 1)))


def of_places():
    """Sources are told from the folder of the call; the analyser is told by its sum; and of a statement the items are
    told with their declarations."""
    (run,) = json.loads((written() / "report.sarif").read_text())["runs"]
    base = run["originalUriBaseIds"]["%SRCROOT%"]["uri"]
    bases = {result["locations"][0]["physicalLocation"]["artifactLocation"]["uriBaseId"] for result in run["results"]}
    (analyser,) = run["tool"]["extensions"]
    (compute,) = (result for result in run["results"] if (result["ruleId"], line_of(result)) == ("CLASS", 39))
    related = compute["relatedLocations"]
    items = [(item["message"]["text"].split()[0], line_of({"locations": [item]})) for item in related]
    found = (base, bases, analyser["properties"]["sha256"], items)
    program_sum = hashlib.sha256(program_path().read_bytes()).hexdigest()
    items_wanted = [("AMOUNT", 17), ("QUANTITY", 12), ("PRICE", 13)]
    return told("places", found, (written().resolve().as_uri() + "/", {"%SRCROOT%"}, program_sum, items_wanted))


def line_of(result):
    return result["locations"][0]["physicalLocation"]["region"]["startLine"]


def fingerprints(source):
    """The rule and the fingerprint of each result on a text."""
    with tempfile.TemporaryDirectory() as folder:
        pathlib.Path(folder, "S.cob").write_text(source)
        _, out, _ = reported(["--format", "sarif", "S.cob"], folder)
    found = json.loads(out)["runs"][0]["results"]
    return [(result["ruleId"], *result["partialFingerprints"].values()) for result in found]


def of_fingerprints():
    """Each alarm has its own, also of a statement that stands twice; they stay when lines go before them, and that of a
    statement goes when it changes."""
    source = (ROOT / "samples/orders.cob").read_text()
    add = "           ADD 1 TO ORDER-COUNT.\n"
    before = fingerprints(source)
    begin = "       MAIN-LINE.\n"
    moved = fingerprints(source.replace(begin, f"{begin}      * A line.\n           CONTINUE.\n"))
    twice = fingerprints(source.replace(add, 2 * add))
    changed = fingerprints(source.replace("ADD 1 TO", "ADD 2 TO"))
    are_right = (
        len(set(before)) == 6,
        moved == before,
        (twice[:6], len(set(twice))) == (before, 7),
        (changed[:5], changed[5] in before) == (before[:5], False),
    )
    return told("fingerprints", are_right, (True, True, True, True))


def of_rules():
    """A rule for each kind and each refusal, with its words and its level."""
    rules = json.loads((written() / "report.sarif").read_text())["runs"][0]["tool"]["driver"]["rules"]
    levels = {rule["id"]: rule["defaultConfiguration"]["level"] for rule in rules}
    kinds = ["SIZE", "TRUNCATION", "ZERO", "CLASS"]
    broken = [f"L{n}" for n in range(1, 13)] + [f"Q{n}" for n in range(1, 12)] + [f"N{n}" for n in range(1, 6)]
    limits = ["nesting", "items", "storage", "files", "cells", "nodes"]
    refusals = ["E5", "E6", "E7", "E8", "E11", *(f"E9-{rule}" for rule in broken), *(f"E10-{word}" for word in limits)]
    seen = ["outside-profile", "undeclared", "missing", "form", "not-prepared"]
    wanted = dict.fromkeys([*kinds, "statement-as-paragraph"], "warning") | dict.fromkeys([*refusals, *seen], "error")
    silent = [rule["id"] for rule in rules if not (rule["help"]["text"] and rule["fullDescription"]["text"])]
    return told("rules", (levels, silent), (wanted, []))


class Page(HTMLParser):
    """The ids, links and marks of a page, its notes, and what it would load."""

    def __init__(self, text):
        super().__init__()
        self.ids, self.links, self.loads, self.marks, self.notes, self.is_marking = set(), [], [], [], 0, False
        self.feed(text)

    def handle_starttag(self, tag, attributes):
        given = dict(attributes)
        self.ids |= {given["id"]} if "id" in given else set()
        self.links += [given["href"]] if tag == "a" else []
        self.loads += [tag] if tag in ("script", "link", "img", "iframe") or "src" in given else []
        self.notes += "note" in given.get("class", "").split()
        self.is_marking = tag == "mark"

    def handle_data(self, data):
        self.marks += [data] if self.is_marking else []
        self.is_marking = False


# what is marked on each page, and how many notes stand on it
MARKS = {name: ([], 0) for name in CLEAN} | {
    "orders": (["DIVIDE", "COMPUTE", "MOVE", "ADD", "ADD"], len(ORDERS)),
    "indexed": (["INDEXED", "RANDOM", "KEY", "INVALID"], 4),
    ODD: (["ADD"], 1),
}


def of_pages():
    """Each link leads to a page and a place on it, and the alarms are marked."""
    folder = written() / "pages"
    pages = {path: Page(path.read_text("utf-8")) for path in folder.glob("**/*.html")}
    for path, page in pages.items():
        for link in page.links:
            target, _, place = link.partition("#")
            other = (path.parent / unquote(target)).resolve() if target else path
            if other not in pages or place and place not in pages[other].ids:
                return f"{path}: the link {link} leads nowhere"
        if page.loads:
            return f"{path}: loads {page.loads}"
    found = {path.name[:-9]: (page.marks, page.notes) for path, page in pages.items() if path.parent != folder}
    listed = [unquote(link) for link in pages[folder / "index.html"].links]
    is_linked = all(f"sources/samples/{name}.cob.html" in listed for name in MARKS)
    return told("pages", (found, is_linked), (MARKS | {"nosuch": ([], 0)}, True))


def of_lines():
    """The listing of a page is the source, line by line."""
    text = (written() / "pages/sources/samples/orders.cob.html").read_text("utf-8")
    count = len((ROOT / "samples/orders.cob").read_text().splitlines())
    return told("lines", Page(text).ids, {f"L{number}" for number in range(1, count + 1)})


def of_news():
    """The index tells what is new since the report that stood there: here an alarm more, and one that is gone."""
    with tempfile.TemporaryDirectory() as folder:
        source = pathlib.Path(folder, "S.cob")
        shutil.copy(ROOT / "samples/orders.cob", source)
        words = ["S.cob", "--html", "pages"]
        reported(words, folder)
        index = pathlib.Path(folder, "pages/index.html")
        first = index.read_text("utf-8")
        source.write_text(source.read_text().replace("ADD 1 TO", "ADD 2 TO"))
        reported(words, folder)
        second = index.read_text("utf-8")
    counts = re.findall(r"(\d+) new, (\d+) gone", first + second)
    found = (counts, "S.cob:43" in second, "ADD 2 TO ORDER-COUNT" in second)
    return told("news", found, ([("1", "1")], True, True))


def of_orders():
    """Each column of the index leads to a page with the rows in its order."""
    folder = written() / "pages"
    rows = {}
    for path in folder.glob("*.html"):
        links = [unquote(link).split("#")[0] for link in Page(path.read_text("utf-8")).links]
        rows[path.name] = [pathlib.Path(link).name[:-9] for link in links if link.startswith("sources/")]
    names = sorted([*SAMPLES, ODD, "nosuch"], key=lambda name: f"samples/{name}" if name != "nosuch" else name)
    found = (rows["by-source.html"], rows["index.html"][:3], rows["by-zero.html"][0])
    wanted = (names, ["nosuch", "indexed", "orders"], "orders")
    return told("orders", (found, {len(row) for row in rows.values()}), (wanted, {len(names)}))


def browser():
    return shutil.which("chromium")


def browsed(page, *words):
    """What the browser shows of a page."""
    with tempfile.TemporaryDirectory() as home:
        given = ["--headless", "--no-sandbox", "--disable-gpu", f"--user-data-dir={home}", *words, page.as_uri()]
        return subprocess.run([browser(), *given], capture_output=True, text=True, timeout=300).stdout


def in_a_browser():
    """The page as the browser has read it, and a picture of it."""
    page = written() / "pages/sources/samples/orders.cob.html"
    read = Page(browsed(page, "--dump-dom"))
    picture = written() / "page.png"
    browsed(page, f"--screenshot={picture}", "--window-size=800,600")
    head = picture.read_bytes()[:24] if picture.exists() else b""
    size = struct.unpack(">II", head[16:24]) if head[:8] == b"\x89PNG\r\n\x1a\n" else None
    found = ((read.marks, read.notes), "../../index.html" in read.links, "#L39" in read.links, size)
    return told("in a browser", found, (MARKS["orders"], True, True, (800, 600)))


def checks():
    written()
    yield from (of_sarif, of_places, of_fingerprints, of_rules, of_pages, of_lines, of_news, of_orders)
    if browser():
        yield in_a_browser
    else:
        print("chromium isn't installed: the pages aren't looked at in a browser")
