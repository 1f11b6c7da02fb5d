"""`--prepare` of `tools/cobsound-report` and `tools/cobsound-witness`: all places that they tell are those of the
source and its copybooks, also three COPYs deep. What is told of the sources here was worked out by hand."""

import json
import pathlib
import re
import shlex
import subprocess
import tempfile
from xml.etree import ElementTree

from tests.built import program_path
from tests.prepare_texts import laid
from tests.report import SENTENCES, reported, told
from tests.report_files import faults
from tests.witness import called, results_of

# PAY copies STEPS, which copies SUMS, which copies ADD1, in whose second line an ADD has two alarms.
FILES = {
    "pay.cob": """\
       IDENTIFICATION DIVISION.
       PROGRAM-ID. T.
       AUTHOR. THE SHOP.
       ENVIRONMENT DIVISION.
       INPUT-OUTPUT SECTION.
       FILE-CONTROL.
           SELECT RATES ASSIGN TO RATES.
       DATA DIVISION.
       FILE SECTION.
       FD RATES.
       COPY RATE REPLACING ==:TAG:== BY ==IN==.
       WORKING-STORAGE SECTION.
       77 TOTAL PIC 9(4) VALUE 0.
       77 AT-END PIC X VALUE 'N'.
       PROCEDURE DIVISION.
       MAIN SECTION.
           OPEN INPUT RATES
           PERFORM TAKE-ONE UNTIL AT-END = 'Y'
           CLOSE RATES
           GOBACK.
       COPY STEPS REPLACING ==:TAG:== BY ==IN==.
""",
    "books/rate.cpy": """\
       01 :TAG:-RECORD.
          05 :TAG:-RATE PIC 9(4).
""",
    "books/steps.cpy": """\
       TAKE-ONE.
           READ RATES AT END MOVE 'Y' TO AT-END
             NOT AT END
      * adds it
             COPY SUMS REPLACING ==RECEIVER== BY ==TOTAL==.
           END-READ.
""",
    "books/sums.cpy": """\
      * a sum
             COPY ADD1 REPLACING ==WHAT== BY ==:TAG:-RATE==.
""",
    "books/add1.cpy": """\
               CONTINUE
\t       ADD WHAT TO RECEIVER
""",
}
ADD1 = "books/add1.cpy"
COPIES = [("books/sums.cpy", 2), ("books/steps.cpy", 5), ("pay.cob", 21)]
COLUMN = 9  # a tab is one column
STATEMENT = 8
KINDS = ("SIZE", "CLASS")
CALL = ("--prepare", "-I", "books")

# the copybook with a statement that isn't in the profile
REFUSED = {**FILES, ADD1: "\n               CONTINUE ALTER WHAT\n"}
HEAD = "prepared: note: what is told holds of the prepared sources, which `cobsound prepare -I books SOURCE` shows"


def in_folder(check, files=FILES):
    with tempfile.TemporaryDirectory() as folder:
        laid(folder, files)
        return check(pathlib.Path(folder))


def alarm_lines():
    place = f"{ADD1}:2"
    for kind in KINDS:
        yield f"{place}: warning: {kind}: {SENTENCES[kind]} (statement {STATEMENT})"
        yield "        ADD WHAT TO RECEIVER"
        yield "        ^~~"
        yield from (f"{place}: note: copied by {file} line {line}" for file, line in COPIES)


def of_text(folder):
    found = reported([*CALL, "pay.cob"], folder)
    wanted = "\n".join([HEAD, *alarm_lines(), "1 source: 1 with 2 alarms", ""])
    return told("prepared, as text", found, (1, wanted, ""))


def of_json(folder):
    report = json.loads(reported([*CALL, "pay.cob", "--format", "json"], folder)[1])
    (source,) = report["sources"]
    found = [(f["file"], f["line"], f["marked"], f["text"], f["paragraph"]) for f in source["findings"]]
    copies = [[(copy["file"], copy["line"]) for copy in f["copied_by"]] for f in source["findings"]]
    items = {(item["name"], item["file"], item["line"]) for f in source["findings"] for item in f["items"]}
    marked = {"first": COLUMN, "behind": COLUMN + 3}
    wanted = [(ADD1, 2, marked, "ADD IN-RATE TO TOTAL", "TAKE-ONE")] * 2
    declared = {("IN-RATE", "books/rate.cpy", 2), ("TOTAL", "", 13)}
    books = ["books/rate.cpy", "books/steps.cpy", "books/sums.cpy", ADD1]
    copybooks = source["prepared"]["copybooks"]
    found = (found, copies, items, copybooks, report["prepared"])
    return told("prepared, as JSON", found, (wanted, [COPIES] * 2, declared, books, HEAD.split(": ", 2)[2]))


def of_sarif(folder):
    reported([*CALL, "pay.cob", "--sarif", "r.sarif"], folder)
    log = json.loads((folder / "r.sarif").read_text())
    (run,) = log["runs"]
    found = []
    for result in run["results"]:
        places = [result["locations"][0], *result["relatedLocations"]]
        told_at = [place["physicalLocation"] for place in places]
        found.append([(place["artifactLocation"]["uri"], place["region"]["startLine"]) for place in told_at])
        found.append(told_at[0]["region"]["startColumn"])
    wanted = [[(ADD1, 2), ("books/rate.cpy", 2), ("pay.cob", 13), *COPIES], COLUMN] * 2
    wrong = list(faults("log", log))
    return told("prepared, in SARIF", (found, wrong, run["properties"]), (wanted, [], {"prepared": HEAD[16:]}))


def of_servers(folder):
    """Lines of GitHub Actions, and cases of JUnit."""
    lines = reported([*CALL, "pay.cob", "--format", "github"], folder)[1].splitlines()
    places = [line.split(",title")[0] for line in lines[:-1]]
    suite = ElementTree.fromstring(reported([*CALL, "pay.cob", "--format", "junit"], folder)[1])[0]
    failure = suite.find("testcase/failure").text.splitlines()
    found = (places, suite.find("properties/property").get("value"), failure)
    warning = f"::warning file={ADD1},line=2,col={COLUMN}"
    head = f"::notice title=Cobsound prepare::{HEAD[16:]}"
    return told("prepared, for servers", found, ([head, warning, warning], HEAD[16:], list(alarm_lines())))


def of_pages(folder):
    """The page of the source has the listing of the copybook, links to its lines, and one to the prepared source."""
    reported([*CALL, "pay.cob", "--html", "pages"], folder)
    page = (folder / "pages/sources/pay.cob.html").read_text()
    kept = (folder / "pages/prepared/pay.cob.txt").read_text()
    names = set(re.findall(r'id="([A-Z0-9]+)"', page))
    links = set(re.findall(r'href="#([A-Z0-9]+)"', page))
    is_right = (
        links <= names
        and {"F1L2", "F2L2", "L13", "L21"} <= names
        and f'<a href="#F1L2">Line 2 of {ADD1}</a>' in page
        and '<a href="#F2L2">IN-RATE</a>, <a href="#L13">TOTAL</a>' in page
        and '<a href="../prepared/pay.cob.txt">prepared source</a>' in page
        and f"; copied by {COPIES[0][0]} line {COPIES[0][1]}; " in page
        and "<mark>ADD</mark> WHAT TO RECEIVER" in page
        and "ADD IN-RATE TO TOTAL" in kept
        and "which are kept below pages/prepared." in (folder / "pages/index.html").read_text()
    )
    return None if is_right else f"prepared, as pages: {links - names}, {page}"


def of_a_refusal(folder):
    """A word three COPYs deep, and a copybook that isn't there."""
    found = [reported([*CALL, "pay.cob"], folder)]
    (folder / "books/sums.cpy").write_text("\n           COPY NONE.\n")
    found.append(reported([*CALL, "pay.cob"], folder))
    texts = [[line for line in out.splitlines() if re.search(": (error|note): ", line)] for _, out, _ in found]
    place, other = f"{ADD1}:2:25", "books/sums.cpy:2:12"
    copied = [f"note: copied by {file} line {line}" for file, line in COPIES]
    wanted = [
        f"{place}: error: E8: ALTER isn't in the profile",
        *(f"{place}: {line}" for line in copied),
        f"{place}: note: write an IF round a GO TO",
    ]
    missing = [
        f"{other}: error: copybook NONE isn't found in books",
        *(f"{other}: {line}" for line in copied[1:]),
        f"{other}: note: give the folders of copybooks by -I, or correct it",
    ]
    begins = missing[0] in texts[1][1]
    texts[1][1] = missing[0] if begins else texts[1][1]
    found = ([status for status, _, _ in found], texts)
    return told("prepared, a refusal", found, ([2, 2], [[HEAD, *wanted], [HEAD, *missing]]))


def of_a_baseline(folder):
    """What is known stays known where lines are put before it, and what is gone is told of its copybook."""
    words = [*CALL, "pay.cob", "--certs", "certs"]
    reported([*words, "--write-baseline", "known"], folder)
    books = [finding["file"] for finding in json.loads((folder / "known").read_text())["findings"]]
    add1 = folder / ADD1
    add1.write_text("      * more\n" + add1.read_text())
    moved = reported([*words, "--baseline", "known"], folder)
    again = reported([*words, "--baseline", "known"], folder)[1].splitlines()[-1]
    add1.write_text("               CONTINUE\n")
    gone = json.loads(reported([*words, "--baseline", "known", "--format", "sarif"], folder)[1])["runs"][0]["results"]
    places = [result["locations"][0]["physicalLocation"]["artifactLocation"]["uri"] for result in gone]
    found = (books, moved[0], moved[1].splitlines()[1:], again, places)
    last = "1 source: 1 with 2 alarms; 1 by kept certificates; 0 new, 2 known, 0 gone"
    known = last.replace("; 1 by kept certificates", "")
    return told("prepared, a baseline", found, ([ADD1] * 2, 0, [known], last, [ADD1] * 2))


def of_shards(folder):
    """Two shards put together are what one call shows; a copybook that has changed is a failure."""
    laid(folder, {"b.cob": FILES["pay.cob"], "c.cob": FILES["pay.cob"].replace("COPY RATE", "COPY NONE")})
    words = [*CALL, "--prepared", "kept", "."]
    one = reported([*words, "--html", "one"], folder)
    for number in (1, 2):
        status, out, _ = reported([*words, "--shard", f"{number}/2", "--format", "json"], folder)
        (folder / f"{number}.json").write_text(out)
    both = reported(["--merge", "1.json", "2.json", "--html", "both"], folder)
    pages = [(folder / name / "sources/b.cob.html").read_text() for name in ("one", "both")]
    add1 = folder / ADD1
    add1.write_text("      * more\n" + add1.read_text())
    changed = reported(["--merge", "1.json", "2.json"], folder)
    kept = sorted(str(path.relative_to(folder)) for path in folder.glob("kept/*"))
    files = [f"kept/{name}.cob.txt{ending}" for name in ("b", "pay") for ending in ("", ".map.json")]
    found = (both, pages[1] == pages[0], changed[0], ADD1 in changed[2], kept)
    return told("prepared, shards", found, (one, True, 3, True, files))


EBCDIC = """\
       IDENTIFICATION DIVISION.
       PROGRAM-ID. T.
       DATA DIVISION.
       WORKING-STORAGE SECTION.
       COPY ITEM.
       PROCEDURE DIVISION.
           ADD 9 TO N-1.
           GOBACK.
""".splitlines()
FREE = """\
>>SOURCE FORMAT FREE
identification division.
program-id. t.
data division.
working-storage section.
01 num_1 pic 9 value 1.
procedure division.
first section.
\tadd 9 to num_1. subtract 1 from num_2.
"""


def of_forms(folder):
    """Lines of EBCDIC and of free form are shown as they read, with the words that stand there."""
    (folder / "e.cob").write_bytes("".join(f"{line:80}" for line in EBCDIC).encode("cp1140"))
    (folder / "books/item.cpy").write_bytes("       77 N-1 PIC 9 VALUE 1.\x85".encode("cp1140"))
    report = json.loads(reported([*CALL, "e.cob", "--format", "json"], folder)[1])
    (finding,) = report["sources"][0]["findings"]
    (item,) = finding["items"]
    ebcdic = (finding["line"], finding["shown"].rstrip(), item["file"], item["line"], item["marked"])
    (folder / "f.cob").write_text(FREE)
    free = reported(["--prepare", "f.cob"], folder)[1].splitlines()[1:]
    declared = {"first": 11, "behind": 14}
    wanted = [
        "f.cob:9:34: error: E9: NUM-2 isn't declared",
        " add 9 to num_1. subtract 1 from num_2.",
        " " * 33 + "^~~~~",
        "f.cob:9:34: note: NUM-1, on line 6?",
        "1 source: 1 refused",
    ]
    return told("prepared, forms", (ebcdic, free), ((7, EBCDIC[6], "books/item.cpy", 1, declared), wanted))


def of_wrong_calls(folder):
    """No output takes the place of a copybook, and the words of preparing go with --prepare alone."""
    calls = [
        [*CALL, "pay.cob", "--sarif", ADD1],
        ["-I", "books", "pay.cob"],
        ["--prepared", "kept", "pay.cob"],
        [*CALL, "none.cob"],
    ]
    statuses = [reported(words, folder)[0] for words in calls]
    statuses.append(called(["-I", "books", "pay.cob"], folder)[0])
    left = {str(path.relative_to(folder)) for path in folder.rglob("*") if path.is_file()}
    is_left = left == set(FILES) and (folder / ADD1).read_text() == FILES[ADD1]
    return told("prepared, wrong calls", (statuses, is_left), ([3] * 5, True))


def of_a_witness(folder):
    """Its places, its files on the prepared source that it keeps, and what a report says of them."""
    status, out, err = called([*CALL, "pay.cob", "--runs", "1000", "-o", "found"], folder)
    alarms = results_of(folder / "found")["alarms"]
    places = [(alarm["file"], alarm["line"], alarm["kind"], alarm["state"]) for alarm in alarms]
    ends = []
    for alarm in alarms:
        words = shlex.split(alarm["command"])
        done = subprocess.run([program_path(), *words[1:]], cwd=folder, capture_output=True, text=True)
        ends.append(done.stdout.splitlines()[-1].split(" step")[0])
    ranked = reported([*CALL, "pay.cob", "--witness", "found"], folder)[1]
    copied = "".join(f", copied by {file} line {line}" for file, line in COPIES)
    is_told = all(f"{ADD1}:2: {kind} at statement {STATEMENT}{copied}: met, with " in out for kind in KINDS)
    head = out.splitlines()[0]
    found = (status, err, places, ends, is_told, head, ranked.count(f"{ADD1}:2: note: a run meets this"))
    wanted = [(ADD1, 2, kind, "met") for kind in KINDS]
    ends = [f"E18 {kind} statement {STATEMENT}" for kind in KINDS]
    head = "pay.cob: what is told holds of the prepared source, found/prepared.cob"
    return told("prepared, a witness", found, (1, "", wanted, ends, True, head, 2))


def of_a_refused_witness(folder):
    found = [called([*CALL, "pay.cob"], folder)]
    found.append(called(["--prepare", "pay.cob"], folder))
    missing = "pay.cob:11:8: error: copybook RATE isn't found in .\n"
    return told("prepared, a refused witness", found, [(2, f"{ADD1}: E8 line 2\n", ""), (2, missing, "")])


# A called program may change what it is handed.
ASSUMING = """\
       IDENTIFICATION DIVISION.
       PROGRAM-ID. T.
       DATA DIVISION.
       WORKING-STORAGE SECTION.
       77 A PIC 9(3) VALUE 1.
       PROCEDURE DIVISION.
           CALL 'RATES' USING A
           ADD 1 TO A ON SIZE ERROR STOP RUN.
"""


def of_assumptions(folder):
    """What is assumed stands in the first line, and in SARIF; it isn't for `run`."""
    (folder / "call.cob").write_text(ASSUMING)
    words = ["--prepare", "--assume", "call.cob"]
    status, text, _ = reported(words, folder)
    sarif = json.loads(reported([*words, "--format", "sarif"], folder)[1])
    lines = text.splitlines()
    found = [line for line in lines if ": warning: " in line]
    assumed = "a called program changes nothing but what it is handed by reference"
    heads = [assumed in lines[0], assumed in sarif["runs"][0]["properties"]["prepared"]]
    plain = reported(["--prepare", "call.cob"], folder)[0]
    refused, _, why = called(["call.cob", "--prepare", "--assume"], folder)
    wanted = (1, [f"call.cob:8: warning: CLASS: {SENTENCES['CLASS']} (statement 3)"], [True, True], 2, 3, True)
    found = (status, found, heads, plain, refused, "can't be run" in why)
    return told("prepared, what is only assumed", found, wanted)


def checks():
    for check in (of_text, of_json, of_sarif, of_servers, of_pages, of_a_baseline, of_shards, of_forms, of_wrong_calls):
        yield lambda check=check: in_folder(check)
    yield lambda: in_folder(of_a_witness)
    yield lambda: in_folder(of_a_refusal, REFUSED)
    yield lambda: in_folder(of_a_refused_witness, REFUSED)
    yield lambda: in_folder(of_assumptions)
