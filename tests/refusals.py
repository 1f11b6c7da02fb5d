"""What `tools/cobsound_report` names in sources itself: what isn't in the profile, what is missing, names that nothing
declares, and words that are taken as paragraphs; and what it explains.

For each phrase of docs/PROFILE.md there is a source, in which an `@` stands before the
word that must be named with its column.

A case has the phrase, or the description of its row, and the number that the program answers. `identification`,
`environment`, `select`, `fd`, `data` and `procedure` are the lines of the source's parts, `source` all its lines, and
`text` its whole text.
"""

import json
import pathlib
import random
import subprocess
import sys
import tempfile

from tests.built import CASES, ROOT, program_path
from tests.report import reported, told

sys.path.insert(0, str(ROOT / "tools"))

from cobsound_report.causes import cause_of  # noqa: E402
from cobsound_report.explain import examples, explained, whole  # noqa: E402
from cobsound_report.remarks import MISSING  # noqa: E402
from cobsound_report.scan import lines_of  # noqa: E402
from cobsound_report.words import read_words  # noqa: E402

WORDS = read_words()
READER = WORDS.reader

TOP, BOTTOM = ["IDENTIFICATION DIVISION.", "PROGRAM-ID. T."], ["PROCEDURE DIVISION.", "STOP RUN."]

PARTS = (
    ("identification", ()),
    ("environment", ("ENVIRONMENT DIVISION.",)),
    ("select", ("ENVIRONMENT DIVISION.", "INPUT-OUTPUT SECTION.", "FILE-CONTROL.")),
    ("fd", ("DATA DIVISION.", "FILE SECTION.")),
    ("data", ("WORKING-STORAGE SECTION.",)),
    ("procedure", ("PROCEDURE DIVISION.",)),
)


def program_lines(case):
    lines = ["IDENTIFICATION DIVISION.", "PROGRAM-ID. T."]
    for part, headers in PARTS:
        if part in case:
            lines += ["DATA DIVISION."] if part == "data" and "fd" not in case else []
            lines += [*headers, *case[part]]
    return lines


def marked(case):
    """The source with the mark, as text."""
    if "text" in case:
        return case["text"]
    return "".join(f"       {line}\n" for line in case.get("source") or program_lines(case))


def place_of(text):
    """The line and the column of the mark."""
    before = text[: text.index("@")].encode()
    return before.count(b"\n") + 1, len(before) - before.rfind(b"\n")


def answer_to(raw):
    with tempfile.TemporaryDirectory() as folder:
        pathlib.Path(folder, "S").write_bytes(raw)
        done = subprocess.run([program_path(), "analyse", "S", "C"], cwd=folder, capture_output=True, text=True)
    return done.stdout.rstrip("\n")


def of_a_case(case):
    """The program refuses the source by that number, which stands in the row's column of answers; and at the mark
    stands the remark that is taken for the cause, or another one, with the row's way out."""
    text = marked(case)
    raw = text.replace("@", "", 1).encode(case.get("encoding", "utf-8"))
    row = next(row for row in READER.rows if case["phrase"] in (row.description, *row.phrases))
    answer = answer_to(raw)
    if not answer.startswith(f"{case['answer']} ") or case["answer"] not in row.answer:
        return f"{case['phrase']}: the program says {answer}"
    seen = READER.seen(raw)
    cause = cause_of(answer, seen, READER)
    told = [remark for remark in (cause, *seen.remarks) if remark and remark.place == place_of(text)]
    if not any(remark.advice == ("" if row.way_out == "none" else row.way_out) for remark in told):
        return f"{case['phrase']}: it isn't named by {[remark.message for remark in seen.remarks]}"
    return None if cause else f"{case['phrase']}: there is no cause of {answer}"


def of_the_table():
    """Each phrase, and each row without one, has a case."""
    wanted = {phrase for row in READER.rows for phrase in row.phrases or (row.description,)}
    return told("the table's phrases", {case["phrase"] for case in CASES_OF_REFUSALS}, wanted)


# Sources of parts alone, with the headers that are missing, each with the line before which it is.
HEADLESS = [
    ([], [("IDENTIFICATION DIVISION", 1)]),
    (["02 X PIC X."], [("IDENTIFICATION DIVISION", 1), ("PROGRAM-ID", 1), ("PROCEDURE DIVISION", 1)]),
    ([*TOP, "STOP RUN."], [("PROCEDURE DIVISION", 3)]),
    ([*TOP, "77 N PIC 9."], [("DATA DIVISION", 3), ("WORKING-STORAGE SECTION", 3), ("PROCEDURE DIVISION", 3)]),
    ([*TOP, "DATA DIVISION.", "77 N PIC 9.", *BOTTOM], [("WORKING-STORAGE SECTION", 4)]),
    ([*TOP, "DATA DIVISION.", "FD F.", "01 R PIC X.", *BOTTOM], [("FILE SECTION", 4)]),
    ([*TOP, "FILE-CONTROL.", *BOTTOM], [("ENVIRONMENT DIVISION", 3), ("INPUT-OUTPUT SECTION", 3)]),
    ([*TOP, "ENVIRONMENT DIVISION.", "INPUT-OUTPUT SECTION.", *BOTTOM], [("FILE-CONTROL", 5)]),
    ([*TOP, "ENVIRONMENT DIVISION.", "SOURCE-COMPUTER. PC.", *BOTTOM], [("CONFIGURATION SECTION", 4)]),
    ([*TOP, "AUTHOR. THE PROCEDURE DIVISION IS FAR.", *BOTTOM], []),
]


def of_headers(lines, wanted):
    """The headers that are missing."""
    raw = "".join(f"       {line}\n" for line in lines).encode()
    found = [(remark.spot.text, remark.spot.line) for remark in READER.seen(raw).remarks if remark.rule == MISSING]
    return told(f"headers of {lines}", found, wanted)


NAMES = """\
       IDENTIFICATION DIVISION.
       PROGRAM-ID. T.
       DATA DIVISION.
       WORKING-STORAGE SECTION.
       77 COUNTER PIC 9(3) VALUE 0.
       01 G. 05 TWICE PIC 9(3) VALUE 0.
       77 TWICE PIC 9(3) VALUE 0.
       PROCEDURE DIVISION.
           MOVE COUNTR TO COUNTER.
           DISPLY COUNTER.
           PERFORM CLOSE-AL.
           PERFORM COUNTER.
           MOVE ZZZ TO COUNTER.
           MOVE ZZZ TO COUNTER.
           MOVE TWICE TO COUNTER.
           MOVE TWICE OF G TO COUNTER.
       CLOSE-ALL.
           STOP RUN.
"""


def of_names():
    """Names that nothing declares as what they are used for, each once, with the nearest."""
    found = [(r.message, r.place, r.advice, r.named_on) for r in READER.seen(NAMES.encode()).remarks]
    wanted = [
        ("COUNTR isn't declared", (9, 17), "COUNTER", 5),
        ("DISPLY isn't a verb", (10, 12), "DISPLAY?", 0),
        ("CLOSE-AL isn't a paragraph", (11, 20), "CLOSE-ALL", 17),
        ("COUNTER isn't a paragraph", (12, 20), "", 0),
        ("ZZZ isn't declared", (13, 17), "", 0),
        ("TWICE isn't one item alone", (15, 17), "", 0),
    ]
    return told("names", found, wanted)


SWALLOWED = NAMES.split("           MOVE COUNTR")[0] + "           ADD 1 TO COUNTER.\n           {}.\n"
SWALLOWED += "       LAST-PART.\n           STOP RUN.\n"


def of_a_warning(word, advice):
    """A word that no compiler takes as a paragraph's name: the source is never told as clean alone."""
    with tempfile.TemporaryDirectory() as folder:
        pathlib.Path(folder, "S.cob").write_text(SWALLOWED.format(word))
        status, out, _ = reported(["S.cob"], folder)
        answer = answer_to(SWALLOWED.format(word).encode())
        names = ("json", "sarif", "github", "junit")
        forms = {form: reported(["S.cob", "--format", form], folder)[1] for form in names}
    message = f"{word} is taken as a paragraph's name here, so that the program goes on behind it"
    lines = [
        f"S.cob:10:12: warning: {message}",
        f"           {word}.",
        f"           ^{'~' * (len(word) - 1)}",
        f"S.cob:10:12: note: {advice}",
        "1 source: 1 clean but for 1 warning",
    ]
    silent = [form for form, text in forms.items() if message not in text.replace("&#39;", "'")]
    return told(f"a warning of {word}", (answer, status, out.splitlines(), silent), ("clean", 1, lines, []))


def of_no_warning():
    """A paragraph of any other name has none, and neither have all samples."""
    found = [warning for word in ("LAST-PART-A", "EXIT-PROGRAM") for warning in warned(SWALLOWED.format(word).encode())]
    for path in (ROOT / "samples").rglob("*.cob"):
        found += warned(path.read_bytes())
    return told("no warning", found, [])


def warned(raw):
    return [remark.message for remark in READER.warnings(lines_of(raw))]


def of_an_example(name, example):
    """The lines that break a rule are told by it, and the others aren't."""
    told_of = []
    for lines in (example.broken, example.kept):
        raw = whole(lines).encode()
        number, *rest = answer_to(raw).split()
        rules = {number, f"{number}-{(rest or [''])[0]}"} | {remark.rule for remark in READER.warnings(lines_of(raw))}
        rules |= {remark.rule for remark in READER.seen(raw).remarks} if number.startswith("E") else set()
        told_of.append((name in rules, number.startswith("E")))
    is_right = told_of[0][0] and told_of[1] == (False, False)
    return None if is_right else f"the example of {name}: {told_of}"


def of_all_rules():
    """Each rule is explained in words, also as the program writes its name; those that a few lines show have an
    example."""
    limits = ("nesting", "items", "storage", "files", "cells", "nodes")
    without = {"E5", "E11", "form", "not-prepared", *(f"E10-{word}" for word in limits)}
    for rule in WORDS.listed():
        text = explained(rule.removeprefix("E9-") if rule.startswith("E9") else rule.replace("E10-", "E10 "), WORDS)
        if not text.startswith(f"{rule}: ") or ("For example" in text) == (rule in without):
            return f"{rule} is explained by {text!r}"
    status, out, _ = reported(["--explain", "E9-L2"])
    wrong = reported(["--explain", "E9-L99"])[0]
    return told("--explain", (status, out == explained("E9-L2", WORDS), wrong), (0, True, 3))


def of_damage(seed):
    """Whatever a source holds, it is read."""
    chance = random.Random(seed)
    sources = [path.read_bytes() for path in sorted((ROOT / "samples").rglob("*.cob"))]
    for _ in range(100):
        raw = bytearray(chance.choice(sources)[: chance.randrange(4000)])
        for _ in range(chance.randrange(20)):
            at = chance.randrange(len(raw) + 1)
            raw[at : at + chance.randrange(3)] = chance.choice(PIECES)
        seen = READER.seen(bytes(raw))
        for answer in ("E6 line 9 column 7", "E7 line 30 column 12", *(f"{rule} line 31" for rule in RULES)):
            cause_of(answer, seen, READER)
        READER.warnings(lines_of(bytes(raw)))
    return None


RULES = ("E8", "E9 L2", "E9 Q1", "E9 N3")
PIECES = [b"", b"'", b'"', b"(", b")", b".", b"\t", b"\n", b"\xc3\xa4", b"*>", b" EXEC ", b" COPY ", b"\n      -", b" 66 A"]

CASES_OF_REFUSALS = [json.loads(line) for line in (CASES / "refusals.jsonl").open()]


def checks():
    yield of_the_table
    for case in CASES_OF_REFUSALS:
        yield lambda case=case: of_a_case(case)
    for lines, wanted in HEADLESS:
        yield lambda lines=lines, wanted=wanted: of_headers(lines, wanted)
    yield of_names
    for word, advice in (("GOBACK", "write STOP RUN"), ("EJECT", "leave it out"), ("SKIP1", "leave it out")):
        yield lambda word=word, advice=advice: of_a_warning(word, advice)
    yield of_no_warning
    for name, example in examples().items():
        yield lambda name=name, example=example: of_an_example(name, example)
    yield of_all_rules
    for seed in range(10):
        yield lambda seed=seed: of_damage(seed)
