"""What docs/TUTORIAL.md shows of `analyse`: the reports on the samples, among them the steps of its example, the program that only
a difference shows to be clean, and what its words answer. The certificate that is written must be answered by `check` with
the same report, and the other files must be as they were."""

from tests.built import ROOT, Case, checks_of, program_path, ran
from tests.sample import SAMPLE
from tests.reference import CERTIFICATE

# what the analysis says of samples/water, step by step
WATER = [
    [
        "SIZE statement 13 line 60",
        "CLASS statement 14 line 61",
        "SIZE statement 20 line 71",
        "ZERO statement 26 line 78",
        "TRUNCATION statement 30 line 82",
    ],
    [
        "SIZE statement 13 line 60",
        "SIZE statement 21 line 73",
        "ZERO statement 27 line 80",
        "TRUNCATION statement 31 line 84",
    ],
    ["SIZE statement 13 line 60", "ZERO statement 28 line 82", "TRUNCATION statement 32 line 86"],
    ["ZERO statement 30 line 85", "TRUNCATION statement 34 line 89"],
    ["TRUNCATION statement 35 line 91"],
    [],
    [],
    [],
]


# what its runs on samples/water/METERS write, record by record
BILLS = [
    "C00017      45        96.88",
    "C00018       0        12.50",
    "C00021     400       762.50",
    "TOTAL                871.88",
]


# what the tutorial says that its certificate claims of a program, by the node
COUNTS = {2: "d 1 2 1 0", 5: "d 1 2 1 -1"}


def counts():
    """The tutorial's program with two counts."""
    text = (ROOT / "docs/TUTORIAL.md").read_text("utf-8").split("## 6. A bound by another item")[1]
    return next(block for block in text.split("```\n")[1::2] if block.startswith("       IDENTIFICATION"))


def water(number):
    return (ROOT / f"samples/water/step{number}.cob").read_text("latin-1")


def report_of(alarms):
    """The status and the text of a report."""
    if not alarms:
        return 0, "clean\n"
    return 1, "".join(f"{line}\n" for line in [*alarms, f"alarms {len(alarms)}"])


def analysed(path, source):
    """The answers of `analyse` and of `check` on what it writes, and the files behind both."""
    status, out, left = ran(path, ["analyse", "S", "C"], {"S": source})
    checked, said, later = ran(path, ["check", "S", "C"], left)
    return (status, out), (checked, said), later == left and sorted(left) == ["C", "S"]


def told(path, name, source, is_wanted):
    """What is wrong with the report on a source."""
    found, checked, are_kept = analysed(path, source)
    if is_wanted(found) and found == checked and are_kept:
        return None
    return f"{name}: analyse {found}, check {checked}" + ("" if are_kept else ", other files are changed")


def samples():
    """The sources of samples/ with their reports."""
    yield "first", SAMPLE, []
    yield "payroll", (ROOT / "samples/payroll.cob").read_text("latin-1"), []
    yield "listing", (ROOT / "samples/listing.cob").read_text("latin-1"), []
    yield "counts", counts(), []
    for number, alarms in enumerate(WATER, 1):
        yield f"water {number}", water(number), alarms


def reports():
    for name, source, alarms in samples():
        yield f"analyse, {name}", source, lambda found, alarms=alarms: found == report_of(alarms)


def told_of_counts(path):
    """What is wrong with the claims on the tutorial's program with two counts."""
    _, _, left = ran(path, ["analyse", "S", "C"], {"S": counts()})
    nodes = left["C"].decode().split("node ")[1:]
    lacking = [line for node, line in COUNTS.items() if line not in nodes[node - 1].splitlines()]
    return f"counts: {lacking} aren't claimed" if lacking else None


def runs():
    """The tutorial's runs: a blank reading, no reading at all, and all readings in the program that is clean."""
    meters = (ROOT / "samples/water/METERS").read_text("latin-1")
    listed = [
        (1, meters, 1, "E18 CLASS statement 14 step 37\n", BILLS[:2]),
        (1, "", 1, "E18 ZERO statement 26 step 10\n", []),
        (6, meters, 0, "NO READING C00019\nMETER RUNS BACK C00020\nMETERS 00005 AVERAGE         174.38\n", BILLS),
        (8, meters, 0, "NO READING C00019\nMETER RUNS BACK C00020\nBILLS 00003 AVERAGE         290.63\n", BILLS),
    ]
    for number, given, status, out, bills in listed:
        files = {"S": water(number), "METERS": given}
        yield Case(f"run water {number}", ["run", "S"], files, status, out, {**files, "BILLS": "".join(bills)})


def words():
    """Words, and what can't be read or written."""
    files = {"S": SAMPLE, "OLD": "what stood here before"}
    listed = [
        (["analyse"], 4, "E1 usage analyse\n"),
        (["analyse", "S"], 4, "E1 usage analyse\n"),
        (["analyse", "S", "C", "D"], 4, "E1 usage analyse\n"),
        (["analyse", "--steps", "1", "S"], 4, "E1 usage analyse\n"),
        (["ANALYSE", "S", "C"], 4, "E1 usage ANALYSE\n"),
        (["analyse", "NOSUCH", "C"], 7, "E2 absent NOSUCH\n"),
        (["analyse", "NOSUCH", "OLD"], 7, "E2 absent NOSUCH\n"),
        (["analyse", ".", "OLD"], 5, "E3 read\n"),
        (["analyse", "S", "."], 6, "E4 write\n"),
        (["analyse", "S", "NOSUCH/C"], 6, "E4 write\n"),
    ]
    for said, status, out in listed:
        yield Case(f"words {said}", said, files, status, out)
    for name in ("C", "OLD", "-"):
        yield Case(f"analyse to {name}", ["analyse", "S", name], files, 0, "clean\n", {**files, name: CERTIFICATE})


def checks():
    path = program_path()
    yield from checks_of((*words(), *runs()))
    yield lambda: told_of_counts(path)
    for name, source, is_wanted in reports():
        yield lambda given=(path, name, source, is_wanted): told(*given)
