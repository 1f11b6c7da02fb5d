"""Cases around the samples of `check`, worked out from the rules by hand."""

import itertools

from tests.built import ROOT, Case, checks_of
from tests.reference import CERTIFICATE, checked

SAMPLE = (ROOT / "samples/first.cob").read_text("latin-1")
LETTERS = "ABCDEFGHIJKLMNOPQRSTUVWXYZ"


def changed_certificates():
    yield checked("sample", SAMPLE, CERTIFICATE, 0, "clean\n")
    two = SAMPLE.replace("ADD 1", "ADD 2")
    yield checked("ADD 2", two, CERTIFICATE, 1, "SIZE statement 1 line 7\nalarms 1\n")
    four = SAMPLE.replace("ADD 1 TO", "MOVE 1234 TO")
    yield checked("MOVE 1234", four, CERTIFICATE, 1, "TRUNCATION statement 1 line 7\nalarms 1\n")
    low = CERTIFICATE.replace("node 2\nc 1 999 999", "node 2\nc 1 998 998")
    gap = "E14 layer 1 edge 1 cell 1 high reached 999 claimed 998\n"
    yield checked("998 in node 2", SAMPLE, low, 3, gap)
    other = SAMPLE.replace("VALUE 998", "VALUE 997")
    gap = "E14 layer 1 edge 0 cell 1 low reached 997 claimed 998\n"
    yield checked("VALUE 997", other, CERTIFICATE, 3, gap)
    for length in range(len(CERTIFICATE)):
        front = CERTIFICATE[:length]
        line = front.count("\n") + 1
        yield checked(f"cut after {length}", SAMPLE, front, 3, f"E12 line {line}\n")
        changed = front + "x" + CERTIFICATE[length + 1 :]
        yield checked(f"x at {length}", SAMPLE, changed, 3, f"E12 line {line}\n")


def written_otherwise():
    """Spacing, lines and names are free."""
    alarm = "SIZE statement 1 line {}\nalarms 1\n"
    two = SAMPLE.replace("ADD 1", "ADD 2")
    clean = {
        "lower case": SAMPLE.lower(),
        "a line for two statements": SAMPLE.replace(" N.\n       STOP", " N. STOP"),
        "a statement on three lines": SAMPLE.replace("ADD 1 TO N.", "ADD\n         1 TO\n       N ."),
        "carriage returns": SAMPLE.replace("\n", "\r\n"),
        "no last line end": SAMPLE.rstrip("\n"),
        "blank lines": SAMPLE.replace("\n", "\n\n"),
        "sequence numbers": SAMPLE.replace("       ADD", "000700 ADD"),
        "columns from 73": SAMPLE.replace("TO N.", "TO N.".ljust(59) + "NOTHING"),
        "a longer name": SAMPLE.replace("77 N", "77 TOTAL-1").replace("TO N", "TO TOTAL-1"),
        "a continued name": SAMPLE.replace("77 N", "77 TOTAL").replace("TO N", "TO TO\n      -    TAL"),
        "a program's name": SAMPLE.replace("T.", "PAYROLL-2.", 1),
        "words that are dropped": SAMPLE.replace("PIC 9(3) VALUE", "PICTURE IS 9(3), VALUE IS"),
        "a signed VALUE": SAMPLE.replace("998", "+998"),
        "a count with a leading zero": SAMPLE.replace("9(3)", "9(03)"),
        "another level": SAMPLE.replace("77", "01"),
        "no point between statements": SAMPLE.replace("TO N.", "TO N"),
    }
    for name, source in clean.items():
        yield checked(name, source, CERTIFICATE, 0, "clean\n")
    comment = two.replace("       ADD", "      * nothing\n      /\n       ADD")
    yield checked("comment lines", comment, CERTIFICATE, 1, alarm.format(9))
    joined = two.replace(" VALUE 998.\n       PROCEDURE DIVISION.\n       ADD", " VALUE 998. PROCEDURE DIVISION. ADD")
    yield checked("one line for three", joined, CERTIFICATE, 1, alarm.format(5))


def refused():
    """Sources that aren't of the profile."""
    long = "ADD 1234567890123456789"
    entry = "       77 N PIC 9(3) VALUE 998.\n"
    bad = SAMPLE.replace("ADD 1", "ADD -A")
    lines = {
        "a reserved word as item": (SAMPLE.replace("77 N", "77 SIZE"), "E8 line 5"),
        "a reserved word as program": (SAMPLE.replace("T.", "PROGRAM.", 1), "E8 line 2"),
        "an undeclared name": (SAMPLE.replace("TO N.", "TO\n       M."), "E9 Q1 line 7"),
        "a name declared twice": (SAMPLE.replace(entry, "       77 n PIC 9(1) VALUE 0.\n" + entry), "E9 Q1 line 8"),
        "a VALUE with a point": (SAMPLE.replace("998", "99.8"), "E9 L5 line 5"),
        "a VALUE too large": (SAMPLE.replace("VALUE 998", "VALUE\n       1000"), "E9 L5 line 5"),
        "no point at the end": (SAMPLE.replace("RUN.", "RUN"), "E8 line 8"),
        "an empty source": ("", "E8 line 1"),
        "comments alone": ("\n      * nothing\n", "E8 line 1"),
        "a tab": ("\t" + SAMPLE[1:], "E6 line 1 column 1"),
        "an indicator": (SAMPLE.replace("       ADD", "      XADD"), "E6 line 7 column 7"),
        "a byte": (SAMPLE.replace("ADD 1", "ADD\x7f1"), "E6 line 7 column 11"),
        "19 digits": (SAMPLE.replace("ADD 1", long), "E7 line 7 column 12"),
        "a tab behind 19 digits": (SAMPLE.replace("ADD 1 TO N.\n", long + " TO N.\n\t\n"), "E6 line 8 column 1"),
        "a tab behind a bad token": (bad.replace("       STOP", "\t      STOP"), "E6 line 8 column 1"),
        "a bad token behind a bad VALUE": (bad.replace("998", "1000"), "E7 line 7 column 12"),
        "a source that is too long": (" " * 1_048_577, "E5 source too long"),
    }
    for name, (source, line) in lines.items():
        yield checked(name, source, CERTIFICATE, 2, line + "\n")
        yield Case(f"run, {name}", ["run", "S"], {"S": source}, 2, line + "\n")
        yield Case(f"analyse, {name}", ["analyse", "S", "C"], {"S": source}, 2, line + "\n")


def of_another_shape():
    """Programs with other cells or nodes than the certificate is for, and one whose nodes go elsewhere."""
    entry = "       77 N PIC 9(3) VALUE 998.\n"
    items = "".join(f"       77 {letter}-1 PIC 9(1) VALUE 1.\n" for letter in LETTERS)
    idle = SAMPLE.replace("ADD 1 TO N", "CONTINUE")
    lines = {
        "27 items": (SAMPLE.replace("       77 N", items + "       77 N"), "E13 cells found 1 wanted 27"),
        "no item": (idle.replace(entry, ""), "E13 cells found 1 wanted 0"),
        "a statement behind STOP RUN": (SAMPLE + "\n       STOP RUN.\n", "E13 nodes found 3 wanted 4"),
        "no STOP RUN": (SAMPLE.replace("       STOP RUN.\n", "\n      * nothing\n"), "E13 nodes found 3 wanted 2"),
        "another statement": (idle, "E14 layer 1 edge 1 cell 1 low reached 998 claimed 999"),
    }
    for name, (source, line) in lines.items():
        yield checked(name, source, CERTIFICATE, 3, line + "\n")


PAYROLL = (ROOT / "samples/payroll.cob").read_text("latin-1")
PAYROLL_CERTIFICATE = (ROOT / "samples/payroll.cert").read_text("latin-1")

# the statements of the payroll that ask for a number, by their numbers and lines
ASKING = {25: 88, 28: 92, 29: 93, 30: 96, 31: 98, 34: 102, 35: 103, 36: 104, 38: 106, 42: 113, 45: 120, 48: 125}


def of_payroll():
    """The payroll with its certificate, and with one that claims nothing: then each statement that asks for a number
    is open."""
    yield checked("payroll", PAYROLL, PAYROLL_CERTIFICATE, 0, "clean\n")
    nodes = "".join(f"node {number}\n" for number in range(1, 165))
    bare = f"COBSOUND 1\ncells 15\nnodes 164\npacks 0\n{nodes}end\n"
    alarms = "".join(f"CLASS statement {number} line {line}\n" for number, line in ASKING.items())
    yield checked("payroll, nothing claimed", PAYROLL, bare, 1, f"{alarms}alarms {len(ASKING)}\n")


def words():
    """Words of `check`, where only the sample and its certificate are there."""
    files = {"S": SAMPLE, "C": CERTIFICATE}
    listed = [
        ([], 4, "E1 usage\n"),
        ([""], 4, "E1 usage\n"),
        (["chek", "A", "B"], 4, "E1 usage chek\n"),
        (["RUN", "S"], 4, "E1 usage RUN\n"),
        (["check", "S"], 4, "E1 usage check\n"),
        (["check", "S", "C", "D"], 4, "E1 usage check\n"),
        (["check", "--", "C"], 4, "E1 usage check\n"),
        (["check", "S", "-x"], 4, "E1 usage check\n"),
        (["check", "S", "C", "--steps=7"], 4, "E1 usage check\n"),
        (["check", "S", "-"], 7, "E2 absent -\n"),
        (["check", "S", "--", "-x"], 7, "E2 absent -x\n"),
        (["check", "--", "S", "C"], 0, "clean\n"),
        (["check", "S", "C", "--"], 0, "clean\n"),
        (["check", "NOSUCH", "C"], 7, "E2 absent NOSUCH\n"),
        (["check", ".", "C"], 5, "E3 read\n"),
        (["check", "S", "C"], 0, "clean\n"),
    ]
    for words, status, out in listed:
        yield Case(f"words {words}", words, files, status, out)


def checks():
    kinds = (changed_certificates, written_otherwise, refused, of_another_shape, of_payroll, words)
    return checks_of(itertools.chain.from_iterable(kind() for kind in kinds))
