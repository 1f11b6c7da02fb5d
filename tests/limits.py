"""Sources and certificates at each limit, and beyond it by one; and input files, which have none. `tests/hostile` tries
those sources and certificates that are large.

A source at a limit is run for a step and analysed; all commands refuse one beyond it likewise, and leave no
certificate."""

import dataclasses
import itertools
import pathlib
import subprocess
import tempfile

from tests.built import Case, checks_of, refusal
from tests.reference import checked
from tests.sample import SAMPLE

MOST_SOURCE = 1_048_576
MOST_NUMBER = 10**18 - 1
MOST_BOUND = 10**37

# the sample in three parts, around its only item; and the lines before its statements
BEFORE, ENTRY, BEHIND = SAMPLE.partition("       77 N PIC 9(3) VALUE 998.\n")
IDLE = BEHIND.replace("ADD 1 TO N", "CONTINUE")
FRONT = SAMPLE[: SAMPLE.index("       ADD")]


def is_taken(out):
    """No refusal of the source is shown."""
    return not out.startswith(("E5 ", "E6 ", "E7 ", "E8 ", "E9 ", "E10 "))


def bounded(name, source, refused=None, is_quick=True):
    """A source that is taken, or is refused with this line. One that isn't quickly analysed is only run."""
    files = {"S": source}
    commands = (["run", "S", "--steps", "1"], ["analyse", "S", "C"], ["check", "S", "C"])
    if refused:
        for words in commands:
            yield Case(f"{words[0]}, {name}", words, files, *refusal(refused))
    else:
        for words in commands[: 2 if is_quick else 1]:
            yield Case(f"{words[0]}, {name}", words, files, None, is_taken)


def lines_of(lines):
    return "".join(f"       {line}\n" for line in lines)


def limit(name, lines, refused=None, is_quick=True):
    """A program of these lines behind the sample's data."""
    return bounded(name, FRONT + lines_of(lines), refused, is_quick)


def of_length():
    """The longest source, and one longer by a byte: by blanks, by comments, and by blank lines."""
    room = MOST_SOURCE - len(SAMPLE)
    for kind, filling in (("blanks", " "), ("comments", "      * a comment\n"), ("blank lines", "\n")):
        longest = SAMPLE + (filling * room)[:room]
        yield from bounded(f"the longest source, by {kind}", longest)
        yield from bounded(f"a byte too many, of {kind}", longest + " ", "E5 source too long")


def items(count, picture):
    return BEFORE + lines_of(f"77 N-{number} PIC {picture}." for number in range(count)) + IDLE


def files(count):
    """The sample with so many files."""
    selects = lines_of(f"SELECT F-{number} ASSIGN TO G-{number}." for number in range(count))
    entries = lines_of(f"FD F-{number}.\n       01 R-{number} PIC X." for number in range(count))
    environment = lines_of(["ENVIRONMENT DIVISION.", "INPUT-OUTPUT SECTION.", "FILE-CONTROL."])
    data = lines_of(["DATA DIVISION."])
    return SAMPLE.replace(data, f"{environment}{selects}{data}       FILE SECTION.\n{entries}")


def of_data():
    yield from bounded("512 items", items(512, "X"))
    yield from bounded("513 items", items(513, "X"), "E10 items 513")
    yield from bounded("16 files", files(16))
    yield from bounded("17 files", files(17), "E10 files 17")
    yield from bounded("the most storage", items(1, "X(1048576)"))
    second = BEFORE + lines_of(["77 M PIC X(1048576).", "77 N PIC X."]) + IDLE
    yield from bounded("a byte too many", second, "E10 storage 1048577")
    yield from bounded("an item that is too long", items(1, "X(1048577)"), "E9 L3 line 5")
    yield from bounded("a rule comes before a limit", items(513, "9(19)"), "E9 L3 line 5")


def of_nesting():
    """Statements and parentheses in one another."""
    for word, begin, end in (("parentheses", "COMPUTE N = ", "."), ("a condition", "IF ", " = 1 CONTINUE.")):
        for count, refused in ((63, None), (64, "E10 nesting 65")):
            rows = ["(" * 8 for _ in range(count // 8)] + ["(" * (count % 8)]
            behind = [")" * 8 for _ in range(count // 8)] + [")" * (count % 8)]
            yield from limit(f"{count} {word}", [begin, *rows, "N", *behind, end], refused)
    for count, refused in ((63, None), (64, "E10 nesting 65"), (65, "E10 nesting 65")):
        yield from limit(f"{count} IFs", ["IF N = 1"] * count + ["CONTINUE."], refused)


def numbered(number):
    return f"P-{number:04}"


def of_cells():
    """Numeric items, and a counter for each PERFORM with TIMES."""
    times = "       PERFORM 1 TIMES CONTINUE END-PERFORM.\n"
    yield from bounded("512 cells", items(512, "9"))
    yield from bounded("512 cells and a counter", items(512, "9") + times, "E10 cells 513")
    yield from bounded("511 items and a counter", items(511, "9") + times)
    yield from limit("511 counters and an item", 511 * [times.strip()], is_quick=False)
    yield from limit("512 counters and an item", 512 * [times.strip()], "E10 cells 513")


def of_nodes():
    """Straight lines, a loop over paragraphs, and paragraphs that perform the next one twice."""
    for count, refused in ((4_095, None), (4_096, "E10 nodes 4097")):
        yield from limit(f"{count} statements and the end", count * ["CONTINUE."], refused)
    chain = [f"{numbered(i)}. PERFORM {numbered(i + 1)}. PERFORM {numbered(i + 1)}." for i in range(1, 40)]
    doubling = [f"PERFORM {numbered(1)}.", "STOP RUN.", *chain, f"{numbered(40)}. EXIT."]
    yield from limit("nodes without number", doubling, "E10 nodes 1000000000")
    for count, refused in ((681, None), (682, "E10 nodes 4097")):
        # a loop over paragraphs of three statements each: six nodes a paragraph, and five
        paragraphs = [f"{numbered(i)}. ADD 1 TO N. IF N > 9 MOVE 0 TO N END-IF." for i in range(1, count + 1)]
        loop = [f"PERFORM P-0001 THRU {numbered(count)} 100 TIMES.", "STOP RUN."]
        yield from limit(f"{count} paragraphs in a loop", [*loop, *paragraphs], refused)


# what is answered to a certificate with packs that claims nothing of them
PACKED = "clean"
NINE = items(9, "9")


def with_packs(packs, claims=()):
    """A certificate for nine cells and three nodes with these packs, and these claims of the first node."""
    listed = [f"pack {' '.join(map(str, pack))}" for pack in packs]
    lines = ["COBSOUND 1", "cells 9", "nodes 3", f"packs {len(packs)}", *listed]
    return "\n".join([*lines, "node 1", *claims, "node 2", "node 3", "end", ""])


def unbounded(claimed):
    """What is answered where a bound is claimed of two cells of which nothing is known where a run begins."""
    return f"E14 layer 2 edge 0 pack 1 row 1 column 2 reached none claimed {claimed}"


def of_packs():
    """Packs of a certificate, their cells, and the bounds in them."""
    pairs = list(itertools.combinations(range(1, 10), 2))
    pair = [(1, 2)]
    texts = {
        "32 packs": (with_packs(pairs[:32]), PACKED),
        "33 packs": (with_packs(pairs[:33]), "E12 line 4"),
        "a pack of 8 cells": (with_packs([range(1, 9)]), PACKED),
        "a pack of 9 cells": (with_packs([range(1, 10)]), "E12 line 5"),
        "a pack of 2 cells": (with_packs(pair), PACKED),
        "a pack of a cell": (with_packs([(1,)]), "E12 line 5"),
        "a pack with the last cell": (with_packs([(8, 9)]), PACKED),
        "a pack with a cell beyond": (with_packs([(8, 10)]), "E12 line 5"),
        "the last column": (with_packs(pair, ["d 1 1 2 0"]), unbounded(0)),
        "a column beyond": (with_packs(pair, ["d 1 1 3 0"]), "E12 line 7"),
        "the greatest bound": (with_packs(pair, [f"d 1 1 2 {MOST_BOUND}"]), unbounded(MOST_BOUND)),
        "the least bound": (with_packs(pair, [f"d 1 1 2 -{MOST_BOUND}"]), unbounded(-MOST_BOUND)),
        "a greater bound": (with_packs(pair, [f"d 1 1 2 {MOST_BOUND + 1}"]), "E12 line 7"),
        "a lesser bound": (with_packs(pair, [f"d 1 1 2 -{MOST_BOUND + 1}"]), "E12 line 7"),
    }
    for name, (certificate, line) in texts.items():
        yield checked(name, NINE, certificate, 0 if line == PACKED else 3, f"{line}\n")


def of_claims():
    """Numbers of a certificate without packs: the sample's, changed in a line."""
    head = "COBSOUND 1\ncells 1\nnodes 3\npacks 0\n"
    listed = {
        "the most cells": (head.replace("cells 1", f"cells {2**32 - 1}"), f"E13 cells found {2**32 - 1} wanted 1"),
        "cells beyond": (head.replace("cells 1", f"cells {2**32}"), "E12 line 2"),
        "the most nodes": (head.replace("nodes 3", f"nodes {2**32 - 1}"), "E12 line 8"),
        "nodes beyond": (head.replace("nodes 3", f"nodes {2**32}"), "E12 line 3"),
    }
    for name, (front, line) in listed.items():
        yield checked(name, SAMPLE, f"{front}node 1\nnode 2\nnode 3\nend\n", 3, f"{line}\n")
    ranges = {
        "the widest claim": (-MOST_NUMBER, MOST_NUMBER, None),
        "a lower end": (-MOST_NUMBER - 1, MOST_NUMBER, "E12 line 9"),
        "a higher end": (-MOST_NUMBER, MOST_NUMBER + 1, "E12 line 9"),
        "a claim of a number": (999, 999, None),
        "ends in the other order": (1_000, 999, "E12 line 9"),
    }
    for name, (low, high, line) in ranges.items():
        certificate = f"{head}node 1\nc 1 998 998\nnode 2\nnode 3\nc 1 {low} {high}\nend\n"
        wanted = (3, f"{line}\n") if line else (3, "E14 layer 1 edge 2 cell 1 class\n")
        yield checked(name, SAMPLE, certificate, *wanted)
        lasting = certificate.replace("node 2\n", "node 2\nc 1 999 999\n")
        wanted = (3, "E12 line 10\n") if line else (0, "clean\n")
        yield checked(f"{name} that holds", SAMPLE, lasting, *wanted)


RECORD = 1_024

# reads a file's records, counts them, and shows how many there are
COUNTING = lines_of(
    [
        "IDENTIFICATION DIVISION.",
        "PROGRAM-ID. L.",
        "ENVIRONMENT DIVISION.",
        "INPUT-OUTPUT SECTION.",
        "FILE-CONTROL.",
        "SELECT F ASSIGN TO INP.",
        "DATA DIVISION.",
        "FILE SECTION.",
        "FD F.",
        f"01 R PIC X({RECORD}).",
        "WORKING-STORAGE SECTION.",
        "77 E PIC X VALUE 'N'.",
        "77 N PIC 9(5) VALUE 0.",
        "PROCEDURE DIVISION.",
        "OPEN INPUT F.",
        "PERFORM UNTIL E = 'Y'",
        "READ F AT END MOVE 'Y' TO E",
        "NOT AT END ADD 1 TO N",
        "END-READ",
        "END-PERFORM.",
        "CLOSE F.",
        "DISPLAY N.",
        "STOP RUN.",
    ]
)


@dataclasses.dataclass
class LongInput:
    """A run that counts the records of an input file of so many bytes, all of them zero."""

    length: int
    status: int
    out: str

    def tried(self, path):
        with tempfile.TemporaryDirectory() as folder:
            pathlib.Path(folder, "S").write_text(COUNTING)
            with open(pathlib.Path(folder, "INP"), "wb") as file:
                file.truncate(self.length)
            done = subprocess.run([path, "run", "S"], cwd=folder, stdin=subprocess.DEVNULL, capture_output=True)
        found = done.returncode, done.stdout.decode("latin-1")
        if found == (self.status, self.out):
            return None
        return f"an input file of {self.length} bytes: {found} in place of {(self.status, self.out)}"


def of_inputs():
    """An input file of more than 64 MB is read to its end, and one that ends within a record is refused there."""
    records = 64 * 2**20 // RECORD + 1
    yield LongInput(records * RECORD, 0, f"{records}\n")
    yield LongInput(records * RECORD + 1, 12, f"E15 INP length {records * RECORD + 1}\n")


def checks():
    kinds = (of_length, of_data, of_nesting, of_cells, of_nodes, of_packs, of_claims, of_inputs)
    return checks_of(itertools.chain.from_iterable(kind() for kind in kinds))
