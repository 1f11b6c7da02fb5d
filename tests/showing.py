"""Prints a case of tests/cases in words: `tests/show FILE ROW`, or `tests/show NAME` with the name that it has where it
fails.

FILE is a file of tests/cases, with its folder and its ending or without, and ROW the number of a line in it, from 1.
NAME is as `tests/run` tells it, as in `tests/show checked.jsonl 12`, `tests/show analysis 3`, `tests/show moves,
decimals are cut`; or a case's rule, or words of it. Where several cases are meant, they are listed. In the source the
lines that an answer names have what it says of them; a certificate's cells have the names of their items.
"""

import decimal
import json
import re
import signal
import sys

from tests import packs, prepare, programs, refusals
from tests.built import CASES

# What is tried with the rows of a file, and the module that does it; the files of a folder stand below its name.
ANALYSED = ("`analyse` of a source, and `check` of what it writes", "analyses")
CERTIFIED = ("`check` of a source and a certificate", "reference")
READ = ("a certificate is read, and printed again as it stands", "calls")
REFUSED = ("`check`, `analyse` and `run` of a source", "reference")
FILES = {
    "analyses": ANALYSED,
    "analysed_by_rule": ANALYSED,
    "certificate": READ,
    "certificate_by_rule": READ,
    "certified_by_rule": CERTIFIED,
    "checked": CERTIFIED,
    "contents": ("what the bytes of an item hold", "calls"),
    "decimals": ("a call of dec_num", "calls"),
    "differences": ("what edges make of differences of cells, at random rows and matrices", "diffs"),
    "edges": ("what edges make of what is known of cells, at random rows", "edges"),
    "edges_by_rule": ("what edges make of what is known of cells", "edges"),
    "grammar": REFUSED,
    "lines": ("the characters of a source in fixed form", "calls"),
    "measures": ("a measure of bench", "calls"),
    "packs": ("the packs of a source", "packs"),
    "prepare": ("`cobsound-prepare` on a source, and a run of what comes", "prepare"),
    "profile": REFUSED,
    "programs": ("a run of a small program", "programs"),
    "refusals": ("what the report tool names in a refused source", "refusals"),
    "rules": REFUSED,
    "sharper": CERTIFIED,
    "straight": CERTIFIED,
    "thin": CERTIFIED,
    "tokens": ("the tokens of a line", "calls"),
}

KINDS = {"plain": "is rewritten", "border": "is rewritten, at a border", "left": "is left alone"}

WORKED = {"edges": "is worked out by tests/steps.py", "differences": "is worked out by tests/differences.py"}

# Keys that together are a source.
SOURCE = {"source", "identification", "environment", "select", "fd", "data", "procedure"}

# Keys with their titles: what is given, and what must come, in the order in which they are told.
GIVEN = {
    "call": "The call",
    "form": "The item",
    "picture": "The item's picture",
    "bytes": "The bytes",
    "given": "Given",
    "line": "The line, from column 8 on",
    "lines": "The lines that are given",
    "books": "Copybooks",
    "certificate": "The certificate",
    "files": "Files",
    "words": "Words",
    "command": "The command, where the source is S",
}
WANTED = {
    "answers": "The lines that are answered",
    "answer": "The answer",
    "cut": "Cut",
    "rounded": "Rounded",
    "value": "The value",
    "text": "The text",
    "tokens": "The tokens: kind, value, line, column",
    "places": "The places of its lines: line, column",
    "packs": "The packs, by the numbers of their cells",
    "statements": "How many statements",
    "same": "The prepared source is the source",
    "refused": "Refused",
    "status": "Status",
    "out": "Shown",
    "least": "The report names these at least",
    "most": "The report names no others than these",
    "alarms": "The alarms",
    "left": "The files after it, where they differ",
    "why": "Because",
}

# ---- finding


def files():
    return {str(path.relative_to(CASES).with_suffix("")): path for path in sorted(CASES.rglob("*.jsonl"))}


def cases():
    """All cases, each with the name of its file and its number."""
    for name, path in files().items():
        for number, line in enumerate(path.open(), 1):
            yield name, number, json.loads(line)


def rule_of(row):
    return row.get("rule") or row.get("phrase") or ""


def by_row(words):
    """The case that a file and a row name, with a command before them or a rule after them or not."""
    match = re.fullmatch(r"(?:(?:check|analyse|run|packs of) )?(\S+) (\d+)(?:, .*)?", words)
    if not match:
        return []
    name = "analyses" if match[1] == "analysis" else match[1].removeprefix("tests/cases/").removesuffix(".jsonl")
    found = [case for case in cases() if name in (case[0], case[0].split("/")[-1]) and case[1] == int(match[2])]
    return [case for case in found if name == case[0]] or found


def by_rule(words):
    """The cases of a rule, with names before it or not; else those in whose rules the words stand."""
    found = [case for case in cases() if rule_of(case[2]) and f", {words}".endswith(f", {rule_of(case[2])}")]
    found = [case for case in found if words == rule_of(case[2]) or case[0].split("/")[-1] in words] or found
    return found or [case for case in cases() if words in rule_of(case[2])]


# ---- sources and certificates


def text_of(row):
    """The source of a row, in each form that rows have."""
    if "phrase" in row:
        return refusals.marked(row)
    return prepare.source_of(row) if "kind" in row else programs.source_of(row)


def of_source(row):
    """The source's lines with their numbers, and what an answer says of them."""
    told = {}
    for answer in (row.get("refused") or "", *row.get("out", "").splitlines(), *(row.get("most") or ())):
        if place := re.search(r"\bline (\d+)", answer):
            told.setdefault(int(place[1]), {})[re.sub(r" line \d+.*", "", answer)] = None
    for number, line in enumerate(text_of(row).splitlines(), 1):
        yield f"{number:5} {line.rstrip()}" + (f"   <-- {', '.join(told[number])}" if number in told else "")


def decimals_in(picture):
    return sum(int(count or 1) for count in re.findall(r"9(?:\((\d+)\))?", picture.partition("V")[2]))


def cells_of(row, count):
    """The name and the decimals of each of so many cells; their numbers where the source's words don't tell so many."""
    words = packs.words_of(text_of(row)) if SOURCE & set(row) else []
    cells = [(item.names[0], decimals_in(item.picture)) for item in packs.items_of(words) if item.has_cell()]
    cells += [(f"counter {number}", 0) for number in range(1, words.count("TIMES") + 1)]
    return cells if len(cells) == count else [(f"cell {number}", 0) for number in range(1, count + 1)]


def number_in(units, decimals):
    return f"{decimal.Decimal(units).scaleb(-decimals):f}"


class Claims:
    """A certificate's lines in words."""

    def __init__(self, row, text):
        self.lines, self.packs = text.splitlines(), []
        count = re.search(r"^cells (\d{1,3})$", text, re.M)
        self.cells = cells_of(row, int(count[1]) if count else 0)

    def name(self, cell):
        return self.cells[int(cell) - 1][0]

    def place(self, pack, place):
        return "0" if place == "0" else self.name(self.packs[pack][int(place) - 1])

    def of_line(self, line):
        match line.split(" "):
            case ["cells" | "nodes" | "packs" as word, count]:
                return f"{count} {word}"
            case ["pack", *cells]:
                self.packs.append(cells)
                return f"pack {len(self.packs)} of {', '.join(map(self.name, cells))}"
            case ["node", node]:
                return f"at node {node}:"
            case ["none", node]:
                return f"no run comes to node {node}"
            case ["c", cell, low, high]:
                ends = [number_in(end, self.cells[int(cell) - 1][1]) for end in (low, high)]
                return f"    {self.name(cell)} is {' to '.join(ends[: 1 + (low != high)])}"
            case ["d", pack, row, column, most]:
                finest = max(self.cells[int(cell) - 1][1] for cell in self.packs[int(pack) - 1])
                left, right = (self.place(int(pack) - 1, place) for place in (row, column))
                return f"    {left} less {right} is at most {number_in(most, finest)}"
        return line

    def told(self):
        """Each line, as it stands where it isn't one of a certificate."""
        for line in self.lines:
            try:
                yield self.of_line(line)
            except (IndexError, ValueError, decimal.InvalidOperation):
                yield line


# ---- in words


def lines_of(key, row):
    """What a row has of a key, line by line."""
    value = row[key]
    if key == "certificate":
        return list(Claims(row, value).told())
    if key == "bytes":
        text = bytes.fromhex(value).decode("latin-1")
        return [*(repr(line) for line in text.splitlines(keepends=True)), f"hexadecimal {value}"]
    if isinstance(value, dict):
        return [f"{name}: {'none' if content is None else content}" for name, content in value.items()]
    if isinstance(value, list):
        return [" ".join(map(str, item)) if isinstance(item, list) else str(item) for item in value]
    return str(value).splitlines() if value not in (None, "") else []


def titled(title, lines):
    if len(lines) < 2:
        return [f"{title}: {lines[0] if lines else 'nothing'}"]
    return [f"{title}:", *(f"  {line}" for line in lines)]


def sorted_out(name, row):
    """The row in the words of GIVEN and WANTED, and the keys that are wanted."""
    wanted = set(WANTED)
    if name.startswith("certificate"):
        row = {**row, "certificate": row["text"]}
        del row["text"]
    elif name == "analysed_by_rule":
        wanted.add("certificate")
    elif name.startswith("contents"):
        wanted = wanted - {"value"} if row["call"] in ("put", "edit") else wanted
        wanted = wanted | {"bytes"} if row["call"] == "put" else wanted
    return row, wanted


def told(name, number, row):
    """A case in words."""
    what, module = next(FILES[key] for key in (name, name.split("/")[0], name.removesuffix("_by_rule")) if key in FILES)
    yield f"{name}.jsonl {number}: {what} (tests/{module}.py)"
    by_hand = "by_rule" in name or "/" in name or name == "refusals"
    source = WORKED.get(name, "was worked out by hand" if by_hand else "was worked out by an independent program")
    yield f"What must come {source}."
    yield from titled("Rule", [rule_of(row)]) if rule_of(row) else ()
    is_source = bool(SOURCE & set(row)) or "kind" in row
    if is_source:
        yield f"The source{' ' + KINDS[row['kind']] if 'kind' in row else ''}:"
        yield from of_source(row)
    row, wanted = sorted_out(name, row)
    keys = set(row) - SOURCE - {"rule", "phrase", "kind"} - ({"lines"} if "kind" in row else set())
    titles = {**{key: key for key in keys}, **WANTED, **GIVEN}
    order = [key for key in (*GIVEN, *WANTED, *sorted(keys - set(GIVEN) - set(WANTED))) if key in keys]
    for key in order:
        if key not in wanted:
            yield from titled(titles[key], lines_of(key, row))
    if name in WORKED:
        return
    yield "What must come:"
    for key in order:
        if key in wanted:
            yield from (f"  {line}" for line in titled(titles[key], lines_of(key, row)))


def main():
    words = " ".join(sys.argv[1:]).removesuffix(":")
    if words in ("", "-h", "--help"):
        print(__doc__.strip())
        return 0 if words else 4
    found = by_row(words) or by_rule(words)
    if not found:
        print(f"tests/show: no case is called {words}", file=sys.stderr)
        return 1
    if len(found) == 1:
        print("\n".join(told(*found[0])))
    else:
        print("\n".join(f"{name} {number}, {rule_of(row)}" for name, number, row in found))
    return 0


# ---- tried

SHOWN = """\
certified_by_rule.jsonl 3: `check` of a source and a certificate (tests/reference.py)
What must come was worked out by hand.
Rule: the high end leaks
The source:
    1        IDENTIFICATION DIVISION.
    2        PROGRAM-ID. T.
    3        DATA DIVISION.
    4        WORKING-STORAGE SECTION.
    5        77 N PIC 9(3) VALUE 998.
    6        77 M PIC 9(1) VALUE 0.
    7        PROCEDURE DIVISION.
    8        ADD 1 TO N.
    9        ADD 0 TO N.
   10        STOP RUN.
"""


def of_names():
    """A case is found by its row, by its rule and by the name that it has where it fails."""
    names = ("certified_by_rule 3", "the high end leaks", "certified_by_rule.jsonl 3, the high end leaks")
    found = {name: [case[:2] for case in by_row(name) or by_rule(name)] for name in names}
    wrong = {name: cases for name, cases in found.items() if cases != [("certified_by_rule", 3)]}
    return f"show: {wrong}" if wrong else None


def of_a_case():
    found = "\n".join(told(*by_row("certified_by_rule 3")[0]))
    return None if found.startswith(SHOWN) and "N is 998" in found else f"show: {found}"


def of_all():
    """Each case has its words, and what must come."""
    for case in cases():
        lines = list(told(*case))
        if lines[-1] == "What must come:":
            return f"show: nothing must come of {case[0]} {case[1]}"
    return None


def checks():
    return [of_names, of_a_case, of_all]


if __name__ == "__main__":
    signal.signal(signal.SIGPIPE, signal.SIG_DFL)
    sys.exit(main())
