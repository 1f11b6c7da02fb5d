"""Small programs by subject: cases/programs has a file each, with a program and what it must show on every line.

A row tells its rule in words. `select`, `fd`, `data` and `procedure` are the lines of FILE-CONTROL, of the FILE
SECTION, of WORKING-STORAGE and of the PROCEDURE DIVISION, without the seven columns before their text; or `source` is
the whole text. `given` are the files before the run and `left` those that differ behind it, with the file's text or, as
`hex:..`, its bytes; null where there is none. `refused` is the line of a source that is refused, `out` what a run
shows, `status` how it ends (0 where it isn't said), and `words` what stands behind the source in the command, or
`command` the whole of it, where the source is S.
"""

import itertools
import json

from tests.built import CASES, ROOT, Case, checks_of, refusal


def lines_of(row, key, *heading):
    """The lines of a part of a program below its heading; nothing where the row has no such part."""
    return [*heading, *row[key]] if key in row else []


def source_of(row):
    if "source" in row:
        return row["source"]
    lines = [
        "IDENTIFICATION DIVISION.",
        "PROGRAM-ID. T.",
        *lines_of(row, "select", "ENVIRONMENT DIVISION.", "INPUT-OUTPUT SECTION.", "FILE-CONTROL."),
        "DATA DIVISION.",
        *lines_of(row, "fd", "FILE SECTION."),
        *lines_of(row, "data", "WORKING-STORAGE SECTION."),
        *lines_of(row, "procedure", "PROCEDURE DIVISION."),
    ]
    return "".join(f"       {line}\n" for line in lines)


def bytes_of(text):
    return bytes.fromhex(text[4:]) if text.startswith("hex:") else text.encode("latin-1")


def files_of(row, key):
    return {name: text if text is None else bytes_of(text) for name, text in row.get(key, {}).items()}


def case_of(name, row):
    status, out = refusal(row["refused"]) if "refused" in row else (row.get("status", 0), row.get("out", ""))
    files = {"S": source_of(row), **files_of(row, "given")}
    left = {name: content for name, content in {**files, **files_of(row, "left")}.items() if content is not None}
    words = row.get("command", ["run", "S", *row.get("words", [])])
    return Case(f"{name}, {row['rule']}", words, files, status, out, left)


def rows():
    """All rows, each with the name of its subject."""
    for path in sorted((CASES / "programs").glob("*.jsonl")):
        for line in path.open():
            yield path.stem, json.loads(line)


def listed():
    for subject, row in rows():
        yield case_of(subject, row)


def samples():
    """The samples on their files."""
    payroll, listing = ((ROOT / f"samples/{name}.cob").read_bytes() for name in ("payroll", "listing"))
    pay = (ROOT / "samples/PAYIN").read_bytes()
    paid = b"00042  45.5       965.00" b"TOTAL GROSS       965.00"
    shown = "RUN DATE 20240131\nDETAILS 00001 BAD 00000\n"
    given = {"S": payroll, "PAYIN": pay}
    yield Case("payroll", ["run", "S"], given, 0, shown, {**given, "PAYOUT": paid})
    given = {"S": payroll, "in": pay, "out": b"old"}
    named = ["run", "S", "payin=in", "PAYOUT=out"]
    yield Case("payroll with paths", named, given, 0, shown, {**given, "out": paid})
    given = {"S": payroll, "PAYIN": pay}
    yield Case("no such folder", ["run", "S", "PAYOUT=no/out"], given, 6, "E4 write\n")
    yield Case("a path twice", ["run", "S", "PAYOUT=PAYIN"], given, 4, "E1 usage PAYOUT=PAYIN\n")
    lines = [f"{text:80}" for text in ("FIRST", "", "LAST")]
    given = {"S": listing, "INP": "".join(lines)}
    yield Case("listing", ["run", "S"], given, 0, "".join(f"{line}\n" for line in lines))
    yield Case("a folder", ["run", "S", "INP=."], {"S": listing}, 5, "E3 read\n")


def checks():
    return checks_of(itertools.chain(listed(), samples()))
