"""The tool `tools/cobsound-prepare`: forms and encodings of sources, copybooks, the map of places, the command.

What each prepared source must show, and where its lines come from, was worked out by hand.
"""

import json
import pathlib
import subprocess
import tempfile

from tests import programs
from tests.built import ROOT, Case, program_path
from tests.prepare import encoded, prepared


TOOL = ROOT / "tools/cobsound-prepare"

# Sources in other forms than the program reads, each with what a run of it shows.
FIXED = """\
       IDENTIFICATION DIVISION.
       PROGRAM-ID. T.
       PROCEDURE DIVISION.
"""
MARK = "'"
LONG = "It's " * 25
FORMS = {
    "free form": (
        "identification division.\nprogram-id. t.\n*> a comment\ndata division.\nworking-storage section.\n"
        "01 n pic 9(3) value 5. *> five\nprocedure division.\n  display 'N ' n\n  stop run.\n",
        "N 005\n",
    ),
    "free form, lines that go beyond column 72": (
        "identification division.\nprogram-id. t.\nprocedure division.\n"
        + " " * 50
        + f"display 'A' '{'x' * 100}' 'It''s' 'B'.\nstop run.\n",
        f"A{'x' * 100}It'sB\n",
    ),
    "a directive": (
        f"      >>SOURCE FORMAT IS FIXED\n{FIXED}           DISPLAY 'A'.\n      >>SOURCE FORMAT FREE\n"
        "display 'B'.\n>>SOURCE FORMAT FIXED\n000001     STOP RUN.\n",
        "A\nB\n",
    ),
    "tabs": (
        "\tIDENTIFICATION DIVISION.\n\tPROGRAM-ID. T.\n\tPROCEDURE DIVISION.\n\t\tDISPLAY 'A'.\n\tSTOP RUN.\n",
        "A\n",
    ),
    "comments behind a statement": (
        f"{FIXED}           DISPLAY 'A *> B' *> it's shown\n           .\n           STOP RUN.\n",
        "A *> B\n",
    ),
    "continuations": (
        f"{FIXED}           DISPLAY 'A literal that goes on{' ' * 24}beyo\n"
        "      -    'nd'. DISP\n      * between\n      -    LAY 'B' END-DISPLAY.\n           STOP RUN.\n",
        f"A literal that goes on{' ' * 24}beyo{' ' * 2}nd\nB\n",
    ),
    "sequence numbers and what stands behind column 72": (
        f"{FIXED}000100     DISPLAY X'41'.{' ' * 47}PAY00010\n000200     STOP RUN.\n",
        "A\n",
    ),
    "a literal that goes over lines, with doubled marks": (
        f"identification division.\nprogram-id. t.\nprocedure division.\ndisplay '{LONG.replace(MARK, MARK * 2)}'.\n",
        f"{LONG}\n",
    ),
}


def of_form(name, source, shown, program):
    text = encoded(prepared(source).text)
    return Case(f"prepare, {name}", ["run", "S"], {"S": text}, 0, shown).tried(program)


def of_an_encoding(name, program):
    """A source in EBCDIC, by lines and in records of 80 characters; its hexadecimal literals are EBCDIC too."""
    lines = [*FIXED.splitlines(), "           DISPLAY 'It''s' X'C1'.", "           STOP RUN."]
    by_lines = "".join(f"{line}\x85" for line in lines).encode(name)
    in_records = "".join(f"{line:80}" for line in lines).encode(name)
    for data in (by_lines, in_records):
        text = encoded(prepared(data, encoding=name).text)
        wrong = Case(f"prepare, {name}", ["run", "S"], {"S": text}, 0, "It'sA\n").tried(program)
        if wrong:
            return wrong
    guessed, given = prepared(by_lines).text, prepared(by_lines, encoding=name).text
    return None if guessed == given else f"prepare: {name} isn't guessed"


def of_utf8():
    """A comment in UTF-8 keeps the columns; a literal with such a character stays one that the program refuses."""
    found = prepared(f"{FIXED}      * Größe ≥ 1\n           DISPLAY '≥'.\n           STOP RUN.\n")
    lines = encoded(found.text).splitlines()
    wanted = ["      * Größe ¿ 1".encode("latin-1"), "           DISPLAY '¿'.".encode("latin-1")]
    return None if lines[3:5] == wanted else f"prepare, UTF-8: {lines[3:5]}"


# Three copybooks deep: PAY copies RATES, which copies LIMITS. Each COPY replaces; a file says which of its lines is
# where in the prepared source.
COPIES = {
    "pay.cob": """\
       IDENTIFICATION DIVISION.
       PROGRAM-ID. T.
       DATA DIVISION.
       WORKING-STORAGE SECTION.
       COPY PAY REPLACING ==:TAG:== BY ==IN== LEADING ==OLD== BY ==NEW==
           X BY 7.
       REPLACE ==SHOW== BY ==DISPLAY==.
       PROCEDURE DIVISION.
           SHOW IN-HOURS IN-LEAST IN-MOST NEW-RATE. REPLACE OFF.
           STOP RUN.
""",
    "books/Pay.cpy": """\
      * a record
       01 :TAG:-RECORD.
          05 :TAG:-HOURS PIC 9(3) VALUE X.
       COPY 'rates.cpy' IN LIB REPLACING ==(2)== BY ==(4)==.
""",
    "books/lib/rates.cpy": """\
          05 OLD-RATE PIC 9(2) VALUE 12.
          COPY LIMITS OF "lib"
             REPLACING ==LOW== BY ==:TAG:-LEAST==
                == HIGH == BY ==:TAG:-MOST==.
""",
    "books/lib/limits.cbl": """\
          05 LOW PIC 9(2) VALUE 1.
          05
             HIGH PIC 9(2) VALUE 80.
""",
}
COPIED = """\
       IDENTIFICATION DIVISION.
       PROGRAM-ID. T.
       DATA DIVISION.
       WORKING-STORAGE SECTION.
      *COPY PAY REPLACING ==:TAG:== BY ==IN== LEADING ==OLD== BY ==NEW==
      *    X BY 7.
      * a record
       01 IN-RECORD.
          05 IN-HOURS    PIC 9(3) VALUE 7.
      *COPY 'rates.cpy' IN LIB REPLACING ==(2)== BY ==(4)==.
          05 NEW-RATE PIC 9(4) VALUE 12.
      *   COPY LIMITS OF "lib"
      *      REPLACING ==LOW== BY ==:TAG:-LEAST==
      *         == HIGH == BY ==:TAG:-MOST==.
          05 IN-LEAST PIC 9(4) VALUE 1.
          05
             IN-MOST PIC 9(4) VALUE 80.
      *REPLACE ==SHOW== BY ==DISPLAY==.
       PROCEDURE DIVISION.
           DISPLAY IN-HOURS IN-LEAST IN-MOST NEW-RATE.
           STOP RUN.
"""
PLACES = {  # of the prepared source: line and column, and the file with its line and column there
    (4, 8): ("pay.cob", 4, 8),
    (7, 1): ("books/Pay.cpy", 1, 1),
    (8, 8): ("books/Pay.cpy", 2, 8),
    (9, 14): ("books/Pay.cpy", 3, 14),
    (11, 23): ("books/lib/rates.cpy", 1, 23),
    (15, 14): ("books/lib/limits.cbl", 1, 14),
    (17, 14): ("books/lib/limits.cbl", 3, 14),
    (20, 12): ("pay.cob", 9, 12),
    (21, 12): ("pay.cob", 10, 12),
}


def laid(folder, files):
    for name, text in files.items():
        path = pathlib.Path(folder, name)
        path.parent.mkdir(parents=True, exist_ok=True)
        path.write_text(text)


def called(folder, *words):
    done = subprocess.run([TOOL, *words], cwd=folder, capture_output=True, text=True)
    return done.returncode, done.stdout, done.stderr


def of_copies(program):
    """The text, the map as a file, and the run."""
    with tempfile.TemporaryDirectory() as folder:
        laid(folder, COPIES)
        status, out, told = called(folder, "pay.cob", "-I", "books", "-o", "out", "--quiet")
        text = pathlib.Path(folder, "out").read_text()
        places = json.loads(pathlib.Path(folder, "out.map.json").read_text())
    wanted = {place: (file, line, column) for place, (file, line, column) in PLACES.items()}
    found = {place: mapped(places, *place) for place in PLACES}
    chain = [(origin["file"], origin.get("copied_by"), origin.get("line")) for origin in places["origins"]]
    files = list(COPIES)
    asked = [(files[0], None, None), (files[1], 0, 5), (files[2], 1, 4), (files[3], 2, 2)]
    wrong = [
        f"prepare, copybooks: {one!r} in place of {other!r}"
        for one, other in (((status, out, told), (0, "", "")), (text, COPIED), (found, wanted), (chain, asked))
        if one != other
    ]
    shown = Case("prepare, copybooks", ["run", "S"], {"S": text}, 0, "007000100800012\n").tried(program)
    return wrong[0] if wrong else shown


def mapped(places, line, column):
    """A place by the map's file, read as docs/PREPARE.md says."""
    origin, number = places["lines"][line - 1]
    for start, there, at, same in places["columns"].get(str(line), ()):
        if start <= column:
            number, mapped_column = there, at + max(min(column - start, same - 1), 0)
    if str(line) not in places["columns"]:
        mapped_column = column
    return places["origins"][origin]["file"], number, mapped_column


# Lines with directives, each with what becomes of it, and what is told of it by name; none of the others.
KEPT = {
    "      >>IF A = 1": ("      >>IF A = 1", ">>IF A = 1"),
    "        >>EVALUATE TRUE": ("        >>EVALUATE TRUE", ">>EVALUATE TRUE"),
    "      >>DEFINE A AS 1": ("      >>DEFINE A AS 1", ">>DEFINE A AS 1"),
    "      $SET ANS85": ("      $SET ANS85", "$SET ANS85"),
    "      $if A": ("      $if A", "$if A"),
    "\t>>IF B": ("\t>>IF B", ">>IF B"),
    "      ++INCLUDE BOOK": ("      ++INCLUDE BOOK", "++INCLUDE BOOK"),
    "      >>SOURCE FORMAT VARIABLE": ("      >>SOURCE FORMAT VARIABLE", ">>SOURCE FORMAT VARIABLE"),
    "      >>SOURCE FORMAT IS FIXED": ("      *>SOURCE FORMAT IS FIXED", None),
    '      $SET SOURCEFORMAT"FIXED"': ('      *SET SOURCEFORMAT"FIXED"', None),
    "      >>LISTING OFF": ("      *>LISTING OFF", None),
    "      >>D DISPLAY 'A'": ("      *>D DISPLAY 'A'", None),
}
DEBUGGED = "       ENVIRONMENT DIVISION. CONFIGURATION SECTION.\n       SOURCE-COMPUTER. PC WITH DEBUGGING MODE.\n"


def of_directives(program):
    """Those that say something stay, are told, and are refused; so is `>>D` where it is code."""
    for line, (wanted, name) in KEPT.items():
        found = prepared(f"{FIXED}{line}\n           STOP RUN.\n")
        told = [note.text for note in found.notes]
        if found.text.splitlines()[3] != wanted or told != ([f"the directive {name} isn't taken"] if name else []):
            return f"prepare, {line.strip()}: {found.text.splitlines()[3]!r}, {told}"
        out = "" if name is None else "E"
        wrong = Case(f"prepare, {line}", ["run", "S"], {"S": found.text}, 0, lambda text, out=out: text[:1] == out)
        if wrong.tried(program):
            return wrong.tried(program)
    source = FIXED.replace("       PROCEDURE", f"{DEBUGGED}       PROCEDURE") + "      >>D    DISPLAY 'A'.\n"
    found = prepared(source)
    is_right = found.text.splitlines()[-1] == "      >>D    DISPLAY 'A'." and len(found.notes) == 1
    return None if is_right else f"prepare, >>D with DEBUGGING MODE: {found.text}"


def of_free_directives():
    """Free form: the line stays in column 7, where the program refuses it."""
    source = "identification division.\nprogram-id. t.\nprocedure division.\n  >>if a = 1\n>>D display 'A'\nstop run.\n"
    found = prepared(source)
    lines = found.text.splitlines()[3:5]
    told = [(note.place.line, note.place.column, note.text) for note in found.notes]
    place = found.map.place(4, 7)
    found = (lines, told, place.line, place.column)
    wanted = (["      >>if a = 1", "      *>>D display 'A'"], [(4, 3, "the directive >>if a = 1 isn't taken")], 4, 3)
    return None if found == wanted else f"prepare, directives in free form: {found}"


REFUSED = {  # files, and the error of the first of them
    "a copybook that isn't there": (
        {"s.cob": "       COPY A.\n", "A.cpy": "\n       COPY B.\n"},
        "A.cpy:2:8: error: copybook B isn't found in . (A.cpy, copied by s.cob line 1)\n",
    ),
    "copybooks in a circle": (
        {"s.cob": "       COPY A.\n", "A.cpy": "       COPY B.\n", "B.cpy": "           COPY A.\n"},
        "B.cpy:1:12: error: copybook A copies itself (B.cpy, copied by A.cpy line 1, copied by s.cob line 1)\n",
    ),
    "COPY without an end": ({"s.cob": "       COPY A\n"}, "s.cob:1:8: error: COPY without the point that ends it\n"),
    "REPLACE without an end": (
        {"s.cob": "       REPLACE ==A== BY ==B==\n"},
        "s.cob:1:8: error: REPLACE without the point that ends it\n",
    ),
    "no BY": (
        {"s.cob": "       COPY A REPLACING X TO Y.\n", "A": ""},
        "s.cob:1:27: error: what is replaced stands before BY\n",
    ),
}


def of_refused(name):
    files, wanted = REFUSED[name]
    with tempfile.TemporaryDirectory() as folder:
        laid(folder, files)
        found = called(folder, "s.cob")
    return None if found == (2, "", wanted) else f"prepare, {name}: {found}"


def of_an_answer():
    """What the program says of a prepared source, with places of the files from which it comes."""
    answer = "SIZE statement 1 line 17\nE7 line 17 column 14\nCLASS statement 2 line 99\nalarms 2\n"
    with tempfile.TemporaryDirectory() as folder:
        laid(folder, {**COPIES, "answer": answer})
        called(folder, "pay.cob", "-I", "books", "-o", "out", "--quiet")
        found = called(folder, "--places", "out.map.json", "answer")
        wrong = called(folder, "--places", "answer", "answer")[0]
    place = "books/lib/limits.cbl:3"
    wanted = f"{place}: SIZE statement 1 line 17\n{place}:14: E7 line 17 column 14\n"
    wanted += "CLASS statement 2 line 99\nalarms 2\n"
    return None if (found, wrong) == ((0, wanted, ""), 3) else f"prepare, an answer: {found}, {wrong}"


def of_the_command():
    """Words, places that can't be written, outputs that are sources, and what is told."""
    with tempfile.TemporaryDirectory() as folder:
        source = f"{FIXED}           DISPLAY X'00' END-DISPLAY.\n           EXEC SQL COMMIT END-EXEC.\n"
        laid(folder, {"s.cob": source, "t.cob": "       COPY A.\n", "A": "\n"})
        statuses = [called(folder, *words)[0] for words in ((), ("s.cob", "t.cob"), ("none",), (".",))]
        statuses += [called(folder, "s.cob", "-o", out)[0] for out in ("s.cob", "none/out", "./s.cob")]
        statuses.append(called(folder, "t.cob", "-o", "A")[0])
        told = called(folder, "s.cob")
        left = sorted(path.name for path in pathlib.Path(folder).iterdir())
    note = "s.cob:4:20: note: X'00' isn't taken: it has characters that can't be printed"
    other = "s.cob:5:12: note: EXEC isn't in the profile\n"
    found = (statuses, told[0], told[1].splitlines()[3:4], left)
    found += (note in told[2], other in told[2], "display-end: 1; " in told[2])
    wanted = ([3] * 8, 0, ["           DISPLAY X'00'."], ["A", "s.cob", "t.cob"], True, True, True)
    return None if found == wanted else f"prepare, the command: {found}"


def of_taken_sources():
    """Nothing changes in a source that the program takes: all small programs but the one whose paragraph is COPY."""
    for name, row in programs.rows():
        source = programs.source_of(row).encode("latin-1")
        if "refused" in row or b"COPY" in source:
            continue
        found = encoded(prepared(source).text)
        if prepared(source).notes:
            return f"prepare, {name}, {row['rule']}: of a source that is taken something isn't"
        if found.rstrip(b"\n") != source.replace(b"\r\n", b"\n").rstrip(b"\n"):
            return f"prepare, {name}, {row['rule']}: a source that is taken is changed"
    return None


def checks():
    program = program_path()
    for name, (source, shown) in FORMS.items():
        yield lambda name=name, source=source, shown=shown: of_form(name, source, shown, program)
    for name in ("cp037", "cp1140", "cp273"):
        yield lambda name=name: of_an_encoding(name, program)
    yield from (of_free_directives, lambda: of_directives(program))
    yield from (of_utf8, lambda: of_copies(program), of_an_answer, of_the_command, of_taken_sources)
    for name in REFUSED:
        yield lambda name=name: of_refused(name)
