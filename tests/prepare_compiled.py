"""Sources of cases/prepare under another compiler: the source as it is and its prepared form show and write the same.

A source that is prepared as it stands has nothing to compare. What is shown may differ where its row says how.
"""

import pathlib
import shutil
import subprocess
import tempfile

from tests import programs
from tests.prepare import encoded, prepared, rows, source_of

COMPILER = "cobc"


def changed(shown, difference):
    """What is shown, without a difference that the rewriting says."""
    if difference == "line ends":
        return shown.replace(b"\n", b"")
    return shown.translate(bytes.maketrans(b",", b".")) if difference == "points" else shown


def ran(source, row, words):
    """What a compiled source shows, and the files behind its run; None where it isn't compiled, with the reason."""
    with tempfile.TemporaryDirectory() as folder:
        place = pathlib.Path(folder)
        (place / "s.cob").write_bytes(source)
        compiled = subprocess.run([COMPILER, "-x", *words, "-o", "s", "s.cob"], cwd=folder, capture_output=True)
        if compiled.returncode:
            return None, compiled.stderr.decode("latin-1")
        run = place / "run"
        run.mkdir()
        for name, content in programs.files_of(row, "given").items():
            (run / name).write_bytes(content)
        done = subprocess.run([place / "s"], cwd=run, stdin=subprocess.DEVNULL, capture_output=True, timeout=60)
        return done.stdout, {path.name: path.read_bytes() for path in run.iterdir()}


def of_row(name, row):
    source = source_of(row)
    text = encoded(prepared(source).text)
    if text == source.encode():
        return None
    both = [ran(content, row, row.get("cobc", ())) for content in (source.encode(), text)]
    shown = [out if out is None else changed(out, row.get("cobc_differs")) for out, _ in both]
    if None not in shown and shown[0] == shown[1] and both[0][1] == both[1][1]:
        return None
    return f"prepare under {COMPILER}, {name}, {row['rule']}: {both}"


def checks():
    if not shutil.which(COMPILER):
        print(f"{COMPILER} isn't installed: prepared sources aren't compared with the originals under it")
        return
    for name, row in rows():
        if "alarms" not in row and row.get("cobc", ()) is not None:
            yield lambda name=name, row=row: of_row(name, row)
