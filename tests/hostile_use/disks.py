"""Disks that fill up, files that may not grow, files and folders without rights, few descriptors, and readers that go
away. The cases of `tests/outside.py`, which the gate has too, are tried with them."""

import contextlib
import os
import resource
import shutil
import signal
import subprocess

from tests import outside
from tests.built import ROOT
from tests.hostile_use.answers import faults_of
from tests.hostile_use.damaged import CERT, OLD, SOURCE
from tests.hostile_use.trials import Answer, Folder, Tally
from tests.sample import SAMPLE

PAGE = 4_096
NOBODY = 65_534
PAYROLL = (ROOT / "samples/payroll.cob").read_bytes()
PAY = (ROOT / "samples/PAYIN").read_bytes()

# 20,000 bytes are written, and 200,000 shown
WRITER = b"""\
       IDENTIFICATION DIVISION.
       PROGRAM-ID. W.
       ENVIRONMENT DIVISION.
       INPUT-OUTPUT SECTION.
       FILE-CONTROL.
           SELECT F ASSIGN TO OUT.
       DATA DIVISION.
       FILE SECTION.
       FD F.
       01 R PIC X(100).
       PROCEDURE DIVISION.
           OPEN OUTPUT F.
           PERFORM 200 TIMES
               WRITE R FROM 'A RECORD'
           END-PERFORM.
           CLOSE F.
           PERFORM 5000 TIMES
               DISPLAY 'A LINE OF FORTY LETTERS, LESS THE LF....'
           END-PERFORM.
"""
# 4,000 statements are open: a report of 120,000 bytes
ALARMING = SAMPLE.split("       ADD")[0].replace("9(3) VALUE 998", "9(5)").encode() + 4_000 * b"       ADD 1 TO N.\n"


class Whole:
    """What a command answers, shows and writes where nothing fails."""

    def __init__(self, program, words, files, target):
        with Folder(program) as folder:
            folder.put(files)
            self.answer = folder.asked(*words)
            self.written = folder.known.get(target)

    def faults(self, answer, left, before):
        """Its own answer with all that it writes; or status 6, a front of what it shows and writes, or what stood there
        before."""
        if (answer.status, answer.out) == (self.answer.status, self.answer.out):
            if left != self.written:
                yield "doesn't leave what it should"
        elif answer.status != 6:
            yield "neither its own answer nor status 6"
        elif not any(self.answer.out.startswith(out) for out in (answer.out, answer.out.removesuffix(b"E4 write\n"))):
            yield "shows something else"
        elif left != before and (left is None or not self.written.startswith(left)):
            yield "leaves something else than a front"


@contextlib.contextmanager
def small_disk(pages):
    """A disk of so many pages, where the system grants one."""
    with Folder("") as folder:
        subprocess.run(["mount", "-t", "tmpfs", "-o", f"size={pages * PAGE}", "tmpfs", folder.path], check=True)
        try:
            yield folder.path
        finally:
            os.chdir("/")
            subprocess.run(["umount", folder.path], check=True)


def has_disks():
    try:
        with small_disk(1):
            return True
    except (OSError, subprocess.CalledProcessError):
        return False


def left_at(path):
    return path.read_bytes() if path.exists() else None


def full_disks(options):
    """CERT, a program's file, and standard output on disks of few pages, from none that is free to enough of them."""
    tally = Tally("full disks", options.keep)
    if not has_disks():
        tally.notes.append("left out: the system grants no disk")
        return tally
    cases = [
        (["analyse", SOURCE, CERT], {SOURCE: PAYROLL}, CERT, lambda path: ["analyse", SOURCE, f"{path}/{CERT}"]),
        (["run", SOURCE], {SOURCE: WRITER}, "OUT", lambda path: ["run", SOURCE, f"OUT={path}/OUT"]),
    ]
    for words, files, target, on_disk in cases:
        whole = Whole(options.program, words, files, target)
        for pages in range(1, len(whole.written) // PAGE + 4):
            for before in (None, OLD):
                written_on_disk(options, tally, whole, on_disk, files, target, pages, before)
    for words, files in ((["run", SOURCE], {SOURCE: WRITER}), (["analyse", SOURCE, CERT], {SOURCE: ALARMING})):
        whole = Whole(options.program, words, files, "OUT" if words[0] == "run" else CERT)
        for pages in range(1, len(whole.answer.out) // PAGE + 4, 3):
            shown_on_disk(options, tally, whole, words, files, pages)
    return tally


def written_on_disk(options, tally, whole, on_disk, files, target, pages, before):
    """Writes a file on a disk of so many pages, one of which another file has."""
    with small_disk(pages) as path, Folder(options.program) as folder:
        (path / "other").write_bytes(b"o")
        if before is not None and pages > 1:
            (path / target).write_bytes(before)
        before = left_at(path / target)
        folder.put(files)
        answer = folder.asked(*on_disk(path))
        left = left_at(path / target)
        others = (path / "other").read_bytes() != b"o" or answer.changed
        faults = [*whole.faults(answer, left, before), *(["changes other files"] if others else [])]
        tally.add(answer, faults, files, f"{answer.words[0]}, its file on a full disk")
        tally.step()


def shown_on_disk(options, tally, whole, words, files, pages):
    """Shows on a file of a disk of so many pages. What is written elsewhere stands there whole."""
    with small_disk(pages) as path, Folder(options.program) as folder:
        folder.put(files)
        with (path / "shown").open("wb") as shown:
            answer = folder.asked_with(*words, stdout=shown)
        answer.out = (path / "shown").read_bytes()
        left = folder.known.get("OUT" if words[0] == "run" else CERT)
        faults = list(whole.faults(answer, left, None))
        if left != whole.written:
            faults.append("doesn't leave the whole file")
        tally.add(answer, faults, files, f"{words[0]}, standard output on a full disk")
        tally.step()


def small_files(options):
    """No file may have more than so many bytes. The signal that the system sends is ignored, as under `nohup` and most
    schedulers' shells it isn't; without that it ends the program, and a front is left all the same."""
    tally = Tally("files that may not grow", options.keep)
    certificate = Whole(options.program, ["analyse", SOURCE, CERT], {SOURCE: PAYROLL}, CERT)
    output = Whole(options.program, ["run", SOURCE], {SOURCE: PAYROLL, "PAYIN": PAY}, "PAYOUT")
    length = len(certificate.written)
    for most in (*range(0, 130), *range(130, length, 211), length - 1, length, length + 1):
        for whole, files, target in (
            (certificate, {SOURCE: PAYROLL, CERT: OLD}, CERT),
            (output, {SOURCE: PAYROLL, "PAYIN": PAY}, "PAYOUT"),
        ):
            for is_ignored in (True, False):
                small_file(options, tally, whole, files, target, most, is_ignored)
    return tally


def small_file(options, tally, whole, files, target, most, is_ignored):
    def limit():
        signal.signal(signal.SIGXFSZ, signal.SIG_IGN if is_ignored else signal.SIG_DFL)
        resource.setrlimit(resource.RLIMIT_FSIZE, (most, most))

    with Folder(options.program) as folder:
        folder.put(files)
        answer = folder.asked_with(*whole.answer.words, preexec_fn=limit, restore_signals=False)
        left = folder.known.get(target)
        if not is_ignored and answer.status == -signal.SIGXFSZ:
            is_front = left is not None and whole.written.startswith(left)
            faults = [] if is_front else ["leaves something else than a front"]
        else:
            faults = list(whole.faults(answer, left, files.get(target)))
        faults += [f"changes {name}" for name in answer.changed if name != target]
        tally.add(answer, faults, files, f"{answer.words[0]}, the signal {'ignored' if is_ignored else 'not ignored'}")
        tally.step()


# what is without which rights, the words, and the answer; the folder D can't be written, E can't be entered
RIGHTS = [
    ("S", 0o000, ["check", "S", "C"], 5, b"E3 read\n"),
    ("S", 0o000, ["analyse", "S", "NEW"], 5, b"E3 read\n"),
    ("S", 0o000, ["run", "S"], 5, b"E3 read\n"),
    ("S", 0o200, ["run", "S"], 5, b"E3 read\n"),
    ("C", 0o000, ["check", "S", "C"], 5, b"E3 read\n"),
    ("C", 0o000, ["analyse", "S", "C"], 6, b"E4 write\n"),
    ("C", 0o444, ["analyse", "S", "C"], 6, b"E4 write\n"),
    ("C", 0o222, ["analyse", "S", "C"], 0, b"clean\n"),
    ("C", 0o666, ["analyse", "S", "D/NEW"], 6, b"E4 write\n"),
    ("C", 0o666, ["analyse", "S", "D/C"], 0, b"clean\n"),
    ("C", 0o666, ["analyse", "S", "E/C"], 6, b"E4 write\n"),
    ("C", 0o666, ["analyse", "E/S", "C"], 5, b"E3 read\n"),
    ("C", 0o666, ["check", "S", "E/C"], 5, b"E3 read\n"),
    ("PAYIN", 0o000, ["run", "P"], 5, b"E3 read\n"),
    ("PAYOUT", 0o444, ["run", "P"], 6, b"E4 write\n"),
    ("PAYOUT", 0o222, ["run", "P"], 0, outside.SHOWN.encode()),
    ("PAYIN", 0o444, ["run", "P", "PAYOUT=D/NEW"], 6, b"E4 write\n"),
    ("PAYIN", 0o444, ["run", "P", "PAYIN=E/PAYIN"], 5, b"E3 read\n"),
]


def rights(options):
    """Files and folders without rights, as a user who isn't the system's."""
    tally = Tally("rights", options.keep)
    for row in RIGHTS:
        with Folder(options.program) as tools, Folder(options.program) as folder:
            program = shutil.copy(options.program, tools.path)
            for path in (tools.path, folder.path):
                path.chmod(0o777)
            folder.program = program
            without_rights(tally, folder, *row)
    return tally


def without_rights(tally, folder, name, mode, words, status, out):
    files = {"S": SAMPLE.encode(), "C": OLD if words[0] == "analyse" else outside.CERTIFICATE.encode()}
    files |= {"P": PAYROLL, "PAYIN": PAY, "PAYOUT": OLD}
    folder.put(files)
    for inner, inner_mode in (("D", 0o555), ("E", 0o000)):
        (folder.path / inner).mkdir()
        for file in ("S", "C", "PAYIN"):
            (folder.path / inner / file).write_bytes(files[file])
            (folder.path / inner / file).chmod(0o666)
        (folder.path / inner).chmod(inner_mode)
    for file in files:
        (folder.path / file).chmod(mode if file == name else 0o666)
    folder.known = folder.found()
    user = {"user": NOBODY, "group": NOBODY, "extra_groups": []} if os.getuid() == 0 else {}
    answer = folder.asked_with(*words, **user)
    faults = [] if (answer.status, answer.out) == (status, out) else [f"in place of {status}, {out!r}"]
    written = {0: {"C"} if words[-1] == "C" else {"PAYOUT"} if words[0] == "run" else set()}.get(status, set())
    faults += [f"changes {file}" for file in answer.changed if file not in written]
    tally.add(answer, faults, files, f"{name} {mode:03o}, {' '.join(words)}")
    tally.step()
    for inner in ("D", "E"):
        (folder.path / inner).chmod(0o777)
        shutil.rmtree(folder.path / inner)
    folder.known = folder.found()


def descriptors(options):
    """A descriptor beside the three of each program is enough, and two for a run with an input and an output file, which
    stay open. Where there are only three, the system can't load the C library, and the program doesn't start."""
    tally = Tally("descriptors", options.keep)
    listed = [
        (["analyse", SOURCE, CERT], 4, b"clean\n"),
        (["check", SOURCE, CERT], 4, b"clean\n"),
        (["run", SOURCE], 5, outside.SHOWN.encode()),
    ]
    files = {SOURCE: PAYROLL, CERT: (ROOT / "samples/payroll.cert").read_bytes(), "PAYIN": PAY}
    for words, count, out in listed:
        with Folder(options.program) as folder:
            folder.put(files)
            answer = folder.asked(*words, shell=["/bin/sh", "-c", f'ulimit -n {count}; exec "$0" "$@"'])
            faults = [] if (answer.status, answer.out) == (0, out) else [f"in place of 0, {out!r}"]
            tally.add(answer, faults, files, f"{words[0]}, {count} descriptors")
            tally.step()
    return tally


def readers(options):
    """A reader that goes away behind the first line: what is written elsewhere is whole."""
    tally = Tally("readers that go away", options.keep)
    for words, files, target in (
        (["run", SOURCE], {SOURCE: WRITER}, "OUT"),
        (["analyse", SOURCE, CERT], {SOURCE: ALARMING}, CERT),
    ):
        whole = Whole(options.program, words, files, target)
        for _ in range(20):
            with Folder(options.program) as folder:
                folder.put(files)
                status, _ = outside.with_sink([options.program, *words], folder.path, "one line")
                changed = folder.changes()
                answer = Answer(words, status, b"", b"", 0.0, changed)
                faults = [] if status == 6 and list(changed) == [target] else ["in place of status 6"]
                if folder.known.get(target) != whole.written:
                    faults.append("doesn't leave the whole file")
                tally.add(answer, faults, files, f"{words[0]}, head -1")
                tally.step()
    return tally


def same_files(options):
    """One file by two paths, which aren't known to be one: the answer is a specified one, and other files stay."""
    tally = Tally("one file by two paths", options.keep)
    link, files = "LINK", {SOURCE: PAYROLL, "PAYIN": PAY}
    for words, target in (
        (["run", SOURCE, "PAYOUT=./PAYIN"], "PAYIN"),
        (["run", SOURCE, f"PAYOUT={link}"], "PAYIN"),
        (["run", SOURCE, f"PAYOUT={SOURCE}"], SOURCE),
        (["analyse", SOURCE, f"./{SOURCE}"], SOURCE),
    ):
        with Folder(options.program) as folder:
            folder.put(files)
            os.link(folder.path / "PAYIN", folder.path / link)
            folder.known = folder.found()
            answer = folder.asked(*words)
            faults = list(faults_of(answer))
            faults += [f"changes {name}" for name in answer.changed if name not in (target, link)]
            tally.add(answer, faults, files, " ".join(words))
            left = folder.known[target]
            tally.notes.append(f"{' '.join(words)}: {target} then holds {len(left)} bytes, {left[:24]!r}")
            tally.step()
    return tally


def of_the_gate(options):
    """The cases of `tests/outside.py`."""
    tally = Tally("files and standard outputs that fail", options.keep)
    for check in outside.checks():
        fault = check()
        if fault:
            tally.fault(fault, {})
        tally.answers["a case", "as it must be" if not fault else "otherwise", ""] += 1
        tally.step()
    return tally


def disks(options):
    os.environ["COBSOUND_PROGRAM"] = str(options.program)
    for part in (of_the_gate, full_disks, small_files, rights, descriptors, readers, same_files):
        yield part(options)
