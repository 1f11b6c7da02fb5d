"""What docs/NIGHTLY.md shows is run: its jobs on a working copy with samples, and each of its changes of a source."""

import json
import os
import pathlib
import re
import shutil
import subprocess
import tempfile

from tests.built import ROOT, program_path
from tests.prepare_texts import laid
from tests.prepared import FILES
from tests.report import ORDERS, TOOL, script, told

TEXT = (ROOT / "docs/NIGHTLY.md").read_text("utf-8")


def blocks(language):
    return re.findall(rf"^```{language}\n(.*?)^```$", TEXT, re.M | re.S)


def block_with(language, words):
    """The one block that has these words."""
    (found,) = (block for block in blocks(language) if words in block)
    return found


class Ledger:
    """A working copy with sources, a folder of commands, and a mailbox."""

    def __init__(self, folder, names):
        self.folder = pathlib.Path(folder)
        self.copy, self.commands = self.folder / "ledger", self.folder / "commands"
        (self.copy / "src").mkdir(parents=True)
        self.commands.mkdir()
        for name in names:
            shutil.copy(ROOT / f"samples/{name}.cob", self.copy / "src")
        os.symlink(program_path(), self.commands / "cobsound")
        os.symlink(TOOL, self.commands / "cobsound-report")
        letter = f"{self.folder}/mail"
        script(self.commands, f'echo "$@" >{letter}\ncat >>{letter}\n').rename(self.commands / "mail")
        self.run("git init -q && git add src && git commit -qm Sources")

    def run(self, text):
        """The status and the output of a shell's lines that name the working copy of the document."""
        path = f"{self.commands}:{os.environ['PATH']}"
        whos = ("AUTHOR_NAME", "AUTHOR_EMAIL", "COMMITTER_NAME", "COMMITTER_EMAIL")
        names = {f"GIT_{who}": "shop@example.org" for who in whos}
        job = self.folder / "job"
        job.write_text(text.replace("/srv/ledger", str(self.copy)))
        env = {**os.environ, **names, "PATH": path}
        done = subprocess.run(["sh", job], cwd=self.copy, env=env, capture_output=True, text=True)
        return done.returncode, done.stdout

    def kept(self):
        return self.run("git ls-files certs")[1].split()


def of_the_shell():
    """The ten lines: the certificates are kept, alarms are told, and clean sources are checked alone."""
    job = blocks("sh")[0]
    with tempfile.TemporaryDirectory() as folder:
        ledger = Ledger(folder, ("payroll", "orders_mended"))
        found = [ledger.run(job), ledger.kept()]
        shutil.copy(ROOT / "samples/orders.cob", ledger.copy / "src")
        status, out = ledger.run(job)
    lines = [f"src/orders.cob: {kind} statement {at} line {line}" for line, kind, at, _ in ORDERS]
    kept = ["certs/orders_mended.cob.cert", "certs/payroll.cob.cert"]
    wanted = [(0, ""), kept, 1, [*lines, "src/orders.cob: alarms 6"]]
    found += [status, out.splitlines()]
    return told("ten lines of shell", (len(job.splitlines()), found), (10, wanted))


def of_the_tool():
    """The job with the tool: the certificates are kept, and a letter tells what isn't clean."""
    job = blocks("sh")[1]
    with tempfile.TemporaryDirectory() as folder:
        ledger = Ledger(folder, ("payroll",))
        found = [ledger.run(job), ledger.kept(), (ledger.folder / "mail").exists()]
        shutil.copy(ROOT / "samples/orders.cob", ledger.copy / "src")
        found += [ledger.run(job), (ledger.folder / "mail").read_text().splitlines()[0]]
    letter = "-s ledger: 2 sources: 1 clean, 1 with 6 alarms; 1 by kept certificates team@example.org"
    return told("the job with the tool", found, [(0, ""), ["certs/src/payroll.cob.cert"], False, (1, ""), letter])


def of_the_baseline():
    """The job with a baseline: what is known sends no letter, and a changed statement does. What is suppressed by the
    section that is shown isn't told."""
    with tempfile.TemporaryDirectory() as folder:
        ledger = Ledger(folder, ("orders",))
        (ledger.copy / "suppressions").touch()
        job, mail = block_with("sh", "--suppressions"), ledger.folder / "mail"
        found = [ledger.run(block_with("sh", "--write-baseline"))[0], ledger.run(job)[0], mail.exists()]
        source = ledger.copy / "src/orders.cob"
        source.write_text(source.read_text().replace("ADD 1 TO ORDER-COUNT", "ADD 2 TO ORDER-COUNT"))
        found += [ledger.run(job)[0], mail.read_text().splitlines()[0]]
        told_all = json.loads(ledger.run("cobsound-report --format json src")[1])
        section = re.sub("[0-9a-f]{16}", told_all["sources"][0]["findings"][-1]["fingerprint"], blocks("ini")[0])
        (ledger.copy / "suppressions").write_text(section)
        found += [ledger.run(job)[0], (ledger.copy / "report.txt").read_text().splitlines()[-1]]
    letter = "-s ledger: 1 source: 1 with 6 alarms; 1 new, 5 known, 1 gone team@example.org"
    last = "1 source: 1 with 6 alarms; 1 by kept certificates; 0 new, 5 known, 1 gone; 1 suppressed"
    return told("the job with a baseline", found, [1, 0, False, 1, letter, 0, last])


def of_copybooks():
    """The job with copybooks: its certificate is one of the prepared source that it keeps, an unchanged night has
    checks alone, and a changed copybook is seen."""
    job, check = block_with("sh", "--prepare"), re.search("`(cobsound check .*?)`", TEXT)[1]
    with tempfile.TemporaryDirectory() as folder:
        ledger = Ledger(folder, ())
        texts = {name.replace("books/", "copybooks/"): text for name, text in FILES.items()}
        laid(ledger.copy, {"src/pay.cob": texts.pop("pay.cob"), **texts})
        found = [ledger.run(job)[0], ledger.run(check), ledger.run(job)[0]]
        found.append((ledger.copy / "report.txt").read_text().splitlines()[-1])
        laid(ledger.copy, {"copybooks/add1.cpy": "           CONTINUE\n"})
        found += [ledger.run(job), ledger.run("git ls-files certs prepared")[1].split()]
    answer = "SIZE statement 8 line 32\nCLASS statement 8 line 32\nalarms 2\n"
    names = ["certs/src/pay.cob.cert", "prepared/src/pay.cob.txt", "prepared/src/pay.cob.txt.map.json"]
    last = "1 source: 1 with 2 alarms; 1 by kept certificates"
    return told("the job with copybooks", found, [1, (1, answer), 1, last, (0, ""), names])


# what GNU parallel does here: the command for each word behind three colons, with the word in place of braces
PARALLEL = """\
while [ "$1" != ::: ]; do command=$1; shift; done
shift
for word; do sh -c "$(printf %s "$command" | sed "s|{}|$word|g")"; done
"""


def with_two(job):
    """A job with two shards in place of eight."""
    return job.replace("/8", "/2").replace("1 2 3 4 5 6 7 8", "1 2").replace("1, 2, 3, 4, 5, 6, 7, 8", "1, 2")


def of_machines():
    """The jobs on more than one machine, each with two shards: put together they are what one call shows."""
    matrix = re.findall(r"^ +- run: (.*)$", with_two(block_with("yaml", "matrix")), re.M)
    parallel, slurm = (with_two(block_with("sh", word)) for word in ("parallel", "SBATCH"))
    shard = "${{ matrix.shard }}"
    jobs = {
        "matrix": [line.replace(shard, number) for number in "12" for line in matrix[:2]],
        "parallel": [parallel.replace(parallel.splitlines()[-1], "")],
        "slurm": [f"SLURM_ARRAY_TASK_ID={number}\n{slurm}" for number in "12"],
    }
    put = [matrix[2], f"{parallel.splitlines()[-1]}\ncat report.txt"]
    with tempfile.TemporaryDirectory() as folder:
        ledger = Ledger(folder, ("orders", "first", "indexed"))
        script(ledger.commands, PARALLEL).rename(ledger.commands / "parallel")
        ledger.run("cobsound-report --write-baseline baseline.json src/first.cob")
        ones = [ledger.run(f"cobsound-report --baseline baseline.json {form} src") for form in ("--format github", "")]
        for name, lines in jobs.items():
            begun = [ledger.run(line)[0] for line in lines]
            if any(begun) or [ledger.run(line)[1] for line in put] != [out for _, out in ones]:
                return f"{name}: {begun}, {[ledger.run(line) for line in put]} in place of {ones}"
            ledger.run("rm -rf shards certs")
    return told("machines", [status for status, _ in ones], [2, 2])


def of_make():
    """A source with alarms has no target, so that make asks for it again."""
    with tempfile.TemporaryDirectory() as folder:
        ledger = Ledger(folder, ("first", "orders"))
        (ledger.copy / "Makefile").write_text(blocks("make")[0])
        statuses = [ledger.run("make -k")[0] for _ in range(2)]
        made = sorted(path.name for path in (ledger.copy / "checked").glob("**/*.cob"))
        (ledger.copy / "src/orders.cob").unlink()
        status, out = ledger.run("make -k")
    return told("make", (statuses, made, status, "cobsound-report" in out), ([2, 2], ["first.cob"], 0, False))


def of_annotations():
    """The lines for a build server, with the status of the tool."""
    with tempfile.TemporaryDirectory() as folder:
        ledger = Ledger(folder, ("orders", "indexed"))
        text = (ROOT / "samples/first.cob").read_text().replace("ADD 1", "ADD -A")
        (ledger.copy / "src/place.cob").write_text(text)
        status, out = ledger.run(block_with("sh", "--format github"))
        is_written = (ledger.copy / "cobsound.sarif").exists()
    found = re.findall(r"^::(\w+) file=(\S+?),line=(\d+),col=(\d+),title=Cobsound \w+::(\w+): .", out, re.M)
    wanted = [("error", "src/indexed.cob", "8", "32", "E8")]
    wanted += [("warning", "src/orders.cob", str(line), str(column), kind) for line, kind, _, column in ORDERS]
    wanted += [("error", "src/place.cob", "7", "12", "E7")]
    return told("annotations", (status, found, is_written), (2, wanted, True))


def alarms_of(source):
    """The alarms of a source: each kind with the line on which the statement begins."""
    with tempfile.TemporaryDirectory() as folder:
        pathlib.Path(folder, "S").write_text(source)
        done = subprocess.run([program_path(), "analyse", "S", "C"], cwd=folder, capture_output=True, text=True)
    lines = source.splitlines()
    found = re.findall(r"^(\w+) statement \d+ line (\d+)$", done.stdout, re.M)
    return done.returncode, sorted((kind, lines[int(line) - 1].strip(" .")) for kind, line in found)


def of_a_change(heading, before, after):
    """A change takes away the alarm that its heading names, at one statement, and no other."""
    kind = heading.split(":")[0]
    source = (ROOT / "samples/orders.cob").read_text()
    if source.count(before) != 1:
        return f"{heading}: what stands before isn't once in the sample"
    (_, old), (_, new) = alarms_of(source), alarms_of(source.replace(before, after))
    gone = [alarm for alarm in old if alarm not in new]
    is_right = [alarm[0] for alarm in gone] == [kind] and sorted(new + gone) == old
    return None if is_right else f"{heading}: {new} in place of {old}"


def of_all_changes(changes):
    """All of them together make the mended sample of the other."""
    source = (ROOT / "samples/orders.cob").read_text()
    for _, before, after in changes:
        source = source.replace(before, after)
    mended = (ROOT / "samples/orders_mended.cob").read_text()
    return told("all changes", (source == mended, alarms_of(mended)), (True, (0, [])))


def of_the_pictures():
    for name in re.findall(r"!\[.*?\]\((.*?)\)", TEXT):
        picture = (ROOT / "docs" / name).read_bytes()
        if picture[:8] != b"\x89PNG\r\n\x1a\n" or len(picture) > 200_000:
            return f"the picture {name}"
    return None


def checks():
    yield from (of_the_shell, of_the_tool, of_the_baseline, of_machines, of_make, of_annotations, of_the_pictures)
    yield of_copybooks
    pattern = r"^### (.*?)\n.*?^```cobol\n(.*?)^```\n.*?^```cobol\n(.*?)^```$"
    changes = re.findall(pattern, TEXT, re.M | re.S)
    for change in changes:
        yield lambda change=change: of_a_change(*change)
    yield lambda: of_all_changes(changes)
