"""Calls of the tool `tools/cobsound-report`: what it may not replace, how it ends when it is stopped, has no time or
can't write, and what standard output gets."""

import json
import os
import pathlib
import pty
import re
import shlex
import shutil
import signal
import subprocess
import tempfile
import time
from xml.etree import ElementTree

from tests.built import ROOT, program_path
from tests.report import ORDERS, TOOL, alarm_lines, reported, script, told

# never answers, and says so in its folder
SLEEPING = 'echo $$ >"$(dirname "$0")/begun"\nexec sleep 600\n'


def files_in(folder):
    """The files below a folder with their bytes; links by what they lead to."""
    paths = (path for path in pathlib.Path(folder).rglob("*") if not path.is_dir())
    return {str(path.relative_to(folder)): content_of(path) for path in paths}


def content_of(path):
    return str(path.readlink()) if path.is_symlink() else path.read_bytes()


def copied(folder, *names):
    for name in names:
        pathlib.Path(folder, name).parent.mkdir(parents=True, exist_ok=True)
        shutil.copy(ROOT / "samples/first.cob", pathlib.Path(folder, name))


# what would replace a source, a certificate or another output
CLASHES = [
    ["--sarif", "a.cob", "a.cob"],
    ["--sarif", "./d/../a.cob", "a.cob"],
    ["--sarif", "LINK", "a.cob"],
    ["--sarif", "HARD", "a.cob"],
    ["--sarif", "certs/a.cob.cert", "--certs", "certs", "a.cob"],
    ["--sarif", "certs/a.cob.made", "--certs", "certs", "a.cob"],
    ["--sarif", "certs", "--certs", "certs", "a.cob"],
    ["--sarif", "certs/a.cob.cert/report", "--certs", "certs", "a.cob"],
    ["--html", "certs/a.cob.cert", "--certs", "certs", "a.cob"],
    ["--html", "h", "--sarif", "h/index.html", "a.cob"],
    ["--html", "h", "--sarif", "h/sources/a.cob.html", "a.cob"],
    ["--html", "h", "h/index.html"],
    ["--certs", ".", "a.cob", "a.cob.cert"],
    ["--certs", "TO-HERE", "a.cob", "a.cob.cert"],
]


def of_a_clash(words):
    with tempfile.TemporaryDirectory() as folder:
        place = pathlib.Path(folder)
        copied(folder, "a.cob", "a.cob.cert", "h/index.html")
        (place / "d").mkdir()
        (place / "LINK").symlink_to("a.cob")
        (place / "TO-HERE").symlink_to(".")
        os.link(place / "a.cob", place / "HARD")
        before = files_in(folder)
        status, out, err = reported(words, folder)
        after = files_in(folder)
    found = (status, out, err.count("\n"), after == before)
    return told(f"a clash, {words}", found, (3, "", 1, True))


def of_names_that_clash():
    """A folder with the name of what is made for a source beside it."""
    with tempfile.TemporaryDirectory() as folder:
        names = ["a.cob", "a.cob.html/b.cob", "a.cob.cert/b.cob", "a.cob.made/b.cob", "a.cob.html~/b.cob"]
        copied(folder, *names)
        status, out, _ = reported(["--certs", "certs", "--html", "pages", *names], folder)
        kept, pages = (files_in(pathlib.Path(folder, name)) for name in ("certs", "pages/sources"))
    return told("names that clash", (status, out, len(kept), len(pages)), (0, "5 sources: 5 clean\n", 5, 5))


def of_a_link():
    """A link in place of an output stays one, and what it leads to gets the report."""
    with tempfile.TemporaryDirectory() as folder:
        copied(folder, "a.cob")
        pathlib.Path(folder, "LINK").symlink_to("real.sarif")
        status, _, _ = reported(["--sarif", "LINK", "a.cob"], folder)
        left = files_in(folder)
        is_whole = json.loads(left["real.sarif"])["version"] == "2.1.0"
    return told("a link", (status, left["LINK"], is_whole, len(left)), (0, "real.sarif", True, 3))


def of_a_full_disk():
    """Where an output can't be written whole, the old one stays, and nothing else is left."""
    with tempfile.TemporaryDirectory() as folder:
        copied(folder, "a.cob")
        pathlib.Path(folder, "r.sarif").write_text("old")
        before = files_in(folder)
        shell = f'ulimit -f 4; trap "" XFSZ; exec "{TOOL}" --sarif r.sarif a.cob'
        done = subprocess.run(["bash", "-c", shell], cwd=folder, capture_output=True, text=True)
        after = files_in(folder)
    found = (done.returncode, done.stderr, after == before)
    return told("a full disk", found, (3, "cobsound-report: r.sarif: File too large\n", True))


def of_a_sink(redirection, wanted):
    """Standard output that can't be written."""
    words = ["sh", "-c", f'exec "$0" "$@" {redirection}', TOOL, "samples/orders.cob"]
    done = subprocess.run(words, cwd=ROOT, capture_output=True, text=True)
    return told(f"standard output {redirection}", (done.returncode, done.stderr), (3, f"cobsound-report: {wanted}\n"))


# words with the line that tells what is wrong with them
WRONG = [
    (["--jobs", "0", "a.cob"], "argument --jobs: 0 is no number from 1 to 1000"),
    (["--jobs", "x", "a.cob"], "argument --jobs: x is no number from 1 to 1000"),
    (["--timeout", "0", "a.cob"], "argument --timeout: 0 is no number of seconds above 0"),
    (["--timeout", "nan", "a.cob"], "argument --timeout: nan is no number of seconds above 0"),
    (["--html", "", "a.cob"], "argument --html: an empty path"),
    (["--html", "a.cob/pages", "a.cob"], "a.cob/pages"),
    (["--sarif", "/proc/nosuch/r", "a.cob"], "/proc/nosuch"),
    (["--certs", "certs", "nosuch/"], "not analysed"),
    ([], "the following arguments are required: SOURCE"),
]


def of_wrong_words(words, wanted):
    """No report, and one line behind the usage, if there is one, that says what is wrong."""
    with tempfile.TemporaryDirectory() as folder:
        copied(folder, "a.cob")
        status, out, err = reported(words, folder)
    last = (err or out).rstrip("\n").split("\n")[-1 if err else 0]
    is_told = wanted in last and "Error" not in last
    return None if status == 3 and is_told else f"wrong words {words}: {status}, {last!r}"


def of_no_time():
    """A source that takes too long has an outcome of its own, and the others have theirs."""
    with tempfile.TemporaryDirectory() as folder:
        copied(folder, "a.cob", "b.cob")
        answered = f'[ "$2" = a.cob ] && exec sleep 600\nexec {shlex.quote(str(program_path()))} "$@"\n'
        program = script(folder, answered)
        begun = time.monotonic()
        status, out, _ = reported(["--timeout", "2", "a.cob", "b.cob"], folder, program)
        is_soon = time.monotonic() - begun < 60
    wanted = "a.cob: error: not analysed: no answer within 2 seconds\n2 sources: 1 clean, 1 out of time\n"
    return told("no time", (status, out, is_soon), (3, wanted, True))


def of_a_signal(number):
    """A tool that is stopped ends what it works on, leaves nothing, and says so."""
    with tempfile.TemporaryDirectory() as folder:
        copied(folder, "src/a.cob", "src/b.cob")
        program = script(folder, SLEEPING)
        env = {**os.environ, "COBSOUND_PROGRAM": str(program), "TMPDIR": folder}
        # where the caller of the tests ignores a signal, the tool would too
        heeding = ["env", "--default-signal=INT,TERM,HUP"]
        words = [*heeding, TOOL, "--certs", "certs", "--jobs", "2", "--sarif", "r.sarif", "src"]
        tool = subprocess.Popen(words, cwd=folder, env=env, stdout=subprocess.PIPE, stderr=subprocess.PIPE, text=True)
        begun = pathlib.Path(folder, "begun")
        until(lambda: begun.exists() and begun.read_text().endswith("\n"))
        tool.send_signal(number)
        _, err = tool.communicate(timeout=60)
        child = begun.read_text().strip()
        left = sorted(files_in(folder))
        folders = sorted(path.name for path in pathlib.Path(folder, "certs").rglob("*"))
    found = (tool.returncode, err, left, folders, is_running(child))
    name = signal.Signals(number).name
    untouched = ["begun", "program", "src/a.cob", "src/b.cob"]
    wanted = (3, f"cobsound-report: stopped by {name}\n", untouched, ["src"], False)
    return told(f"stopped by {name}", found, wanted)


def until(is_so):
    deadline = time.monotonic() + 60
    while not is_so() and time.monotonic() < deadline:
        time.sleep(0.02)


def is_running(process):
    return pathlib.Path("/proc", process).exists()


def of_standard_input():
    """A source on standard input, of which nothing is kept."""
    with tempfile.TemporaryDirectory() as folder:
        text = (ROOT / "samples/orders.cob").read_text()
        status, out, _ = reported(["--certs", "certs", "-"], folder, input=text)
        left = files_in(folder)
    lines = [line.replace("samples/orders.cob", "<stdin>") for line in alarm_lines("samples/orders.cob", ORDERS)]
    return told("standard input", (status, out.splitlines()[:-1], left), (1, lines, {}))


def of_exit_zero():
    """Alarms and refusals are let pass, and no failure is."""
    names = ("orders", "indexed", "nosuch")
    statuses = [reported(["--exit-zero", f"samples/{name}.cob"])[0] for name in names]
    return told("--exit-zero", statuses, [0, 0, 3])


def of_annotations():
    """A name that holds a place of its own misleads nobody, nor does a mark in it."""
    with tempfile.TemporaryDirectory() as folder:
        name = "a:1: error: x,y%.cob"
        shutil.copy(ROOT / "samples/orders.cob", pathlib.Path(folder, name))
        status, out, _ = reported(["--format", "github", name], folder)
    found = re.findall(r"^::(\w+) file=([^,]*),line=(\d+),col=(\d+),title=Cobsound (\w+)::(\w+): .", out, re.M)
    file = "a%3A1%3A error%3A x%2Cy%25.cob"
    wanted = [("warning", file, str(line), str(column), kind, kind) for line, kind, _, column in ORDERS]
    return told("annotations", (status, found, out.count("\n")), (1, wanted, 7))


def of_junit():
    """A case for each source, which fails where there are alarms or a refusal."""
    names = ("first", "orders", "indexed", "nosuch")
    status, out, _ = reported(["--format", "junit", *(f"samples/{name}.cob" for name in names)])
    suite = ElementTree.fromstring(out)[0]
    found = [(case.get("name"), [(inner.tag, inner.get("type")) for inner in case]) for case in suite]
    outcomes = [[], [("failure", "alarms")], [("failure", "refused")], [("error", "failed")]]
    wanted = [(f"samples/{name}.cob", outcome) for name, outcome in zip(names, outcomes)]
    counts = tuple(suite.get(name) for name in ("tests", "failures", "errors"))
    return told("JUnit", (status, counts, found), (3, ("4", "2", "1"), wanted))


def of_json():
    status, out, _ = reported(["--format", "json", "samples/orders.cob", "samples/first.cob"])
    report = json.loads(out)
    alarms, clean = report["sources"]
    found = [(f["line"], f["rule"], f["statement"], f["marked"]["first"]) for f in alarms["findings"]]
    texts = [(f["text"], f["paragraph"]) for f in alarms["findings"]][2:4]
    texts_wanted = [("COMPUTE AMOUNT = QUANTITY * PRICE", "ADD-ORDER"), ("MOVE AMOUNT TO SHOWN", "ADD-ORDER")]
    wanted = (1, 1, ORDERS, texts_wanted, [])
    return told("JSON", (status, report["status"], found, texts, clean["findings"]), wanted)


def of_sarif_alone():
    """Standard output gets what a file would."""
    with tempfile.TemporaryDirectory() as folder:
        copied(folder, "a.cob")
        _, out, _ = reported(["--format", "sarif", "--sarif", "r.sarif", "a.cob"], folder)
        is_same = out == pathlib.Path(folder, "r.sarif").read_text()
    return told("SARIF alone", (is_same, json.loads(out)["version"]), (True, "2.1.0"))


def shown_on_a_terminal(**more):
    main, terminal = pty.openpty()
    reader = subprocess.Popen(["cat"], stdin=main, stdout=subprocess.PIPE, stderr=subprocess.DEVNULL)
    env = {**{name: value for name, value in os.environ.items() if name != "NO_COLOR"}, "TERM": "xterm", **more}
    with open(terminal, "wb") as screen:
        subprocess.run([TOOL, "samples/orders.cob"], cwd=ROOT, env=env, stdout=screen, stderr=subprocess.DEVNULL)
    shown = reader.communicate()[0].decode().replace("\r\n", "\n")
    os.close(main)
    return shown


def of_colours():
    """On a terminal alone, and not where they aren't wanted; the text is the same."""
    coloured = shown_on_a_terminal()
    plain = reported(["samples/orders.cob"])[1]
    shown = [coloured, shown_on_a_terminal(NO_COLOR="1"), shown_on_a_terminal(TERM="dumb")]
    without = {re.sub(r"\033\[[0-9;]*m", "", text) for text in shown}
    are_coloured = ["\033[" in text for text in shown]
    return told("colours", (without, are_coloured), ({plain}, [True, False, False]))


def of_version():
    version = (ROOT / "VERSION").read_text().strip()
    return told("--version", reported(["--version"])[:2], (0, f"cobsound-report {version}\n"))


def checks():
    for words in CLASHES:
        yield lambda words=words: of_a_clash(words)
    for words, wanted in WRONG:
        yield lambda words=words, wanted=wanted: of_wrong_words(words, wanted)
    for number in (signal.SIGTERM, signal.SIGINT, signal.SIGHUP):
        yield lambda number=number: of_a_signal(number)
    yield lambda: of_a_sink(">/dev/full", "standard output: No space left on device")
    yield lambda: of_a_sink(">&-", "standard output is closed")
    yield from (of_names_that_clash, of_a_link, of_a_full_disk, of_no_time, of_standard_input, of_exit_zero)
    yield from (of_annotations, of_junit, of_json, of_sarif_alone, of_colours, of_version)
