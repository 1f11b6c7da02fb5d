"""The packages: the same bytes twice, and what is installed from them into an empty folder works there.

The samples' answers are those of docs/GUIDE.md, docs/PREPARE.md and docs/TUTORIAL.md. Nothing of the sources is installed, nor what only the tree needs."""

import hashlib
import os
import pathlib
import re
import shutil
import subprocess
import tempfile

from tests.built import ROOT
from tests.report import told

VERSION = (ROOT / "VERSION").read_text().strip()
ARCHIVE, PACKAGE = f"cobsound-{VERSION}.tar.gz", f"cobsound_{VERSION}_amd64.deb"
# a time for all files, so that it needs no commit
BUILT_AT = "1700000000"

# in an installed tree: words, and what they show with status 0
ANSWERS = [
    (["analyse", "samples/payroll.cob", "CERT"], "clean\n"),
    (["check", "samples/payroll.cob", "samples/payroll.cert"], "clean\n"),
    (["run", "samples/payroll.cob", "PAYIN=samples/PAYIN"], "RUN DATE 20240131\nDETAILS 00001 BAD 00000\n"),
    (["trial", "2"], "nodes 17\nclean\n"),
    (["report", "samples/first.cob"], "1 source: 1 clean\n"),
    (["prepare", "samples/first.cob"], (ROOT / "samples/first.cob").read_text()),
    (["--version"], f"cobsound {VERSION}\n{(ROOT / 'release/record').read_text()}"),
]


TOOLS = ("report", "prepare", "witness")

# some of what stands below a prefix
INSTALLED = (
    "bin/cobsound",
    *(f"bin/cobsound-{tool}" for tool in TOOLS),
    "share/man/man1/cobsound.1",
    "share/bash-completion/completions/cobsound",
    "share/zsh/site-functions/_cobsound",
)


def built(folder):
    """The packages, by their names and sums."""
    env = {**os.environ, "SOURCE_DATE_EPOCH": BUILT_AT}
    subprocess.run([ROOT / "packaging/build", folder], env=env, check=True, capture_output=True)
    return {path.name: hashlib.sha256(path.read_bytes()).hexdigest() for path in pathlib.Path(folder).iterdir()}


def faults_in(starter, samples):
    """What an installed launcher doesn't answer as it must, in an empty folder with the samples, by few words of the
    environment."""
    env = {name: os.environ[name] for name in ("PATH", "LANG") if name in os.environ}
    with tempfile.TemporaryDirectory() as folder:
        os.symlink(samples, f"{folder}/samples")
        for words, wanted in ANSWERS:
            done = subprocess.run([starter, *words], cwd=folder, env=env, capture_output=True, text=True)
            found = (done.returncode, done.stdout, done.stderr)
            if found != (0, wanted, ""):
                yield f"{starter} {words}: {found!r} in place of {wanted!r}"


def faults_of_contents(root):
    """What is installed and shouldn't be, and what is missing."""
    found = {str(path.relative_to(root)) for path in root.rglob("*")}
    unwanted = re.compile(r"\.rt$|\.antt$|/crates|__pycache__|build\.sh")
    yield from (f"{name} is installed" for name in found if unwanted.search(name))
    yield from (f"{name} isn't installed" for name in INSTALLED if name not in found)


def of_the_packages():
    with tempfile.TemporaryDirectory() as folder:
        place = pathlib.Path(folder)
        first, second = built(place / "first"), built(place / "second")
        if first != second:
            return f"packages: {first} and {second} are the same packages"
        subprocess.run(["tar", "-xzf", place / "first" / ARCHIVE, "-C", folder], check=True)
        tree = place / f"cobsound-{VERSION}"
        faults = [*faults_in(tree / "cobsound", tree / "samples")]
        subprocess.run([tree / "install", place / "prefix"], check=True, capture_output=True)
        roots = [place / "prefix"]
        if shutil.which("dpkg-deb"):
            subprocess.run(["dpkg-deb", "-x", place / "first" / PACKAGE, place / "root"], check=True)
            roots.append(place / "root/usr")
        else:
            print("dpkg-deb isn't installed: the Debian package isn't tried")
        for root in roots:
            faults += faults_of_contents(root)
            faults += faults_in(root / "bin/cobsound", root / "share/doc/cobsound/samples")
    return told("packages", faults, [])


def of_the_manual():
    """Every section of the guide, every page beside it, and answers of the program stand in the manual, as `man` shows
    it."""
    pages = [ROOT / f"docs/{name}.md" for name in ("GUIDE", "TUTORIAL", "PROFILE", "PREPARE", "WITNESS")]
    done = subprocess.run([ROOT / "packaging/manual.py", *pages], capture_output=True, text=True)
    page = done.stdout.replace("\\-", "-")
    guide, *others = (path.read_text("utf-8").splitlines() for path in pages)
    wanted = [line.lstrip("# ").upper() for line in guide if line.startswith("## ")]
    wanted += [other[0].lstrip("# ").upper() for other in others]
    missing = [line for line in wanted if line.replace("'", "") not in page.replace("'", "").upper()]
    shown = ("SIZE statement 13 line 60", "E15 NAME length N", "samples/water/METERS")
    missing += [line for line in shown if line not in page]
    return told("the manual", (done.returncode, missing), (0, []))


def of_the_completion():
    """Commands, options and their words are completed, behind the launcher and behind a tool."""
    shell = """. packaging/completion.bash
    of() { COMP_WORDS=("$@"); COMP_CWORD=$(($# - 1)); _cobsound; echo "${COMPREPLY[*]}"; }
    of cobsound a; of cobsound help t; of cobsound run S --s; of cobsound report --f; of cobsound-report --format j
    of cobsound w; of cobsound-prepare --form fr"""
    done = subprocess.run(["bash", "-c", shell], cwd=ROOT, capture_output=True, text=True)
    wanted = ["analyse", "trial", "--steps", "--format --form", "json junit", "witness", "free"]
    return told("completion", done.stdout.splitlines(), wanted)


def options_of(tool):
    """The options of a tool, by its own words."""
    done = subprocess.run([ROOT / f"tools/cobsound-{tool}", "--help"], capture_output=True, text=True)
    usage = done.stdout.partition("\n\n")[0]
    return {"--help" if option == "-h" else option for option in re.findall(r"(?<=[ [|])--?[A-Za-z][a-z-]*", usage)}


def of_the_options(tool):
    """All options of a tool are completed, and no others."""
    shell = f""". packaging/completion.bash
    COMP_WORDS=(cobsound {tool} -) COMP_CWORD=2
    _cobsound
    echo ${{COMPREPLY[*]}}"""
    done = subprocess.run(["bash", "-c", shell], cwd=ROOT, capture_output=True, text=True)
    _, _, behind = (ROOT / "packaging/completion.zsh").read_text().partition(f"\n_cobsound_{tool}() {{")
    in_zsh = set(re.findall(r"(--?[A-Za-z][a-z-]*)\[", behind.partition("\n}")[0]))
    return told(f"options of {tool}", (set(done.stdout.split()), in_zsh), (options_of(tool), options_of(tool)))


def checks():
    yield from (of_the_packages, of_the_manual, of_the_completion)
    for tool in TOOLS:
        yield lambda tool=tool: of_the_options(tool)
