"""What the words of the command line say: a table of words, tried on the program, and the rule on words, beside which
`clap` is tried on all short lists (calls.py asks case_driver)."""

import itertools

from tests.built import Case, checks_of
from tests.reference import CERTIFICATE
from tests.sample import SAMPLE

USUAL_STEPS = 1_000_000
MOST_TRIAL = 9_999

# the most paragraphs of a trial whose graph is within the limit
MOST_NODES = 681

# Words with a stroke between two, and what they say, or nothing.
READINGS = {
    "analyse|S|C": "analyse S|C",
    "analyse|-|C": "analyse -|C",
    "analyse||": "analyse |",
    "analyse|--|-x|--": "analyse -x|--",
    "analyse|S|C|D": "",
    "analyse|S": "",
    "analyse|S|C|--steps=7": "",
    "analyse|-x|C": "",
    "analyse|läufe.cob|Σ": "analyse läufe.cob|Σ",
    "check|S|C": "check S|C",
    "check|S|--|C": "check S|C",
    "check|S|C|--": "check S|C",
    "check|--|C": "",
    "check|S|C|--steps|7": "",
    "check|--help": "",
    "run|S": "run 1000000 S",
    "run|S|N=1|M=2": "run 1000000 S|N=1|M=2",
    "run|N=1|S": "run 1000000 N=1|S",
    "run|S|--steps|7|N=1": "run 7 S|N=1",
    "run|--steps=7|S": "run 7 S",
    "run|S|N=1|--steps=7": "run 7 S|N=1",
    "run|S|--steps=007": "run 7 S",
    "run|S|--steps=7|--steps=8": "",
    "run|S|--steps|7|--steps|7": "",
    "run|S|--steps=7|--|--steps=8": "run 7 S|--steps=8",
    "run|--|--steps|7": "run 1000000 --steps|7",
    "run|--|--|-x": "run 1000000 --|-x",
    "run|-": "run 1000000 -",
    "run|-x": "",
    "run|S|--step=7": "",
    "run|S|--steps": "",
    "run|S|--steps|--|7": "",
    "run|S|--steps=": "",
    "run|S|--steps=0": "",
    "run|S|--steps=+7": "",
    "run|S|--steps=٧": "",
    "run|S|--steps=999999999999999999": "run 999999999999999999 S",
    "run|S|--steps=1000000000000000000": "",
    "run|S|--steps=0000000000000000001": "",
    "trial|1": "trial 1",
    "trial|--|9999": "trial 9999",
    "trial|000000000000000002": "trial 2",
    "trial|0000000000000000007": "",
    "trial|0": "",
    "trial|+7": "",
    "trial|10000": "",
    "trial|-1": "",
    "trial|1|2": "",
    "--|run|S": "",
    "|S|C": "",
}

# ---- the rule


def number_of(word):
    """The number that 1 to 18 digits without a sign write."""
    is_number = word.isascii() and word.isdigit() and len(word) <= 18
    return int(word) if is_number else None


def taken_apart(words):
    """The plain words behind a command's own, and the number of steps or None. A word `--` makes all later ones plain,
    a lone hyphen is plain, and any other that begins with a hyphen is `--steps` with a number, or refused."""
    plain, steps, rest = [], None, list(words)
    while rest:
        word = rest.pop(0)
        if word == "--":
            return plain + rest, steps
        if word == "-" or not word.startswith("-"):
            plain.append(word)
            continue
        option, equals, count = word.partition("=")
        if not equals:
            count = rest.pop(0) if rest else ""
        if option != "--steps" or steps is not None or not number_of(count):
            return None
        steps = number_of(count)
    return plain, steps


def is_said(command, plain, steps):
    if command == "run":
        return len(plain) > 0
    if command == "trial":
        return steps is None and len(plain) == 1 and 1 <= (number_of(plain[0]) or 0) <= MOST_TRIAL
    return command in ("analyse", "check") and steps is None and len(plain) == 2


def reading_of(words):
    """The command, its plain words and its number of steps; None where words say no command."""
    parts = taken_apart(words[1:])
    return (words[0], *parts) if parts and is_said(words[0], *parts) else None


def told(reading):
    """A reading as the table tells it."""
    if reading is None:
        return ""
    command, plain, steps = reading
    if command == "trial":
        return f"trial {int(plain[0])}"
    budget = f"{steps or USUAL_STEPS} " if command == "run" else ""
    return f"{command} {budget}{'|'.join(plain)}"


def is_of_the_rule(line, wanted):
    """Tells where the rule gives another reading than the table."""
    given = told(reading_of(line.split("|")))
    return None if given == wanted else f"the rule on words, {line}: {given!r} in place of {wanted!r}"


# ---- clap

WORDS = ("S", "", "-", "--", "--steps", "--steps=7", "7", "-x")

# `clap` takes a sign, and zeros past 18 digits: there the rule decides.
TAKEN_BY_CLAP = {
    "run|S|--steps=+7": "plain|S",
    "trial|+7": "plain|+7",
    "trial|0000000000000000007": "plain|0000000000000000007",
}


def plain_text(reading):
    return "refused" if reading is None else "|".join(["plain", *reading[1]])


def by_clap():
    """Lists of words, and what `clap` reads of them: the plain words of the rule, or nothing where it refuses them. They
    are all lists of up to three of some words behind a first one."""
    for first in ("analyse", "check", "run", "trial", "--", "S"):
        for behind in itertools.chain.from_iterable(itertools.product(WORDS, repeat=length) for length in range(4)):
            words = [first, *behind]
            yield "|".join(words), plain_text(reading_of(words))
    yield from TAKEN_BY_CLAP.items()


# ---- the program


def program_that(*ends):
    """A program that writes two files, N and M, and ends by these lines."""
    lines = [
        "IDENTIFICATION DIVISION.",
        "PROGRAM-ID. T.",
        "ENVIRONMENT DIVISION.",
        "INPUT-OUTPUT SECTION.",
        "FILE-CONTROL.",
        "SELECT F ASSIGN TO N.",
        "SELECT G ASSIGN TO M.",
        "DATA DIVISION.",
        "FILE SECTION.",
        "FD F.",
        "01 R PIC X.",
        "FD G.",
        "01 Q PIC X.",
        "PROCEDURE DIVISION.",
        "A.",
        "OPEN OUTPUT F G.",
        "WRITE R FROM 'F'.",
        "WRITE Q FROM 'G'.",
        "CLOSE F G.",
        *ends,
    ]
    return "".join(f"       {line}\n" for line in lines)


def of_a_pair(words, command, source, certificate):
    """The source and the certificate of the sample, by these names; none has the empty name."""
    if not source:
        return Case(f"words {words}", words, {}, 7, "E2 absent \n")
    made = {source: SAMPLE, certificate: CERTIFICATE}
    given = {source: SAMPLE} if command == "analyse" else made
    return Case(f"words {words}", words, given, 0, "clean\n", made)


def of_a_run(words, steps, source, names):
    """A run that goes on until its steps are spent; one with a large budget ends."""
    is_large = steps > USUAL_STEPS
    given = {source: program_that("STOP RUN.") if is_large else program_that("B.", "GO TO B.")}
    for name in names:
        if name[:2] not in ("N=", "M="):
            return Case(f"words {words}", words, given, 4, f"E1 usage {name}\n")
    paths = {"N": "N", "M": "M", **dict(name.split("=") for name in names)}
    left = {**given, paths["N"]: "F", paths["M"]: "G"}
    status, out = (0, "") if is_large else (10, f"E16 steps {steps}\n")
    return Case(f"words {words}", words, given, status, out, left)


def of_a_trial(words, count):
    """Trials of few paragraphs are clean, and the largest have too many nodes."""
    nodes = f"nodes {6 * count + 5}\n"
    if count > MOST_NODES:
        return Case(f"words {words}", words, {}, 9, f"E10 {nodes}")
    return Case(f"words {words}", words, {}, 0, lambda out: out == f"{nodes}clean\n")


def of_a_line(line, said):
    words = line.split("|")
    command, _, rest = said.partition(" ")
    if not command:
        return Case(f"words {words}", words, {}, 4, f"E1 usage {words[0]}".rstrip() + "\n")
    if command == "trial":
        return of_a_trial(words, int(rest))
    if command == "run":
        steps, _, plain = rest.partition(" ")
        source, *names = plain.split("|")
        return of_a_run(words, int(steps), source, names)
    return of_a_pair(words, command, *rest.split("|"))


def checks():
    by_rule = [lambda line=line, said=said: is_of_the_rule(line, said) for line, said in READINGS.items()]
    return by_rule + checks_of(of_a_line(line, said) for line, said in READINGS.items())
