"""`trial N`: what it answers, and that what it leaves is the certificate of its source, which is written out here by its
rule (docs/GUIDE.md, "Trying it")."""

from bench.sources import trial
from tests.built import Case, program_path, ran

OLD = b"old"

# From the shortest source to the longest whose graph is within the limit, with numbers of one to three digits.
COUNTS = (1, 2, 9, 10, 99, 100, 681)


def told(path, count):
    """What is wrong with a trial: with its answer, with the files that it leaves, or with what the other commands say of
    its source and its certificate."""
    answer = ran(path, ["trial", str(count)], {"TRIAL": OLD, "S": OLD})
    status, out, left = answer
    if (status, out) != (0, f"nodes {6 * count + 5}\nclean\n") or left.keys() != {"TRIAL", "S"} or left["S"] != OLD:
        return f"trial {count}: {answer}"
    files = {"S": trial(count), "TRIAL": left["TRIAL"]}
    checked = ran(path, ["check", "S", "TRIAL"], files)
    if checked[:2] != (0, "clean\n"):
        return f"trial {count}, checked: {checked[:2]}"
    analysed = ran(path, ["analyse", "S", "C"], {"S": trial(count)})
    if analysed[:2] != (0, "clean\n") or analysed[2]["C"] != left["TRIAL"]:
        return f"trial {count}, analysed: {analysed[:2]}, or another certificate"
    return None


def refused():
    """Longer ones have too many nodes, and leave the file as it was."""
    for count in (682, 9_999):
        answer = f"E10 nodes {6 * count + 5}\n"
        yield Case(f"trial {count}", ["trial", str(count)], {"TRIAL": OLD}, 9, answer)


def forms():
    """The number may have zeros before it, and stand behind `--`."""
    for words in (["0002"], ["--", "2"]):
        yield Case(f"trial {words}", ["trial", *words], {}, 0, lambda out: out == "nodes 17\nclean\n")


def checks():
    path = program_path()
    tried = [lambda count=count: told(path, count) for count in COUNTS]
    return tried + [lambda case=case: case.tried(path) for case in (*refused(), *forms())]
