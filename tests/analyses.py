"""`analyse SOURCE CERT`: what it answers, and that `check` answers the same to what it writes.

The sources of analyses.jsonl have the faults that no ranges and differences of items can show not to be met (`least`;
null where that isn't known), and those that the language's rules and the analysis leave at most (`most`): a report names
the former, and none beyond the latter. Both were worked out by an independent program. A row of analysed_by_rule.jsonl
has a program in the form of cases/programs, the report or the refusal that it must get, and the text of its certificate
where only one is right."""

import itertools
import json

from bench.sources import source, trial
from tests.built import CASES, program_path, ran, refusal
from tests.programs import source_of
from tests.sample import PAYROLL

OLD = b"old"
MOST_BYTES = 67_108_864


def told(path, name, text, is_right, given=None):
    """What is wrong with the answer to a source, with what is written, or with what `check` answers to that."""
    files = {"S": text.encode("latin-1"), **(given or {})}
    status, out, left = ran(path, ["analyse", "S", "C"], files)
    if status in (0, 1):
        checked = ran(path, ["check", "S", "C"], left)
        if checked != (status, out, left):
            return f"{name}: status {status}, {out!r}, and then {checked[:2]}"
        files["C"] = left["C"]
    if left != files:
        return f"{name}: status {status}, {out!r}, and other files"
    return None if is_right(status, out, left.get("C")) else f"{name}: status {status}, {out!r}, or the certificate"


def faults(lines):
    """The lines of a report that name a fault."""
    return {line for line in lines or () if line.split(" ")[0] in ("SIZE", "TRUNCATION", "ZERO", "CLASS")}


def is_between(case):
    """Whether a report names all of `least` and none beyond `most`."""

    def is_right(status, out, _):
        named = faults(out.splitlines())
        end = f"alarms {len(named)}" if named else "clean"
        shape = (status, out.splitlines()[len(named) :]) == (bool(named), [end])
        return shape and faults(case["least"]) <= named <= faults(case["most"])

    return is_right


def is_just(status, out, certificate=None):
    """Whether this is answered, and this certificate written where it is given."""
    return lambda *answer: answer[:2] == (status, out) and certificate in (None, answer[2])


def referenced(path):
    for number, line in enumerate((CASES / "analyses.jsonl").open(), 1):
        case = json.loads(line)
        yield path, f"analysis {number}", case["source"], is_between(case)


def ruled(path):
    """A certificate that stood there is replaced, unless the source is refused."""
    for line in (CASES / "analysed_by_rule.jsonl").open():
        row = json.loads(line)
        status, out = refusal(row["refused"]) if "refused" in row else (row.get("status", 0), row["out"])
        certificate = row["certificate"].encode() if "certificate" in row else None
        yield path, f"analysis, {row['rule']}", source_of(row), is_just(status, out, certificate), {"C": OLD}


def of_payroll(path):
    yield path, "analysis of payroll", PAYROLL, is_just(0, "clean\n")
    lines = PAYROLL.splitlines(keepends=True)
    assert "ON SIZE ERROR" in lines[98]
    alarm = "SIZE statement 31 line 98\nalarms 1\n"
    yield path, "analysis of payroll without a phrase", "".join(lines[:98] + lines[99:]), is_just(1, alarm)


def of_trials(path):
    """Loops over paragraphs, up to the most nodes that a graph may have."""
    for count in (2, 681):
        head = f"COBSOUND 1\ncells 2\nnodes {6 * count + 5}\npacks 0\n".encode()

        def is_right(status, out, certificate, head=head):
            return (status, out) == (0, "clean\n") and certificate.startswith(head)

        yield path, f"analysis of {count} paragraphs", trial(count), is_right


LONG = -(10**18 - 1)
CLAIMS = "c 1 0 0\n" + "".join(f"c {cell} {LONG} {LONG}\n" for cell in range(2, 402))


def certificate_of(nodes):
    """The text for so many nodes, at all of which 400 cells have one long value, behind one of value 0."""
    places = "".join(f"node {node}\n{CLAIMS}" for node in range(1, nodes + 1))
    return f"COBSOUND 1\ncells 401\nnodes {nodes}\npacks 0\n{places}end\n".encode()


def of_length(path):
    """Programs whose certificates are as long as may be, and longer by a node."""
    data = [f"77 N-{item} PIC S9(18) VALUE {LONG}." for item in range(400)]
    more = len("node 1000\n" + CLAIMS)
    most = 1_000 + (MOST_BYTES - len(certificate_of(1_000))) // more

    def text(nodes):
        return source(["CONTINUE."] * (nodes - 2) + ["STOP RUN."], data)

    yield path, f"analysis of {most} nodes", text(most), is_just(0, "clean\n", certificate_of(most))
    yield path, f"analysis of {most + 1} nodes", text(most + 1), is_just(3, "E11 certificate too long\n"), {"C": OLD}


def checks():
    path = program_path()
    kinds = (referenced, ruled, of_payroll, of_trials, of_length)
    cases = itertools.chain.from_iterable(kind(path) for kind in kinds)
    return [lambda case=case: told(*case) for case in cases]
