"""The reference cases: sources and certificates whose answers an independent program worked out from the language's
rules."""

import itertools
import json

from tests.built import CASES, ROOT, Case, checks_of, refusal

CERTIFICATE = (ROOT / "samples/first.cert").read_text("latin-1")


def cases_of(name):
    """The cases of a file, each with its name."""
    for number, line in enumerate((CASES / name).open(), 1):
        yield f"{name} {number}", json.loads(line)


def checked(name, source, certificate, status, out):
    return Case(name, ["check", "S", "C"], {"S": source, "C": certificate}, status, out)


def certified():
    """Those of checked.jsonl are of the whole language, with and without packs; those of sharper.jsonl have remainders that
    stay below their divisors, size errors of one receiver, and items whose bytes the VALUEs of others fill. Those of
    thin.jsonl and straight.jsonl were worked out for programs without branches, as their certificates were; where the
    whole language answers otherwise, the reason stands beside the answer. Those of certified_by_rule.jsonl were worked
    out by hand."""
    for file in ("checked.jsonl", "sharper.jsonl", "thin.jsonl", "straight.jsonl"):
        for name, case in cases_of(file):
            yield checked(name, case["source"], case["certificate"], case["status"], case["out"])
    for name, case in cases_of("certified_by_rule.jsonl"):
        yield checked(f"{name}, {case['rule']}", case["source"], case["certificate"], case["status"], case["out"])


def in_the_grammar(answer):
    return not answer.startswith(("E6 ", "E7 ", "E8 ", "E10 nesting "))


def in_the_profile(answer):
    """None of the rules on data and statements is broken, and none of the limits on data."""
    rules = ("E9 L", "E9 Q", "E9 N5 ")
    return in_the_grammar(answer) and not answer.startswith((*rules, "E10 items ", "E10 storage ", "E10 files "))


def sources():
    """All commands refuse a source likewise. A source that is good is run for one step: what a later rule says of it
    isn't known, so the run ends as it may."""
    for file, is_good in (("grammar.jsonl", in_the_grammar), ("profile.jsonl", in_the_profile), ("rules.jsonl", None)):
        for name, case in cases_of(file):
            if case["refused"]:
                status, out = refusal(case["refused"])
                yield checked(f"check {name}", case["source"], CERTIFICATE, status, out)
                yield Case(f"analyse {name}", ["analyse", "S", "C"], {"S": case["source"]}, status, out)
            else:
                status, out = None, is_good
            yield Case(f"run {name}", ["run", "S", "--steps", "1"], {"S": case["source"]}, status, out)


def checks():
    return checks_of(itertools.chain(certified(), sources()))
