"""Calls of libraries: the text of a source, its tokens, what items hold, decimals, and words as `clap` reads them,
answered by the program case_driver; and certificates, read and printed again by bench, with what its other measures
show of small inputs. Files without `by_rule` in their name hold reference cases."""

import itertools
import subprocess

from tests.built import Case, program
from tests.reference import CERTIFICATE, cases_of
from tests.words import by_clap

PROGRAMS = ("case_driver", "bench")


def hexadecimal(text):
    return (text.encode("latin-1") if isinstance(text, str) else text).hex()


def place_of(refused):
    """The numbers in the line of a refusal."""
    return " ".join(word for word in refused.split()[1:] if word.isdigit())


def of_lines(case):
    if "refused" in case:
        return f"lines {case['bytes']}", f"refused {place_of(case['refused'])}"
    places = "".join(f"{line} {column} " for line, column in case["places"])
    return f"lines {case['bytes']}", f"text {places}{hexadecimal(case['text'])}".rstrip()


def token(kind, value, line, column):
    if kind == "number":
        return f"{line} {column} number {value['scale']} {hexadecimal(value['sign'] + value['digits'])};"
    return f"{line} {column} {kind}" + ("" if value is None else f" {hexadecimal(value)}") + ";"


def of_tokens(case):
    call = f"tokens {hexadecimal('       ' + case['line'])}"
    if "refused" in case:
        return call, f"refused {place_of(case['refused'])}"
    return call, "".join(token(*told) for told in case["tokens"])


def form_of(form):
    return f"{form['digits']} {form['scale']} {'signed' if form['signed'] else 'unsigned'} {form['usage']}"


def of_contents(case):
    value = case["value"]
    if case["call"] == "edit":
        return f"edit {case['picture']} {value}", hexadecimal(case["text"])
    if case["call"] == "put":
        return f"put {form_of(case['form'])} {value}", case["bytes"]
    if case["call"] == "numeric":
        return f"numeric {case['bytes']}", str(value).lower()
    number = "none" if value is None else str(value)
    if "text" in case["form"]:
        return f"text {case['bytes']}", number
    return f"value {form_of(case['form'])} {case['bytes']}", number


def of_decimals(case):
    """Each call, with what it is given, and its answer."""
    given = " ".join(map(str, case["given"]))
    if "answer" in case:
        yield f"{case['call']} {given}", str(case["answer"])
    else:
        for mode in ("cut", "rounded"):
            yield f"{case['call']} {given} {mode}", str(case[mode])


READERS = {"lines": of_lines, "tokens": of_tokens, "contents": of_contents}


def driven():
    """The name of each case, the line that the driver gets, and the one that it must answer."""
    for subject, reader in READERS.items():
        for file in (f"{subject}.jsonl", f"{subject}_by_rule.jsonl"):
            for name, case in cases_of(file):
                yield (name, *reader(case))
    for name, case in cases_of("decimals_by_rule.jsonl"):
        for call, answer in of_decimals(case):
            yield name, call, answer
    for line, answer in by_clap():
        yield "words", f"clap {line}", answer


def told(name, call, answer, wanted):
    return None if answer == wanted else f"{name}, {call}: {answer!r} in place of {wanted!r}"


def of_the_driver():
    cases = list(driven())
    lines = "".join(f"{call}\n" for _, call, _ in cases)
    done = subprocess.run([program("case_driver")], input=lines.encode(), capture_output=True)
    answers = done.stdout.decode().split("\n")
    answers += [""] * (len(cases) - len(answers))
    for (name, call, wanted), answer in zip(cases, answers):
        yield lambda given=(name, call, answer, wanted): told(*given)


def certificates():
    """What is read is printed again as it stands."""
    for file in ("certificate.jsonl", "certificate_by_rule.jsonl"):
        for name, case in cases_of(file):
            yield name, case["text"], case["refused"]
    yield "sample certificate", CERTIFICATE, None
    for length in range(len(CERTIFICATE)):
        front = CERTIFICATE[:length]
        line = front.count("\n") + 1
        yield f"sample certificate cut after {length}", front, f"E12 line {line}"
        yield f"sample certificate with x at {length}", front + "x" + CERTIFICATE[length + 1 :], f"E12 line {line}"


def of_certificates():
    path = program("bench")
    for name, text, refused in certificates():
        case = Case(name, ["certificate", "C"], {"C": text}, 0, f"{refused}\n" if refused else text)
        yield lambda case=case: case.tried(path)


def of_measures():
    """What a measure shows beside its times."""
    path = program("bench")
    for name, case in cases_of("measures_by_rule.jsonl"):
        case = Case(name, case["words"], case["files"], 0, case["out"])
        yield lambda case=case: case.tried(path)


def checks():
    return itertools.chain(of_the_driver(), of_certificates(), of_measures())
