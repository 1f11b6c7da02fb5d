"""The answers that are specified: each line with its status, by command."""

import itertools
import math
import re

KINDS = ("SIZE", "TRUNCATION", "ZERO", "CLASS")
NUMBER = r"(?:0|[1-9][0-9]*)"
VALUE = r"(?:0|-?[1-9][0-9]*)"
ALARM = re.compile(rf"({'|'.join(KINDS)}) statement ({NUMBER}) line ({NUMBER})")
RULE = r"(?:L(?:[1-9]|1[0-2])|Q(?:[1-9]|1[01])|N[1-5])"
MOST_STORAGE = 1_048_576

# the refusals of a source
SOURCE = rf"E5 source too long|E[67] line {NUMBER} column {NUMBER}|E8 line {NUMBER}|E9 {RULE} line {NUMBER}"
LIMITS = {"nesting": 64, "items": 512, "storage": MOST_STORAGE, "files": 16, "cells": 512, "nodes": 4_096}
PLACE = rf"reach|cell {NUMBER} class|cell {NUMBER} (?:low|high) reached {VALUE} claimed {VALUE}"
BOUND = rf"pack {NUMBER} row {NUMBER} column {NUMBER} reached (?:none|{VALUE}) claimed {VALUE}"

# behind the words and the files, by command and status: the line of a refusal
COMMON = {
    2: SOURCE,
    4: r"E1 usage(?: .+)?",
    5: "E3 read",
    7: r"E2 absent .*",
    8: "E19 memory",
    9: rf"E10 [a-z]+ {NUMBER}",
}
CHECK = {
    **COMMON,
    3: rf"E11 certificate too long|E12 line {NUMBER}|E13 (?:cells|nodes) found {NUMBER} wanted {NUMBER}"
    rf"|E14 layer 1 edge {NUMBER} (?:{PLACE})|E14 layer 2 edge {NUMBER} {BOUND}",
}
ANALYSE = {**COMMON, 3: "E11 certificate too long", 6: "E4 write"}
RUN = {
    **COMMON,
    1: rf"E18 (?:{'|'.join(KINDS)}) statement {NUMBER} step {NUMBER}",
    6: "E4 write",
    10: rf"E16 steps {NUMBER}",
    11: rf"E17 status (?:10|35|41|42|46|47|48) statement {NUMBER}",
    12: rf"E15 .+ length {NUMBER}",
}
LINES = {"check": CHECK, "analyse": ANALYSE, "run": RUN}

# where `run` may have shown something before its line
SHOWN_BEFORE = {1, 5, 6, 8, 10, 11, 12}


def alarms_of(out):
    """The alarms of a report, each its statement, kind and line; None where the text is no report with alarms."""
    *lines, last = out.decode("latin-1").removesuffix("\n").split("\n")
    found = [ALARM.fullmatch(line) for line in lines]
    if not found or not all(found) or last != f"alarms {len(found)}":
        return None
    return [(int(match[2]), KINDS.index(match[1]), int(match[3])) for match in found]


def faults_of_report(out):
    """A report lists each statement and kind once, in their order; lines rise with statements."""
    alarms = alarms_of(out)
    if alarms is None or not out.endswith(b"\n"):
        yield "no report"
        return
    for one, other in itertools.pairwise(alarms):
        if one[:2] >= other[:2] or one[2] > other[2]:
            yield f"the report isn't in order at statement {other[0]}"


def faults_of_numbers(line):
    """What the numbers of a line can't be."""
    words = line.split(" ")
    if words[0] == "E10" and int(words[2]) <= LIMITS.get(words[1], 0):
        yield "the count isn't beyond the limit"
    if words[0] == "E13" and words[3] == words[5]:
        yield "the numbers don't differ"
    if words[0] in ("E6", "E7") and not 1 <= int(words[4]) <= 72:
        yield "no such column"
    if words[0] == "E14" and words[-2] == "claimed":
        reached = math.inf if words[-3] == "none" else int(words[-3])
        claimed = int(words[-1])
        if reached >= claimed if words[7] == "low" else reached <= claimed:
            yield "what is reached lies within what is claimed"


def faults_of(answer):
    """What isn't specified of an answer to a command on its files, with a standard output that can be written."""
    command, status, out = answer.words[0], answer.status, answer.out
    if answer.errors:
        yield f"says {answer.errors[:200]!r}"
    if status == 0 and command != "run":
        if out != b"clean\n":
            yield "no report"
    elif status == 1 and command != "run":
        yield from faults_of_report(out)
    elif status != 0:
        yield from faults_of_refusal(command, status, out, answer.line())


def faults_of_refusal(command, status, out, line):
    pattern = LINES[command].get(status)
    if pattern is None or not out.endswith(b"\n") or not re.fullmatch(pattern, line):
        yield "no specified line with this status"
        return
    is_alone = out == line.encode("latin-1") + b"\n"
    if not is_alone and not (command == "run" and status in SHOWN_BEFORE):
        yield "more than a line"
    yield from faults_of_numbers(line)


def is_of_the_source(answer):
    """Whether the source is refused, for a cause that every command tells."""
    return answer.status in (2, 9) and re.match(r"E(5|6|7|8|9|10) ", answer.line()) is not None
