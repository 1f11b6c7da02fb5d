"""Which of the remarks on a source is the cause of what the program told, and what else it can be."""

import re

from .remarks import FORM, MISSING, OUTSIDE, Reader, Remark, Seen
from .scan import Sort, Spot, spot

TOLD = re.compile(r"(E[6-9])(?: ([LQN][0-9]+))? line ([0-9]+)(?: column ([0-9]+))?")

# The rows of the guide for what the program alone sees.
LOOPS = {
    "N1": "a paragraph that performs itself",
    "N2": "a range that performs its own last paragraph, or overlaps in part with one that it performs",
    "N3": "a GO TO out of what is performed",
}


def cause_of(told: str, seen: Seen, reader: Reader) -> Remark | None:
    """The remark that says why the program refuses a source; none where a reader sees nothing at that place."""
    match = TOLD.fullmatch(told)
    if not match:
        return None
    number, rule, line, column = match[1], match[2] or "", int(match[3]), int(match[4] or 0)
    form = [remark for remark in seen.remarks if remark.rule == FORM]
    if number in ("E6", "E7"):
        return next(iter(form), None) or nearest_outside(seen, line, column) or character(number, seen, line, column)
    if rule.startswith("N"):
        return performed(seen, rule, line, reader)
    if rule.startswith("L"):
        return nearest_outside(seen, line) or declared(seen, line)
    first, behind = sentence(seen, line) if number == "E8" else statement(seen, line)
    here = [remark for remark in seen.remarks if first <= remark.place < behind]
    on_line = [remark for remark in here if remark.spot.line >= line]
    lacking = [remark for remark in seen.remarks if remark.rule == MISSING and number == "E8"]
    return next(iter(on_line[:1] or here[-1:] or lacking[:1]), None)


def nearest_outside(seen: Seen, line: int, column: int = 0) -> Remark | None:
    """What isn't in the profile on a line: the first there, or the nearest to a column."""
    here = [remark for remark in seen.remarks if remark.spot.line == line and remark.rule == OUTSIDE]
    return min(here, key=lambda remark: abs(remark.spot.column - column) if column else 0, default=None)


def sentence(seen: Seen, line: int) -> tuple[tuple[int, int], tuple[int, int]]:
    """From the point before a line to the end of the line."""
    points = [token for token in seen.source.tokens if token.sort == Sort.STOP and token.line < line]
    return (points[-1].line, points[-1].column) if points else (1, 1), (line + 1, 0)


def statement(seen: Seen, line: int) -> tuple[tuple[int, int], tuple[int, int]]:
    """From a line to the end of the last statement that begins on it: up to the next verb or point on a later line."""
    later = [token for token in seen.source.tokens if token.line > line]
    end = next((token for token in later if token.sort == Sort.STOP or token.is_word(*seen.source.verbs)), None)
    return (line, 0), (end.line, end.column) if end else (line + 1, 0)


def performed(seen: Seen, rule: str, line: int, reader: Reader) -> Remark | None:
    """The paragraph that a PERFORM or GO TO of a line names."""
    tokens = [token for token in seen.source.tokens if token.line >= line]
    name = next((token for token in tokens if token.text in seen.source.paragraphs and token.sort == Sort.WORD), None)
    row = reader.described.get(LOOPS.get(rule, ""))
    if not name or not row:
        return None
    return Remark(OUTSIDE, spot(name), f"{row.description} isn't in the profile: {name.text}", row.way_out)


def declared(seen: Seen, line: int) -> Remark | None:
    """The name that an entry or a clause of a line declares. The program's rule says what is wrong with it."""
    tokens = [token for token in seen.source.tokens if token.line == line and token.text not in seen.source.reserved]
    name = next((token for token in tokens if token.sort == Sort.WORD), None)
    return Remark("", spot(name), name.text, is_name=True) if name else None


def character(number: str, seen: Seen, line: int, column: int) -> Remark:
    """What stands at a place that is refused."""
    raw = seen.source.lines[line - 1].decode("latin-1") if line <= len(seen.source.lines) else ""
    found = raw[column - 1 : column]
    if number == "E7":
        word = re.match(r"[^\s]*", raw[column - 1 :])
        text = word[0] if word else found
        return Remark("", Spot(text, line, column, len(text)), f"{text} is no word, number or mark, or none ends here")
    if column == 7:
        is_continued = found == "-"
        cause = "a continuation that is blank or comes first" if is_continued else f"{found} is no indicator in column 7"
    elif found in ("'", '"'):
        cause = f"the literal that begins with this {found} isn't closed on its line, nor continued"
    else:
        cause = "the literal before this line isn't continued by a quotation mark"
    return Remark("", Spot(found, line, column, 1), cause)
