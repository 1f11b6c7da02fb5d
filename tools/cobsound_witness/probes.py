"""A copy of a source in which each statement first shows its number, and the items that it compares."""

from dataclasses import dataclass

from .layout import Item
from .statements import Statement

MARK = "@#"
MOST_SHOWN = 6


@dataclass(frozen=True)
class Trace:
    """What a run of the copy showed: the numbers of its statements in order, the contents of compared items beside
    each other, and the program's own lines."""

    numbers: list[int]
    compared: list[tuple[int, list[bytes]]]
    lines: list[bytes]


class Probed:
    """The copy. It means the same as the source, but for what it shows."""

    def __init__(self, source: bytes, statements: list[Statement]):
        lines = source.decode("latin-1").split("\n")
        self.shown = {statement.number: compared_items(statement) for statement in statements}
        self.numbers = [statement.number for statement in statements if statement.first.is_on_one_line]
        for statement in reversed(statements):
            if statement.first.is_on_one_line:
                insert(lines, statement, self.shown[statement.number])
        self.source = "\n".join(lines).encode("latin-1")
        self.own_numbers: dict[int, int] = {}
        count = 0
        probed = set(self.numbers)
        for statement in statements:
            count += 1 + (statement.number in probed)
            self.own_numbers[count] = statement.number

    def statement(self, number: int) -> int:
        """The number in the source of a statement of the copy."""
        return self.own_numbers.get(number, 0)

    def trace(self, shown: bytes) -> Trace:
        numbers: list[int] = []
        compared: list[tuple[int, list[bytes]]] = []
        lines: list[bytes] = []
        mark = MARK.encode()
        for line in shown.split(b"\n"):
            if not line.startswith(mark):
                lines.append(line)
                continue
            front, *contents = line[len(mark) :].split(b"|")
            if front.isdigit():
                numbers.append(int(front))
                if contents:
                    compared.append((int(front), contents))
        return Trace(numbers, compared, lines)


def compared_items(statement: Statement) -> list[Item]:
    items = [item for pair in statement.comparisons if isinstance(pair.other, Item) for item in (pair.item, pair.other)]
    return [item for item in dict.fromkeys(items) if item.name][:MOST_SHOWN]


def insert(lines: list[str], statement: Statement, items: list[Item]) -> None:
    """Puts what shows it before the statement, which goes on at its column."""
    at, column = statement.first.line - 1, statement.first.column
    line = lines[at]
    front, rest = line[: column - 1], " " * (column - 1) + line[column - 1 :]
    probe = [f"           DISPLAY '{MARK}{statement.number}'"]
    for item in items:
        probe += ["           '|'", *(f"           {word}" for word in reference(item))]
    lines[at : at + 1] = [front, *probe, rest] if front[7:].strip() else [*probe, rest]


def reference(item: Item) -> list[str]:
    """The item's name with those of the groups above it, a word a line."""
    words = [item.name]
    parent = item.parent
    while parent:
        words += ["OF", parent.name] if parent.name else []
        parent = parent.parent
    return words
