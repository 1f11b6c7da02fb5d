"""The statements of a program: what each one reads, what it stores to, and what it compares."""

from collections.abc import Iterator
from dataclasses import dataclass, field
from enum import Enum, auto

from cobsound_report.profile import VERBS

from .layout import Constant, Item, Layout, constant_of
from .tokens import Kind, Token

# These begin what is no longer of the statement itself.
ENDINGS = frozenset(
    "ELSE WHEN END AT SIZE ON NOT-AT NOT-ON END-IF END-EVALUATE END-PERFORM END-READ END-WRITE END-ADD END-SUBTRACT "
    "END-MULTIPLY END-DIVIDE END-COMPUTE END-PROGRAM".split()
)
RELATION_WORDS = frozenset("EQUAL GREATER LESS".split())


class Role(Enum):
    """What becomes of the items that stand in a part of a statement."""

    READ = auto()
    CHANGED = auto()
    STORED = auto()


# The parts of a statement by the words that begin them; a later row holds where its word stands in the statement too.
PARTS = {
    "MOVE": {"": Role.READ, "TO": Role.STORED},
    "ADD": {"": Role.READ, "TO": Role.CHANGED},
    "SUBTRACT": {"": Role.READ, "FROM": Role.CHANGED},
    "MULTIPLY": {"": Role.READ, "BY": Role.CHANGED},
    "DIVIDE": {"": Role.READ, "INTO": Role.CHANGED, "BY": Role.READ},
    "COMPUTE": {"": Role.STORED, "=": Role.READ},
    "SET": {"": Role.STORED},
    "PERFORM": {"": Role.READ, "VARYING": Role.CHANGED, "FROM": Role.READ},
    "READ": {"": Role.READ, "INTO": Role.STORED},
    "WRITE": {"": Role.STORED, "FROM": Role.READ},
}
GIVING = {"": Role.READ, "TO": Role.READ, "FROM": Role.READ, "BY": Role.READ, "INTO": Role.READ, "GIVING": Role.STORED}


@dataclass(frozen=True)
class Comparison:
    """An item beside an item, or beside one of these constants (two of them are a range)."""

    item: Item
    other: Item | Constant


@dataclass
class Statement:
    number: int
    verb: str
    first: Token
    tokens: list[Token]
    reads: list[Item] = field(default_factory=list)
    changes: list[Item] = field(default_factory=list)
    stores: list[Item] = field(default_factory=list)
    comparisons: list[Comparison] = field(default_factory=list)

    def operands(self) -> list[Item]:
        compared = [item for pair in self.comparisons for item in (pair.item, pair.other) if isinstance(item, Item)]
        return list(dict.fromkeys([*self.reads, *self.changes, *compared]))

    def receivers(self) -> list[Item]:
        return [*self.changes, *self.stores]


class Names:
    """What names mean."""

    def __init__(self, layout: Layout):
        self.items: dict[str, list[Item]] = {}
        self.conditions: dict[str, Item] = {}
        for item in layout.items():
            if item.name:
                self.items.setdefault(item.name, []).append(item)
            for name in item.conditions:
                self.conditions[name] = item

    def item(self, name: str, qualifiers: list[str]) -> Item | None:
        """The item of a name, whose qualifiers name groups above it, or its file."""
        for item in self.items.get(name, ()):
            above = {item.file}
            parent = item.parent
            while parent:
                above.add(parent.name)
                parent = parent.parent
            if above.issuperset(qualifiers):
                return item
        return None

    def operands(self, tokens: list[Token]) -> Iterator[tuple[int, Item | Constant]]:
        """The items and constants that stand there, each with the place of its token."""
        at = 0
        while at < len(tokens):
            start, qualifiers = at, []
            while at + 2 < len(tokens) and tokens[at + 1].is_word("OF", "IN"):
                qualifiers.append(tokens[at + 2].text)
                at += 2
            token = tokens[start]
            found = constant_of(token) or (self.item(token.text, qualifiers) if token.kind == Kind.WORD else None)
            at += 1
            if found:
                yield start, found
            elif token.kind == Kind.WORD and token.text in self.conditions:
                yield start, self.conditions[token.text]


def statements_of(tokens: list[Token], layout: Layout) -> list[Statement]:
    """All statements in the order of the source, as the program numbers them."""
    divisions = (at for at, token in enumerate(tokens) if token.is_word("DIVISION"))
    start = next(at for at in divisions if tokens[at - 1].is_word("PROCEDURE"))
    begins = [at for at in range(start, len(tokens)) if tokens[at].is_word(*VERBS)]
    names = Names(layout)
    found: list[Statement] = []
    subjects: list[tuple[Statement, Item | None]] = []
    for number, (at, end) in enumerate(zip(begins, [*begins[1:], len(tokens)]), 1):
        own, rest = split(tokens[at + 1 : end])
        statement = Statement(number, tokens[at].text, tokens[at], own)
        read_operands(statement, names)
        found.append(statement)
        if statement.verb == "EVALUATE":
            subjects.append((statement, next(iter(statement.reads), None)))
        read_whens(rest, subjects, names)
    return found


def split(tokens: list[Token]) -> tuple[list[Token], list[Token]]:
    """The tokens of a statement itself, and those of phrases and the like behind it."""
    for at, token in enumerate(tokens):
        ends = token.kind == Kind.STOP or token.is_word(*ENDINGS)
        is_not = token.is_word("NOT") and tokens[at + 1 : at + 2] and tokens[at + 1].is_word("AT", "ON", "END", "SIZE")
        if ends or is_not:
            return tokens[:at], tokens[at:]
    return tokens, []


def read_operands(statement: Statement, names: Names) -> None:
    """Sorts the items of a statement by what becomes of them."""
    tokens = statement.tokens
    if statement.verb in ("IF", "EVALUATE"):
        read_condition(statement, tokens, names, None)
        return
    until = next((at for at, token in enumerate(tokens) if token.is_word("UNTIL")), len(tokens))
    parts = PARTS.get(statement.verb, {"": Role.READ})
    if any(token.is_word("GIVING") for token in tokens):
        parts = {**GIVING, "REMAINDER": Role.STORED}
    words = {at: token.text for at, token in enumerate(tokens) if token.kind != Kind.TEXT}
    starts = {at: parts[word] for at, word in words.items() if word in parts}
    for at, operand in names.operands(tokens[:until]):
        before = [role for start, role in starts.items() if start < at]
        role = before[-1] if before else parts[""]
        if isinstance(operand, Item):
            lists = {Role.READ: statement.reads, Role.CHANGED: statement.changes, Role.STORED: statement.stores}
            lists[role].append(operand)
    read_condition(statement, tokens[until + 1 :], names, None)


def read_whens(tokens: list[Token], subjects: list[tuple[Statement, Item | None]], names: Names) -> None:
    """Gives the conditions of WHEN phrases to the EVALUATE that is open, and closes those that end."""
    for at, token in enumerate(tokens):
        if token.kind == Kind.STOP:
            subjects.clear()
        elif token.is_word("END-EVALUATE") and subjects:
            subjects.pop()
        elif token.is_word("WHEN") and subjects:
            statement, subject = subjects[-1]
            read_condition(statement, split(tokens[at + 1 :])[0], names, subject)


def read_condition(statement: Statement, tokens: list[Token], names: Names, subject: Item | None) -> None:
    """The comparisons of a condition: each operand beside the item that stands first in its relation."""
    operands = dict(names.operands(tokens))
    left = subject
    is_behind_relation = subject is not None
    for at, token in enumerate(tokens):
        operand = operands.get(at)
        if token.kind == Kind.RELATION or token.is_word(*RELATION_WORDS):
            is_behind_relation = True
        elif isinstance(operand, Item) and not (is_behind_relation and left):
            left = operand
            statement.reads.append(operand)
        elif operand is not None and left is not None and (is_behind_relation or isinstance(operand, Constant)):
            statement.comparisons.append(Comparison(left, operand))
        elif token.is_word("AND", "OR"):
            is_behind_relation = subject is not None
