"""How many additions fill an item that only grows: its size over the greatest addition, by pictures and literals."""

from collections.abc import Iterator
from dataclasses import dataclass
from fractions import Fraction

from .layout import Constant, Item, constant_of
from .model import Model
from .statements import Names, Statement
from .tokens import Token

NO_ADDITIONS = frozenset(("IF", "EVALUATE", "DISPLAY", "OPEN", "CLOSE", "STOP", "GO", "EXIT", "CONTINUE"))


@dataclass(frozen=True)
class Growth:
    """The item that grows, and the least number of additions after which it doesn't hold its sum."""

    receiver: str
    additions: int


@dataclass
class Stores:
    """What is stored in an item: the greatest number that it begins from, and the greatest addition."""

    start: Fraction
    addition: Fraction = Fraction(0)


class NoGrowth(Exception):
    """The item may get numbers otherwise than by additions to small ones."""


def growth_of(kind: str, statement: Statement, model: Model) -> Growth | None:
    """The growth of the statement's receiver that is filled first; none where a receiver isn't one that only grows."""
    if kind != "SIZE":
        return None
    found = []
    for receiver in dict.fromkeys(statement.receivers()):
        try:
            found.append(growth_of_item(receiver, model))
        except NoGrowth:
            return None
    return min(found, key=lambda growth: growth.additions, default=None)


def growth_of_item(item: Item, model: Model) -> Growth:
    if not item.is_number() or item.file or shares_bytes(item):
        raise NoGrowth
    stores = Stores(abs(worth(item.value, item)) if item.value else Fraction(0))
    if item.value is None and not any(item in leaves(statement.stores) for statement in model.statements):
        raise NoGrowth
    names = Names(model.layout)
    for statement in model.statements:
        if statement.verb not in NO_ADDITIONS and item in leaves(statement.receivers()):
            take(stores, item, statement, names)
    if not stores.addition:
        raise NoGrowth
    room = Fraction(item.most(), 10 ** item.scale()) - stores.start
    return Growth(item.name, max(0, room // stores.addition) + 1)


def leaves(items: list[Item]) -> list[Item]:
    return [leaf for item in items for leaf in item.leaves()]


def shares_bytes(item: Item) -> bool:
    """Whether a redefinition has the item's bytes too."""
    above: Item | None = item
    while above:
        siblings = above.parent.children if above.parent else []
        if above.redefined or any(other.redefined and other.redefined == above.name for other in siblings):
            return True
        above = above.parent
    return False


def take(stores: Stores, item: Item, statement: Statement, names: Names) -> None:
    """Takes account of a statement that stores in the item."""
    tokens = statement.tokens
    operands = [operand for _, operand in names.operands(tokens)]
    if statement.verb in ("MOVE", "SET"):
        constant = operands[0]
        if statement.verb == "SET" or not isinstance(constant, Constant):
            raise NoGrowth
        stores.start = max(stores.start, abs(worth(constant, item)))
    elif statement.verb == "PERFORM":
        begins, steps = (operand_behind(tokens, word, names) for word in ("FROM", "BY"))
        stores.start = max(stores.start, most_of(begins, item))
        stores.addition = max(stores.addition, most_of(steps, item))
    elif item in statement.changes and statement.verb in ("ADD", "SUBTRACT"):
        end = next(at for at, token in enumerate(tokens) if token.is_word("TO", "FROM"))
        sent = [operand for at, operand in names.operands(tokens) if at < end]
        stores.addition = max(stores.addition, sum(most_of(operand, item) for operand in sent) + rounding(tokens, item))
    elif statement.verb == "COMPUTE" and operands[:2] == [item, item]:
        at = next(at for at, token in enumerate(tokens) if token.text == "=")
        behind = list(tokens_behind_item(tokens[at + 1 :]))
        bound = Bound(behind[1:], item, names).total() if behind and behind[0].text in "+-" else None
        if bound is None:
            raise NoGrowth
        stores.addition = max(stores.addition, bound + rounding(tokens, item))
    else:
        raise NoGrowth


def tokens_behind_item(tokens: list[Token]) -> Iterator[Token]:
    at = 1
    while tokens[at : at + 1] and tokens[at].is_word("OF", "IN"):
        at += 2
    yield from tokens[at:]


def operand_behind(tokens: list[Token], word: str, names: Names) -> Item | Constant:
    at = next(at for at, token in enumerate(tokens) if token.is_word(word))
    return next(operand for _, operand in names.operands(tokens[at + 1 :]))


def rounding(tokens: list[Token], item: Item) -> Fraction:
    is_rounded = any(token.is_word("ROUNDED") for token in tokens)
    return Fraction(1, 2 * 10 ** item.scale()) if is_rounded else Fraction(0)


def worth(constant: Constant, item: Item) -> Fraction:
    scale = max(18, item.scale())
    units = constant.units(scale)
    if units is None:
        raise NoGrowth
    return Fraction(units, 10**scale)


def most_of(operand: Item | Constant, item: Item) -> Fraction:
    """The greatest absolute value of an operand; a sum of the item with itself grows by no fixed addition."""
    if isinstance(operand, Constant):
        return abs(worth(operand, item))
    if operand is item or not (operand.is_number() or (operand.picture and not operand.picture.is_edited)):
        raise NoGrowth
    digits = operand.picture.digits if operand.is_number() else operand.length
    return Fraction(10**digits - 1, 10 ** operand.scale())


class Bound:
    """A bound on the absolute value of an expression, whatever the signs of its operands."""

    def __init__(self, tokens: list[Token], item: Item, names: Names):
        self.tokens = tokens
        self.item = item
        self.operands = dict(names.operands(tokens))
        self.at = 0

    def next_is(self, marks: str) -> bool:
        return self.at < len(self.tokens) and self.tokens[self.at].text in marks.split()

    def total(self) -> Fraction:
        bound = self.product()
        while self.next_is("+ -"):
            self.at += 1
            bound += self.product()
        return bound

    def product(self) -> Fraction:
        bound = self.factor()
        while self.next_is("* /"):
            self.at += 1
            is_product = self.tokens[self.at - 1].text == "*"
            bound = bound * self.factor() if is_product else bound / self.divisor()
        return bound

    def factor(self) -> Fraction:
        while self.next_is("+ -"):
            self.at += 1
        if self.next_is("("):
            self.at += 1
            bound = self.total()
            self.at += 1
            return bound
        return most_of(self.operand(), self.item)

    def divisor(self) -> Fraction:
        """The least absolute value of a divisor that isn't 0."""
        operand = None if self.next_is("( + -") else self.operand()
        if isinstance(operand, Constant):
            least = abs(worth(operand, self.item))
        else:
            least = Fraction(1, 10 ** operand.scale()) if operand else Fraction(0)
        if not least:
            raise NoGrowth
        return least

    def operand(self) -> Item | Constant:
        operand = self.operands.get(self.at)
        if operand is None or constant_of(self.tokens[self.at]) is None and not isinstance(operand, Item):
            raise NoGrowth
        self.at += 1
        while self.next_is("OF IN"):
            self.at += 2
        return operand
