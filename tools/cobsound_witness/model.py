"""What a program's input files are made of, and which of their items a statement's operands come from."""

import functools
import itertools
from collections.abc import Iterable, Iterator
from dataclasses import dataclass, field

from .fields import Field
from .layout import Constant, Item, Layout
from .statements import Statement

MOST_VIEWS = 8
# the bytes of a field that tells kinds of records apart
MOST_TYPE = 4


@dataclass
class Pool:
    """Constants that the program has beside an item, in the order of the source."""

    constants: list[Constant] = field(default_factory=list)
    is_compared_with_items: bool = False

    def add(self, *constants: Constant) -> None:
        self.constants = list(dict.fromkeys([*self.constants, *constants]))


@dataclass
class InputFile:
    """A file that the program opens for input. A view is a way to read a record: its fields don't overlap."""

    external: str
    length: int
    may_be_absent: bool
    views: list[list[Field]]
    pools: dict[tuple[int, int], Pool]

    def pool(self, one: Field) -> Pool:
        return self.pools.setdefault(one.place(), Pool())

    def fields(self) -> Iterator[Field]:
        return itertools.chain.from_iterable(self.views)

    @functools.cached_property
    def types(self) -> list[Field]:
        """The fields that tell kinds of records apart: short texts with which the program compares two constants or
        more."""
        texts = [one for one in self.places() if not one.is_number() and one.length <= MOST_TYPE]
        return [one for one in texts if len(self.pool(one).constants) > 1]

    @functools.cached_property
    def keys(self) -> list[Field]:
        """The fields that the program compares with other items."""
        return [one for one in self.places() if self.pool(one).is_compared_with_items]

    def places(self) -> list[Field]:
        """A field for each place."""
        found: dict[tuple[int, int], Field] = {}
        for one in self.fields():
            found.setdefault(one.place(), one)
        return list(found.values())


class Classes:
    """Items between which contents are moved: each has a leader."""

    def __init__(self) -> None:
        self.leaders: dict[Item, Item] = {}

    def leader(self, item: Item) -> Item:
        while (above := self.leaders.get(item, item)) is not item:
            item = above
        return item

    def join(self, one: Item, other: Item) -> None:
        self.leaders[self.leader(one)] = self.leader(other)


class Model:
    def __init__(self, layout: Layout, statements: list[Statement]):
        self.layout = layout
        self.statements = statements
        opened = opened_for_input(statements)
        self.views = {
            name: list(views_of(file.records, images_of(file.records, name, statements)))
            for name, file in layout.files.items()
            if opened.get(name) == "INPUT"
        }
        self.classes = classes_of(statements)
        self.pools = self.pools_of_classes()
        self.inputs = [
            InputFile(
                layout.files[name].external,
                layout.files[name].length(),
                layout.files[name].has_status,
                views,
                self.pools_of_places(views),
            )
            for name, views in self.views.items()
        ]
        others = [file for file in layout.files.values() if file.name not in self.views]
        self.works = [file.external for file in others if file.name in opened]
        self.outputs = [file.external for file in others if file.name not in opened]
        self.feeds = feeds_of(statements, layout)
        self.places = {one.item: (file, one) for file in self.inputs for one in file.fields()}
        self.fields: dict[Item, list[tuple[InputFile, Field]]] = {}
        for item, (file, one) in self.places.items():
            self.fields.setdefault(self.classes.leader(item), []).append((file, one))

    def pools_of_classes(self) -> dict[Item, Pool]:
        pools: dict[Item, Pool] = {}

        def pool(item: Item) -> Pool:
            return pools.setdefault(self.classes.leader(item), Pool())

        for item in self.layout.items():
            for ranges in item.conditions.values():
                pool(item).add(*itertools.chain.from_iterable(ranges))
        for statement in self.statements:
            for pair in statement.comparisons:
                if isinstance(pair.other, Item):
                    pool(pair.item).is_compared_with_items = pool(pair.other).is_compared_with_items = True
                else:
                    pool(pair.item).add(pair.other)
        return pools

    def pools_of_places(self, views: list[list[Field]]) -> dict[tuple[int, int], Pool]:
        found: dict[tuple[int, int], Pool] = {}
        for one in itertools.chain.from_iterable(views):
            own = self.pools.get(self.classes.leader(one.item), Pool())
            pool = found.setdefault(one.place(), Pool())
            pool.add(*own.constants)
            pool.is_compared_with_items |= own.is_compared_with_items
        return found

    def fields_of(self, item: Item) -> list[tuple[InputFile, Field]]:
        """The fields of input files whose contents are moved to the item, or that are the item."""
        return self.fields.get(self.classes.leader(item), [])

    def sources(self, statement: Statement) -> list[tuple[InputFile, Field]]:
        """The fields of input files from which contents of the statement's operands can come, the nearest first."""
        found: list[tuple[InputFile, Field]] = []
        front = [leaf for item in statement.operands() for leaf in item.leaves()]
        seen = set(front)
        while front:
            found += [self.places[item] for item in front if item in self.places]
            behind = [item for reader in front for item in self.feeds.get(reader, ())]
            front = [item for item in dict.fromkeys(behind) if item not in seen]
            seen.update(front)
        return found


def opened_for_input(statements: list[Statement]) -> dict[str, str]:
    """The names of files that the program opens for input, with how the first OPEN of the source has each."""
    first: dict[str, str] = {}
    read: set[str] = set()
    for statement in statements:
        mode = ""
        for token in statement.tokens if statement.verb == "OPEN" else ():
            if token.is_word("INPUT", "OUTPUT"):
                mode = token.text
            else:
                first.setdefault(token.text, mode)
                read.update([token.text] if mode == "INPUT" else [])
    return {name: mode for name, mode in first.items() if name in read}


def images_of(records: list[Item], name: str, statements: list[Statement]) -> Iterator[tuple[Item, int]]:
    """Groups into which records of the file are moved as a whole: they describe the record too."""
    for statement in statements:
        if statement.verb == "READ" and statement.tokens and statement.tokens[0].text == name:
            yield from ((item, 0) for item in statement.stores if item.children)
        if statement.verb == "MOVE" and statement.reads and statement.reads[0] in records:
            yield from ((item, 0) for item in statement.stores if item.children)


def views_of(records: list[Item], images: Iterable[tuple[Item, int]]) -> Iterator[list[Field]]:
    length = max(record.length for record in records)
    for record, start in itertools.chain(((record, 0) for record in records), images):
        seen: list[list[Field]] = []
        for turn in range(MOST_VIEWS):
            fields = [
                Field(leaf, leaf.offset - record.offset + start, leaf.length)
                for leaf in chosen(record, turn)
                if leaf.picture and leaf.offset - record.offset + start + leaf.length <= length
            ]
            if fields and fields not in seen:
                seen.append(fields)
                yield fields


def chosen(item: Item, turn: int) -> Iterator[Item]:
    """The elementary items of a record, with one of each item's redefinitions in its place."""
    if not item.children:
        yield item
        return
    for child in item.children:
        if not child.redefined:
            ways = [child, *(other for other in item.children if other.redefined and other.redefined == child.name)]
            yield from chosen(ways[turn % len(ways)], turn // len(ways))


def classes_of(statements: list[Statement]) -> Classes:
    classes = Classes()
    for statement in statements:
        if statement.verb in ("MOVE", "READ", "WRITE"):
            for sender in statement.reads:
                for receiver in statement.stores:
                    if not sender.children and not receiver.children:
                        classes.join(sender, receiver)
                    elif sender.children and receiver.children:
                        join_groups(classes, sender, receiver)
    return classes


def join_groups(classes: Classes, sender: Item, receiver: Item) -> None:
    places = {(leaf.offset - sender.offset, leaf.length): leaf for leaf in sender.leaves()}
    for leaf in receiver.leaves():
        same = places.get((leaf.offset - receiver.offset, leaf.length))
        if same:
            classes.join(same, leaf)


def feeds_of(statements: list[Statement], layout: Layout) -> dict[Item, list[Item]]:
    """The elementary items whose contents can go into an item by one statement, or that share bytes with it."""
    feeds: dict[Item, dict[Item, None]] = {}
    for statement in statements:
        if statement.verb in ("IF", "EVALUATE"):
            continue
        senders = [leaf for item in (*statement.reads, *statement.changes) for leaf in item.leaves()]
        for receiver in statement.receivers():
            for leaf in receiver.leaves():
                feeds.setdefault(leaf, {}).update(dict.fromkeys(senders))
    for group in layout.records:
        leaves = list(group.leaves())
        for one, other in itertools.permutations(leaves, 2):
            if one.offset < other.offset + other.length and other.offset < one.offset + one.length:
                feeds.setdefault(one, {})[other] = None
    return {item: list(senders) for item, senders in feeds.items()}
