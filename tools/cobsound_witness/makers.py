"""Makes input files: fresh ones, and others out of files that are at hand. All choices come from one generator."""

from dataclasses import dataclass
from random import Random

from .fields import Field, no_numbers, number_bytes, text_bytes
from .hints import Hint
from .layout import Constant
from .model import InputFile, Model

Files = dict[str, tuple[bytes, ...] | None]
"""The records of each input file; None where there is no such file."""

COUNTS = (0, 1, 1, 1, 2, 2, 3, 3, 4, 4, 5, 6, 8, 12)
LETTERS = "ABXYZ"


@dataclass(frozen=True)
class Entry:
    """Files that are worth changing, and what a run on them compared with fields."""

    files: Files
    hints: tuple[Hint, ...] = ()


@dataclass(frozen=True)
class Aim:
    """What files are made for: the kind of an alarm, and the fields that its statement's operands come from. Without a
    kind they are those of a statement before it, and the run is to go on there."""

    kind: str
    fields: list[tuple[InputFile, Field]]


class Maker:
    def __init__(self, model: Model, random: Random):
        self.model = model
        self.random = random

    def happens(self, percent: int) -> bool:
        return self.random.random() * 100 < percent

    # contents of a field

    def plain(self, file: InputFile, one: Field) -> bytes:
        """Contents that a program may expect of a field."""
        return self.number(file, one) if one.is_number() else self.text(file, one)

    def number(self, file: InputFile, one: Field) -> bytes:
        constants = file.pool(one).constants
        way = self.random.random()
        if constants and way < 0.35:
            units = self.random.choice(constants).units(one.item.scale()) or 0
            units += self.random.choice((-1, 0, 0, 1))
        elif way < 0.6:
            units = self.random.choice((0, 1, 1, 2, 3, 5, 9, 10)) * 10 ** self.random.choice((0, one.item.scale()))
        elif way < 0.72:
            units = one.most()
        else:
            units = self.random.randrange(10 ** self.random.randint(1, max(1, len(str(one.most())))))
        if one.is_signed() and self.happens(25):
            units = -units
        return number_bytes(one.item, units)

    def text(self, file: InputFile, one: Field) -> bytes:
        constants = file.pool(one).constants
        way = self.random.random()
        if constants and way < 0.75:
            return constant_bytes(self.random.choice(constants), one.length)
        if way < 0.4:
            return text_bytes(self.random.choice(LETTERS) * one.length, one.length)
        if way < 0.8:
            return digits(self.random.randrange(100), one.length)
        return self.random.choice((b" ", b"0", b"9", b"\0", b"\xff")) * one.length

    def odd(self, one: Field) -> bytes:
        """Contents that a program may not expect."""
        if not one.is_number():
            return self.random.choice((b" ", b"\0", b"\xff", b"?", b"9")) * one.length
        if one.is_signed() and self.happens(20):
            return number_bytes(one.item, -one.most())
        contents = no_numbers(one.item)
        return contents[0] if self.happens(60) else self.random.choice(contents)

    def aimed(self, one: Field, kind: str) -> bytes:
        """Contents by which an operand may meet a fault of the kind."""
        if not one.is_number() or kind == "CLASS":
            return self.odd(one)
        if kind == "ZERO":
            return number_bytes(one.item, self.random.choice((0, 0, 0, 1)))
        most = one.most()
        units = self.random.choice((most, most, most, 1, 0, most // 10, -most))
        return number_bytes(one.item, units)

    # fresh files

    def fresh(self) -> Files:
        """Files whose records have their kinds in an order, and keys that rise or repeat, the same in all files."""
        is_rising = self.happens(70)
        files: Files = {}
        for file in self.model.inputs:
            if file.may_be_absent and self.happens(2):
                files[file.external] = None
                continue
            records = self.records(file, self.random.choice(COUNTS))
            if is_rising:
                records = self.with_keys(file, records)
            files[file.external] = tuple(self.with_odd_fields(file, records))
        return files

    def records(self, file: InputFile, count: int) -> list[bytes]:
        """Records whose kinds stand in their places: one kind may be a header's, one a trailer's."""
        types = file.types
        kind = self.random.choice(types) if types else None
        constants = file.pool(kind).constants if kind else []
        order = list(constants) if self.happens(60) else self.random.sample(constants, len(constants))
        shift = 0 if self.happens(50) else self.random.randrange(len(file.views))
        middle = order[1:-1] if len(order) > 2 and self.happens(60) else order
        found: list[bytes] = []
        for number in range(count):
            if not order or not kind:
                found.append(self.record(file, self.random.choice(file.views)))
                continue
            ends = {0: order[0], count - 1: order[-1]} if self.random.random() < 0.9 else {}
            constant = ends.get(number) or self.random.choice(middle)
            view = file.views[(constants.index(constant) + shift) % len(file.views)]
            if self.happens(25):
                view = self.random.choice(file.views)
            found.append(kind.put(self.record(file, view), constant_bytes(constant, kind.length)))
        return found

    def record(self, file: InputFile, view: list[Field]) -> bytes:
        record = b" " * file.length
        for one in view:
            record = one.put(record, self.plain(file, one))
        return record

    def with_keys(self, file: InputFile, records: list[bytes]) -> list[bytes]:
        """The records with keys that rise, or stay the same for some records."""
        for key in file.keys:
            if self.happens(30):
                continue
            value, step = self.random.randint(0, 3), self.random.choice((0, 1, 1, 1, 2))
            for at, record in enumerate(records):
                records[at] = key.put(record, key_bytes(key, value))
                value += step if self.happens(70) else self.random.choice((0, 1, 2))
        return records

    def with_odd_fields(self, file: InputFile, records: list[bytes]) -> list[bytes]:
        for _ in range(self.random.choice((0, 0, 0, 1, 1, 2))):
            if records:
                at = self.random.randrange(len(records))
                one = self.random.choice(self.random.choice(file.views))
                records[at] = one.put(records[at], self.odd(one))
        return records

    # files out of others

    def changed(self, entry: Entry, aim: Aim | None) -> Files:
        """Other files, by one to three changes."""
        found = dict(entry.files)
        if entry.hints and self.happens(25):
            self.take_hint(found, self.random.choice(entry.hints))
            if self.happens(50):
                return found
        for _ in range(self.random.choice((1, 1, 2, 3))):
            if aim and aim.fields and self.happens(50):
                file, one = self.random.choice(aim.fields)
                content = self.aimed(one, aim.kind) if aim.kind else self.plain(file, one)
            else:
                file = self.random.choice(self.model.inputs)
                one = self.random.choice(self.random.choice(file.views))
                content = self.odd(one) if self.happens(15) else self.plain(file, one)
            records = list(found[file.external] or ())
            found[file.external] = tuple(self.changed_records(file, records, one, content))
        return found

    def take_hint(self, files: Files, hint: Hint) -> None:
        """Puts what a field was compared with into that field of a record, the last one as often as all others."""
        records = list(files[hint.external] or ())
        if records:
            at = -1 if self.happens(50) else self.random.randrange(len(records))
            records[at] = hint.field.put(records[at], hint.content)
            files[hint.external] = tuple(records)

    def changed_records(self, file: InputFile, records: list[bytes], one: Field, content: bytes) -> list[bytes]:
        """The records of a file with the field changed in one or all, or with other records."""
        if not records:
            return self.records(file, self.random.choice(COUNTS))
        at, way = self.random.randrange(len(records)), self.random.random()
        if way < 0.55:
            records[at] = one.put(records[at], content)
        elif way < 0.63:
            records = [one.put(record, content) for record in records]
        elif way < 0.71:
            records.insert(at, records[at])
        elif way < 0.79:
            del records[at]
        elif way < 0.86:
            records.insert(at + self.random.randint(0, 1), self.record(file, self.random.choice(file.views)))
        elif way < 0.90:
            records = records[:at] + [records[at]] * self.random.choice((2, 5, 20, 60)) + records[at + 1 :]
        elif way < 0.94:
            records.sort(key=one.of)
        elif way < 0.97:
            records = self.with_keys(file, records)
        else:
            records = records[:at]
        return records

    def long(self, files: Files, count: int, aim: Aim | None) -> Files:
        """Long files: a record, or some, again and again, its keys the same or rising."""
        found = dict(files)
        files_with_records = [file for file in self.model.inputs if found[file.external]]
        if not files_with_records:
            return found
        is_rising = self.happens(50)
        chosen = files_with_records if self.happens(30) else [self.random.choice(files_with_records)]
        for file in chosen:
            records = list(found[file.external] or ())
            at = self.random.randrange(len(records))
            block = records[at : at + self.random.choice((1, 1, 1, 2, len(records)))]
            if aim and self.happens(70):
                block = [self.extreme(file, record, aim) for record in block]
            turns = -(-count // len(block))
            repeated = [record for _ in range(turns) for record in block]
            if is_rising:
                repeated = [risen(file, record, number // len(block)) for number, record in enumerate(repeated)]
            found[file.external] = tuple([*records[:at], *repeated, *records[at + len(block) :]])
        return found

    def extreme(self, file: InputFile, record: bytes, aim: Aim) -> bytes:
        """The record with great numbers in the fields that are aimed at."""
        for owner, one in aim.fields:
            if owner is file and one.is_number() and self.happens(70):
                units = one.most() // self.random.choice((1, 1, 2, 10))
                record = one.put(record, number_bytes(one.item, units))
        return record


def risen(file: InputFile, record: bytes, turn: int) -> bytes:
    for key in file.keys:
        content = key.of(record)
        if content.isdigit():
            number = int(content) + turn
            record = key.put(record, digits(number % 10**key.length, key.length))
    return record


def digits(number: int, length: int) -> bytes:
    return f"{number:0{length}}"[-length:].encode()


def key_bytes(key: Field, value: int) -> bytes:
    return number_bytes(key.item, value) if key.is_number() else digits(value, key.length)


def constant_bytes(constant: Constant, length: int) -> bytes:
    return text_bytes(constant.text * (length if constant.is_figurative else 1), length)
