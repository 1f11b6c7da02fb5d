"""Contents of items of records: numbers as their bytes, and bytes that are no number."""

from dataclasses import dataclass

from .layout import Item, Separate, Usage

POSITIVE, NEGATIVE = "{ABCDEFGHI", "}JKLMNOPQR"


@dataclass(frozen=True)
class Field:
    """An item at its place in a file's record."""

    item: Item
    offset: int
    length: int

    def place(self) -> tuple[int, int]:
        return self.offset, self.length

    def is_number(self) -> bool:
        return self.item.is_number()

    def is_signed(self) -> bool:
        return self.item.picture is not None and self.item.picture.is_signed

    def most(self) -> int:
        return self.item.most()

    def put(self, record: bytes, content: bytes) -> bytes:
        content = content[: self.length].ljust(self.length)
        return record[: self.offset] + content + record[self.offset + self.length :]

    def of(self, record: bytes) -> bytes:
        return record[self.offset : self.offset + self.length]


def number_bytes(item: Item, units: int) -> bytes:
    """A number, in units of the item's last digit, as the item holds it; high-order digits that don't fit are lost."""
    picture = item.picture
    assert picture is not None
    is_negative = units < 0 and picture.is_signed
    digits = f"{abs(units) % 10**picture.digits:0{picture.digits}}"
    if item.usage == Usage.BINARY:
        return (int(digits) * (-1 if is_negative else 1)).to_bytes(item.length, "big", signed=True)
    if item.usage == Usage.PACKED:
        sign = "d" if is_negative else "c" if picture.is_signed else "f"
        return bytes.fromhex((digits + sign).rjust(2 * item.length, "0"))
    if item.separate != Separate.NO:
        sign = "-" if is_negative else "+"
        return (sign + digits if item.separate == Separate.FIRST else digits + sign).encode()
    if picture.is_signed:
        return (digits[:-1] + (NEGATIVE if is_negative else POSITIVE)[int(digits[-1])]).encode()
    return digits.encode()


def no_numbers(item: Item) -> list[bytes]:
    """Contents of an item that aren't numeric, those that files have most often first."""
    if item.usage == Usage.BINARY:
        # beyond the picture's digits
        return [b"\x7f" + b"\xff" * (item.length - 1)]
    found = [b" " * item.length, b"\0" * item.length]
    if item.usage == Usage.PACKED:
        return found
    return [*found, b"A" * item.length, b" " * (item.length - 1) + b"7", b"\xff" * item.length]


def text_bytes(text: str, length: int) -> bytes:
    return text.encode("latin-1", "replace")[:length].ljust(length)
