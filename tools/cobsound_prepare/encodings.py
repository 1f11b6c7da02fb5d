"""The bytes of a source as text."""

import re

EBCDIC = ("cp037", "cp1140", "cp273")
ENCODINGS = ("auto", "utf-8", "latin-1", *EBCDIC)
RECORD = 80  # characters of a record of a source that has no line ends


def guessed(data: bytes) -> str:
    """EBCDIC where its space is the more frequent one; else UTF-8, if the bytes are that, else Latin-1."""
    if data.count(b"\x40") > data.count(b" "):
        return "cp1140"
    try:
        data.decode("utf-8")
    except UnicodeDecodeError:
        return "latin-1"
    return "utf-8"


def decoded(data: bytes, encoding: str = "auto") -> tuple[str, str]:
    """The text, and the encoding in which it was read. Bytes that the encoding hasn't are replaced."""
    name = guessed(data) if encoding == "auto" else encoding
    text = data.decode(name, "replace").removeprefix("\N{BYTE ORDER MARK}")
    # EBCDIC's new line is a character of its own
    return (text.replace("\x85", "\n") if name in EBCDIC else text), name


def lines_of(text: str) -> list[str]:
    """The lines of a text, or its records where it has no line ends."""
    if "\n" not in text and len(text) > RECORD and len(text) % RECORD == 0:
        return [text[at : at + RECORD] for at in range(0, len(text), RECORD)]
    lines = re.split(r"\r?\n", text)
    return lines if lines[-1] else lines[:-1]
