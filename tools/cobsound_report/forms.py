"""In which form a source is written: the fixed one, the free one, or in EBCDIC. It is guessed."""

import re
from enum import Enum

EBCDIC = "cp037"
WORDS = re.compile(r"\b(IDENTIFICATION|ID|ENVIRONMENT|DATA|PROCEDURE)\s+DIVISION\b", re.I)
FREE = re.compile(
    rb"^(?:.{6})?[ \t]*(?:>>[ \t]*SOURCE\s+FORMAT\s+(?:IS\s+)?FREE|\$SET\s+SOURCEFORMAT\s*[(\"']+FREE)", re.I | re.M
)


class Form(Enum):
    FIXED = "fixed form"
    FREE = "free form"
    EBCDIC = "EBCDIC"


def is_wide(byte: int) -> bool:
    """Whether it is no character of ASCII that can be shown, and no tab."""
    return byte > 126 or byte < 32 and byte != 9


def form_of(raw: bytes) -> Form:
    front = raw[:65536]
    if not WORDS.search(front.decode("latin-1")) and WORDS.search(front.decode(EBCDIC)):
        return Form.EBCDIC
    return Form.FREE if is_free(front) else Form.FIXED


def is_free(front: bytes) -> bool:
    """Whether a directive says so, or a division's header begins before column 8 of a line."""
    if FREE.search(front):
        return True
    lines = [line.expandtabs(8).decode("latin-1") for line in front.split(b"\n")]
    headers = [match for line in lines if line[6:7] not in ("*", "/") and (match := WORDS.search(line))]
    return any(match.start() < 6 for match in headers) and b"\t" not in front[:8]
