"""What a rule means, with an example of docs/RULES.md."""

import re
from dataclasses import dataclass

from . import ROOT
from .words import Words

FRONT = "       IDENTIFICATION DIVISION.\n       PROGRAM-ID. EXAMPLE.\n"
STORAGE = "       DATA DIVISION.\n       WORKING-STORAGE SECTION.\n"
END = "       PROCEDURE DIVISION.\n           STOP RUN.\n"


@dataclass(frozen=True)
class Example:
    """Lines that break a rule, and lines that don't."""

    broken: str
    kept: str


def examples() -> dict[str, Example]:
    """The examples of the document, by the names of the rules."""
    text = (ROOT / "docs/RULES.md").read_text("utf-8")
    entries = re.findall(r"^## (\S+)\n\n```cobol\n(.*?)^```\n\nBetter:\n\n```cobol\n(.*?)^```$", text, re.M | re.S)
    return {name: Example(broken, kept) for name, broken, kept in entries}


def whole(lines: str) -> str:
    """The program of which the lines of an example are a part."""
    storage = STORAGE if re.match(r"\s*[0-9]", lines) else ""
    return FRONT + storage + lines + ("" if "PROCEDURE DIVISION." in lines else END)


def explained(name: str, words: Words) -> str:
    """The entry of a rule. The program's own way to write its name, as `E9 L2`, is taken too, and the letters alone."""
    written = "-".join(name.split()).upper()
    listed = {known.upper(): known for known in words.listed()}
    rule = next((listed[front + written] for front in ("", "E9-", "E10-") if front + written in listed), None)
    if not rule:
        raise OSError(f"{name} is no rule; the rules are {', '.join(words.listed())}")
    entry = words.listed()[rule]
    parts = [f"{rule}: {entry.cause}\n"]
    parts += [f"What to do: {entry.advice}\n"] if entry.advice else []
    example = examples().get(rule)
    parts += [f"For example\n\n{example.broken}", f"Better\n\n{example.kept}"] if example else []
    return "\n".join(parts)
