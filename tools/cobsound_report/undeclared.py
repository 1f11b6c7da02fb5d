"""Names of the PROCEDURE DIVISION that nothing declares, or several entries do, and first words of sentences that are no
verb."""

from collections.abc import Iterator
from dataclasses import dataclass

from .declared import Reading, nearest
from .scan import Sort, Spot, Token, spot


@dataclass(frozen=True)
class Unknown:
    """A word, what it would have to be, and the one of that kind that is written most like it, where there is one."""

    spot: Spot
    wanted: str
    nearest: str
    nearest_line: int | None = None


def undeclared(source: Reading, told: frozenset[int]) -> Iterator[Unknown]:
    """Each such name where it stands first. Behind a token that is told otherwise, by its number, nothing is judged up
    to the next verb; nor is it where declarations may stand elsewhere."""
    if any(token.is_word("COPY", "REPLACE", "EXEC") for token in source.tokens):
        return
    seen: set[str] = set()
    is_lost = False
    for at, token in enumerate(source.tokens):
        if source.parts[at] != "PROCEDURE" or at and source.tokens[at - 1].is_word("PROCEDURE"):
            continue
        is_lost = is_lost and not (token.sort == Sort.STOP or token.is_word(*source.verbs)) or at in told
        found = None if is_lost else judged(source, at)
        if found:
            is_lost = found.wanted == "a verb"
            if found.spot.text not in seen:
                yield found
            seen.add(found.spot.text)


def judged(source: Reading, at: int) -> Unknown | None:
    token = source.tokens[at]
    if token.sort != Sort.WORD or token.text in source.reserved:
        return None
    before = source.tokens[at - 1] if at else token
    if before.sort == Sort.STOP:
        is_paragraph = source.paragraphs.get(token.text) == token or token.text in source.paragraphs
        return None if is_paragraph else unknown(source, token, "a verb")
    if names_paragraph(source, at):
        return None if token.text in source.paragraphs else unknown(source, token, "a paragraph")
    if len(source.items.get(token.text, ())) > 1 and not source.tokens[at + 1].is_word("OF", "IN"):
        return Unknown(spot(token), "one item alone", "")
    is_known = token.text in source.items or token.text in source.files or before.is_word("PROGRAM")
    return None if is_known else unknown(source, token, "declared")


def names_paragraph(source: Reading, at: int) -> bool:
    """Whether a name is one behind PERFORM, THRU or GO TO, and no count of TIMES."""
    behind = source.tokens[at + 1] if at + 1 < len(source.tokens) else source.tokens[at]
    before = source.tokens[at - 1]
    before = source.tokens[at - 2] if before.is_word("TO") and source.tokens[at - 2].is_word("GO") else before
    return before.is_word("GO", "THRU", "THROUGH", "PERFORM") and not behind.is_word("TIMES", "OF", "IN")


def unknown(source: Reading, token: Token, wanted: str) -> Unknown:
    if wanted == "a verb":
        return Unknown(spot(token), wanted, nearest(token.text, source.verbs))
    if wanted == "a paragraph":
        places = {name: place.line for name, place in source.paragraphs.items()}
    else:
        places = {name: entries[0].tokens[0].line for name, entries in source.items.items()}
        places |= {name: place.line for name, place in source.files.items()}
    found = nearest(token.text, places)
    return Unknown(spot(token), wanted, found, places.get(found))
