"""PERFORM VARYING with AFTER."""

from dataclasses import dataclass

from ..statements import is_inline, matching_end, phrase_end
from ..tokens import Token
from ..work import Rewriting, Work, token_at, words_of


@dataclass(frozen=True)
class Loop:
    """An item that a PERFORM varies: the tokens of the item, of its first value, of its step, and of the condition."""

    item: list[Token]
    start: list[Token]
    step: list[Token]
    until: list[Token]


@dataclass(frozen=True)
class Varied:
    """A PERFORM with AFTER: where it is tested, its loops, the outer one first, and the places of its body. `perform`
    are the names that an out-of-line one performs."""

    is_after: bool
    loops: list[Loop]
    perform: list[Token]
    body: tuple[int, int]
    end: int


def loop_at(tokens: list[Token], at: int) -> tuple[Loop, int] | None:
    """The loop whose item begins at a place, and the place behind it."""
    start = phrase_end(tokens, at, "FROM")
    step = phrase_end(tokens, start, "BY")
    until = phrase_end(tokens, step, "UNTIL")
    words = (("FROM", start), ("BY", step), ("UNTIL", until))
    if not all(token_at(tokens, place).is_word(word) for word, place in words):
        return None
    end = phrase_end(tokens, until + 1, "AFTER")
    return Loop(tokens[at:start], tokens[start + 1 : step], tokens[step + 1 : until], tokens[until + 1 : end]), end


def varied_at(tokens: list[Token], at: int) -> Varied | None:
    """The PERFORM at a place, if it has AFTER."""
    head = phrase_end(tokens, at + 1, "VARYING")
    if not token_at(tokens, head).is_word("VARYING"):
        return None
    place, loops = head, []
    while token_at(tokens, place).is_word("VARYING", "AFTER"):
        found = loop_at(tokens, place + 1)
        if found is None:
            return None
        loops.append(found[0])
        place = found[1]
    if len(loops) == 1:
        return None
    before = tokens[at + 1 : head]
    test = next((number for number, token in enumerate(before) if token.is_word("WITH", "TEST")), len(before))
    is_after = any(token.is_word("AFTER") for token in before[test:])
    if not is_inline(tokens, at):
        return Varied(is_after, loops, before[:test], (place, place), place)
    end = matching_end(tokens, at, "PERFORM")
    return Varied(is_after, loops, [], (place, end), end + 1) if token_at(tokens, end).is_word("END-PERFORM") else None


def nested(place: Token, found: Varied, body: list[Token]) -> list[Token]:
    """The loops in one another. Where the test stands before, each inner item begins anew behind each turn of the loop
    around it, also the last."""

    def said(*parts: str | list[Token]) -> list[Token]:
        made: list[Token] = []
        for part in parts:
            made += words_of(place, part) if isinstance(part, str) else [copied(place, token) for token in part]
        return made

    inner = [*said("PERFORM", found.perform)] if found.perform else body
    if found.is_after:
        for loop in reversed(found.loops):
            head = said("PERFORM WITH TEST AFTER VARYING", loop.item, "FROM", loop.start, "BY", loop.step, "UNTIL")
            inner = [*head, *said(loop.until), *inner, *said("END-PERFORM")]
        return inner
    behind: list[Token] = []
    for loop in reversed(found.loops):
        step = said("ADD", loop.step, "TO", loop.item)
        inner = [*said("PERFORM UNTIL", loop.until), *inner, *step, *behind, *said("END-PERFORM")]
        behind = said("MOVE", loop.start, "TO", loop.item)
    starts = [token for loop in found.loops for token in said("MOVE", loop.start, "TO", loop.item)]
    return [*starts, *inner]


def copied(place: Token, token: Token) -> Token:
    """The token once more, in the place of another."""
    return place.made(token.kind, token.text, token.is_glued)


def apply(work: Work) -> int:
    """Makes nested loops of each, the innermost statement first, so that one in the body of another is made too."""
    tokens, count = work.tokens, 0
    for at in reversed([at for at, token in enumerate(tokens) if token.is_word("PERFORM")]):
        found = varied_at(tokens, at)
        if found is None:
            continue
        first, last = found.body
        tokens = [*tokens[:at], *nested(tokens[at], found, tokens[first:last]), *tokens[found.end :]]
        count += 1
    work.tokens = tokens
    return count


REWRITING = Rewriting(
    name="perform-after",
    rule="PERFORM VARYING with AFTER becomes loops in one another. All items get their first values; each one is "
    "augmented behind what its loop does, and then the items of the loops in it get their first values again",
    before="PROCEDURE DIVISION. PERFORM P VARYING I FROM 1 BY 1 UNTIL I > 3 AFTER J FROM I BY 2 UNTIL J > 5. STOP RUN.",
    after="PROCEDURE DIVISION. MOVE 1 TO I MOVE I TO J PERFORM UNTIL I > 3 PERFORM UNTIL J > 5 PERFORM P "
    "ADD 2 TO J END-PERFORM ADD 1 TO I MOVE I TO J END-PERFORM. STOP RUN.",
    assumes="nothing",
    words=frozenset({"VARYING"}),
    apply=apply,
)
