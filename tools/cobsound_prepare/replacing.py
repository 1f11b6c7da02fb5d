"""What REPLACING and REPLACE do: words of the text give way to others, row by row, without looking at the result again.

Words match as the standard compares them: letters in capitals or not, and commas and semicolons as spaces.
"""

from collections.abc import Iterator
from dataclasses import dataclass
from enum import Enum, auto

from .scanner import Text, scanned
from .tokens import Kind, SourceError, Token


class Part(Enum):
    """Which part of a word must match."""

    WHOLE = auto()
    LEADING = auto()
    TRAILING = auto()


@dataclass(frozen=True)
class Replacement:
    """What is replaced, as words that are compared, and what takes its place."""

    old: tuple[str, ...]
    new: tuple[Token, ...]
    part: Part = Part.WHOLE


class Reader:
    """Reads the tokens of a statement from left to right."""

    def __init__(self, tokens: list[Token]):
        self.tokens = [token for token in tokens if token.kind is not Kind.COMMA]
        self.at = 0

    def peek(self) -> Token | None:
        return self.tokens[self.at] if self.at < len(self.tokens) else None

    def take(self) -> Token:
        token = self.peek()
        if token is None:
            raise SourceError(self.tokens[0].place(), f"{self.tokens[0].upper} ends too early")
        self.at += 1
        return token

    def takes(self, *words: str) -> Token | None:
        """The next token where it is one of these words."""
        token = self.peek()
        return self.take() if token and token.is_word(*words) else None

    def operand(self) -> list[Token]:
        """Pseudo-text without its marks, a literal, or a name with its qualifiers and subscripts."""
        first = self.take()
        if first.kind is Kind.PSEUDO:
            found = []
            while (token := self.take()).kind is not Kind.PSEUDO:
                found.append(token)
            return found
        found = [first]
        while first.kind is Kind.WORD and (token := self.peek()) is not None:
            if token.is_word("OF", "IN"):
                found += [self.take(), self.take()]
            elif token.text == "(":
                while self.take().text != ")":
                    found.append(self.tokens[self.at - 1])
                found.append(self.tokens[self.at - 1])
            else:
                break
        return found

    def replacements(self) -> list[Replacement]:
        """Pairs with BY up to the end of the statement."""
        found = []
        while (token := self.peek()) is not None and token.kind is not Kind.STOP:
            part = Part[self.take().upper] if token.is_word("LEADING", "TRAILING") else Part.WHOLE
            old = self.operand()
            by = self.take()
            if not by.is_word("BY") or not old:
                raise SourceError(by.place(), "what is replaced stands before BY")
            found.append(Replacement(tuple(token.upper for token in old), tuple(self.operand()), part))
        return found


def replaced(tokens: list[Token], replacements: list[Replacement]) -> list[Token]:
    """The tokens with each place replaced at which one of these matches, the first that does."""
    whole: dict[str, list[Replacement]] = {}
    for row in replacements:
        if row.part is Part.WHOLE:
            whole.setdefault(row.old[0], []).append(row)
    parts = [row for row in replacements if row.part is not Part.WHOLE]
    found: list[Token] = []
    at, is_changed, glue = 0, False, None
    while at < len(tokens):
        token = tokens[at]
        behind, new = at, None
        for row in whole.get(token.upper, ()):
            behind = end_of_match(tokens, at, row.old)
            if behind > at:
                new = list(given(row.new, token))
                break
        if new is None and parts and token.kind is Kind.WORD:
            new = in_part(token, parts)
            behind = at + 1
        if new is None:
            found.append(token if glue is None else glued(token, glue))
            at, glue = at + 1, None
            continue
        for old in tokens[at:behind]:
            old.block.count = None
        # where nothing takes the place, what follows stands directly behind what stood before
        glue = token.is_glued if not new and behind < len(tokens) and tokens[behind].is_glued else None
        found += new
        at, is_changed = behind, True
    return list(rejoined(found)) if is_changed else tokens


def end_of_match(tokens: list[Token], at: int, old: tuple[str, ...]) -> int:
    """Where the words end that stand at a place; the place itself where others stand there."""
    behind = at
    for word in old:
        while behind > at and behind < len(tokens) and tokens[behind].kind is Kind.COMMA:
            behind += 1
        if behind >= len(tokens) or tokens[behind].upper != word:
            return at
        behind += 1
    return behind


def given(new: tuple[Token, ...], place: Token) -> Iterator[Token]:
    """The new tokens in the place of a token."""
    for number, token in enumerate(new):
        yield place.made(token.kind, token.text, token.is_glued if number else place.is_glued)


def in_part(token: Token, parts: list[Replacement]) -> list[Token] | None:
    """The word with its first or last letters replaced."""
    for row in parts:
        old, new = "".join(row.old), "".join(word.text for word in row.new)
        if row.part is Part.LEADING and token.upper.startswith(old):
            return [token.made(Kind.WORD, new + token.text[len(old) :])]
        if row.part is Part.TRAILING and token.upper.endswith(old):
            return [token.made(Kind.WORD, token.text[: len(token.text) - len(old)] + new)]
    return None


def glued(token: Token, is_glued: bool) -> Token:
    """The token with that before it; what it is glued to is another, so that it is read again with that."""
    token.block.count = None
    return token.made(token.kind, token.text, is_glued)


def rejoined(tokens: list[Token]) -> Iterator[Token]:
    """Reads what stands without spaces anew wherever a part of it is new, as :TAG:-NAME."""
    at = 0
    while at < len(tokens):
        end = at + 1
        while end < len(tokens) and tokens[end].is_glued:
            end += 1
        run = tokens[at:end]
        if len(run) > 1 and any(token.is_made for token in run):
            first = run[0]
            for token in run:
                token.block.count = None
            text = Text("".join(token.text for token in run), first.line, first.column)
            again = scanned(text, first.block)
            for number, token in enumerate(again):
                token.is_made = True
                token.is_glued = token.is_glued if number else first.is_glued
            yield from again
        else:
            yield from run
        at = end
