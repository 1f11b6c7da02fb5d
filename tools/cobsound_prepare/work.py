"""What a rewriting is, and what it works on."""

from collections.abc import Callable, Iterator
from dataclasses import dataclass, field
from typing import TYPE_CHECKING

from .lexing import with_pictures
from .scanner import Text, scanned
from .tokens import Block, Kind, Note, Token

if TYPE_CHECKING:
    from .unknown import Unknown

LONGEST = 30  # the characters of a name
END = Token(Kind.STOP, ".", Block.__new__(Block), 0, 0, False)


@dataclass
class Work:
    """The tokens of a source while they are rewritten."""

    tokens: list[Token]
    encoding: str = "utf-8"
    notes: list[Note] = field(default_factory=list)
    assumes: bool = False  # whether statements may give way to what allows more than they do
    unknown: "Unknown | None" = None  # what stands for contents of which nothing is known

    def note(self, token: Token, text: str) -> None:
        """Tells what stays as it is, and that the program will refuse it."""
        self.notes.append(Note(token.place(), text))

    def words(self) -> set[str]:
        return {token.upper for token in self.tokens}

    def edit(self, words: frozenset[str], change: Callable[[list[Token], int], "Edit | None"]) -> int:
        """Asks for a change at each of these words, and makes it; how many there were."""
        tokens = self.tokens
        found: list[Token] = []
        done = count = 0
        for at in [at for at, token in enumerate(tokens) if token.upper in words]:
            edit = change(tokens, at) if at >= done else None
            if edit is None or edit.first < done:
                continue
            found += tokens[done : edit.first]
            found += edit.new
            done = edit.behind
            count += 1
        if count:
            self.tokens = found + tokens[done:]
        return count


@dataclass(frozen=True)
class Edit:
    """The tokens from `first` up to the one before `behind` give way to these."""

    first: int
    behind: int
    new: tuple[Token, ...] = ()


@dataclass(frozen=True)
class Rewriting:
    """A rewriting: its rule in words, an example before and after, what it assumes, the words without one of which it
    has nothing to do (all sources where there is none), and what it does, which tells at how many places."""

    name: str
    rule: str
    before: str
    after: str
    assumes: str
    words: frozenset[str]
    apply: Callable[[Work], int]
    is_assumed: bool = False  # it allows more than the statement does, and is made where that is asked for alone


def at_edits(words: str, change: Callable[[list[Token], int], Edit | None]) -> Callable[[Work], int]:
    """A rewriting that asks for a change at each of these words."""
    return lambda work: work.edit(frozenset(words.split()), change)


def line_of(place: Token, text: str, column: int = 8) -> tuple[Token, ...]:
    """The tokens of a line that is put in at a token's place."""
    found = with_pictures(scanned(Text(text, place.line, column), place.block))
    for token in found:
        token.is_made, token.own_line = True, text
    return tuple(found)


def words_of(place: Token, text: str) -> tuple[Token, ...]:
    """The tokens of a text, in the place of a token."""
    found = scanned(Text(text, place.line, place.column), place.block)
    for token in found:
        token.is_made = True
    return tuple(found)


def token_at(tokens: list[Token], at: int) -> Token:
    """The token at a place; a point before the first and behind the last."""
    return tokens[at] if 0 <= at < len(tokens) else END


def are_words(tokens: list[Token], at: int, *words: str) -> bool:
    """Whether these words stand at a place."""
    return all(token_at(tokens, at + number).is_word(word) for number, word in enumerate(words))


def begins_sentence(tokens: list[Token], at: int) -> bool:
    return token_at(tokens, at - 1).kind is Kind.STOP


def operand_end(tokens: list[Token], at: int) -> int:
    """The place behind an operand: a literal, or a name with its qualifiers and subscripts."""
    if token_at(tokens, at).kind is not Kind.WORD:
        return at + 1
    at += 1
    while token_at(tokens, at).is_word("OF", "IN"):
        at += 2
    if token_at(tokens, at).text == "(":
        while at < len(tokens) and tokens[at].kind is not Kind.STOP and tokens[at].text != ")":
            at += 1
        at += 1
    return min(at, len(tokens))


def division(tokens: list[Token], name: str) -> int:
    """Where a division's header begins; behind all tokens where there is none."""
    for at, token in enumerate(tokens):
        if token.upper == name and are_words(tokens, at, name, "DIVISION"):
            return at
    return len(tokens)


def behind_stop(tokens: list[Token], at: int) -> int:
    """The place behind the next point."""
    while at < len(tokens) and tokens[at].kind is not Kind.STOP:
        at += 1
    return min(at + 1, len(tokens))


def sentences(tokens: list[Token], first: int, behind: int) -> Iterator[tuple[int, int]]:
    """Where each part begins that ends with a point, and where it ends behind it."""
    while first < behind:
        end = min(behind_stop(tokens, first), behind)
        yield first, end
        first = end


def free_name(wanted: str, used: set[str]) -> str:
    """The name, or that with a number behind it, that isn't used."""
    name = wanted[:LONGEST].rstrip("-")
    number = 2
    while name.upper() in used:
        name = f"{wanted[: LONGEST - 1 - len(str(number))].rstrip('-')}-{number}"
        number += 1
    return name
