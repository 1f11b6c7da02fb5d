"""Statements that give way to others which allow more than they do."""

from collections.abc import Callable

from .structure import Phrase, Statement, Structure
from .tokens import Token
from .unknown import Unknown
from .work import Work, behind_stop, division, words_of

# What stands in a statement's place: texts, and lists of it as they are rewritten.
Parts = list[str | Phrase]
Handler = Callable[["Assumed", Statement], Parts | None]


class Assumed:
    """The statements of a program while some give way. `handlers` gives for a verb what stands in a statement's place:
    nothing where it stays."""

    def __init__(self, work: Work, handlers: dict[str, Handler]):
        self.work = work
        self.tokens = work.tokens
        self.unknown = Unknown.of(work)
        self.handlers = handlers
        self.start = behind_stop(self.tokens, division(self.tokens, "PROCEDURE"))
        self.statements = {made.first: made for made in Structure(self.tokens, self.start).statements()}
        self.count = 0

    def applied(self) -> int:
        """Rewrites the program; how many statements gave way."""
        tokens = [*self.tokens[: self.start], *self.rendered(self.start, len(self.tokens))]
        if self.count:
            self.work.tokens = tokens
        return self.count

    def rendered(self, first: int, behind: int) -> list[Token]:
        """The tokens from one place to another, with what stands in the place of statements there."""
        found: list[Token] = []
        at = first
        while at < behind:
            made = self.statements.get(at)
            parts = self.parts(made) if made else None
            if made is None or parts is None:
                found.append(self.tokens[at])
                at += 1
                continue
            self.count += 1
            place = self.tokens[at]
            for part in parts:
                if isinstance(part, str):
                    found += words_of(place, part)
                else:
                    found += self.rendered(part.first, part.behind)
                    place = self.tokens[max(part.first, part.behind - 1)]
            at = made.behind
        return found

    def parts(self, made: Statement) -> Parts | None:
        handler = self.handlers.get(made.verb)
        return handler(self, made) if handler else None

    def refused(self, made: Statement) -> None:
        """Tells that a statement stays."""
        self.work.note(self.tokens[made.first], f"{made.verb} isn't taken here: what it changes isn't known")

    def head(self, made: Statement) -> list[Token]:
        """What stands behind the verb, before the lists."""
        return self.tokens[made.first + 1 : made.head_end]

    def chosen(self, made: Statement) -> Parts:
        """Its lists, one of which may be done: first the lists without NOT, then those with it."""
        parts: Parts = []
        if [phrase.is_denied for phrase in made.phrases] == [False, True]:
            first, second = made.phrases
            return [f"{self.unknown.read()} IF {self.unknown.choice()}", first, "ELSE", second, "END-IF"]
        lists = sorted((phrase for phrase in made.phrases if phrase.behind > phrase.first), key=lambda it: it.is_denied)
        for phrase in lists:
            parts += [f"{self.unknown.read()} IF {self.unknown.choice()}", phrase, "ELSE"]
        if parts:
            parts.pop()
            parts += ["END-IF"] * len(lists)
        return parts
