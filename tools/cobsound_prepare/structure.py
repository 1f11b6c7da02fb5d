"""Statements with the lists of statements in them, as far as rewritings have to know which belongs to which."""

from collections.abc import Iterator
from dataclasses import dataclass, field

from .statements import ends_statement, is_inline, is_verb, statement_end
from .tokens import Kind, Token
from .work import token_at

DEEPEST = 100  # statements in one another; what lies deeper is read as if it had no lists
# The words that open a list, with the verbs whose statements can have it.
ARITHMETIC = ("ADD", "SUBTRACT", "MULTIPLY", "DIVIDE", "COMPUTE")
KEYED = ("READ", "WRITE", "REWRITE", "DELETE", "START")
OPENERS = {
    ("SIZE", "ERROR"): ARITHMETIC,
    ("INVALID", "KEY"): KEYED,
    ("INVALID",): KEYED,
    ("END",): ("READ", "RETURN"),
    ("END-OF-PAGE",): ("WRITE",),
    ("EOP",): ("WRITE",),
    ("OVERFLOW",): ("STRING", "UNSTRING", "CALL"),
    ("EXCEPTION",): ("CALL", "ACCEPT", "DISPLAY"),
}


@dataclass
class Phrase:
    """A list in a statement: where its words begin, where its statements do, and where they end. `is_denied` says that
    NOT stands before it."""

    head: int
    first: int
    behind: int
    is_denied: bool


@dataclass
class Statement:
    """A statement: where it begins, where what stands before its lists ends, its lists, and where it ends."""

    verb: str
    first: int
    head_end: int
    behind: int
    phrases: list[Phrase] = field(default_factory=list)


class Structure:
    """The statements of a PROCEDURE DIVISION, each with those in it."""

    def __init__(self, tokens: list[Token], first: int):
        self.tokens = tokens
        self.found: list[Statement] = []
        self.deep = 0
        at = first
        while at < len(tokens):
            if is_verb(tokens[at]):
                at = self.statement(at)
            else:
                at += 1

    def statements(self) -> Iterator[Statement]:
        """All of them, in the order of their first words."""
        return iter(sorted(self.found, key=lambda statement: statement.first))

    def list_end(self, at: int) -> int:
        """The place behind statements that follow each other."""
        while is_verb(token_at(self.tokens, at)):
            at = self.statement(at)
        return at

    def is_word(self, at: int, *words: str) -> bool:
        return token_at(self.tokens, at).is_word(*words)

    def statement(self, at: int) -> int:
        """Reads the statement at a place; the place behind it."""
        verb = self.tokens[at].upper
        made = Statement(verb, at, at + 1, at + 1)
        self.found.append(made)
        read = {"IF": self.of_if, "EVALUATE": self.of_evaluate, "SEARCH": self.of_search, "PERFORM": self.of_perform}
        self.deep += 1
        end = read.get(verb, self.of_other)(made) if self.deep < DEEPEST else statement_end(self.tokens, at + 1)
        self.deep -= 1
        made.behind = end + 1 if self.is_word(end, f"END-{verb}") else end
        return made.behind

    def listed(self, made: Statement, head: int, first: int, is_denied: bool = False) -> int:
        behind = self.list_end(first)
        made.phrases.append(Phrase(head, first, behind, is_denied))
        return behind

    def branch(self, made: Statement, head: int, first: int, is_denied: bool = False) -> int:
        """A branch of an IF or WHEN, which may be NEXT SENTENCE."""
        if self.is_word(first, "NEXT") and self.is_word(first + 1, "SENTENCE"):
            made.phrases.append(Phrase(head, first, first + 2, is_denied))
            return first + 2
        return self.listed(made, head, first, is_denied)

    def of_if(self, made: Statement) -> int:
        at = made.first + 1
        while at < len(self.tokens) and not self.opens_branch(at):
            at += 1
        made.head_end = at
        at = self.branch(made, at, at + self.is_word(at, "THEN"))
        return self.branch(made, at, at + 1, True) if self.is_word(at, "ELSE") else at

    def opens_branch(self, at: int) -> bool:
        token = self.tokens[at]
        return token.kind is Kind.STOP or is_verb(token) or token.is_word("THEN", "NEXT", "ELSE")

    def of_evaluate(self, made: Statement) -> int:
        at = made.head_end = statement_end(self.tokens, made.first + 1)
        while self.is_word(at, "WHEN"):
            at = self.listed(made, at, self.behind_whens(at))
        return at

    def behind_whens(self, at: int) -> int:
        while self.is_word(at, "WHEN"):
            at = statement_end(self.tokens, at + 1)
        return at

    def of_search(self, made: Statement) -> int:
        at = made.head_end = statement_end(self.tokens, made.first + 1)
        if self.is_word(at - 1, "END"):
            made.head_end = at - 1 - self.is_word(at - 2, "AT")
            at = self.listed(made, made.head_end, at)
        while self.is_word(at, "WHEN"):
            first = at + 1
            while first < len(self.tokens) and not self.opens_branch(first):
                first += 1
            at = self.branch(made, at, first)
        return at

    def of_perform(self, made: Statement) -> int:
        made.head_end = statement_end(self.tokens, made.first + 1)
        is_own = is_inline(self.tokens, made.first)
        return self.listed(made, made.head_end, made.head_end) if is_own else made.head_end

    def of_other(self, made: Statement) -> int:
        at = made.first + 1
        while at < len(self.tokens) and self.opener(at) is None and not ends_statement(self.tokens[at]):
            at += 1
        made.head_end = at
        found = self.opener(at)
        while found and made.verb in found[1]:
            at = self.listed(made, at, found[0], self.is_word(at, "NOT"))
            found = self.opener(at)
        return at

    def opener(self, at: int) -> tuple[int, tuple[str, ...]] | None:
        """The place behind the words of a phrase that begins at a place, and the verbs that can have it."""
        at += self.is_word(at, "NOT")
        at += self.is_word(at, "ON", "AT")
        for words, verbs in OPENERS.items():
            if all(self.is_word(at + number, word) for number, word in enumerate(words)):
                return at + len(words), verbs
        return None
