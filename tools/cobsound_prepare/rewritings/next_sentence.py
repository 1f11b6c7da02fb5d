"""NEXT SENTENCE."""

from ..tokens import Kind, Token
from ..work import Edit, Rewriting, Work, token_at


def apply(work: Work) -> int:
    """Puts CONTINUE in its place where nothing more is done before the point."""

    def change(tokens: list[Token], at: int) -> Edit | None:
        if not token_at(tokens, at + 1).is_word("SENTENCE"):
            return None
        if not reaches_end(tokens, at + 2):
            work.note(tokens[at], "NEXT SENTENCE isn't taken where more stands behind its statement")
            return None
        return Edit(at, at + 2, (tokens[at].word("CONTINUE"),))

    return work.edit(frozenset({"NEXT"}), change)


def reaches_end(tokens: list[Token], at: int) -> bool:
    """Whether what follows a statement leads to the point without another statement: out of a branch comes what stands
    behind the whole IF or EVALUATE."""
    while at < len(tokens) and tokens[at].kind is not Kind.STOP:
        token = tokens[at]
        if token.is_word("ELSE"):
            at = behind_statement(tokens, at, "IF")
        elif token.is_word("WHEN"):
            at = behind_statement(tokens, at, "EVALUATE")
        elif token.is_word("END-IF", "END-EVALUATE"):
            at += 1
        else:
            return False
    return True


def behind_statement(tokens: list[Token], at: int, verb: str) -> int:
    """The place behind the statement of this verb in which a place stands."""
    deep = 1
    while at < len(tokens) and tokens[at].kind is not Kind.STOP:
        deep += tokens[at].is_word(verb) - tokens[at].is_word(f"END-{verb}")
        at += 1
        if deep == 0:
            break
    return at


REWRITING = Rewriting(
    name="next-sentence",
    rule="NEXT SENTENCE becomes CONTINUE where nothing more is done before the point",
    before="PROCEDURE DIVISION. IF A = 1 NEXT SENTENCE ELSE STOP RUN.",
    after="PROCEDURE DIVISION. IF A = 1 CONTINUE ELSE STOP RUN.",
    assumes="nothing",
    words=frozenset({"SENTENCE"}),
    apply=apply,
)
