"""The program's name: a literal, INITIAL."""

import re

from ..tokens import Kind, Token
from ..work import Edit, Rewriting, at_edits, token_at

NAME = re.compile(r"[A-Za-z0-9][A-Za-z0-9_-]*$")


def change(tokens: list[Token], at: int) -> Edit | None:
    is_end = tokens[at].upper == "PROGRAM"
    if is_end and not token_at(tokens, at - 1).is_word("END"):
        return None
    first = at + 1 if is_end or token_at(tokens, at + 1).kind is not Kind.STOP else at + 2
    name = token_at(tokens, first)
    new = []
    if name.kind is Kind.LITERAL and NAME.match(name.text[1:-1]):
        new.append(name.word(name.text[1:-1]))
    elif name.kind is not Kind.WORD:
        return None
    else:
        new.append(name)
    behind = first + 1
    while token_at(tokens, behind).is_word("IS", "INITIAL", "PROGRAM") and not is_end:
        behind += 1
    if behind == first + 1 and new[0] is name:
        return None
    return Edit(first, behind, tuple(new))


REWRITING = Rewriting(
    name="program-name",
    rule="a literal behind PROGRAM-ID and END PROGRAM becomes a word; IS INITIAL PROGRAM is dropped",
    before='PROGRAM-ID. "PAY-1" IS INITIAL PROGRAM.',
    after="PROGRAM-ID. PAY-1.",
    assumes="the program is the main program of its run, so that it begins once",
    words=frozenset({"PROGRAM-ID"}),
    apply=at_edits("PROGRAM-ID PROGRAM", change),
)
