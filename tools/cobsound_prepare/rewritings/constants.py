"""Level 78."""

from ..tokens import Kind, Token
from ..work import Rewriting, Work, begins_sentence, division, token_at


def apply(work: Work) -> int:
    """Puts the literals in the places of their names. A constant that isn't one literal stays, with a note."""
    tokens = work.tokens
    values: dict[str, Token] = {}
    dropped: set[int] = set()
    for at in range(division(tokens, "PROCEDURE")):
        if tokens[at].text != "78" or not begins_sentence(tokens, at):
            continue
        place = at + 3 if token_at(tokens, at + 2).is_word("VALUE") else at + 2
        place += 1 if token_at(tokens, place).is_word("IS") else 0
        value, name = token_at(tokens, place), token_at(tokens, at + 1)
        value = values.get(value.upper, value)
        is_literal = value.kind in (Kind.LITERAL, Kind.NUMBER) or value.is_word("SPACE", "SPACES", "ZERO", "ZEROS")
        if not is_literal or token_at(tokens, place + 1).kind is not Kind.STOP or name.upper in values:
            work.note(tokens[at], f"the constant {name.text} isn't taken: its value is no literal")
            continue
        values[name.upper] = value
        dropped |= set(range(at, place + 2))
    if not values:
        return 0
    found = []
    count = len(values)
    for at, token in enumerate(tokens):
        if at in dropped:
            continue
        if token.kind is Kind.WORD and token.upper in values:
            value = values[token.upper]
            token = token.made(value.kind, value.text)
            count += 1
        found.append(token)
    work.tokens = found
    return count


REWRITING = Rewriting(
    name="constants",
    rule="an entry of level 78 with one literal is dropped, and its name becomes the literal wherever it stands",
    before="WORKING-STORAGE SECTION. 78 LIMIT VALUE 12. 77 N PIC 99. PROCEDURE DIVISION. IF N > LIMIT STOP RUN.",
    after="WORKING-STORAGE SECTION. 77 N PIC 99. PROCEDURE DIVISION. IF N > 12 STOP RUN.",
    assumes="nothing",
    words=frozenset(),
    apply=apply,
)
