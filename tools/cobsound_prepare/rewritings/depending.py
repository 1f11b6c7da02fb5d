"""GO TO with DEPENDING."""

from ..items import reference_at
from ..statements import text_of
from ..tokens import Token
from ..work import Edit, Rewriting, at_edits, operand_end, token_at, words_of


def change(tokens: list[Token], at: int) -> Edit | None:
    place = at + 1 + token_at(tokens, at + 1).is_word("TO")
    names: list[str] = []
    while place < len(tokens) and token_at(tokens, place).text.replace("-", "").isalnum():
        if tokens[place].is_word("DEPENDING"):
            break
        _, behind = reference_at(tokens, place)
        names.append(text_of(tokens[place:behind]))
        place = behind
    if not names or not token_at(tokens, place).is_word("DEPENDING"):
        return None
    first = place + 1 + token_at(tokens, place + 1).is_word("ON")
    behind = operand_end(tokens, first)
    whens = " ".join(f"WHEN {number} GO TO {name}" for number, name in enumerate(names, 1))
    text = f"EVALUATE {text_of(tokens[first:behind])} {whens} END-EVALUATE"
    return Edit(at, behind, words_of(tokens[at], text))


REWRITING = Rewriting(
    name="depending",
    rule="GO TO with DEPENDING becomes EVALUATE with a GO TO in each WHEN",
    before="PROCEDURE DIVISION. GO TO A B DEPENDING ON N.",
    after="PROCEDURE DIVISION. EVALUATE N WHEN 1 GO TO A WHEN 2 GO TO B END-EVALUATE.",
    assumes="nothing",
    words=frozenset({"DEPENDING"}),
    apply=at_edits("GO", change),
)
