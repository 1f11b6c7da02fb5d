"""ADVANCING."""

from ..statements import statement_end
from ..tokens import Token
from ..work import Edit, Rewriting, at_edits, operand_end, token_at


def change(tokens: list[Token], at: int) -> Edit | None:
    end = statement_end(tokens, at + 1)
    first = next((place for place in range(at, end) if tokens[place].is_word("BEFORE", "AFTER")), None)
    if first is None:
        return None
    behind = operand_end(tokens, first + 1 + token_at(tokens, first + 1).is_word("ADVANCING"))
    return Edit(first, behind + token_at(tokens, behind).is_word("LINE", "LINES"))


REWRITING = Rewriting(
    name="advancing",
    rule="BEFORE and AFTER ADVANCING of WRITE are dropped, with lines, pages and names of channels",
    before="PROCEDURE DIVISION. WRITE R FROM X AFTER ADVANCING 2 LINES. WRITE R BEFORE PAGE.",
    after="PROCEDURE DIVISION. WRITE R FROM X. WRITE R.",
    assumes="where a line stands on its page says nothing of the program's faults; a number of lines is numeric",
    words=frozenset({"BEFORE", "AFTER"}),
    apply=at_edits("WRITE", change),
)
