"""STOP RUN with a status."""

from ..tokens import Kind, Token
from ..work import Edit, Rewriting, at_edits, operand_end, token_at


def change(tokens: list[Token], at: int) -> Edit | None:
    if not token_at(tokens, at - 1).is_word("STOP"):
        return None
    status = token_at(tokens, at + 1)
    if status.is_word("RETURNING", "GIVING"):
        return Edit(at + 1, operand_end(tokens, at + 2))
    if status.kind is Kind.NUMBER or status.is_word("RETURN-CODE"):
        return Edit(at + 1, at + 2)
    return None


REWRITING = Rewriting(
    name="stop-run",
    rule="the status behind STOP RUN is dropped: a number, RETURN-CODE, or what stands behind RETURNING or GIVING",
    before="IF BAD-COUNT > 0 STOP RUN 8 END-IF.",
    after="IF BAD-COUNT > 0 STOP RUN END-IF.",
    assumes="the status with which the program ends says nothing of its faults",
    words=frozenset({"STOP"}),
    apply=at_edits("RUN", change),
)
