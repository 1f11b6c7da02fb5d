"""UPON of DISPLAY."""

from ..tokens import Kind, Token
from ..work import Edit, Rewriting, Work, token_at

# What DISPLAY UPON these does isn't to show something.
OTHERS = ("ENVIRONMENT-NAME", "ENVIRONMENT-VALUE", "ARGUMENT-NUMBER", "COMMAND-LINE", "CRT", "CRT-UNDER")


def change(work: Work, tokens: list[Token], at: int) -> Edit | None:
    device = token_at(tokens, at + 1)
    if device.kind is not Kind.WORD:
        return None
    if device.is_word(*OTHERS):
        work.note(device, f"DISPLAY UPON {device.upper} isn't taken")
        return None
    return Edit(at, at + 2)


def apply(work: Work) -> int:
    return work.edit(frozenset({"UPON"}), lambda tokens, at: change(work, tokens, at))


REWRITING = Rewriting(
    name="display-upon",
    rule="UPON with the name behind it is dropped, unless that is of the environment, the command's words or a screen",
    before="DISPLAY 'TOTAL ' T UPON CONSOLE.",
    after="DISPLAY 'TOTAL ' T.",
    assumes="what is shown upon all devices may go to one",
    words=frozenset({"UPON"}),
    apply=apply,
)
