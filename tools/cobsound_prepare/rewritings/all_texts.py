"""ALL before a literal."""

from ..items import Items, read, reference_at
from ..statements import text_of
from ..tokens import Kind, Token
from ..work import Rewriting, Work, division, token_at, words_of


def repeated(literal: Token, size: int) -> str:
    """The literal as often as it fits into so many characters."""
    mark = literal.text[0]
    text = literal.text[1:-1].replace(mark * 2, mark)
    text = (text * (size // len(text) + 1))[:size]
    return f"{mark}{text.replace(mark, mark * 2)}{mark}"


def moved(items: Items, tokens: list[Token], at: int) -> tuple[str, int] | None:
    """What stands in the place of a MOVE from ALL at a place, and the place behind it."""
    place, made = at + 4, []
    while token_at(tokens, place).kind is Kind.WORD and items.named(reference_at(tokens, place)[0]):
        names, behind = reference_at(tokens, place)
        item = items.named(names)
        size = item.size() if item else None
        if item is None or not size or item.category() not in ("text", "group"):
            return None
        made.append(f"MOVE {repeated(tokens[at + 2], size)} TO {text_of(tokens[place:behind])}")
        place = behind
    return (" ".join(made), place) if made else None


def is_all(tokens: list[Token], at: int) -> bool:
    literal = token_at(tokens, at + 1)
    is_text = literal.kind is Kind.LITERAL and literal.text[0] in "'\"" and len(literal.text) > 2
    return is_text and token_at(tokens, at).is_word("ALL")


def apply(work: Work) -> int:
    """Writes out what MOVE moves, and the VALUE of an item."""
    items, tokens, count = read(work.tokens), work.tokens, 0
    procedure = division(tokens, "PROCEDURE")
    for at in reversed([at for at in range(procedure, len(tokens)) if is_all(tokens, at)]):
        is_move = token_at(tokens, at - 1).is_word("MOVE") and token_at(tokens, at + 2).is_word("TO")
        found = moved(items, tokens, at - 1) if is_move else None
        if found:
            tokens = [*tokens[: at - 1], *words_of(tokens[at - 1], found[0]), *tokens[found[1] :]]
            count += 1
    for item in reversed(items.all):
        at = (item.value or 0) + token_at(tokens, item.value or 0).is_word("IS")
        size = item.size()
        if item.value and not item.below and is_all(tokens, at) and size and item.category() == "text":
            literal = tokens[at + 1].made(Kind.LITERAL, repeated(tokens[at + 1], size), is_glued=False)
            tokens = [*tokens[:at], literal, *tokens[at + 2 :]]
            count += 1
    work.tokens = tokens
    return count


REWRITING = Rewriting(
    name="all-texts",
    rule="MOVE ALL and VALUE ALL with a literal become the literal as often as it fits into the item",
    before="DATA DIVISION. WORKING-STORAGE SECTION. 77 A PIC X(3) VALUE ALL 'X'. "
    "PROCEDURE DIVISION. MOVE ALL '12' TO A.",
    after="DATA DIVISION. WORKING-STORAGE SECTION. 77 A PIC X(3) VALUE 'XXX'. PROCEDURE DIVISION. MOVE '121' TO A.",
    assumes="nothing",
    words=frozenset({"ALL"}),
    apply=apply,
)
