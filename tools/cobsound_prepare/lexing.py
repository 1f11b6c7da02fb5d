"""From the words of the text to tokens: pictures are put together, commas fall away."""

from .tokens import Kind, Token


def lexed(tokens: list[Token]) -> list[Token]:
    """The tokens with each picture as one, and without commas. Their blocks then know how many they have."""
    found = with_pictures(tokens)
    found = [token for token in found if token.kind is not Kind.COMMA]
    for token in found:
        block = token.block
        if token.is_made:
            block.count = None
        elif block.count is not None:
            block.count += 1
    return found


def with_pictures(tokens: list[Token]) -> list[Token]:
    found: list[Token] = []
    done = 0
    for at in [at for at, token in enumerate(tokens) if token.upper in ("PIC", "PICTURE") and token.kind is Kind.WORD]:
        first = at + 1
        if first < done:
            continue
        if first + 1 < len(tokens) and tokens[first].is_word("IS") and not tokens[first + 1].is_glued:
            first += 1
        behind = first + 1
        while behind < len(tokens) and tokens[behind].is_glued:
            behind += 1
        if behind - first > 1 and tokens[behind - 1].kind in (Kind.STOP, Kind.COMMA):
            behind -= 1
        if first >= len(tokens) or tokens[first].kind is Kind.STOP:
            continue
        start = tokens[first]
        text = "".join(token.text for token in tokens[first:behind])
        picture = start.made(Kind.PICTURE, text)
        picture.is_made = any(token.is_made for token in tokens[first:behind])
        found += [*tokens[done:first], picture]
        done = behind
    return found + tokens[done:]
