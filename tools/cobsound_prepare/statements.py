"""Where statements and what stands in them begin and end."""

from .tokens import Kind, Token
from .work import operand_end, token_at

VERBS = frozenset(
    "ACCEPT ADD ALTER CALL CANCEL CLOSE COMPUTE CONTINUE DELETE DISPLAY DIVIDE EVALUATE EXIT GENERATE GO GOBACK IF "
    "INITIALIZE INITIATE INSPECT MERGE MOVE MULTIPLY OPEN PERFORM READ RELEASE RETURN REWRITE SEARCH SET SORT START "
    "STOP STRING SUBTRACT TERMINATE UNSTRING WRITE".split()
)
# What ends a list of statements, or stands between two lists of one statement.
PHRASES = frozenset({"ELSE", "WHEN"})


def is_verb(token: Token) -> bool:
    return token.kind is Kind.WORD and token.upper in VERBS


def ends_statement(token: Token) -> bool:
    """Whether a statement that has no lists of its own can't go on with this."""
    is_end = token.kind is Kind.WORD and (token.upper in PHRASES or token.upper.startswith("END-"))
    return token.kind is Kind.STOP or is_end or is_verb(token)


def statement_end(tokens: list[Token], at: int) -> int:
    """The place behind what stands from here, up to the next verb, END- word, ELSE, WHEN or point."""
    while at < len(tokens) and not ends_statement(tokens[at]):
        at += 1
    return at


def phrase_end(tokens: list[Token], at: int, *words: str) -> int:
    """The place of the first of these words, or where the statement ends before one."""
    end = statement_end(tokens, at)
    return next((place for place in range(at, end) if tokens[place].is_word(*words)), end)


def is_inline(tokens: list[Token], at: int) -> bool:
    """Whether a PERFORM has its statements in itself, up to END-PERFORM."""
    first = token_at(tokens, at + 1)
    if first.kind is Kind.NUMBER:
        return token_at(tokens, at + 2).is_word("TIMES")
    if is_verb(first) or first.is_word("UNTIL", "VARYING", "WITH", "TEST"):
        return True
    return token_at(tokens, operand_end(tokens, at + 1)).is_word("TIMES")


def matching_end(tokens: list[Token], at: int, verb: str) -> int:
    """The place of the END- word of this verb that belongs to the statement at a place; where its sentence ends,
    where there is none."""
    deep = 0
    while at < len(tokens) and tokens[at].kind is not Kind.STOP:
        if tokens[at].is_word(verb) and (verb != "PERFORM" or is_inline(tokens, at)):
            deep += 1
        elif tokens[at].is_word(f"END-{verb}"):
            deep -= 1
            if deep == 0:
                return at
        at += 1
    return at


def text_of(tokens: list[Token]) -> str:
    """The tokens as text, with a space between two that don't hang together."""
    return "".join(token.text if token.is_glued and at else f" {token.text}" for at, token in enumerate(tokens)).strip()
