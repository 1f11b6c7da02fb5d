"""Reference modification and FUNCTION."""

from collections.abc import Iterator

from ..assuming import Assumed, Parts
from ..items import reference_at
from ..statements import is_inline, text_of
from ..structure import Statement
from ..tokens import Token
from ..work import Rewriting, Work, operand_end


def is_odd(tokens: list[Token]) -> bool:
    """Whether a part of an item, or a function, stands there."""
    return any(token.text == ":" or token.is_word("FUNCTION") for token in tokens)


def operands(tokens: list[Token]) -> Iterator[tuple[int, int]]:
    """Where each operand begins and ends."""
    at = 0
    while at < len(tokens):
        behind = at + 1 if tokens[at].is_word("FUNCTION") else at
        behind = operand_end(tokens, behind)
        while behind < len(tokens) and tokens[behind].text == "(":
            behind = closed(tokens, behind)
        yield at, behind
        at = behind


def closed(tokens: list[Token], at: int) -> int:
    """The place behind the parenthesis that closes the one at a place."""
    deep = 0
    while at < len(tokens):
        deep += (tokens[at].text == "(") - (tokens[at].text == ")")
        at += 1
        if deep == 0:
            break
    return at


def forgotten(here: Assumed, made: Statement, targets: list[Token], is_number: bool) -> list[str] | None:
    """Statements behind which each receiver holds anything."""
    texts = []
    kept = [token for token in targets if not token.is_word("ROUNDED")]
    for first, _ in operands(kept):
        item = here.unknown.items.named(reference_at(kept, first)[0])
        text = here.unknown.forget(item, is_number) if item else None
        if text is None:
            here.refused(made)
            return None
        texts.append(text)
    return texts


def move(here: Assumed, made: Statement) -> Parts | None:
    head = here.head(made)
    to = next((at for at, token in enumerate(head) if token.is_word("TO")), None)
    texts = forgotten(here, made, head[to + 1 :], False) if to and is_odd(head) else None
    return None if texts is None else list(texts)


def compute(here: Assumed, made: Statement) -> Parts | None:
    head = here.head(made)
    equals = next((at for at, token in enumerate(head) if token.text == "=" or token.is_word("EQUAL")), None)
    texts = forgotten(here, made, head[:equals], True) if equals and is_odd(head) else None
    return None if texts is None else [*texts, *here.chosen(made)]


def display(here: Assumed, made: Statement) -> Parts | None:
    """What can't be said isn't shown."""
    head = here.head(made)
    if not is_odd(head):
        return None
    kept = [text_of(head[first:behind]) for first, behind in operands(head) if not is_odd(head[first:behind])]
    return [f"DISPLAY {' '.join(kept) or chr(39) + '?' + chr(39)}"]


def branched(here: Assumed, made: Statement) -> Parts | None:
    if not is_odd(here.head(made)):
        return None
    parts: Parts = [f"{here.unknown.read()} IF {here.unknown.choice()}"]
    for phrase in made.phrases:
        parts += [*(["ELSE"] if phrase.is_denied else []), phrase]
    return [*parts, "END-IF"]


def evaluated(here: Assumed, made: Statement) -> Parts | None:
    """Where one of its parts isn't said, any of its lists may be done."""
    heads = [here.tokens[phrase.head : phrase.first] for phrase in made.phrases]
    if not is_odd(here.head(made)) and not any(is_odd(head) for head in heads):
        return None
    parts: Parts = [f"{here.unknown.read()} EVALUATE TRUE"]
    for phrase, head in zip(made.phrases, heads):
        is_other = [token.upper for token in head] == ["WHEN", "OTHER"]
        parts += ["WHEN OTHER" if is_other else f"WHEN {here.unknown.choice()}", phrase]
    return [*parts, "END-EVALUATE"]


def performed(here: Assumed, made: Statement) -> Parts | None:
    """A loop ends when its turn may be the last one."""
    head = here.head(made)
    until = next((at for at, token in enumerate(head) if token.is_word("UNTIL")), None)
    if until is None or not is_odd(head):
        return None
    if is_odd(head[:until]):
        here.refused(made)
        return None
    read, loop = here.unknown.read(), f"UNTIL {here.unknown.choice()}"
    if is_inline(here.tokens, made.first):
        return [f"{read} PERFORM {text_of(head[:until])} {loop}", *made.phrases, f"{read} END-PERFORM"]
    names = next((at for at, token in enumerate(head) if token.is_word("WITH", "TEST", "VARYING", "UNTIL")), until)
    begin = f"{read} PERFORM {text_of(head[names:until])} {loop}"
    return [f"{begin} PERFORM {text_of(head[:names])} {read} END-PERFORM"]


HANDLERS = {
    "MOVE": move,
    "COMPUTE": compute,
    "DISPLAY": display,
    "IF": branched,
    "EVALUATE": evaluated,
    "PERFORM": performed,
}


def apply(work: Work) -> int:
    return Assumed(work, HANDLERS).applied()


REWRITING = Rewriting(
    name="assumed-parts",
    rule="where a part of an item or FUNCTION stands in MOVE or COMPUTE the receivers hold anything behind it, of "
    "COMPUTE any number; in IF, EVALUATE and UNTIL the condition may hold or not; DISPLAY leaves it out",
    before="DATA DIVISION. WORKING-STORAGE SECTION. 77 A PIC X(2). 77 B PIC X. "
    "PROCEDURE DIVISION. MOVE A(1:1) TO B. STOP RUN.",
    after="DATA DIVISION. WORKING-STORAGE SECTION. 77 A PIC X(2). 77 B PIC X. "
    "PROCEDURE DIVISION. READ UNKNOWN-FILE MOVE UNKNOWN-RECORD TO B. STOP RUN.",
    assumes="these statements have no faults of their own: parts lie within their items, and results fit",
    words=frozenset({":", "FUNCTION"}),
    apply=apply,
    is_assumed=True,
)
