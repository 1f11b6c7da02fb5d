"""RETURN-CODE."""

from ..tokens import Kind, Token
from ..work import Rewriting, Work, division, free_name, line_of, token_at


def apply(work: Work) -> int:
    """Names an item in its place, and declares that, unless the source declares RETURN-CODE itself."""
    tokens = work.tokens
    places = [at for at, token in enumerate(tokens) if token.is_word("RETURN-CODE")]
    procedure = division(tokens, "PROCEDURE")
    declared = [at for at in places if at < procedure and token_at(tokens, at - 1).kind is Kind.NUMBER]
    if not places or declared or procedure == len(tokens):
        return 0
    name = free_name("RETURN-CODE-ITEM", work.words())
    found = list(tokens)
    for at in places:
        found[at] = found[at].word(name)
    at = behind_working_storage(found, procedure)
    entry = f"77 {name} PIC S9(9) BINARY VALUE 0."
    if at is None:
        new = lines_before(found[procedure], has_data(found, procedure), entry)
        found[procedure:procedure] = new
    else:
        found[at:at] = line_of(found[at - 1], entry)
    work.tokens = found
    return len(places)


def behind_working_storage(tokens: list[Token], procedure: int) -> int | None:
    """The place behind the header of WORKING-STORAGE."""
    for at in range(procedure - 2):
        if tokens[at].is_word("WORKING-STORAGE") and tokens[at + 2].kind is Kind.STOP:
            return at + 3
    return None


def has_data(tokens: list[Token], procedure: int) -> bool:
    return division(tokens, "DATA") < procedure


def lines_before(place: Token, has_division: bool, entry: str) -> list[Token]:
    """The headers that the entry needs, and the entry."""
    lines = [] if has_division else ["DATA DIVISION."]
    return [token for text in (*lines, "WORKING-STORAGE SECTION.", entry) for token in line_of(place, text)]


REWRITING = Rewriting(
    name="return-code",
    rule="RETURN-CODE becomes an item of WORKING-STORAGE, with nine digits and a sign, at first 0",
    before="DATA DIVISION. WORKING-STORAGE SECTION. PROCEDURE DIVISION. MOVE 8 TO RETURN-CODE.",
    after="DATA DIVISION. WORKING-STORAGE SECTION. 77 RETURN-CODE-ITEM PIC S9(9) BINARY VALUE 0. "
    "PROCEDURE DIVISION. MOVE 8 TO RETURN-CODE-ITEM.",
    assumes="the status with which the program ends says nothing of its faults; no LINKAGE SECTION stands where "
    "WORKING-STORAGE is put in",
    words=frozenset({"RETURN-CODE"}),
    apply=apply,
)
