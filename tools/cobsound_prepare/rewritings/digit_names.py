"""Paragraphs and sections whose names are digits."""

from ..procedures import headers, named
from ..tokens import Kind
from ..work import Rewriting, Work, free_name, token_at


def apply(work: Work) -> int:
    tokens = work.tokens
    places = [header for header in headers(tokens) if tokens[header.at].kind is Kind.NUMBER]
    if not places:
        return 0
    used = work.words()
    given: dict[str, str] = {}
    for header in places:
        if header.name not in given:
            given[header.name] = free_name(f"P-{header.name}", used)
            used.add(given[header.name])
    all_names = {header.name for header in headers(tokens)}
    found = list(tokens)
    changed = {header.at for header in places}
    for at in named(tokens, all_names):
        if tokens[at].text in given:
            changed.add(at)
        if token_at(tokens, at + 1).is_word("OF", "IN") and token_at(tokens, at + 2).text in given:
            changed.add(at + 2)
    for at in changed:
        found[at] = tokens[at].word(given[tokens[at].text])
    work.tokens = found
    return len(changed)


REWRITING = Rewriting(
    name="digit-names",
    rule="paragraphs and sections whose names are digits alone get P- before them, also in PERFORM and GO TO",
    before="PROCEDURE DIVISION. PERFORM 100. STOP RUN. 100. DISPLAY 100.",
    after="PROCEDURE DIVISION. PERFORM P-100. STOP RUN. P-100. DISPLAY 100.",
    assumes="nothing",
    words=frozenset(),
    apply=apply,
)
