"""Sections of the PROCEDURE DIVISION."""

from bisect import bisect
from dataclasses import dataclass, field

from ..procedures import Header, behind_name, headers, named
from ..tokens import Kind, Token
from ..work import Rewriting, Work, division, free_name, token_at


@dataclass
class Sections:
    """The headers of a program, and the names that its paragraphs get."""

    headers: list[Header]
    given: dict[tuple[str, str], str] = field(default_factory=dict)  # of section and name
    names: set[str] = field(default_factory=set)

    def last(self, section: str) -> str | None:
        """The name of a section's last paragraph, where it has any."""
        inside = [header for header in self.headers if not header.is_section and header.section == section]
        return self.given[section, inside[-1].name] if inside else None

    def section_at(self, at: int) -> str:
        """The section in which a place stands; empty before the first."""
        behind = bisect(self.headers, at, key=lambda header: header.at)
        here = self.headers[behind - 1] if behind else None
        return (here.name if here.is_section else here.section) if here else ""

    def are(self, name: str) -> bool:
        return any(header.is_section and header.name == name for header in self.headers)

    def paragraph(self, name: str, section: str) -> str | None:
        """The name that a paragraph gets: that of the section, else the only one that is so called."""
        if (section, name) in self.given:
            return self.given[section, name]
        others = [new for (_, old), new in self.given.items() if old == name]
        return others[0] if len(others) == 1 else None


def read(tokens: list[Token], used: set[str]) -> Sections:
    """The sections, with a name of its own for each paragraph whose name isn't the only one."""
    found = Sections(list(headers(tokens)))
    counts: dict[str, int] = {}
    for header in found.headers:
        counts[header.name] = counts.get(header.name, 0) + 1
    for header in found.headers:
        if header.is_section or (header.section, header.name) in found.given:
            continue
        name = header.name
        if counts[name] > 1:
            name = free_name(f"{name}-OF-{header.section}" if header.section else name, used)
            used.add(name)
        found.given[header.section, header.name] = name
    found.names = set(counts)
    return found


def apply(work: Work) -> int:
    tokens = work.tokens
    procedure = division(tokens, "PROCEDURE")
    if not any(token.is_word("SECTION") for token in tokens[procedure:]):
        return 0
    declaratives = next((token for token in tokens[procedure:] if token.is_word("DECLARATIVES")), None)
    if declaratives:
        work.note(declaratives, "DECLARATIVES isn't taken, and sections beside it stay")
        return 0
    found = read(tokens, work.words())
    edits: dict[int, tuple[int, list[Token]]] = {}
    for header in found.headers:
        edits[header.at] = of_header(tokens, header, found)
    for at in named(tokens, found.names):
        edits[at] = of_name(tokens, at, found)
    made: list[Token] = []
    done = 0
    for at in sorted(edits):
        behind, new = edits[at]
        made += [*tokens[done:at], *new]
        done = behind
    work.tokens = made + tokens[done:]
    return len(edits)


def of_header(tokens: list[Token], header: Header, found: Sections) -> tuple[int, list[Token]]:
    """Where a header's name ends, and what stands in its place."""
    token = tokens[header.at]
    if header.is_section:
        behind = header.at + 2
        while token_at(tokens, behind).kind is Kind.NUMBER:
            behind += 1
        return behind, [token]
    return header.at + 1, [renamed(token, found.given[header.section, header.name])]


def renamed(token: Token, name: str) -> Token:
    return token if token.upper == name else token.word(name)


def of_name(tokens: list[Token], at: int, found: Sections) -> tuple[int, list[Token]]:
    """Where a name in PERFORM or GO TO ends, and what stands in its place."""
    token, behind = tokens[at], behind_name(tokens, at)
    section = found.section_at(at)
    if behind > at + 1:
        section = token_at(tokens, at + 2).upper
    elif found.are(token.upper) and (section, token.upper) not in found.given:
        return behind, of_section(tokens, at, token, found.last(token.upper))
    name = found.paragraph(token.upper, section)
    return (behind, [renamed(token, name)]) if name else (at + 1, [token])


def of_section(tokens: list[Token], at: int, token: Token, last: str | None) -> list[Token]:
    """A section's name: with THRU and its last paragraph where it is performed, that one where it ends a range."""
    if last is None or token_at(tokens, at - 1).is_word("GO", "TO"):
        return [token]
    if token_at(tokens, at - 1).is_word("THRU", "THROUGH"):
        return [token.word(last)]
    if token_at(tokens, at + 1).is_word("THRU", "THROUGH"):
        return [token]
    return [token, token.word("THRU"), token.word(last)]


REWRITING = Rewriting(
    name="sections",
    rule="a section's header becomes a paragraph of its name, PERFORM of it PERFORM THRU its last paragraph; "
    "paragraphs whose name isn't the only one get -OF- and their section's name, and names in PERFORM and GO TO those "
    "of what they mean; not beside DECLARATIVES",
    before="PROCEDURE DIVISION. PERFORM B. STOP RUN. A SECTION. X. DISPLAY 1. "
    "B SECTION 50. X. DISPLAY 2. Y. GO TO X.",
    after="PROCEDURE DIVISION. PERFORM B THRU Y. STOP RUN. A. X-OF-A. DISPLAY 1. "
    "B. X-OF-B. DISPLAY 2. Y. GO TO X-OF-B.",
    assumes="nothing",
    words=frozenset({"SECTION"}),
    apply=apply,
)
