"""What isn't in the profile and has no word of its own: each row of the guide's table with a description has a function
here, by that description."""

import itertools
import re
from collections.abc import Callable, Iterator

from .declared import Kind, Reading
from .forms import is_wide
from .scan import Sort, Spot, Token, spot

USAGES = (
    "USAGE", "DISPLAY", "COMP", "COMPUTATIONAL", "BINARY", "COMP-3", "COMPUTATIONAL-3", "PACKED-DECIMAL", "SIGN",
    "LEADING", "TRAILING",
)  # fmt: skip
FIGURATIVES = ("SPACE", "SPACES", "LOW-VALUE", "LOW-VALUES", "HIGH-VALUE", "HIGH-VALUES", "QUOTE", "QUOTES")
RELATIONS = ("=", "<", ">", "<=", ">=", "<>")
RELATION_WORDS = ("IS", "EQUAL", "GREATER", "LESS", "NUMERIC", "POSITIVE", "NEGATIVE", "ZERO", "NOT", "ALPHABETIC")


def second_programs(source: Reading) -> Iterator[Spot]:
    pairs = zip(source.tokens, source.tokens[1:])
    headers = [token for token, behind in pairs if behind.is_word("DIVISION")]
    programs = [token for token in headers if token.is_word("IDENTIFICATION", "ID")]
    yield from (spot(token) for token in programs[1:])


def reserved_names(source: Reading) -> Iterator[Spot]:
    """Entries whose name is a word of the profile."""
    for entry in source.entries:
        if entry.name and entry.name.text in source.reserved and entry.name is not entry.picture:
            yield spot(entry.name)


def signs(source: Reading) -> Iterator[Spot]:
    """LEADING and TRAILING without SEPARATE."""
    for entry in source.entries:
        sign = entry.token("LEADING", "TRAILING")
        if sign and not entry.token("SEPARATE"):
            yield spot(sign)


def pictures(source: Reading) -> Iterator[Spot]:
    """Pictures that aren't allowed: with another symbol, or a V beside editing."""
    for entry in source.entries:
        if entry.picture and not is_allowed(entry.picture.text):
            yield spot(entry.picture)


def is_allowed(picture: str) -> bool:
    symbols = re.sub(r"\([0-9]+\)", "", picture)
    return bool(re.fullmatch(r"[X9]*X[X9]*|S?9*V?9*|[9Z,B0/]*\.?[9Z,B0/]*", symbols))


def group_usages(source: Reading) -> Iterator[Spot]:
    yield from clauses_of(source, Kind.GROUP, *USAGES)


def group_values(source: Reading) -> Iterator[Spot]:
    yield from clauses_of(source, Kind.GROUP, "VALUE", "VALUES")


def edited_values(source: Reading) -> Iterator[Spot]:
    yield from clauses_of(source, Kind.EDITED, "VALUE", "VALUES")


def clauses_of(source: Reading, kind: Kind, *words: str) -> Iterator[Spot]:
    """The first of some words in each entry of a kind."""
    for entry in source.entries:
        clause = entry.token(*words) if entry.kind == kind else None
        if clause:
            yield spot(clause)


def group_conditions(source: Reading) -> Iterator[Spot]:
    for entry in source.entries:
        if entry.level == 88 and entry.above and entry.above.kind == Kind.GROUP:
            yield spot(entry.name or entry.tokens[0])


def statuses(source: Reading) -> Iterator[Spot]:
    """Items of FILE STATUS that aren't `PIC XX`."""
    for at, token in enumerate(source.tokens):
        if token.is_word("STATUS") and source.parts[at] == "ENVIRONMENT":
            behind = [name for name in source.tokens[at + 1 : at + 3] if not name.is_word("IS")]
            kind = source.item_kind(behind[0].text) if behind else None
            if kind in (Kind.GROUP, Kind.NUMBER, Kind.EDITED):
                yield spot(behind[0])


def procedure(source: Reading) -> Iterator[tuple[int, Token]]:
    """The tokens of the PROCEDURE DIVISION with their numbers, but for the last ones, behind which nothing stands."""
    for at, token in enumerate(source.tokens[:-1]):
        if source.parts[at] == "PROCEDURE":
            yield at, token


def evaluated(source: Reading) -> Iterator[Spot]:
    """EVALUATE of what is neither TRUE nor an item."""
    for at, token in procedure(source):
        if token.is_word("EVALUATE"):
            subject = source.tokens[at + 1]
            if subject.is_word("FALSE") or subject.sort in (Sort.NUMBER, Sort.TEXT, Sort.MARK):
                yield spot(subject)
                continue
            behind = source.tokens[at + 2 : at + 3]
            if behind and behind[0].sort == Sort.MARK and behind[0].text in "+-*/":
                yield spot(behind[0])


def selections(source: Reading) -> Iterator[Spot]:
    """WHEN with NOT, or with an expression, under an item."""
    subjects: list[bool] = []
    for at, token in procedure(source):
        behind = source.tokens[at + 1 : at + 3]
        if token.is_word("EVALUATE"):
            subjects.append(not behind[0].is_word("TRUE", "FALSE"))
        elif token.is_word("END-EVALUATE") or token.sort == Sort.STOP:
            subjects = subjects[:-1] if token.sort == Sort.WORD else []
        elif token.is_word("WHEN") and subjects and subjects[-1]:
            if behind[0].is_word("NOT"):
                yield spot(behind[0])
            elif len(behind) > 1 and behind[1].sort == Sort.MARK and behind[1].text in "+-*/":
                yield spot(behind[1])


def negated_values(source: Reading) -> Iterator[Spot]:
    """NOT before a value alone, behind AND or OR."""
    for at, token in procedure(source):
        if token.is_word("AND", "OR") and source.tokens[at + 1].is_word("NOT"):
            value = source.tokens[at + 2 : at + 4]
            is_value = value and (value[0].sort in (Sort.NUMBER, Sort.TEXT) or is_item(source, value[0]))
            if is_value and not (len(value) > 1 and is_relation(value[1])):
                yield spot(source.tokens[at + 1], value[0])


def is_item(source: Reading, token: Token) -> bool:
    return source.item_kind(token.text) in (Kind.NUMBER, Kind.TEXT)


def is_relation(token: Token) -> bool:
    return token.text in RELATIONS or token.is_word(*RELATION_WORDS, "OF", "IN") or token.text in tuple("+-*/(")


def reference_modification(source: Reading) -> Iterator[Spot]:
    yield from (spot(name) for name, inner in subscripted(source) if ":" in inner)


def subscripts(source: Reading) -> Iterator[Spot]:
    yield from (spot(name) for name, inner in subscripted(source) if ":" not in inner)


def subscripted(source: Reading) -> Iterator[tuple[Token, list[str]]]:
    """Names with what stands in parentheses directly behind them."""
    for at, token in procedure(source):
        if token.sort == Sort.WORD and token.text not in source.reserved and source.tokens[at + 1].text == "(":
            inner = []
            for other in source.tokens[at + 2 :]:
                if other.text == ")" or other.sort == Sort.STOP:
                    break
                inner.append(other.text)
            if not source.tokens[at - 1].is_word("FUNCTION"):
                yield token, inner


def group_classes(source: Reading) -> Iterator[Spot]:
    """NUMERIC asked of a group."""
    for at, token in procedure(source):
        if source.item_kind(token.text) == Kind.GROUP:
            behind = [other.text for other in source.tokens[at + 1 : at + 4] if other.text not in ("IS", "NOT")]
            if behind[:1] == ["NUMERIC"]:
                yield spot(token)


def moves(source: Reading) -> Iterator[tuple[Token, list[Token]]]:
    """The sender of each MOVE, and the receivers."""
    for at, token in procedure(source):
        if token.is_word("MOVE"):
            receivers: list[Token] = []
            is_behind = False
            for other in source.tokens[at + 2 :]:
                if other.sort == Sort.STOP or other.text in source.reserved and not other.is_word("TO", "OF", "IN"):
                    break
                receivers += [other] if is_behind else []
                is_behind |= other.is_word("TO")
            yield source.tokens[at + 1], receivers


def edited_senders(source: Reading) -> Iterator[Spot]:
    for sender, receivers in moves(source):
        if source.item_kind(sender.text) == Kind.EDITED:
            yield from (spot(sender) for name in receivers if source.item_kind(name.text) in (Kind.NUMBER, Kind.EDITED))


def figurative_senders(source: Reading) -> Iterator[Spot]:
    for sender, receivers in moves(source):
        if sender.is_word(*FIGURATIVES):
            yield from (spot(name) for name in receivers if source.item_kind(name.text) in (Kind.NUMBER, Kind.EDITED))


def first_of(what: str, places: list[tuple[int, int]], length: int = 1) -> Iterator[Spot]:
    """The first of some places alone, where a source may have one on each line."""
    more = {1: "", 2: ", and on another line"}.get(len(places), f", and on {len(places) - 1} further lines")
    if places:
        yield Spot(f"{what}{more}", *places[0], length)


def inline_comments(source: Reading) -> Iterator[Spot]:
    yield from first_of("*>", source.notes, 2)


def directives(source: Reading) -> Iterator[Spot]:
    yield from source.directives


def prefixed_texts(source: Reading) -> Iterator[Spot]:
    yield from (spot(token) for token in source.tokens if token.sort == Sort.TEXT and token.text[0] not in "'\"")


def commas(source: Reading) -> Iterator[Spot]:
    """A comma or a semicolon that something follows directly."""
    for token, behind in zip(source.tokens, source.tokens[1:]):
        if token.sort == Sort.MARK and token.text in ",;":
            if (token.line, token.column + 1) == (behind.line, behind.column):
                yield spot(token)


def odd_names(source: Reading) -> Iterator[Spot]:
    """Words that no name may be, and paragraph-names of digits."""
    for token in source.tokens:
        if token.sort == Sort.WORD and ("_" in token.text or token.length > 30):
            yield spot(token)
    yield from (spot(token) for token in source.paragraphs.values() if token.sort == Sort.NUMBER)


def long_numbers(source: Reading) -> Iterator[Spot]:
    for token in source.tokens:
        if token.sort == Sort.NUMBER and sum(character.isdigit() for character in token.text) > 18:
            yield spot(token)


def tabs(source: Reading) -> Iterator[Spot]:
    """Tabs in the columns 1 to 72, but for the text of comments."""
    found = []
    for number, raw in enumerate(source.lines, 1):
        at = raw.find(b"\t", 0, 7 if is_comment(raw) else 72)
        found += [(number, at + 1)] if at >= 0 else []
    yield from first_of("tab", found)


def wide_characters(source: Reading) -> Iterator[Spot]:
    """Characters beyond ASCII in the text of lines."""
    found = []
    for number, raw in enumerate(source.lines, 1):
        wide = () if is_comment(raw) else (at for at, byte in enumerate(raw[7:72], 8) if is_wide(byte))
        found += [(number, at) for at in itertools.islice(wide, 1)]
    if found:
        line, column = found[0]
        raw = source.lines[line - 1][column - 1 :]
        utf8 = re.match(rb"[\xc2-\xf4][\x80-\xbf]+", raw)
        text = utf8[0].decode("utf-8", "replace") if utf8 else raw[:1].decode("latin-1")
        yield from first_of(text if text.isprintable() else f"byte {raw[0]}", found, len(utf8[0]) if utf8 else 1)


def is_comment(raw: bytes) -> bool:
    return raw[6:7] in (b"*", b"/", b"D", b"d")


def performed_by_itself(_: Reading) -> Iterator[Spot]:
    """What PERFORM and GO TO demand is seen by the program alone, which tells the line."""
    yield from ()


SHAPES: dict[str, Callable[[Reading], Iterator[Spot]]] = {
    "a second program": second_programs,
    "a word of the profile in place of a name": reserved_names,
    "SIGN without SEPARATE": signs,
    "a picture with another symbol, or with V beside editing": pictures,
    "a usage of a group": group_usages,
    "a VALUE of a group": group_values,
    "a VALUE of an edited item": edited_values,
    "an 88 of a group": group_conditions,
    "a FILE STATUS in a group or a number": statuses,
    "EVALUATE of FALSE, of a literal or of an expression": evaluated,
    "NOT or an expression in WHEN under an item": selections,
    "NOT before a value alone": negated_values,
    "reference modification": reference_modification,
    "a subscript": subscripts,
    "NUMERIC of a group": group_classes,
    "a MOVE of an edited item to a number": edited_senders,
    "a MOVE of SPACES or LOW-VALUES to a number": figurative_senders,
    "a tab": tabs,
    "a character beyond ASCII": wide_characters,
    "a comment within a line": inline_comments,
    "a directive": directives,
    "a literal with a letter before it": prefixed_texts,
    "a comma without a space behind it": commas,
    "a name with an underscore, of digits alone, or longer than 30 characters": odd_names,
    "a number of more than 18 digits": long_numbers,
    # told by the program's own line, or of the whole source
    "a paragraph that performs itself": performed_by_itself,
    "a range that performs its own last paragraph, or overlaps in part with one that it performs": performed_by_itself,
    "a GO TO out of what is performed": performed_by_itself,
    "free form": performed_by_itself,
    "EBCDIC": performed_by_itself,
}
