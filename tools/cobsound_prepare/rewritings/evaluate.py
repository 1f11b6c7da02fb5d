"""EVALUATE of what the program doesn't take: with ALSO, of FALSE, literals and expressions, with NOT or expressions."""

from dataclasses import dataclass

from ..statements import ends_statement, matching_end, text_of
from ..tokens import Kind, Token
from ..work import Rewriting, Work, operand_end, token_at, words_of

RELATIONS = ("<", ">", "=", "<=", ">=", "<>", "IS", "EQUAL", "EQUALS", "GREATER", "LESS", "EXCEEDS")


@dataclass(frozen=True)
class When:
    """WHENs that follow each other: what each looks for, part by part, and where they begin and end. `is_other` is
    WHEN OTHER."""

    first: int
    behind: int
    choices: list[list[list[Token]]]
    is_other: bool


@dataclass(frozen=True)
class Evaluate:
    """An EVALUATE: what it looks at, part by part, where its first WHEN begins, and its WHENs."""

    subjects: list[list[Token]]
    first: int
    whens: list[When]


def parts(tokens: list[Token]) -> list[list[Token]]:
    """What stands between ALSOs."""
    found: list[list[Token]] = [[]]
    for token in tokens:
        if token.is_word("ALSO"):
            found.append([])
        else:
            found[-1].append(token)
    return found


def evaluate_at(tokens: list[Token], at: int) -> Evaluate | None:
    """The EVALUATE at a place; nothing where it isn't understood."""
    first = at + 1
    while first < len(tokens) and not ends_statement(tokens[first]):
        first += 1
    end = matching_end(tokens, at, "EVALUATE")
    whens, place = [], first
    while place < end and tokens[place].is_word("WHEN"):
        begin, choices = place, []
        while token_at(tokens, place).is_word("WHEN"):
            behind = place + 1
            while behind < end and not ends_statement(tokens[behind]):
                behind += 1
            choices.append(parts(tokens[place + 1 : behind]))
            place = behind
        is_other = [token.upper for choice in choices for part in choice for token in part] == ["OTHER"]
        whens.append(When(begin, place, choices, is_other))
        place = behind_list(tokens, place, end)
    return Evaluate(parts(tokens[at + 1 : first]), first, whens) if whens else None


def behind_list(tokens: list[Token], at: int, end: int) -> int:
    """The place of the next WHEN of this statement, or its end."""
    while at < end and not tokens[at].is_word("WHEN"):
        is_nested = tokens[at].is_word("EVALUATE", "SEARCH")
        at = matching_end(tokens, at, tokens[at].upper) + 1 if is_nested else at + 1
    return min(at, end)


def is_plain(found: Evaluate) -> bool:
    """Whether the program takes it as it stands."""
    subjects = found.subjects
    if len(subjects) > 1 or not is_word_alone(subjects[0]) or subjects[0][0].is_word("FALSE"):
        return False
    if subjects[0][0].is_word("TRUE"):
        return True
    choices = [choice for when in found.whens if not when.is_other for choice in when.choices]
    return all(is_value(part) for choice in choices for part in choice)


def is_word_alone(part: list[Token]) -> bool:
    return bool(part) and part[0].kind is Kind.WORD and operand_end(part, 0) == len(part)


def is_value(part: list[Token]) -> bool:
    """Whether it is ANY, one item or literal, or two with THRU."""
    end = operand_end(part, 0)
    if end < len(part) and part[end].is_word("THRU", "THROUGH"):
        end = operand_end(part, end + 1)
    return bool(part) and not part[0].is_word("NOT", "TRUE", "FALSE") and end == len(part)


def condition(subject: list[Token], wanted: list[Token]) -> str | None:
    """The condition that a part of a WHEN says, empty where it is met always; nothing where that isn't known."""
    if not subject or not wanted:
        return None
    it, want = text_of(subject), text_of(wanted)
    if want.upper() == "ANY":
        return ""
    if is_truth(subject):
        return of_truth(subject[0].upper == "TRUE", wanted)
    if is_truth(wanted):
        return f"({it})" if want.upper() == "TRUE" else f"NOT ({it})"
    is_denied = wanted[0].is_word("NOT")
    wanted = wanted[1:] if is_denied else wanted
    if not wanted or wanted[0].upper in RELATIONS:
        return None
    middle = next((at for at, token in enumerate(wanted) if token.is_word("THRU", "THROUGH")), len(wanted))
    low, high = text_of(wanted[:middle]), text_of(wanted[middle + 1 :])
    if middle == len(wanted):
        return f"{it} NOT = {low}" if is_denied else f"{it} = {low}"
    return f"NOT ({it} NOT < {low} AND {it} NOT > {high})" if is_denied else f"({it} NOT < {low} AND {it} NOT > {high})"


def is_truth(part: list[Token]) -> bool:
    return len(part) == 1 and part[0].is_word("TRUE", "FALSE")


def of_truth(is_true: bool, wanted: list[Token]) -> str | None:
    """A condition that is compared with TRUE or FALSE."""
    if is_truth(wanted):
        return "" if (wanted[0].upper == "TRUE") == is_true else None
    return f"({text_of(wanted)})" if is_true else f"NOT ({text_of(wanted)})"


def conditions(found: Evaluate) -> list[list[str]] | None:
    """The conditions of each WHEN; nothing where one isn't known. The last one may be met always, as by ANY alone:
    then it has the word OTHER."""
    made: list[list[str]] = []
    for when in found.whens:
        if when.is_other:
            made.append(["OTHER"])
            continue
        texts = []
        for choice in when.choices:
            said = [condition(subject, wanted) for subject, wanted in zip(found.subjects, choice)]
            if len(choice) != len(found.subjects) or None in said:
                return None
            texts.append(" AND ".join(text for text in said if text))
        is_last = when is found.whens[-1]
        if "" in texts:
            if not is_last:
                return None
            texts = ["OTHER"]
        made.append(texts)
    return made


def apply(work: Work) -> int:
    tokens, count = work.tokens, 0
    for at in reversed([at for at, token in enumerate(tokens) if token.is_word("EVALUATE")]):
        found = evaluate_at(tokens, at)
        if found is None or is_plain(found):
            continue
        said = conditions(found)
        if said is None:
            work.note(tokens[at], "this EVALUATE isn't taken: a part of a WHEN isn't understood")
            continue
        for when, texts in reversed(list(zip(found.whens, said))):
            place = tokens[when.first]
            new = [token for text in texts for token in words_of(place, f"WHEN {text}")]
            tokens = [*tokens[: when.first], *new, *tokens[when.behind :]]
        tokens = [*tokens[: at + 1], tokens[at].word("TRUE"), *tokens[found.first :]]
        count += 1
    work.tokens = tokens
    return count


REWRITING = Rewriting(
    name="evaluate",
    rule="EVALUATE with ALSO, of FALSE, of a literal or an expression, or with NOT or an expression behind WHEN "
    "becomes EVALUATE TRUE, and each WHEN the condition that its parts say, joined by AND",
    before="PROCEDURE DIVISION. EVALUATE A ALSO TRUE WHEN 1 ALSO B > 2 STOP RUN WHEN NOT 3 THRU 5 ALSO ANY CONTINUE "
    "WHEN OTHER STOP RUN END-EVALUATE.",
    after="PROCEDURE DIVISION. EVALUATE TRUE WHEN A = 1 AND (B > 2) STOP RUN "
    "WHEN NOT (A NOT < 3 AND A NOT > 5) CONTINUE WHEN OTHER STOP RUN END-EVALUATE.",
    assumes="what an expression that is looked at is worth is asked at each WHEN, not once",
    words=frozenset({"EVALUATE"}),
    apply=apply,
)
