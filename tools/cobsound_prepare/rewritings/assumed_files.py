"""Files that the program doesn't read: indexed, relative, of lines, with records of several lengths, extended, updated,
and those of SORT and MERGE."""

from collections.abc import Iterator
from dataclasses import dataclass

from ..assuming import Assumed, Parts
from ..items import Item, Items, reference_at
from ..statements import text_of
from ..structure import Statement
from ..tokens import Kind, Token
from ..unknown import Unknown
from ..work import Rewriting, Work, behind_stop, division, sentences, token_at

# The words of SELECT and of FD by which a file is one of these.
SELECTED = frozenset("INDEXED RELATIVE LINE KEY RANDOM DYNAMIC OPTIONAL PASSWORD LOCK COLLATING".split())
DESCRIBED = frozenset("VARYING DEPENDING LINAGE EXTERNAL GLOBAL REPORT REPORTS".split())
MODES = ("INPUT", "OUTPUT", "I-O", "EXTEND")


@dataclass
class File:
    """A file: the places of its SELECT and of its FD, its records, the names of its FILE STATUS and RELATIVE KEY."""

    name: str
    select: range
    description: range
    records: list[Item]
    status: list[str] | None = None
    key: list[str] | None = None
    is_assumed: bool = False


def clause(tokens: list[Token], places: range, *words: str) -> list[str] | None:
    """The name behind these words, and IS."""
    for at in places:
        if all(token_at(tokens, at + number).is_word(word) for number, word in enumerate(words)):
            at += len(words)
            at += token_at(tokens, at).is_word("IS")
            return reference_at(tokens, at)[0]
    return None


def files_of(tokens: list[Token], items: Items) -> dict[str, File]:
    """The files of a source, by name."""
    end = division(tokens, "PROCEDURE")
    selects: dict[str, range] = {}
    found: dict[str, File] = {}
    for first, behind in sentences(tokens, 0, end):
        head = token_at(tokens, first)
        if head.is_word("SELECT"):
            is_optional = token_at(tokens, first + 1).is_word("OPTIONAL")
            selects[token_at(tokens, first + 1 + is_optional).upper] = range(first, behind)
        elif head.is_word("FD", "SD"):
            name = token_at(tokens, first + 1).upper
            select = selects.get(name, range(first, first))
            file = File(name, select, range(first, behind), list(records(tokens, items, behind)))
            file.status = clause(tokens, select, "STATUS")
            file.key = clause(tokens, select, "RELATIVE", "KEY")
            words = {token.upper for token in (*tokens[select.start : select.stop], *tokens[first:behind])}
            is_range = {"TO"} <= {token.upper for token in tokens[first + 2 : behind]} and "RECORD" in words
            file.is_assumed = head.is_word("SD") or bool(words & (SELECTED | DESCRIBED)) or is_range
            found[name] = file
    return found


def records(tokens: list[Token], items: Items, at: int) -> Iterator[Item]:
    """The records whose entries follow a file's description."""
    for item in items.all:
        if item.first >= at and item.above is None:
            between = tokens[at : item.first]
            if any(token.is_word("FD", "SD", "SECTION") for token in between):
                return
            yield item


def mark_statements(tokens: list[Token], files: dict[str, File]) -> None:
    """Files that are extended, updated, or rewritten by statements of the program."""
    by_record = {record.name: file for file in files.values() for record in file.records}
    mode = ""
    for at in range(division(tokens, "PROCEDURE"), len(tokens)):
        token = tokens[at]
        mode = token.upper if token.is_word(*MODES) else mode
        if token.is_word("REWRITE") and token_at(tokens, at + 1).upper in by_record:
            by_record[tokens[at + 1].upper].is_assumed = True
        elif token.is_word("DELETE", "START") and token_at(tokens, at + 1).upper in files:
            files[tokens[at + 1].upper].is_assumed = True
        elif token.upper in files and mode in ("I-O", "EXTEND") and is_in_open(tokens, at):
            files[token.upper].is_assumed = True


def is_in_open(tokens: list[Token], at: int) -> bool:
    """Whether a place is one of the files of an OPEN."""
    while at > 0 and tokens[at].kind is Kind.WORD and not tokens[at].is_word("OPEN"):
        at -= 1
        if tokens[at].is_word("CLOSE", "READ", "START", "DELETE"):
            return False
    return tokens[at].is_word("OPEN")


class Files:
    """The files that give way, and what stands in the place of their statements."""

    def __init__(self, work: Work):
        self.work = work
        self.items = Unknown.of(work).items
        every = files_of(work.tokens, self.items)
        mark_statements(work.tokens, every)
        self.files = {name: file for name, file in every.items() if file.is_assumed and self.is_known(file)}
        self.by_record = {record.name: file for file in self.files.values() for record in file.records}

    def is_known(self, file: File) -> bool:
        """Whether all that is said of it can be: how long its records are, and where its status lies."""
        named = [names for names in (file.status, file.key) if names]
        is_known = all(record.size() and record.name for record in file.records) and file.records
        if not is_known or not all(self.items.named(names) for names in named):
            place = self.work.tokens[file.description.start]
            self.work.note(place, f"the file {file.name} isn't taken: its records aren't known")
            return False
        return True

    def forgotten(self, here: Assumed, file: File, *others: Item | None) -> Parts | None:
        """Statements behind which its records, its status and other items hold anything."""
        longest = max(file.records, key=lambda record: record.size() or 0)
        status = self.items.named(file.status) if file.status else None
        key = self.items.named(file.key) if file.key else None
        texts = [here.unknown.forget(item) for item in (longest, status, *others) if item]
        texts += [here.unknown.forget(key, True)] if key else []
        return None if None in texts else [text for text in texts if text]

    def told(self, here: Assumed, made: Statement, file: File | None, *others: Item | None) -> Parts | None:
        if file is None:
            return None
        texts = self.forgotten(here, file, *others)
        if texts is None:
            here.refused(made)
            return None
        return [*texts, *here.chosen(made)]

    def into(self, head: list[Token]) -> Item | None:
        at = next((at + 1 for at, token in enumerate(head) if token.is_word("INTO")), len(head))
        return self.items.named(reference_at(head, at)[0]) if at < len(head) else None

    def read_(self, here: Assumed, made: Statement) -> Parts | None:
        head = here.head(made)
        return self.told(here, made, self.files.get(head[0].upper) if head else None, self.into(head))

    def written(self, here: Assumed, made: Statement) -> Parts | None:
        head = here.head(made)
        return self.told(here, made, self.by_record.get(head[0].upper) if head else None)

    def opened(self, here: Assumed, made: Statement) -> Parts | None:
        """OPEN and CLOSE keep the files that don't give way."""
        head = here.head(made)
        if not any(token.upper in self.files for token in head):
            return None
        kept: list[str] = []
        texts: Parts = []
        for token in head:
            if token.upper in self.files:
                status = self.files[token.upper].status
                item = self.items.named(status) if status else None
                texts += [here.unknown.forget(item) or ""] if item else []
            elif token.is_word(*MODES):
                kept = [*(kept[:-1] if kept and kept[-1].upper() in MODES else kept), token.text]
            else:
                kept.append(token.text)
        kept = kept[:-1] if kept and kept[-1].upper() in MODES else kept
        texts += [f"{made.verb} {' '.join(kept)}"] if kept else []
        return texts or ["CONTINUE"]

    def sorted_(self, here: Assumed, made: Statement) -> Parts | None:
        """The procedures of SORT and MERGE are performed."""
        head = here.head(made)
        if not head or head[0].upper not in self.files:
            return None
        parts: Parts = []
        for at, token in enumerate(head):
            if token.is_word("PROCEDURE"):
                first = at + 1 + token_at(head, at + 1).is_word("IS")
                behind = first + 3 if token_at(head, first + 1).is_word("THRU", "THROUGH") else first + 1
                parts.append(f"PERFORM {text_of(head[first:behind])}")
        return parts or ["CONTINUE"]

    def handlers(self) -> dict:
        read_, written = self.read_, self.written
        return {
            **dict.fromkeys(("READ", "RETURN", "DELETE", "START"), read_),
            **dict.fromkeys(("WRITE", "REWRITE", "RELEASE"), written),
            **dict.fromkeys(("OPEN", "CLOSE"), self.opened),
            **dict.fromkeys(("SORT", "MERGE"), self.sorted_),
        }

    def without(self, tokens: list[Token]) -> list[Token]:
        """The tokens of a source without these files, whose records lie in WORKING-STORAGE."""
        dropped: set[int] = set()
        moved: list[Token] = []
        for file in self.files.values():
            dropped |= {*file.select, *file.description}
            first = max(file.records, key=lambda record: record.size() or 0)
            for record in (first, *(record for record in file.records if record is not first)):
                places = range(record.first, end_of(tokens, record))
                dropped |= set(places)
                entry = list(tokens[places.start : places.stop])
                if record is not first:
                    entry[2:2] = [entry[0].word("REDEFINES"), entry[0].word(first.name)]
                moved += entry
        kept = [token for at, token in enumerate(tokens) if at not in dropped]
        return with_storage(kept, moved)


def end_of(tokens: list[Token], record: Item) -> int:
    """The place behind all entries of a record."""
    at = max(item.behind for item in record.all())
    while token_at(tokens, at).text in ("88", "66"):
        at = behind_stop(tokens, at)
    return at


def with_storage(tokens: list[Token], moved: list[Token]) -> list[Token]:
    """Puts the entries at the front of WORKING-STORAGE."""
    procedure = division(tokens, "PROCEDURE")
    for at in range(procedure):
        if tokens[at].is_word("WORKING-STORAGE") and token_at(tokens, at + 1).is_word("SECTION"):
            behind = behind_stop(tokens, at)
            return [*tokens[:behind], *moved, *tokens[behind:]]
    place = moved[0]
    header = [place.word("WORKING-STORAGE"), place.word("SECTION"), place.stop()]
    return [*tokens[:procedure], *header, *moved, *tokens[procedure:]]


def apply(work: Work) -> int:
    files = Files(work)
    if not files.files:
        return 0
    here = Assumed(work, files.handlers())
    here.applied()
    work.tokens = files.without(work.tokens)
    return len(files.files)


REWRITING = Rewriting(
    name="assumed-files",
    rule="indexed and relative files, those of lines, with records of several lengths, those that are extended or "
    "updated, and those of SORT and MERGE are dropped; their records lie in WORKING-STORAGE. Behind each statement "
    "with them their records and their FILE STATUS hold anything, and either list of it may be done; SORT performs its "
    "procedures",
    before="SELECT F ASSIGN TO 'F' ORGANIZATION INDEXED RECORD KEY K. DATA DIVISION. FILE SECTION. FD F. 01 R. "
    "05 K PIC X. WORKING-STORAGE SECTION. PROCEDURE DIVISION. READ F INVALID KEY STOP RUN END-READ.",
    after="DATA DIVISION. FILE SECTION. WORKING-STORAGE SECTION. 01 R. 05 K PIC X. PROCEDURE DIVISION. "
    "READ UNKNOWN-FILE MOVE UNKNOWN-RECORD TO R READ UNKNOWN-FILE IF UNKNOWN-1 = 'A' STOP RUN END-IF.",
    assumes="nothing but a file's records, its status and its key changes where the program works on it",
    words=frozenset({"SELECT"}),
    apply=apply,
    is_assumed=True,
)
