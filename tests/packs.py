"""The packs of a source: cells of which an analysis tracks differences, by what the source mentions together in its loops
and in its paragraphs. They are read from the source's words alone, and a source that the language refuses isn't noticed.
The packs of the cases were worked out by an independent program, and must come. `analyse` must write just the packs that
are read so, of these sources and of those that are analysed."""

import dataclasses
import json
import re

from tests.built import CASES, ROOT, program_path, ran

# ---- words


def text_of(source):
    """The text in columns 8 to 72, with continued lines joined."""
    text, opened = "", None
    for line in source.splitlines():
        line = line.ljust(72)[:72]
        if line[6] in "*/Dd" or (line[6] == " " and not line[7:].strip()):
            continue
        more = line[7:]
        if line[6] == "-":
            more, text = (more.lstrip()[1:], text) if opened else (more.lstrip(), text.rstrip())
        else:
            text += " "
        text += more
        for mark in re.findall("['\"]", more):
            opened = mark if opened is None else None if mark == opened else opened
    return text + " "


WORD = re.compile(
    r"""\bPIC(?:TURE)?[\s,;]+(?:IS[\s,;]+)?(?P<picture>\S+?)[.,;]?(?=\s)
    |(?P<text>'(?:[^']|'')*'|"(?:[^"]|"")*")
    |(?P<number>(?:(?<=[\s(])[+-])?\d*\.?\d+(?![\w-]))
    |(?P<word>[A-Z0-9](?:[A-Z0-9-]*[A-Z0-9])?)
    |(?P<mark>[=.](?=\s))""",
    re.VERBOSE | re.IGNORECASE,
)

DROPPED = set("IS ARE THAN THEN ON AT WITH MODE CONTAINS CHARACTER CHARACTERS RECORD RECORDS NEXT USAGE SIGN".split())

SAME = {"THROUGH": "THRU", "IN": "OF", "ZEROS": "ZERO", "ZEROES": "ZERO"}


def words_of(source):
    """Words in capitals, numbers, pictures behind PIC, texts as a mark, stops, and of all other marks the equality."""
    words = []
    text = text_of(source)
    for found in WORD.finditer(text):
        kind = found.lastgroup
        if kind == "picture":
            words += ["PIC", found["picture"].upper(), *(["."] if text[found.end() - 1] == "." else [])]
        elif kind == "word":
            word = found["word"].upper()
            words += [] if word in DROPPED else [SAME.get(word, word)]
        else:
            words.append("'" if kind == "text" else found[kind])
    return words


# ---- data


@dataclasses.dataclass
class Item:
    names: tuple
    picture: str

    def symbols(self):
        return set(re.sub(r"\(\d+\)", "", self.picture))

    def is_numeric(self):
        return bool(self.picture) and self.symbols() <= set("S9V")

    def has_cell(self):
        """A named item that is a number, or a text of at most 18 bytes."""
        length = sum(int(count or 1) for count in re.findall(r"[X9](?:\((\d+)\))?", self.picture))
        is_text = bool(self.picture) and self.symbols() <= set("X9") and length <= 18
        return self.names[0] != "FILLER" and (self.is_numeric() or is_text)


def items_of(words):
    """The items in the order of their entries, each with its names from its own to the outermost."""
    items, above, entry = [], [], []
    for word in words:
        if word != ".":
            entry.append(word)
            continue
        if entry and (entry[0] == "FD" or (entry[0].isdigit() and entry[0] != "88")):
            level = {"FD": 0, "77": 1}.get(entry[0]) if entry[0] in ("FD", "77") else int(entry[0])
            above = [(other, name) for other, name in above if other < level]
            names = (entry[1], *[name for _, name in reversed(above)])
            items.append(Item(names, entry[entry.index("PIC") + 1] if "PIC" in entry else ""))
            above.append((level, entry[1]))
        entry = []
    return items


# ---- what is mentioned

VERBS = set(
    """MOVE SET DISPLAY ADD SUBTRACT MULTIPLY DIVIDE COMPUTE IF EVALUATE PERFORM GO EXIT CONTINUE STOP OPEN CLOSE READ
    WRITE""".split()
)

ARITHMETIC = {"ADD", "SUBTRACT", "MULTIPLY", "DIVIDE", "COMPUTE"}

ENDS = VERBS | {".", "ELSE", "WHEN", "SIZE", "END"}


class Reader:
    """Reads the words behind PROCEDURE DIVISION. A mention is a cell's number, or a pair of names of paragraphs."""

    def __init__(self, words, items):
        self.words, self.at, self.items, self.loops = words, 0, items, []
        cells = [item for item in items if item.has_cell()]
        self.cells = {item.names: number for number, item in enumerate(cells, 1) if item.is_numeric()}

    def next(self, ahead=0):
        return self.words[self.at + ahead] if self.at + ahead < len(self.words) else "."

    def word(self):
        self.at += 1
        return self.words[self.at - 1]

    def take(self, word):
        """Passes over a word, if it stands here."""
        stands = self.next() == word
        self.at += stands
        return stands

    def reference(self):
        """The number of a cell, if a numeric item stands here."""
        names = [self.word()]
        while self.take("OF"):
            names.append(self.word())
        found = [item for item in self.items if item.names[0] == names[0] and set(names) <= set(item.names)]
        return [self.cells[item.names] for item in found[:1] if item.names in self.cells]

    def is_over(self):
        """Whether a statement or a phrase begins or ends here."""
        word = self.next(self.next() == "NOT")
        return word in ENDS or word.startswith("END-")

    def receivers(self):
        """The items before the equality of a COMPUTE, or else behind the last of these words."""
        cells, is_sum = [], False
        while not self.is_over():
            is_sum = is_sum or self.next() == "="
            cells = [] if self.next() in ("TO", "FROM", "BY", "INTO", "GIVING") else cells
            found = self.reference()
            cells = cells if is_sum else cells + found
        return cells

    def condition(self):
        """The items in relations and under sign tests: all but those of class tests. A condition-name is no item."""
        cells = []
        while not self.is_over():
            found = self.reference()
            cells += [] if self.next(self.next() == "NOT") == "NUMERIC" else found
        return cells

    def phrases(self, word, length):
        """What the lists behind a phrase and behind its NOT mention."""
        mentions = []
        for count in (0, 1):
            if self.next(count) == word and (count == 0 or self.next() == "NOT"):
                self.at += count + length
                mentions += self.statements()
        return mentions

    def evaluate(self):
        is_true, mentions = self.next() == "TRUE", []
        self.reference()
        while self.take("WHEN"):
            found = self.condition()
            mentions += (found if is_true else []) + self.statements()
        return mentions

    def is_count(self):
        """Whether what stands here is the count of TIMES."""
        start = self.at
        self.reference()
        counts, self.at = self.next() == "TIMES", start
        return counts

    def span(self):
        """The first and the last paragraph that a PERFORM names, if it has no list of its own."""
        if self.is_over() or self.next() in ("TEST", "VARYING", "UNTIL") or self.is_count():
            return []
        first = self.word()
        return [(first, self.word() if self.take("THRU") else first)]

    def control(self):
        """What the control of a loop mentions, or None where a PERFORM doesn't loop."""
        cells = []
        if self.take("TEST"):
            self.word()
        if self.take("VARYING"):
            cells = self.reference()
            while self.next() != "UNTIL":
                self.word()
        if self.take("UNTIL"):
            return cells + self.condition()
        if self.is_over():
            return None
        self.reference()
        return [] if self.take("TIMES") else None

    def perform(self):
        place = len(self.loops)
        self.loops.append(None)
        span = self.span()
        control = self.control()
        mentions = (control or []) + (span or self.statements())
        if control is not None:
            self.loops[place] = (self.para, mentions)
        return mentions

    def statement(self):
        verb, mentions = self.word(), []
        if verb in ARITHMETIC:
            mentions = self.receivers() + self.phrases("SIZE", 2)
        elif verb == "IF":
            mentions = self.condition() + self.statements()
            mentions += self.statements() if self.take("ELSE") else []
        elif verb == "EVALUATE":
            mentions = self.evaluate()
        elif verb == "PERFORM":
            mentions = self.perform()
        else:
            while not self.is_over():
                self.word()
            mentions = self.phrases("END", 1) if verb == "READ" else []
        self.take("END-" + verb)
        return mentions

    def statements(self):
        mentions = []
        while self.next() in VERBS:
            mentions += self.statement()
        return mentions

    def paragraphs(self):
        """The name of each paragraph, and what it mentions. The first has no name."""
        paras = [("", [])]
        while self.at < len(self.words) and self.next() != "END":
            self.para = len(paras) - 1
            if self.next() in VERBS:
                paras[-1][1].extend(self.statements())
            elif not self.take("."):
                paras.append((self.word(), []))
        return paras


# ---- packs


def reached(paras, own):
    """The places of the paragraphs that are performed in a list, or in paragraphs that are."""
    names = [name for name, _ in paras]
    found, left = set(), list(own)
    while left:
        mention = left.pop()
        if isinstance(mention, tuple):
            span = set(range(names.index(mention[0]), names.index(mention[1]) + 1)) - found
            found |= span
            left += [other for para in span for other in paras[para][1]]
    return found


def together(paras, home, own):
    """What a loop in a paragraph mentions with what it reaches, in the order of the source."""
    found = reached(paras, own)
    lists = [mentions if para in found else own if para == home else [] for para, (_, mentions) in enumerate(paras)]
    return [mention for mentions in lists for mention in mentions]


def packs(source):
    words = words_of(source)
    at = words.index("PROCEDURE")
    reader = Reader(words[at + 3 :], items_of(words[:at]))
    paras = reader.paragraphs()
    loops = [together(paras, *loop) for loop in reader.loops if loop]
    found = []
    for mentions in [*loops, *[mentions for _, mentions in paras]]:
        cells = dict.fromkeys(mention for mention in mentions if isinstance(mention, int))
        pack = sorted(list(cells)[:8])
        if len(pack) > 1 and pack not in found:
            found.append(pack)
    return found[:32]


# ---- cases


def told(name, source, wanted):
    found = packs(source)
    return None if found == wanted else f"{name}: packs {found} in place of {wanted}"


def written(path, name, source):
    """What is wrong with the packs of the certificate that is written, if one is."""
    _, _, left = ran(path, ["analyse", "S", "C"], {"S": source})
    lines = [line.split() for line in left.get("C", b"").decode("latin-1").splitlines()]
    found = [[int(cell) for cell in cells] for word, *cells in lines if word == "pack"]
    if not lines or found == packs(source):
        return None
    return f"{name}: packs {found} are written in place of {packs(source)}"


def sources():
    for name in ("packs", "analyses"):
        for number, line in enumerate((CASES / f"{name}.jsonl").open(), 1):
            yield f"packs of {name}.jsonl {number}", json.loads(line)["source"]
    for file in sorted(ROOT.glob("samples/**/*.cob")):
        yield f"packs of {file.name}", file.read_text("latin-1")


def checks():
    path = program_path()
    for number, line in enumerate((CASES / "packs.jsonl").open(), 1):
        case = json.loads(line)
        yield lambda given=(f"packs.jsonl {number}", case["source"], case["packs"]): told(*given)
    for name, source in sources():
        yield lambda given=(path, name, source): written(*given)
