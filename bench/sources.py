"""Sources that the scripts beside this file time."""

import random


def source(procedure, data=()):
    """A program with these lines of WORKING-STORAGE, behind a counter C, and of the PROCEDURE DIVISION."""
    lines = ["IDENTIFICATION DIVISION.", "PROGRAM-ID. T.", "DATA DIVISION.", "WORKING-STORAGE SECTION."]
    lines += ["77 C PIC 9(5) VALUE 0.", *data, "PROCEDURE DIVISION.", *procedure]
    return "".join(f"       {line}\n" for line in lines)


def trial(count):
    """A loop over so many paragraphs of six nodes each, and five more nodes."""
    lines = [f"PERFORM P-0001 THRU P-{count:04} 100 TIMES.", "STOP RUN."]
    for number in range(1, count + 1):
        lines += [f"P-{number:04}.", "    ADD 1 TO C.", "    IF C > 9 MOVE 0 TO C END-IF."]
    return source(lines)


def trial_in_c(count):
    """The same in C."""
    names = [f"p_{number:04}" for number in range(1, count + 1)]
    paragraphs = [f"static void {name}(void) {{ c += 1; if (c > 9) c = 0; }}" for name in names]
    calls = [f"        {name}();" for name in names]
    main = ["int main(void) {", "    for (int times = 100; times > 0; times--) {", *calls, "    }", "    return 0;", "}"]
    return "\n".join(["int c = 0;", *paragraphs, *main, ""])


def name_of(item):
    return f"N-{item:03}"


class Loops:
    """Loops within loops over items, in which the nodes are counted that the control graph has for them.

    Each loop counts an item of its own up to a limit. What stands in it adds, tests, moves and divides, so that an item
    depends on others and grows with the loops around it. Half of the items are signed, and a third have decimals. The
    numbers are from one list, so that programs of all sizes have the same ones."""

    DEEPEST = 4
    NUMBERS = (2, 5, 12, 40, 99, 365, 500, 999)
    LIMITS = (12, 40, 99)

    def __init__(self, items, nodes, seed):
        self.random = random.Random(seed)
        self.items = items
        # beside these: STOP RUN, and the end
        self.left = nodes - 2
        self.lines = []
        self.busy = set()

    def item(self):
        return name_of(self.random.randrange(self.items))

    def say(self, depth, line, nodes):
        self.lines.append(" " * depth + line)
        self.left -= nodes

    def statement(self, depth):
        one, two, three = self.item(), self.item(), self.item()
        number = self.random.choice(self.NUMBERS)
        kind = self.random.randrange(6)
        if kind == 0 or self.left < 3:
            self.say(depth, f"ADD {number} TO {one}", 1)
        elif kind == 1:
            self.say(depth, f"ADD {two} TO {one} ON SIZE ERROR MOVE {number} TO {one} END-ADD", 2)
        elif kind == 2:
            self.say(depth, f"IF {one} > {number} MOVE {two} TO {one} END-IF", 2)
        elif kind == 3:
            self.say(depth, f"COMPUTE {one} ROUNDED = {two} * 2 - {three} / 7", 1)
        elif kind == 4:
            self.say(depth, f"IF {two} NOT = 0 DIVIDE {three} BY {two} GIVING {one} END-IF", 2)
        else:
            self.say(depth, f"SUBTRACT {two} FROM {three} GIVING {one}", 1)

    def loop(self, depth):
        """A loop, where at least 30 nodes are left: so it isn't empty."""
        counter = next(name for name in iter(self.item, None) if name not in self.busy)
        self.busy.add(counter)
        limit = self.random.choice(self.LIMITS)
        if self.random.randrange(2):
            self.say(depth, f"PERFORM VARYING {counter} FROM 1 BY 1 UNTIL {counter} > {limit}", 3)
        else:
            self.say(depth, f"PERFORM UNTIL {counter} NOT < {limit}", 2)
            self.say(depth + 1, f"ADD 1 TO {counter}", 1)
        for _ in range(self.random.randrange(4, 12)):
            if self.left < 20:
                break
            if depth < self.DEEPEST and self.left >= 30 and self.random.randrange(4) == 0:
                self.loop(depth + 1)
            else:
                self.statement(depth + 1)
        self.say(depth, "END-PERFORM", 0)
        self.busy.remove(counter)

    def text(self):
        while self.left >= 30:
            self.loop(0)
            self.lines[-1] += "."
        while self.left:
            self.say(0, "CONTINUE.", 1)
        data = [f"77 {name_of(item)} PIC {self.picture(item)} VALUE {item % 10}." for item in range(self.items)]
        return source([*self.lines, "STOP RUN."], data)

    @staticmethod
    def picture(item):
        return f"{'S' if item % 2 else ''}9({4 + item % 5}){'V99' if item % 3 == 0 else ''}"


def loops(cells, nodes, seed=1):
    """A program with so many cells and nodes, most of them in loops within loops."""
    return Loops(cells - 1, nodes, seed).text()
