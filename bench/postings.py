"""Programs that post amounts to accounts in loops within loops, in which the cells of each account are a pack."""

import random
import textwrap

from sources import source

ACCOUNTS = 32
COUNTS = ("MONTH", "DAY")
AMOUNTS = ("PAID-IN", "PAID-OUT", "OPENED", "CHARGED", "CLEARED", "BALANCE")
# Programs of all sizes have the same numbers.
NUMBERS = (2, 5, 12, 40, 99, 365, 500, 999)
MONTHS = (12, 40, 99)
# The nodes of a nest of loops, where there is room: two loops that count, and one that pays out.
NEST_NODES = 31
PAY_NODES = 6
# Of columns 8 to 72.
WIDTH = 65


class Postings:
    """Accounts with so many cells each, and nests of loops over them, in which the nodes are counted that the control graph
    has for them. Each loop is of one account and mentions all of its cells, so that these are a pack, and there is no other.

    An account's days are counted up to its months, so that a day is at most one above its month. Numbers and amounts are
    posted to amounts, and it is paid out up to what is paid in."""

    def __init__(self, cells, nodes, seed=1):
        self.random = random.Random(seed)
        self.amounts = AMOUNTS[: cells - len(COUNTS)]
        self.lines, self.nodes = [], 0
        # beside these: STOP RUN, and the end
        rounds = max(1, round((nodes - 2) / (ACCOUNTS * NEST_NODES)))
        for nest in range(rounds * ACCOUNTS):
            self.nest(nest % ACCOUNTS, (nodes - 2) * (nest + 1) // (rounds * ACCOUNTS))
        data = [f"77 {name}-{account + 1:02} PIC S9(5) VALUE 0." for account in range(ACCOUNTS)
                for name in (*COUNTS, *self.amounts)]
        self.source = source([*self.lines, "STOP RUN."], data)

    def say(self, depth, line, nodes):
        """A text with the names of the account, of so many nodes."""
        names = {name.replace("-", "_"): f"{name}-{self.account + 1:02}" for name in (*COUNTS, *self.amounts)}
        indent = " " * (2 * depth)
        self.lines += textwrap.wrap(
            line.format(**names), WIDTH, initial_indent=indent, subsequent_indent=indent + "    ", break_on_hyphens=False)
        self.nodes += nodes

    def all_but(self, *names):
        """The amounts of the account but for these."""
        return " ".join("{" + name.replace("-", "_") + "}" for name in self.amounts if name not in names)

    def nest(self, account, until):
        """Loops over the account that end with so many nodes. The last loop's three nodes count as the loop begins."""
        self.account = account
        self.say(0, f"PERFORM VARYING {{MONTH}} FROM 1 BY 1 UNTIL {{MONTH}} > {self.random.choice(MONTHS)}", 3)
        self.say(1, "PERFORM VARYING {DAY} FROM 1 BY 1 UNTIL {DAY} > {MONTH}", 3)
        self.say(2, f"ADD {self.random.choice(NUMBERS)} TO {self.all_but()}", 1)
        if until - self.nodes >= 2 * PAY_NODES:
            self.pay()
        while self.nodes < until:
            self.post(2, until - self.nodes)
        self.say(1, "END-PERFORM", 0)
        self.say(0, "END-PERFORM.", 0)

    def pay(self):
        """A loop that pays out up to what is paid in."""
        self.say(2, "PERFORM UNTIL {PAID_OUT} NOT < {PAID_IN}", 2)
        self.say(3, "ADD 1 TO {PAID_OUT}", 1)
        self.say(3, "IF {DAY} < {MONTH}", 1)
        self.say(4, f"SUBTRACT 1 FROM {self.all_but('PAID-IN', 'PAID-OUT') or '{PAID_IN}'}", 1)
        self.say(3, "END-IF", 0)
        self.say(2, "END-PERFORM", 0)

    def post(self, depth, left):
        """A posting of at most so many nodes."""
        one, other = (f"{{{name.replace('-', '_')}}}" for name in self.random.sample(self.amounts, 2))
        number = self.random.choice(NUMBERS)
        kind = self.random.randrange(5) if left > 1 else 4
        if kind == 0:
            self.say(depth, f"IF {one} < {other} ADD {number} TO {one} END-IF", 2)
        elif kind == 1:
            self.say(depth, f"ADD {number} TO {one} ON SIZE ERROR MOVE 0 TO {one} END-ADD", 2)
        elif kind == 2:
            self.say(depth, f"IF {one} > {number} SUBTRACT {number} FROM {one} END-IF", 2)
        elif kind == 3:
            self.say(depth, f"SUBTRACT {other} FROM {one} GIVING {other}", 1)
        else:
            self.say(depth, f"COMPUTE {one} = {other} + {number}", 1)
