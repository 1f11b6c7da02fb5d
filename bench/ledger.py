"""A program that keeps a ledger, and its certificate, in which the amounts of each account are a pack."""

import random

from sources import source

ACCOUNTS = 32
AMOUNTS = ("OPENED", "PAID-IN", "PAID-OUT", "BALANCE")
# Amounts that would grow above it are set anew.
MOST = 9_999
LARGEST = 99_999


def differences(values):
    """Each difference of two of these values and the number 0, with their places, of which 0 has the number 0."""
    for row, value in enumerate((0, *values)):
        for column, less in enumerate((0, *values)):
            if row != column:
                yield row, column, value - less


class Ledger:
    """Postings of written numbers to accounts: at each node a cell has one value, so that the certificate claims each
    difference within a pack, and of the cells alone either their values or no more than their pictures tell."""

    def __init__(self, nodes, tells_values, seed=1):
        self.random = random.Random(seed)
        self.tells_values = tells_values
        self.accounts = [[self.random.randrange(1_000, 2_000), 2, 1, 1_000] for _ in range(ACCOUNTS)]
        data = [f"77 {self.name(account, place)} PIC S9(5) VALUE {value}."
                for account, values in enumerate(self.accounts) for place, value in enumerate(values)]
        self.lines, self.known = [], []
        # beside these: STOP RUN, and the end
        while len(self.known) < nodes - 2:
            self.post(nodes - 2 - len(self.known))
        self.say("STOP RUN.", 2)
        # The first cell is the counter of `source`, which nothing changes.
        self.source = source(self.lines, data)

    @staticmethod
    def name(account, place):
        return f"{AMOUNTS[place]}-{account + 1:02}"

    def say(self, line, nodes):
        self.lines.append(line)
        self.known += [self.claims()] * nodes

    def range_of(self, value):
        return f"{value} {value}" if self.tells_values else f"{-LARGEST} {LARGEST}"

    def claims(self):
        cells, bounds = ["c 1 0 0"], []
        for account, values in enumerate(self.accounts):
            first = len(AMOUNTS) * account + 2
            cells += [f"c {first + place} {self.range_of(value)}" for place, value in enumerate(values)]
            bounds += [f"d {account + 1} {row} {column} {most}" for row, column, most in differences(values)]
        return "\n".join(cells + bounds)

    def post(self, left):
        """A posting of at most so many nodes."""
        account, amount = self.random.randrange(ACCOUNTS), self.random.randrange(1, 200)
        values = self.accounts[account]
        opened, paid_in, paid_out, balance = (self.name(account, place) for place in range(len(AMOUNTS)))
        if max(values) + amount > MOST:
            self.say(f"MOVE 1000 TO {opened} {paid_in} {paid_out} {balance}.", 1)
            values[:] = [1_000] * len(AMOUNTS)
        elif values[2] < values[1] and left > 1:
            self.say(f"IF {paid_out} < {paid_in} ADD {amount} TO {paid_out} END-IF.", 2)
            values[2] += amount
        else:
            self.say(f"ADD {amount} TO {paid_in} {balance}.", 1)
            values[1] += amount
            values[3] += amount

    def certificate(self):
        packs = []
        for account in range(ACCOUNTS):
            first = len(AMOUNTS) * account + 2
            packs.append(f"pack {first} {first + 1} {first + 2} {first + 3}")
        lines = ["COBSOUND 1", f"cells {len(AMOUNTS) * ACCOUNTS + 1}", f"nodes {len(self.known)}", f"packs {ACCOUNTS}", *packs]
        for number, claims in enumerate(self.known, 1):
            lines += [f"node {number}", claims]
        return "\n".join([*lines, "end", ""])
