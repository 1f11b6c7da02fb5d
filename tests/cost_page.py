"""docs/COSTS.md, from what runs of the gate have cost."""

import collections
import pathlib
import textwrap

from cost_watch import Kind, read

# The columns of minutes, and what counts to each.
COLUMNS = {
    "Proof": (Kind.PROOF, Kind.PROGRAM),
    "Base": (Kind.BASE,),
    "Edits": (Kind.EDIT,),
    "Tests": (Kind.TESTS,),
}
# A crate with fewer minutes has no row of its own.
LEAST_OF_A_ROW = 1.0

HEAD = """\
# What the gate costs

Printed by `tests/costs page` from runs of the gate that `tests/costs watch` looked at.

"""
READING = """\
- **Proof** is the check of a crate from nothing, with the compilations of its program; **base** is the same once more, with which its must-fail edits begin, and a look over that behind them; **edits** is a check for each over the base.
- Processor time is added up by looks every two seconds, with a second for each check for what its last look misses. Its memory is the most that one of its processes held.
- The goal is 55 minutes on four processors, and 110 with `RT_JOBS=2` where all is bound to two.
- Machines of one kind differ by more than half in their speed. Compare by what hardly changes from day to day, as `case_driver`, `command_words` and `slow_run`.

"""


def table(rows):
    """The lines of a table, whose first row heads it."""
    lines = ["| " + " | ".join(row) + " |" for row in rows]
    return [lines[0], "|" + "---|" * len(rows[0]), *lines[1:]]


def minutes(seconds):
    return f"{seconds / 60:.1f}"


def sum_of(checks, kinds):
    return sum(check.processor for check in checks if check.kind in kinds)


def last_of(checks, kinds):
    return max((check.ended for check in checks if check.kind in kinds), default=0.0)


def facts_of(run, checks):
    """What is told of a run, each under its heading."""
    proofs = [check for check in checks if check.kind is Kind.PROOF]
    spent = {column: sum_of(checks, kinds) for column, kinds in COLUMNS.items()}
    return {
        "Begun (UTC)": run.begun,
        "Command": f"`{run.command}`",
        "Sources": run.commit,
        "Kit": run.kit.partition(" ")[0],
        "Machine": f"{run.machine}, {run.machine_memory / 1e9:.0f} GB",
        "Processors": str(run.processors),
        "Checks at a time": str(run.lanes or "as `rt` finds"),
        "**Minutes by the clock**": f"**{minutes(run.seconds)}**",
        "until the first proof began": minutes(min((check.began for check in proofs), default=0.0)),
        "until all was proved": minutes(last_of(checks, COLUMNS["Proof"])),
        "until all edits were tried": minutes(last_of(checks, (Kind.BASE, Kind.EDIT))),
        "**Processor minutes**": f"**{run.processor / 60:.0f}**",
        **{f"of {column.lower()}": f"{seconds / 60:.0f}" for column, seconds in spent.items() if seconds},
        "by other work meanwhile": f"{run.others / 60:.0f}",
        "taken by the machine's host": f"{run.stolen / 60:.0f}",
        "Crates proved": str(len({check.crate for check in proofs})),
        "Edits tried": str(sum(check.kind is Kind.EDIT for check in checks)),
        "Status": str(run.status),
    }


def facts_told(page):
    """What an earlier page tells of each of its runs, as `facts_of` gives it: the columns of the page's first table."""
    _, _, rest = page.read_text().partition("\n|")
    rows = [[cell.strip() for cell in line.strip("| ").split("|")] for line in rest.partition("\n\n")[0].split("\n")]
    return [{row[0]: row[run] for row in rows[2:]} for run in range(1, len(rows[2]))]


def facts(told):
    """A table with a column for each run."""
    headings = dict.fromkeys(heading for each in told for heading in each)
    rows = [["", *(f"Run {number}" for number, _ in enumerate(told, 1))]]
    return table([*rows, *([heading, *(each.get(heading, "") for each in told)] for heading in headings)])


def row_of(name, checks, columns):
    spent = [sum_of(checks, kinds) for kinds in columns.values()]
    most = max(check.memory for check in checks) / 1e9
    return [name, *(minutes(it) if it else "" for it in spent), minutes(sum(spent)), f"{most:.1f}"]


def by_crate(checks):
    """A table with a row for each crate that takes minutes, the dearest first."""
    checks = [check for check in checks if check.kind is not Kind.OTHER]
    columns = {column: kinds for column, kinds in COLUMNS.items() if sum_of(checks, kinds)}
    crates = collections.defaultdict(list)
    for check in checks:
        crates[check.crate].append(check)
    spent = {crate: sum(check.processor for check in each) for crate, each in crates.items()}
    dear = sorted((crate for crate in crates if spent[crate] >= 60 * LEAST_OF_A_ROW), key=lambda crate: -spent[crate])
    rows = [["Crate", *columns, "All", "Most memory, GB"]]
    rows += [row_of(crate, crates[crate], columns) for crate in dear]
    others = [check for check in checks if check.crate not in dear]
    if others:
        rows.append(row_of(f"the other {len(crates) - len(dear)}", others, columns))
    return table([*rows, row_of("all", checks, columns)] if checks else rows)


def page(paths):
    """The page's text, nothing where a file tells of no run that has ended. Runs of earlier pages keep their columns."""
    earlier = [pathlib.Path(path) for path in paths if path.endswith(".md")]
    runs = [read(path) for path in paths if not path.endswith(".md")]
    if not runs or not all(run for run, _ in runs):
        return None
    told = [*(facts_of(run, checks) for run, checks in runs), *(each for page in earlier for each in facts_told(page))]
    middle = textwrap.dedent("""\
        ## By crate

        Processor minutes in run 1, of each crate that takes one or more.

        """)
    return HEAD + "\n".join(facts(told)) + "\n\n" + READING + middle + "\n".join(by_crate(runs[0][1])) + "\n"
