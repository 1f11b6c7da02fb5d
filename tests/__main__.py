"""Runs all cases, side by side on the machine's processors, and says which aren't answered as they must be.

A module each has the cases of a kind: `reference` those that were worked out by an independent program, `sample` those
around the sample certificate, `analysed` reports of `analyse` that were worked out by hand, `analyses` sources that an
independent program looked at, `packs` the packs of cells, `trials` those of `trial`, `programs` small programs by
subject, `words` the words of the command line, `limits` what stands at a limit and beyond it, `outside` files and
standard outputs that fail, `bytewise` files that give or take a byte at a time, `launching` the launcher, `report`,
`report_calls`, `report_files`, `refusals`, `standing` and `nightly` those of the tool around the program and of its
document, `prepare`, `prepare_texts` and `damaged_sources` those of the tool that prepares sources, `prepared` those of
the tools that do so first, `prepare_compiled` those of the former under another compiler, which takes a minute and is
done where the word is `--all` or `--compiled`, `packaging` the packages, `showing` what `tests/show` prints, `costings`
those of the script that watches the gate, `witness` the search for input files on one program (with `--witness`, or
`--all`, on all of `tests/shop`), `calls` the calls of libraries, `ranges` those that work with ranges of numbers,
`matrices` those with matrices and forms, `edges` and `diffs` those with edges of control graphs, and `slow` the
comparison of the interpreter with the plain slow step. The last six need programs of their own, which the gate builds:
without them their cases are left out, which is told, and is a failure where the word is `--all`. With `--large` `diffs`
tries all of its programs.
"""

import itertools
import sys
from concurrent.futures import ThreadPoolExecutor
from os import cpu_count

from tests import analysed, analyses, built, bytewise, calls, costings, damaged_sources, diffs, edges, launching
from tests import limits, matrices, nightly, outside, packaging, packs, prepare, prepare_compiled, prepare_texts
from tests import prepared, programs, ranges, reference, refusals, report, report_calls, report_files, sample
from tests import showing, slow, standing, trials, witness, words

PLAIN = (reference, sample, analysed, analyses, packs, trials, programs, words, limits, outside, bytewise)

REPORT = (report, report_calls, report_files, refusals, standing, nightly)
PREPARE = (prepare, prepare_texts, prepared, damaged_sources)
TOOL = (launching, *REPORT, *PREPARE, packaging, showing, costings, witness)

# These need programs of their own.
DRIVEN = (calls, ranges, matrices, edges, diffs, slow)


def missing():
    """The kinds whose programs aren't built, with a line for each."""
    for kind in DRIVEN:
        for crate in kind.PROGRAMS:
            if built.program(crate) is None:
                yield kind, f"{crate} isn't built: the cases of `{kind.__name__}` are left out"
                break


def main():
    lacking = dict(missing())
    for line in lacking.values():
        print(line)
    if lacking and "--all" in sys.argv[1:]:
        return 1
    compiled = [prepare_compiled] if {"--all", "--compiled"} & {*sys.argv[1:]} else []
    kinds = [kind for kind in (*PLAIN, *TOOL, *compiled, *DRIVEN) if kind not in lacking]
    checks = itertools.chain.from_iterable(kind.checks() for kind in kinds)
    with ThreadPoolExecutor(cpu_count()) as pool:
        told = list(pool.map(lambda check: check(), checks))
    failures = [text for text in told if text]
    for text in failures:
        print(text)
    print(f"{len(told) - len(failures)} passed, {len(failures)} failed")
    return 1 if failures else 0


sys.exit(main())
