"""The command."""

import argparse
import os
import pathlib
import signal
import sys
import tempfile
from enum import IntEnum

from cobsound_prepare.options import Way, add_way
from cobsound_prepare.tokens import SourceError
from cobsound_report.answers import Verdict
from cobsound_report.command_line import Parser, path
from cobsound_report.program import found_program

from . import kept, told
from .looking import LEAST_RUNS, Length, Refused, Wish, look
from .read import Read
from .runs import fast_folder

SECONDS = 20
MOST = 1_000_000_000


class Status(IntEnum):
    """The exit statuses."""

    CLEAN = 0
    ALARMS = 1
    REFUSED = 2
    FAILED = 3
    UNFORESEEN = 4


class Stopped(Exception):
    """The tool was told to stop."""


def parsed(words: list[str]) -> argparse.Namespace:
    parser = Parser(
        prog="cobsound witness",
        description="Looks for input files on which a run of a COBOL program meets the fault of an alarm.",
        epilog="Exit status: 0 clean, 1 alarms, 2 the source is refused, 3 a failure of the outside, 4 a run met a "
        "fault where no alarm stands.",
    )
    parser.add_argument("source", metavar="SOURCE")
    budget = parser.add_mutually_exclusive_group()
    told = f"look so long, and till {LEAST_RUNS:,} runs are done; {SECONDS} without it"
    budget.add_argument("--seconds", metavar="N", type=number, default=SECONDS, help=told)
    budget.add_argument("--runs", metavar="N", type=runs, default=0, help=f"do so many runs, {LEAST_RUNS:,} at least")
    parser.add_argument("-o", metavar="FOLDER", dest="folder", type=path, help="where files are written")
    parser.add_argument("--seed", metavar="N", type=int, default=1, help="from which all choices come; 1 without it")
    parser.add_argument("--jobs", metavar="N", type=number, help="runs at a time; a processor each without it")
    told = "prepare the source first, as `cobsound prepare` does; places are those of the files from which it is made"
    parser.add_argument("--prepare", action="store_true", help=told)
    add_way(parser, can_assume=False)
    options = parser.parse_args(words)
    if options.assume:
        parser.error("what is only assumed can't be run: --assume goes with cobsound report alone")
    if not options.prepare and not Way.of(options).is_plain:
        parser.error("-I, --form and --encoding go with --prepare")
    return options


def number(word: str) -> int:
    if not word.isascii() or not word.isdigit() or not 1 <= int(word) <= MOST:
        raise argparse.ArgumentTypeError(f"{word} is no number from 1 to {MOST:,}")
    return int(word)


def runs(word: str) -> int:
    if number(word) < LEAST_RUNS:
        raise argparse.ArgumentTypeError(f"fewer runs than {LEAST_RUNS:,} say nothing of an alarm")
    return number(word)


def witnessed(options: argparse.Namespace) -> Status:
    folder = options.folder or pathlib.Path(f"{pathlib.Path(options.source).stem}.witness")
    kept.refuse_strangers(folder)
    length = Length(options.seconds, options.runs)
    read = Read.prepared_at(options.source, Way.of(options)) if options.prepare else Read.at(options.source)
    wish = Wish(read, options.seed, options.jobs or len(os.sched_getaffinity(0)), length)
    with tempfile.TemporaryDirectory(prefix="cobsound-witness-", dir=fast_folder()) as inner:
        results = look(wish, found_program(), inner)
    kept.write(folder, results)
    for line in told.lines(folder, results):
        print(line)
    sys.stdout.flush()
    if results.unforeseen:
        return Status.UNFORESEEN
    return Status.ALARMS if results.findings else Status.CLEAN


def stop(number: int, _frame: object) -> None:
    raise Stopped(f"stopped by {signal.Signals(number).name}")


def main(words: list[str]) -> int:
    """The command with these words. What isn't foreseen is a failure of the outside too."""
    options = parsed(words)
    for kind in (signal.SIGINT, signal.SIGTERM, signal.SIGHUP):
        if signal.getsignal(kind) != signal.SIG_IGN:
            signal.signal(kind, stop)
    try:
        sys.stdout.reconfigure(errors="replace")
        return witnessed(options)
    except SourceError as error:
        print(error)
        return Status.REFUSED
    except Refused as refused:
        print(refused)
        return Status.REFUSED if refused.answer.verdict == Verdict.REFUSED else Status.FAILED
    except (Stopped, OSError) as error:
        message = str(error)
    except Exception as error:
        message = f"{type(error).__name__}: {error}"
    print(f"cobsound witness: {message}", file=sys.stderr)
    return Status.FAILED
