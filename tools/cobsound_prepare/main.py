"""The command."""

import argparse
import os
import pathlib
import sys
from enum import IntEnum

from cobsound_report import outputs
from cobsound_report.command_line import Parser

from .answers import placed
from .options import Way, add_way
from .places import Map
from .preparing import Prepared, encoded
from .tokens import SourceError
from .untaken import untaken


class Status(IntEnum):
    """The exit statuses: prepared; the source, or a copybook of it, can't be; a failure of the outside."""

    PREPARED = 0
    REFUSED = 2
    FAILED = 3


def parsed(words: list[str]) -> argparse.Namespace:
    parser = Parser(
        prog="cobsound-prepare",
        description="Makes a COBOL source of a shop ready for Cobsound: copybooks in their places, free form in fixed "
        "form, and what the program doesn't read rewritten where the meaning stays.",
        epilog="Exit status: 0 prepared, 2 the source or a copybook can't be, 3 a failure of the outside.",
    )
    parser.add_argument("source", metavar="SOURCE", help="the source; with --places the answer, - for standard input")
    add_way(parser)
    told = "write to FILE, and the map of places to FILE.map.json"
    parser.add_argument("-o", dest="output", metavar="FILE", help=told)
    told = "put the places of the map in the file MAP before the lines of what the program answered"
    parser.add_argument("--places", metavar="MAP", help=told)
    parser.add_argument("--quiet", action="store_true", help="don't tell which rewritings were made, nor what stays")
    return parser.parse_args(words)


def told(prepared: Prepared) -> None:
    """Tells each rewriting with what it assumes, and what stays that the program will refuse."""
    for row in prepared.applied:
        assumed = row.rewriting.assumes
        print(f"{row.rewriting.name}: {row.count}; assumes {assumed}", file=sys.stderr)
    for note in (*prepared.notes, *untaken(prepared)):
        print(note, file=sys.stderr)


def show_places(options: argparse.Namespace) -> Status:
    with open(options.places, encoding="utf-8") as file:
        places = Map.read(file.read())
    with open(0 if options.source == "-" else options.source, encoding="latin-1") as answer:
        for line in placed(answer, places):
            print(line, end="")
    sys.stdout.flush()
    return Status.PREPARED


def run(options: argparse.Namespace) -> Status:
    if options.places:
        return show_places(options)
    prepared = Way.of(options).prepared(options.source)
    if options.output:
        text, places = pathlib.Path(options.output), pathlib.Path(f"{options.output}.map.json")
        outputs.refuse_clashes(prepared.files, (text, places))
        outputs.put(text, encoded(prepared.text))
        outputs.put(places, prepared.map.as_json().encode())
    else:
        sys.stdout.buffer.write(encoded(prepared.text))
        sys.stdout.flush()
    if not options.quiet:
        told(prepared)
    return Status.PREPARED


def main(words: list[str]) -> int:
    """The tool with these words."""
    options = parsed(words)
    try:
        return run(options)
    except SourceError as error:
        print(error, file=sys.stderr)
        return Status.REFUSED
    except KeyboardInterrupt:
        message = "stopped"
    except BrokenPipeError:
        message = "standard output is closed"
        os.dup2(os.open(os.devnull, os.O_WRONLY), sys.stdout.fileno())
    except (OSError, ValueError) as error:
        message = str(error)
    print(f"cobsound-prepare: {message}", file=sys.stderr)
    return Status.FAILED
