"""The command line."""

import argparse

from cobsound_prepare.options import Way, add_way

from . import VERSION
from .command_line import Parser, path
from .shards import Shard

FORMATS = ("text", "json", "sarif", "github", "junit")


def parsed(words: list[str]) -> argparse.Namespace:
    parser = Parser(
        prog="cobsound-report",
        description="Analyses COBOL sources with Cobsound, side by side, and reports what it answers.",
        epilog="Exit status: 0 all clean, 1 alarms, 2 a source is refused, 3 a failure of the outside.",
    )
    add_sources(parser)
    add_preparation(parser)
    add_outputs(parser)
    add_work(parser)
    add_knowledge(parser)
    parser.add_argument("--version", action="version", version=f"%(prog)s {VERSION}")
    options = parser.parse_args(words)
    if not options.paths and not options.explain:
        parser.error("the following arguments are required: SOURCE")
    if not options.prepare and (options.kept or not Way.of(options).is_plain):
        parser.error("-I, --form, --encoding, --assume and --prepared go with --prepare")
    if options.prepare and options.merge:
        parser.error("--merge takes sources as the shards have prepared them")
    if options.shard and options.merge:
        parser.error("--merge takes all shards together")
    if options.shard and (options.sarif or options.html or options.write_baseline or options.format != "json"):
        parser.error("--shard goes with --format json, and --merge makes the rest")
    if options.prepare and options.html and not options.kept:
        options.kept = options.html / "prepared"
    return options


def add_preparation(parser: Parser) -> None:
    told = "prepare each source first, as `cobsound prepare` does; places are those of the files from which it is made"
    parser.add_argument("--prepare", action="store_true", help=told)
    told = "keep prepared sources, and their maps of places, in this folder; below that of --html without it"
    parser.add_argument("--prepared", dest="kept", metavar="FOLDER", type=path, help=told)
    add_way(parser)


def add_sources(parser: Parser) -> None:
    told = "a source, a folder of .cob, .cbl, .cobol files, or - for a source on standard input"
    parser.add_argument("paths", nargs="*", metavar="SOURCE", help=told)
    parser.add_argument("--shard", metavar="K/N", type=shard, help="take every N-th source, from the K-th on")
    parser.add_argument("--merge", action="store_true", help="put shards together: each SOURCE is the JSON of one")


def add_knowledge(parser: Parser) -> None:
    parser.add_argument("--baseline", metavar="FILE", type=path, help="what it knows doesn't count for the status")
    parser.add_argument("--write-baseline", metavar="FILE", type=path, help="write what is told now as a baseline")
    parser.add_argument("--suppressions", metavar="FILE", type=path, help="what doesn't count, each for a reason")
    parser.add_argument("--explain", metavar="RULE", help="tell what a rule means, with an example, as E9-L2")


def add_outputs(parser: Parser) -> None:
    parser.add_argument("--format", choices=FORMATS, default="text", help="what standard output gets; text without it")
    parser.add_argument("--html", metavar="FOLDER", type=path, help="write a page for each source, and an index")
    parser.add_argument("--sarif", metavar="FILE", type=path, help="write the report in SARIF 2.1.0")
    told = "rank alarms by what `cobsound witness` left in this folder, or below it; may be given again"
    parser.add_argument("--witness", metavar="FOLDER", type=path, action="append", default=[], help=told)
    parser.add_argument("--exit-zero", action="store_true", help="end with 0 for alarms and refusals too")


def add_work(parser: Parser) -> None:
    told = "keep the certificates, and check those that are kept first"
    parser.add_argument("--certs", metavar="FOLDER", type=path, help=told)
    parser.add_argument("--jobs", metavar="N", type=count, help="sources at a time; a processor each without it")
    told = "the most time for a source; %(default)s without it"
    parser.add_argument("--timeout", metavar="SECONDS", type=seconds, default=300, help=told)


def shard(word: str) -> Shard:
    try:
        return Shard.of(word)
    except ValueError as error:
        raise argparse.ArgumentTypeError(str(error)) from None


def count(word: str) -> int:
    if not word.isascii() or not word.isdigit() or not 1 <= int(word) <= 1000:
        raise argparse.ArgumentTypeError(f"{word} is no number from 1 to 1000")
    return int(word)


def seconds(word: str) -> float:
    try:
        number = float(word)
    except ValueError:
        number = 0
    if not 0 < number <= 1_000_000:
        raise argparse.ArgumentTypeError(f"{word} is no number of seconds above 0")
    return number
