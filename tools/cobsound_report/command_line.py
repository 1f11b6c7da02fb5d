"""What the command lines of all tools share."""

import argparse
import pathlib
import sys
from typing import NoReturn

from .answers import Verdict


class Parser(argparse.ArgumentParser):
    """Wrong words are a failure of the outside, and no refusal of a source."""

    def error(self, message: str) -> NoReturn:
        self.print_usage(sys.stderr)
        self.exit(Verdict.FAILED.status, f"{self.prog}: {message}\n")


def path(word: str) -> pathlib.Path:
    if not word:
        raise argparse.ArgumentTypeError("an empty path")
    return pathlib.Path(word)
