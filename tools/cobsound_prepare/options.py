"""How a source is prepared, as the command lines of all tools say it."""

import argparse
import os
import shlex
from dataclasses import dataclass

from .encodings import ENCODINGS
from .lines import Form
from .preparing import Prepared, prepare


@dataclass(frozen=True)
class Way:
    """The folders of copybooks, the form and the encoding, which are guessed of each source where they aren't given;
    and whether statements give way to what allows more than they do."""

    folders: tuple[str, ...] = ()
    form: Form | None = None
    encoding: str = "auto"
    assumes: bool = False

    @classmethod
    def of(cls, options: argparse.Namespace) -> "Way":
        form = Form(options.form) if options.form else None
        return cls(tuple(options.folders), form, options.encoding, options.assume)

    @property
    def is_plain(self) -> bool:
        return self == Way()

    def prepared(self, path: str | os.PathLike[str]) -> Prepared:
        return prepare(path, self.folders, self.form, self.encoding, self.assumes)

    def command(self) -> str:
        """The command that shows what is prepared so, but for the source."""
        words = ["cobsound", "prepare", *(word for folder in self.folders for word in ("-I", folder))]
        words += ["--form", self.form.value] if self.form else []
        words += ["--encoding", self.encoding] if self.encoding != "auto" else []
        words += ["--assume"] if self.assumes else []
        return shlex.join(words)


def add_way(parser: argparse.ArgumentParser, can_assume: bool = True) -> None:
    """The options of which a Way is made. A tool that can't take what is only assumed says so itself."""
    parser.add_argument("-I", dest="folders", metavar="DIR", action="append", default=[], help="a folder of copybooks")
    parser.add_argument("--form", choices=[form.value for form in Form], help="the source's form; guessed without it")
    parser.add_argument("--encoding", choices=ENCODINGS, default="auto", help="its encoding; guessed without it")
    told = "statements that aren't in the profile, as CALL and STRING, give way to what allows more than they do"
    parser.add_argument("--assume", action="store_true", help=told if can_assume else argparse.SUPPRESS)
