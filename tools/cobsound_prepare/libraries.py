"""Where copybooks are, and what they hold."""

import itertools
import os
from collections.abc import Iterator
from dataclasses import dataclass, field

from .encodings import decoded, lines_of

# The endings of copybooks, and those of programs, which are looked for in all folders behind the first.
ENDINGS = (("", ".cpy", ".copy"), (".cbl", ".cob", ".cobol", ".txt"))


def is_file(path: str) -> bool:
    """Whether it is a regular file: a pipe or a device may never end."""
    return os.path.isfile(path)


@dataclass
class Library:
    """The folders in which copybooks are sought, behind that of the file with the COPY."""

    folders: list[str]
    encoding: str = "auto"
    read: list[str] = field(default_factory=list)
    listed: dict[str, dict[str, str]] = field(default_factory=dict)
    texts: dict[str, list[str]] = field(default_factory=dict)

    def lines(self, path: str) -> list[str]:
        """The lines of a file, read once."""
        if path not in self.texts:
            with open(path, "rb") as file:
                text, encoding = decoded(file.read(), self.encoding)
            self.texts[path] = lines_of(text)
            self.read.append(path)
            # copybooks are in the encoding of the source, which comes first
            self.encoding = encoding if self.encoding == "auto" and encoding.startswith("cp") else self.encoding
        return self.texts[path]

    def searched(self, beside: str, library: str) -> list[str]:
        """The folders for a COPY in a file; with OF, those of that name in them."""
        folders = [os.path.dirname(beside), *self.folders]
        unique = list(dict.fromkeys(folder or "." for folder in folders))
        if not library:
            return unique
        within = [named(self.names(folder), folder, library) for folder in unique]
        return [folder for folder in within if folder and os.path.isdir(folder)]

    def found(self, name: str, library: str, beside: str) -> Iterator[str]:
        """The paths that a copybook may have: its name as it is written or in other letters, with the usual endings."""
        above, name = os.path.split(name)
        folders = [os.path.join(folder, above) for folder in self.searched(beside, library)]
        for endings in ENDINGS:
            for folder, ending in itertools.product(folders, endings):
                path = named(self.names(folder), folder, name + ending)
                if path and is_file(path):
                    yield os.path.normpath(path)

    def names(self, folder: str) -> dict[str, str]:
        """The names in a folder, in small letters, each with the first that is so written."""
        if folder not in self.listed:
            try:
                found = sorted(os.listdir(folder), reverse=True)
            except (OSError, ValueError):
                found = []
            self.listed[folder] = {name.lower(): name for name in found}
        return self.listed[folder]


def named(names: dict[str, str], folder: str, name: str) -> str | None:
    """The path of what has a name in a folder, as it is written or else in other letters."""
    exact = os.path.join(folder, name)
    if "\0" not in name and os.path.exists(exact):
        return exact
    other = names.get(name.lower())
    return os.path.join(folder, other) if other else None
