"""Files that the tool writes: never in place of a source, and whole or not at all."""

import os
import pathlib
import tempfile
from collections.abc import Iterable


def refuse_clashes(sources: Iterable[str], outputs: Iterable[pathlib.Path]) -> None:
    """Fails where an output is a source or another output, also by a link or another name of it, or lies below one, as
    if that were a folder."""
    given = {identity(source): source for source in sources}
    made: dict[str, pathlib.Path] = {}
    for output in outputs:
        whole = os.path.realpath(output)
        if identity(whole) in given:
            raise OSError(f"{output} is the source {given[identity(whole)]}, which it would replace")
        if whole in made:
            raise OSError(f"{output} would be written twice")
        made[whole] = output
    for whole, output in made.items():
        for folder in pathlib.Path(whole).parents:
            if str(folder) in made:
                raise OSError(f"{output} would lie below {made[str(folder)]}, which is no folder")


def identity(path: str | pathlib.Path) -> tuple[int, int] | str:
    """What two paths of one file share: where it stands, or its whole path where it isn't there."""
    try:
        found = os.stat(path)
    except OSError:
        return os.path.realpath(path)
    return found.st_dev, found.st_ino


def write(path: pathlib.Path, content: str) -> None:
    """Writes a text, and makes the folders above it."""
    pathlib.Path(os.path.realpath(path)).parent.mkdir(parents=True, exist_ok=True)
    put(path, content.encode("utf-8", "replace"))


def put(path: pathlib.Path, content: bytes) -> None:
    """Writes a file beside its place, and then puts it there. A link is what it leads to; what is there and no regular
    file, as a device or a pipe, is written to."""
    place = pathlib.Path(os.path.realpath(path))
    if place.exists() and not place.is_file():
        place.write_bytes(content)
        return
    try:
        put_whole(place, content)
    except OSError as error:
        raise OSError(error.errno, error.strerror, str(path)) from None


def put_whole(place: pathlib.Path, content: bytes) -> None:
    """Nothing is left beside the place where that fails."""
    file, beside = tempfile.mkstemp(dir=place.parent, prefix=".")
    try:
        with open(file, "wb") as written:
            written.write(content)
        os.chmod(beside, usual_mode(place))
        os.replace(beside, place)
    except BaseException:
        os.unlink(beside)
        raise


def usual_mode(place: pathlib.Path) -> int:
    """The rights of the file that stands there, or those that a new one gets."""
    if place.exists():
        return place.stat().st_mode & 0o777
    mask = os.umask(0)
    os.umask(mask)
    return 0o666 & ~mask
