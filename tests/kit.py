"""The kit's command `rt` as a module, for scripts that do single tasks of the gate. The verdict is the gate's."""

import functools
import importlib.machinery
import importlib.util
import os
import pathlib
import shutil
import sys

# What of a crate's folder its proof reads.
TEXTS = ("src", "specs", "proofs")


def loaded(root):
    """The module, which goes over crates.txt once, and the repository's crates by name. Works in `root` from then on."""
    path = os.path.realpath(shutil.which("rt"))
    path = path if os.path.basename(path) == "rt" else "/opt/rattle/bin/rt"
    sys.path.insert(0, os.path.dirname(path))
    loader = importlib.machinery.SourceFileLoader("rt", path)
    rt = importlib.util.module_from_spec(importlib.util.spec_from_loader("rt", loader))
    loader.exec_module(rt)
    rt.Crate.below = functools.lru_cache(None)(rt.Crate.below)
    rt.Crate.stamp = functools.lru_cache(None)(rt.Crate.stamp)
    rt.Crate.cuts_libraries = True
    rt.rtlib.Crate = rt.Crate
    rt.rtlib.guarded()
    os.chdir(root)
    rt.Crate.allowed = rt.handles_of(str(root))
    return rt, {crate.name: crate for crate in rt.rtlib.crates_below(str(root))}


def copied(root, to):
    """Copies what proofs read of the repository to the folder `to`."""
    to.mkdir(parents=True)
    for name in ("crates.txt", "HANDLES"):
        shutil.copy2(root / name, to / name)
    for crate in (root / "crates").iterdir():
        for part in TEXTS:
            if (crate / part).is_dir():
                shutil.copytree(crate / part, to / "crates" / crate.name / part)
    return to


def changed_last(crate):
    """When a text of the crate was changed last, in seconds."""
    files = (file for part in TEXTS for file in pathlib.Path(crate.folder, part).rglob("*"))
    return max(file.stat().st_mtime for file in files)


def named_again(one, other):
    """Gives a file a second name: the kit replaces such files, and writes into none. Or else copies it."""
    try:
        os.link(one, other)
    except OSError:
        shutil.copy2(one, other)


def was_left(crate, checkout):
    """Takes the library that a gate left in the checkout, where it is newer than the crate's text."""
    left = checkout / "crates" / crate.name / "out" / "rlib" / f"{crate.name}.rlib"
    made = left / "format"
    if not made.is_file() or made.stat().st_mtime < changed_last(crate):
        return False
    shutil.copytree(left, crate.rlib, copy_function=named_again, dirs_exist_ok=True)
    return True


def lacking_libraries(rt, wanted, checkout):
    """Gives each of these crates of a copy, lowest first, its library, and returns the names of those that have none.

    A library is the one that `rt ci` kept beside the kit, of the same text over the same libraries, or else the one that
    a gate left in the checkout that was copied.
    """
    kept, lacking = hasattr(rt, "Kept") and rt.Kept(wanted), []
    if kept:
        # What can't be read here is left to the gate.
        kept.drop = lambda path: None
    for crate in wanted:
        is_above_a_gap = any(below.name in lacking for below in crate.below())
        is_given = kept and not is_above_a_gap and kept.give(crate, False, kept.key(crate))
        if is_above_a_gap or not (is_given or was_left(crate, checkout)):
            lacking.append(crate.name)
        elif kept:
            kept.is_built(crate)
    return lacking
