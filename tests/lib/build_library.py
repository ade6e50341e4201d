#!/usr/bin/env python3
"""Has rt prove and build the C library in a copy of the crates: tests/lib/build_library.py FOLDER

Outside the gate the scripts take the one without proofs, which is built when it is older than its sources.
"""

import contextlib
import os
import pathlib
import shutil
import sys

import common

sys.path.insert(0, os.path.dirname(os.path.realpath(shutil.which("rt"))))
import rtlib

# when ./test began, if it runs `rt ci`
BEGAN = float(os.environ.get("PGBOARD_BEGAN") or "inf")


@contextlib.contextmanager
def locked(tree):
    """The crates of a tree, in which no rt works meanwhile: another script may have started one."""
    crates = rtlib.crates_below(str(tree))
    held = rtlib.lock(crates)
    try:
        yield {it.name: it for it in crates}
    finally:
        for it in held:
            os.close(it)


def is_of_this_gate(crate, library):
    """Whether `rt ci` has built a library since ./test began, of sources that nobody has changed since. (At its end it
    puts back what was there before.)"""
    sources = (path for it in [crate, *crate.below()] for path in rtlib.files_of(it.folder))
    is_new = library.is_dir() and library.stat().st_mtime >= BEGAN
    return is_new and all(os.stat(it).st_mtime < BEGAN for it in sources)


def take_as_built(tree, above):
    """Has rt take the libraries below a crate of a tree as built of their sources: those that the gate has just proved,
    and left without a stamp. A tree that is not this one gets a copy of them."""
    with locked(tree) as crates:
        for crate in crates[above].below():
            library = pathlib.Path(crate.folder, "out", "rlib")
            proved = common.ROOT / "crates" / crate.name / "out" / "rlib"
            if proved.is_dir() and not library.exists():
                shutil.copytree(proved, library)
            if is_of_this_gate(crate, library / f"{crate.name}.rlib") and not (library / "stamp").exists():
                (library / "stamp").write_text(crate.stamp())


def build(tree):
    take_as_built(tree, "pgboard_c")
    for words, folder in ((["rt", "lib", "--jobs", "1"], "crates/pgboard_c"), (["tools/build", "proved", "library"], "")):
        status, out, err = common.run(words, timeout=3000, cwd=tree / folder)
        assert status == 0, (out + err).decode()[-2000:]
    return common.library("proved", tree)


def built():
    """The archive under test: the one of PGBOARD_ARCHIVE, the one that the gate has proved, or the one without proofs."""
    if os.environ.get("PGBOARD_ARCHIVE"):
        return pathlib.Path(os.environ["PGBOARD_ARCHIVE"])
    if common.PROVED != common.ROOT:
        return common.library("proved", common.PROVED)
    return common.unproved("library")


if __name__ == "__main__":
    common.copy_crates(common.PROGRAM)
    for name in ("tools", "include"):
        (common.PROGRAM / name).symlink_to(common.ROOT / name)
    print(build(common.PROGRAM))
    print("1 passed, 0 failed")
