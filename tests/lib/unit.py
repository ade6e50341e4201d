#!/usr/bin/env python3
"""Runs the unit tests of a crate without a proof, or those in whose path a name stands."""

import pathlib
import re
import string
import sys
import tempfile

import common

# a list of numbers, and those that are bytes of a text
BYTES, PRINTABLE = re.compile(r"\[(\d+(?:, \d+){3,})\]"), {*map(ord, string.printable)}
TEST = re.compile(r"(?ms)^(?:///[^\n]*\n)*#\[test\]\nfn (\w+)\(.*?^}\n")


def leave_tests(sources, *names):
    """Removes each test of a crate in whose path no name stands as whole words."""
    for path in sources.glob("**/*.rt"):
        module = "::".join(path.relative_to(sources).with_suffix("").parts)
        is_one = lambda path: any(f"::{it}::" in f"::{path}::" for it in names)
        kept = lambda found: found[0] if is_one(f"{module}::{found[1]}") else ""
        path.write_text(TEST.sub(kept, path.read_text()))


def with_texts(said):
    """What rt says, where a list of four numbers or more is the text of which these are the bytes."""

    def as_text(found):
        held = [*map(int, found[1].split(", "))]
        return repr(bytes(held)) if {*held} <= PRINTABLE else found[0]

    return BYTES.sub(as_text, said)


def try_tests(crate):
    """What rt says of a crate's tests, and pairs of their paths and 'ok' or 'FAILED'."""
    # (without proofs a test takes long: a minute, on a slow machine, is not enough for each)
    words = ["rt", "try", "--test", "--seconds", "600"]
    _, out, err = common.run(words, timeout=7200, cwd=crate)
    said = with_texts((out + err).decode(errors="replace"))
    return said, re.findall(r"(?m)^test (\S*) \.\.\. .*?(\w+)$", said)


if __name__ == "__main__":
    # (common.py takes the first word)
    crate, _, name = common.NAMED.partition("::")
    if (common.ROOT / "crates" / f"{crate}_tests").is_dir():
        crate += "_tests"
    with tempfile.TemporaryDirectory(prefix="pgboard-test-") as folder:
        folder = pathlib.Path(folder)
        common.copy_crates(folder)
        if name:
            leave_tests(folder / "crates" / crate / "src", name)
        said, found = try_tests(folder / "crates" / crate)
    print(said)
    passed = [end for _, end in found].count("ok")
    failed = len(found) - passed or int(not found)
    print(f"{passed} passed, {failed} failed")
    sys.exit(1 if failed else 0)
