#!/usr/bin/env python3
"""Has the prover refuse the wrong bodies of a crate, many at once: tests/lib/planted.py CRATE

Each file of crates/CRATE/wrong_bodies plants a mistake in one function, as the must-fail edits do, which `rt ci`
tries one by one. Here those of a round are planted in one copy of the crate, which is checked once, and each has to
be refused by itself: the prover has to name a place in the function's body or in the proofs of its own. A function
that calls a refused one is not proved either, so no two edits of a round are of one function, or of functions of
which one reaches the other by calls. An edit of which no place is named is tried alone, where any refusal counts.
What was refused is not tried again on this machine while the crate, those below it and the kit stay the same.
"""

import hashlib
import os
import pathlib
import re
import shutil
import subprocess
import sys
import tempfile
from typing import NamedTuple

import build_library
import common

rtlib = build_library.rtlib
theorem = common.load(common.ROOT / "tools" / "theorem")
# where refused edits are remembered, by the checksum of all that they stand on
KEPT = pathlib.Path(os.environ.get("XDG_CACHE_HOME") or pathlib.Path.home() / ".cache") / "pgboard" / "refused"
HEADER = re.compile(r"( *)(?:pub(?:\(crate\))? )?(?:const )?(?:unsafe )?(?:extern \"C\" )?fn (\w+)")
# a message at a place, but for what a proof file says of a name that is gone, or of what is not proved elsewhere
LOST = r"proofs/.*(?:has no field|is not in scope|has no `|was not admitted)"
PLACE = re.compile(rf"(?m)^(?:note: )?(?:\./)?(?!{LOST})((?:src|proofs)/\S+?):(\d+):\d+: .*")
# the prover's own limits, which it meets wherever it checks the same
LIMIT = re.compile(r"antt ran out of|outgrew the memory limit|stopped at the step limit")


class Unrefused(Exception):
    """Why an edit shows nothing of a contract."""


class Edit(NamedTuple):
    """A mistake in a function: its new lines by number, the function's key among those of the crate, and its lines."""

    name: str
    path: str
    changes: dict
    key: tuple
    lines: range

    def plant(self, text):
        """The text with the new lines. Other edits are of other functions, so these are where they were."""
        lines = text.split("\n")
        for number, line in self.changes.items():
            lines[number - 1] = line
        return "\n".join(lines)

    def is_at(self, path, line):
        """Whether a place is in the function's body, or in the proofs of its own."""
        owner, _, function = self.key[1].rpartition("::")
        of_type = rf"{owner}\w*/" if owner else ""
        own = rf"proofs/{self.path[4:-3]}/{of_type}\+?{function}/"
        return path == self.path and line in self.lines or bool(re.match(own, path))


def lines_of(text, number):
    """The lines of the function that has a line of a text."""
    lines = text.split("\n")
    first = next((it for it in range(number - 1, -1, -1) if HEADER.match(lines[it])), None)
    if first is None:
        raise Unrefused("BAD EDIT: its text is in no function")
    end = f"{HEADER.match(lines[first])[1]}}}"
    return range(first + 1, next((it for it in range(first, len(lines)) if lines[it].startswith(end)), len(lines)) + 2)


def read(file, bodies):
    """The edit of a file, of the function that the bodies have it in."""
    lines = [it.partition(":")[::2] for it in file.read_text().splitlines()]
    said = [(word, text.removeprefix(" ")) for word, text in lines if word in ("file", "old", "new")]
    if [word for word, _ in said] != ["file", *["old", "new"] * (len(said) // 2)] or len(said) < 3:
        raise Unrefused("BAD EDIT: it is not a line 'file:' and pairs of lines 'old:' and 'new:'")
    (_, path), *texts = said
    source = f"{file.parts[-3]}/{path}"
    text = theorem.read(source)
    changed = text
    for (_, old), (_, new) in zip(texts[::2], texts[1::2]):
        if changed.count(old) != 1:
            raise Unrefused(f"BAD EDIT: its text occurs {changed.count(old)} times: {old}")
        changed = changed.replace(old, new)
    pairs = enumerate(zip(text.split("\n"), changed.split("\n")), 1)
    changes = {number: new for number, (old, new) in pairs if old != new}
    if not changes:
        raise Unrefused("BAD EDIT: it changes nothing")
    of_file = ((key, body) for key, body in bodies.texts.items() if key[0] == source)
    key = next((key for key, body in of_file if texts[0][1] in body), (source, ""))
    return Edit(file.name, path, changes, key, lines_of(text, min(changes)))


def reached(bodies, key, known={}):
    """The functions that one reaches by calls."""
    if key not in known:
        known[key], left = set(), [key]
        while left:
            new = {*bodies.called(left.pop())} - known[key]
            known[key] |= new
            left += new
    return known[key]


def in_rounds(edits, bodies):
    """Edits that do not disturb one another, round by round."""
    disturbs = lambda one, other: one == other or one in reached(bodies, other) or other in reached(bodies, one)
    rounds = []
    for edit in edits:
        free = (it for it in rounds if not any(disturbs(edit.key, other.key) for other in it))
        found = next(free, None)
        if found is None:
            rounds.append(found := [])
        found.append(edit)
    return rounds


class Checks:
    """Checks of copies of a crate with edits, each over what the earlier ones proved."""

    def __init__(self, tree, name):
        self.crate = next(it for it in rtlib.crates_below(str(tree)) if it.name == name)
        self.folder, self.seed = pathlib.Path(self.crate.folder), tree / "seed"
        if not os.environ.get("PGBOARD_BEGAN"):
            # (outside the gate the libraries below may not be proved yet; this begins with what other checks here kept)
            subprocess.run(["rt", "check", "--jobs", "1"], cwd=self.folder, stdin=subprocess.DEVNULL, check=True)
        kept = self.folder / "out" / "incremental"
        if kept.is_dir():
            kept.rename(self.seed)
        else:
            self.seed.mkdir()

    def name_of(self, edit):
        """Where it is kept that an edit was refused: by the checksum of all that this stands on."""
        made = repr((rtlib.sum_of(f"{rtlib.KIT}/KIT-ID"), self.crate.stamp(), edit.path, edit.changes))
        return KEPT / hashlib.sha256(made.encode()).hexdigest()

    def check(self, edits):
        """The status of a check of a copy with these edits, and what it says."""
        with tempfile.TemporaryDirectory(prefix="pgboard-test-") as folder:
            for part in rtlib.PARTS:
                if (self.folder / part).is_dir():
                    shutil.copytree(self.folder / part, f"{folder}/{part}")
            for edit in edits:
                path = pathlib.Path(folder, edit.path)
                path.write_text(edit.plant(path.read_text()))
            words = self.crate.words(["--jobs", "1", "--incremental", str(self.seed)], keeps=False)
            how = {"stdout": subprocess.PIPE, "stderr": subprocess.STDOUT, "text": True, "errors": "replace"}
            command = [*rtlib.guarded(), rtlib.RATTLE, "check", *words]
            ran = subprocess.run(command, cwd=folder, stdin=subprocess.DEVNULL, **how)
            return ran.returncode, ran.stdout.rstrip("\n")

    def judge(self, edits):
        """What refuses each of the edits of a round by itself, by name; of the others nothing is known."""
        _, said = self.check(edits)
        if not is_verdict(said):
            return {}
        places = [(it[0], it[1], int(it[2])) for it in PLACE.finditer(said)]
        found = {}
        for edit in edits:
            shown = (line for line, path, at in places if edit.is_at(path, at))
            if first := next(shown, ""):
                found[edit.name] = said[said.index(first) :].splitlines()[0]
        return found

    def judge_alone(self, edit):
        """What refuses an edit that is tried alone, where the prover may name any place."""
        status, said = self.check([edit])
        if status == 0:
            raise Unrefused("NOT REFUSED: the crate is still proved")
        if not is_verdict(said) and not LIMIT.search(said):
            raise Unrefused(f"BAD EDIT: the prover gives no verdict: {said[:300]}")
        found = PLACE.search(said)
        return found[0] if found else said.splitlines()[-1]


def is_verdict(said):
    """Whether the prover has read all, and refuses something."""
    return said.rpartition("\n")[2].startswith("logic=not-proved")


def tried(checks, edits, bodies):
    """Yields each edit with what refuses it."""
    left = []
    for round_ in in_rounds(edits, bodies):
        found = checks.judge(round_)
        print(f"a round of {len(round_)}: {len(found)} refused by themselves", flush=True)
        yield from ((it, found[it.name]) for it in round_ if it.name in found)
        left += [it for it in round_ if it.name not in found]
    for edit in left:
        try:
            yield edit, checks.judge_alone(edit)
        except Unrefused as why:
            yield edit, why


def run(root, name, checks_of=Checks):
    """Tries the edits of a crate of a repository; what came of each, by its name."""
    theorem.TOP, found, edits = root, {}, []
    bodies = theorem.Bodies(name)
    with tempfile.TemporaryDirectory(prefix="pgboard-test-") as folder:
        tree = pathlib.Path(folder)
        common.copy_crates(tree, root)
        checks = None
        for file in sorted((root / "crates" / name / "wrong_bodies").iterdir()):
            try:
                edits.append(read(file, bodies))
            except Unrefused as why:
                found[file.name] = why
        build_library.take_as_built(tree, name)
        checks = checks_of(tree, name)
        new = [it for it in edits if not checks.name_of(it).exists()]
        found |= {it.name: "as an earlier run found" for it in edits if it not in new}
        for edit, why in tried(checks, new, bodies) if new else ():
            found[edit.name] = why
            if not isinstance(why, Unrefused):
                KEPT.mkdir(parents=True, exist_ok=True)
                checks.name_of(edit).touch()
    return found


def main():
    # (common.py takes the first word)
    found = run(common.ROOT, common.NAMED)
    for name, why in sorted(found.items()):
        print(f"{common.NAMED}/{name}: {why if isinstance(why, Unrefused) else f'refused: {why}'}")
    failed = sum(isinstance(it, Unrefused) for it in found.values())
    print(f"{len(found) - failed} passed, {failed} failed")
    sys.exit(1 if failed else 0)


if __name__ == "__main__":
    main()
