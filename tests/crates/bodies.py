#!/usr/bin/env python3
"""Finds wrong bodies that no contract can refuse.

Each file of tests/crates/wrong_bodies names a unit test that has to fail on the edited sources: `file:` and pairs of
`old:` and `new:` as in the must-fail edits, with paths from the top, and `test:` with the crate and the test, or
with a program of tests/library/embed that has to fail with the edited library.
Only the allocator's error may make a value that says that memory was refused, or a row that says so; all other
code passes it on.
"""

import pathlib
import re
import shutil
import sys
import unittest

sys.path.append(str(pathlib.Path(__file__).resolve().parents[1] / "lib"))
import common
import unit

# a value or a pattern that says that memory was refused
SAYS = re.compile(
    r"\b\w+::Memory\b|(?<!: )(?<!-> )\b(?:AllocError|Memory)\b(?!>)|\bmemory(?:: (?!bool\b|false\b)| = )"
)
# lines on which such words are names, conditions or comments
OTHER = re.compile(r"\s*(?:use|ghost|ensures|requires|//|→|×|pub type|Memory,$)")
MADE_HERE = re.compile(r"impl(<[^>]*>)? From<Alloc\w+(<\w+>)?> for|impl From<Memory> for")


def says_wrongly(line):
    """Whether a line makes a value that says that memory was refused from something else."""
    pattern, arrow, value = line.partition("=>")
    pattern = pattern.partition(" if ")[0]
    takes = all(SAYS.search(it) or "ErrorKind::OutOfMemory" in it for it in pattern.split("|"))
    return not OTHER.match(line) and bool(SAYS.search(line)) and not (arrow and (takes or not SAYS.search(value)))


def wrong_lines(text):
    in_from = False
    for line in text.splitlines():
        in_from = bool(MADE_HERE.match(line)) if line.startswith(("impl", "}")) else in_from
        if not in_from and says_wrongly(line):
            yield line


class Memory(unittest.TestCase):
    def test_each_source(self):
        paths = sorted(common.ROOT.glob("crates/*/src/**/*.rt"))
        sources = [it for it in paths if "_test" not in str(it.relative_to(common.ROOT))]
        self.assertGreater(len(sources), 60)
        for path in sources:
            with self.subTest(path.name):
                self.assertEqual([*wrong_lines(path.read_text())], [])

        # (and a line that makes one is found)
        made = ["Err(Fault::Memory)", "Err(Stale) => Err(AllocError),", "Stale | Memory => Memory,"]
        made += ["row.memory = claims.len() > 4;", "Ok(found) => row.memory = true,", "Row { memory: true, ..row }"]
        for line in made:
            self.assertEqual([*wrong_lines(f"fn f() -> Fault {{\n    {line}\n}}")], [f"    {line}"])


def edited(text, pairs):
    for (_, old), (_, new) in zip(pairs[::2], pairs[1::2], strict=True):
        assert text.count(old) == 1, old
        text = text.replace(old, new)
    return text


class Build:
    """A copy of the crates whose crate of tests has tests of several wrong bodies, each over copies of its own."""

    def __init__(self, folder, tests):
        common.copy_crates(folder)
        self.crates, self.tests, self.list = folder / "crates", tests, folder / "crates.txt"
        lines = re.findall(r"(?m)^(\w+)(?: \w+)?: (.*)$", self.list.read_text())
        self.uses, self.used, self.sources = {it: used.split() for it, used in lines}, set(), folder / "sources"
        (self.crates / tests / "src").rename(self.sources)

    def uses_it(self, crate, other):
        return crate == other or any(self.uses_it(it, other) for it in self.uses.get(crate, []))

    def copy(self, sources, to, new, pairs={}):
        """Copies sources, with wrong bodies and with the new names of crates and modules."""
        for path in sources.glob("**/*.rt"):
            text = edited(path.read_text(), pairs.get(path, []))
            at = to / re.sub(r"^tests\b", new.get("tests", "tests"), str(path.relative_to(sources)))
            at.parent.mkdir(parents=True, exist_ok=True)
            at.write_text(re.sub(r"\b\w+\b", lambda it: new.get(it[0], it[0]), text))

    def add(self, mark, file, pairs, *tests):
        """Copies the crates from that of the wrong body up, and the tests."""
        file = self.crates.parent / file
        first = file.relative_to(self.crates).parts[0]
        above = [it for it in self.uses if self.uses_it(it, first) and self.uses_it(self.tests, it)]
        new = {it: f"{it}_{mark}" for it in above if it != self.tests}
        for it in new:
            self.copy(self.crates / it / "src", self.crates / new[it] / "src", new, {file: pairs})
            with self.list.open("a") as lines:
                lines.write(f"{new[it]}: {' '.join(new.get(used, used) for used in self.uses[it])}\n")
        self.used |= {new.get(it, it) for it in self.uses[self.tests]}
        left = self.crates.parent / mark
        shutil.copytree(self.sources, left)
        unit.leave_tests(left, *tests)
        self.copy(left, self.crates / self.tests / "src", new | {"tests": f"tests_{mark}"})

    def run(self, marks):
        """What rt says of all tests. What macros of assertions call is in the module `tests`."""
        top = self.crates / self.tests / "src"
        (top / "tests").mkdir()
        shutil.copy(self.sources / "tests" / "asserting.rt", top / "tests")
        (top / "tests.rt").write_text("pub mod asserting;\n")
        modules = "".join(f"#[cfg(test)]\nmod {it};\n" for it in ["tests", *(f"tests_{it}" for it in marks)])
        (top / "lib.rt").write_text(f"#![tactic(auto)]\n\n{modules}")
        text = re.sub(rf"(?m)^({self.tests}:).*$", rf"\1 {' '.join(sorted(self.used))}", self.list.read_text())
        self.list.write_text(text)
        return unit.try_tests(self.crates / self.tests)


def wrong_bodies(of_library):
    """The name, the file, the pairs and the test of each, of those that a program in C tests or of the others."""
    for path in sorted((common.ROOT / "tests" / "crates" / "wrong_bodies").iterdir()):
        (_, file), *pairs, (_, test) = (line.split(": ", 1) for line in path.read_text().splitlines())
        if test.endswith(".c") == of_library:
            yield path.stem, file, pairs, test


@common.needs("rt", "cc")
class WrongBodies(unittest.TestCase):
    def test_each_of_the_library_fails_its_program(self):
        """The program passes with the library as it is, as embed.py shows."""
        for name, *row in wrong_bodies(of_library=True):
            with self.subTest(name):
                self.assertRegex(self.said_with(*row), r"(?m)^FAILED ")

    def said_with(self, file, pairs, test):
        """What a program says that is linked with the edited library."""
        folder = common.make_folder(self)
        common.copy_crates(folder)
        shutil.copytree(common.ROOT / "tools", folder / "tools")
        (folder / file).write_text(edited((folder / file).read_text(), pairs))
        library, program = common.library("unproved", folder), folder / "program"
        words = ["-std=c11", "-Iinclude", "-Wl,--wrap=malloc,--wrap=realloc", test, library, "-o", program]
        for command in ([folder / "tools" / "build", "unproved", "library"], ["cc", *words]):
            status, _, err = common.run(command, timeout=7200, cwd=common.ROOT)
            self.assertEqual(status, 0, err)
        return common.run([program], timeout=600)[1].decode()

    def test_each_fails_its_test(self):
        """Those of one crate of tests are built together, beside a copy without a wrong body."""
        edits = {}
        for *row, test in wrong_bodies(of_library=False):
            tests, test = test.split()
            edits.setdefault(tests, []).append((*row, test))
        self.assertTrue(edits)
        for tests, rows in edits.items():
            self.judge(Build(common.make_folder(self), tests), {f"b{at}": row for at, row in enumerate(rows)})

    def judge(self, build, rows):
        for mark, (_, *row) in rows.items():
            build.add(mark, *row)
        tests = {test for *_, test in rows.values()}
        build.add("right", rows["b0"][1], [], *tests)
        said, found = build.run([*rows, "right"])
        ends = {(path.split("::")[0], path.split("::")[-1]): end for path, end in found}
        for mark, (name, *_, test) in rows.items():
            with self.subTest(name):
                self.assertEqual(ends.get((f"tests_{mark}", test)), "FAILED", said)
        for test in tests:
            with self.subTest(test):
                self.assertEqual(ends.get(("tests_right", test)), "ok", said)
        # (a test that does not end has not failed as it should)
        self.assertNotIn("no-answer", said)


if __name__ == "__main__":
    common.main()
