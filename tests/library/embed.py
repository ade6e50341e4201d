#!/usr/bin/env python3
"""Builds the static library, and looks at what C and Python see of it."""

import itertools
import os
import pathlib
import re
import shutil
import sys
import unittest

sys.path.append(str(pathlib.Path(__file__).resolve().parents[1] / "lib"))
import build_library
import common
import pages

CRATE = common.ROOT / "crates" / "pgboard_c"
ARCHIVES = []
# the tests of the calls, of large games, of boards, of those that are finished part by part, and of boards of
# texts; and their games (those without have their own)
PROGRAMS = {"test": 0, "large": 0, "board": 0, "advance": 3000, "board_texts": 500}
BOARDS = "board", "advance", "board_texts"
WARNINGS = ["-Wall", "-Wextra", "-Werror", "-pedantic", "-Iinclude"]
STRICT = {"c": ["-Wshadow", "-Wconversion"]}
STRICT["c++"] = [*STRICT["c"], "-Wzero-as-null-pointer-constant"]
FLAGS = ["-std=c11", *WARNINGS, "-O1"]
REFUSING = ["-Wl,--wrap=malloc,--wrap=realloc"]
SANITIZERS = ["-fsanitize=address,undefined", "-fno-sanitize-recover=all", "-g"]
HEADER = common.text_of("include/pgboard.h")
# what is solved, posted, given up and finished of a thousand random games
CALLS = """import random, pgboard

def said(call, *given):
    try:
        return call(*given)
    except pgboard.Fault as fault:
        return repr(fault)

for chance in map(random.Random, range(1000)):
    n = chance.randint(1, 40)
    some = lambda most: [chance.randrange(most) for _ in range(n)]
    game = some(2), some(9), [chance.choices(range(n), k=chance.randint(1, 3)) for _ in range(n)]
    board, solved, player = pgboard.Board(*game), pgboard.solve(*game), chance.randrange(2)
    won = [v for v in range(n) if solved[0][v] == player and chance.random() < 0.9]
    claim = {v: solved[1][v] for v in won}
    print(solved, said(pgboard.solve, *game, None, chance.randrange(30)), said(board.post, player, claim, 7))
    board.finish()
    print(board.entries[:], board.solution_text())
"""
DECLARED = re.findall(r"(?ms)^(?:uint32_t|uint64_t|size_t|void) (\w+)\([^;]*;", HEADER)


def pythons():
    """Each Python from 3.8 on that is installed. (Only the distribution's own has its NumPy.)"""
    names = [sys.executable, "/usr/bin/python3", *(f"python3.{minor}" for minor in range(8, 20))]
    found = {}
    for path in filter(None, map(shutil.which, names)):
        status, said, _ = run([path, "-c", "import sys; print(sys.executable)"])
        if status == 0:
            found.setdefault(os.path.realpath(said.strip()), path)
    return found.values()


def run(words, given=b""):
    status, out, err = common.run(words, given, timeout=300, cwd=common.ROOT)
    return status, out.decode(), err.decode()


def build_archive(folder):
    """Copies the static library under test to a folder. (Another script may build it again.)"""
    ARCHIVES[:] = [shutil.copy(build_library.built(), folder)]


def build_shared(folder):
    shared = folder / "libpgboard.so"
    words = ["-Wl,--whole-archive", *ARCHIVES, "-Wl,--no-whole-archive"]
    status, _, err = run(["cc", "-shared", "-o", shared, *words])
    assert status == 0, err
    return shared


def give_clone(folder, *names):
    """What commands of the pages take of a clone: some folders, and the library under test where one without proofs is."""
    for name in names:
        (folder / name).symlink_to(common.ROOT / name)
    made = common.library("unproved", folder)
    made.parent.mkdir(parents=True)
    made.symlink_to(ARCHIVES[0])


def without_build(commands):
    """Commands of a page but for the line that builds the library, which launcher.py runs."""
    return commands.replace("./pgboard --unproved --library\n", "", 1)


@common.needs("rt", "cc")
class Embed(unittest.TestCase):
    @classmethod
    def setUpClass(cls):
        cls.folder = common.make_folder(cls)
        build_archive(cls.folder)

    def built(self, words):
        status, _, err = run(["cc", *words])
        self.assertEqual(status, 0, err)

    def test_the_header_declares_what_the_crate_exports(self):
        crate = "".join(path.read_text() for path in (CRATE / "src").glob("*.rt"))
        self.assertEqual(sorted(DECLARED), sorted(re.findall(r'pub extern "C" fn (\w+)', crate)))
        self.assertEqual(len(DECLARED), 28)

    def test_the_header_in_c_and_cpp(self):
        source = self.folder / "header.c"
        program = "struct pgboard_board board = PGBOARD_BOARD;\nint main(void) { return !pgboard_strerror(0); }\n"
        source.write_text(f'#include "pgboard.h"\n{program}')
        flags = {"c": ["c89", "c99", "c11", "c17"], "c++": ["c++98", "c++11", "c++17", "c++20"]}
        for compiler in common.installed("gcc", "clang"):
            for language, standards in flags.items():
                for standard in standards:
                    words = [f"-x{language}", f"-std={standard}", *WARNINGS, *STRICT[language]]
                    with self.subTest(compiler, standard=standard):
                        self.assertEqual(run([compiler, *words, "-fsyntax-only", source])[::2], (0, ""))

    def test_a_null_pointer_and_an_answer_not_looked_at_give_warnings(self):
        given = "struct pgboard_results *results, struct pgboard_report *report"
        head = f'#include "pgboard.h"\nvoid f(const struct pgboard_game *game, {given})\n'
        wrong = {
            "pgboard_solve(game, results, report);": "unused",
            "if (pgboard_solve(0, results, report)) f(game + 1, results, report);": "null",
        }
        for call, word in wrong.items():
            (self.folder / "warned.c").write_text(head + "{\n" + call + "\n}\n")
            status, _, err = run(
                ["cc", "-std=c89", *WARNINGS, "-c", self.folder / "warned.c", "-o", self.folder / "warned.o"]
            )
            self.assertEqual(status, 1)
            self.assertIn(word, err)

    def test_each_program_in_c(self):
        for source, games in PROGRAMS.items():
            with self.subTest(source):
                self.passes(self.built_program("plain", [], source), str(games))
                if source != "large":
                    self.passes(self.built_program("with sanitizers", SANITIZERS, source), str(games // 10))

    @unittest.skipIf(common.PROVED == common.ROOT, "no proved library beside the one without proofs")
    def test_the_library_without_proofs(self):
        """It has the same calls, and one more that says what it is; and it passes the same tests."""
        archive = common.unproved("library")
        shared = archive.with_name("libpgboard.so")
        named = run(["nm", "--dynamic", "--defined-only", "--format=posix", shared])[1]
        self.assertEqual(set(re.findall(r"(?m)^(pgboard_\w+)", named)), {*DECLARED, "pgboard_unproved"})
        self.assertRegex(shared.read_bytes(), rb"\0unproved, commit [0-9a-f]{40}(-dirty)?\0")
        for source in ("test", *BOARDS):
            with self.subTest(source):
                program = self.built_program("without proofs", [], source, [archive])
                self.passes(program, str(PROGRAMS[source]))
        env = {**os.environ, "PYTHONPATH": "bindings/python"}
        both = (env | {"PGBOARD_LIBRARY": str(it)} for it in (build_shared(self.folder), shared))
        words = [sys.executable, "-B", "-c", CALLS]
        first, second = (common.run(words, cwd=common.ROOT, env=it) for it in both)
        # (a difference of long texts takes very long to be shown)
        self.assertTrue(first == second, "the libraries answer differently")
        self.assertEqual((first[0], first[1].count(b"paritysol")), (0, 1000))

    @common.needs("valgrind")
    def test_a_board_under_valgrind(self):
        leaks = ["--leak-check=full", "--errors-for-leak-kinds=all"]
        for source in BOARDS:
            with self.subTest(source):
                program = self.built_program("for valgrind", ["-g"], source)
                words = ["valgrind", "-q", "--error-exitcode=9", *leaks, program]
                status, out, err = run([*words, str(PROGRAMS[source] // 100)])
                self.assertEqual(status, 0, out + err)

    def built_program(self, name, flags, source, archives=ARCHIVES):
        program = self.folder / f"{source} {name}"
        words = [*FLAGS, *flags, *REFUSING, f"tests/library/embed/{source}.c", *archives]
        self.built([*words, "-o", program, "-lpthread"])
        return program

    def test_the_header_for_cpp(self):
        for compiler, standard in itertools.product(common.installed("g++", "clang++"), ("c++17", "c++20")):
            with self.subTest(compiler, standard=standard):
                test = self.folder / f"{compiler}-{standard}"
                flags = [f"-std={standard}", *WARNINGS, *STRICT["c++"], *REFUSING, *(SANITIZERS if compiler == "g++" else [])]
                self.assertEqual(
                    run([compiler, *flags, "tests/library/embed/test.cpp", *ARCHIVES, "-o", test, "-lpthread"])[::2],
                    (0, ""),
                )
                self.passes(test)

    def test_a_value_of_cpp_that_is_dropped_gives_a_warning(self):
        """Each call that returns one says so, but for the size of a span and a journal that is deleted."""
        text = re.sub(r"(?ms)^namespace detail \{.*?^\} // namespace detail$", "", common.text_of("include/pgboard.hpp"))
        calls = r"(?m)^(?:    )?(\[\[nodiscard\]\] )?(?:inline |static )*(?!return|else|explicit)([\w:<>]+) (\w+|operator\[\])\("
        found = re.findall(calls, text)
        self.assertGreater(len(found), 40)
        self.assertEqual([name for said, kind, name in found if not said and kind != "void"], ["size", "journal"])

    def passes(self, test, *words):
        status, out, err = run([test, *words])
        self.assertEqual(status, 0, out + err)
        self.assertRegex(out, r"(?m)^[1-9]\d* passed, 0 failed$")

    def test_the_programs_of_the_page_and_the_one_that_it_names(self):
        give_clone(self.folder, "include")
        stop = common.text_of("examples/board/stop.c")
        more = {"c": [(stop, "".join(re.findall(r"(?m)^ \*     (.*\n)", stop)))], "cpp": []}
        warned = {"c": ["cc", "-std=c11"], "cpp": ["c++", "-std=c++17"]}
        for language, count in (("c", 2), ("cpp", 1)):
            programs, commands = pages.c_programs(common.text_of(pages.C_PAGE), language)
            self.assertEqual(len(programs), count)
            for program, printed in programs + more[language]:
                source = self.folder / f"embed.{language}"
                source.write_text(program)
                self.assertEqual(run([*warned[language], *WARNINGS, "-fsyntax-only", source])[::2], (0, ""))
                status, out, err = common.run(["bash", "-e", "-c", without_build(commands)], cwd=self.folder)
                self.assertEqual(status, 0, out + err)
                self.assertEqual(run([f"{self.folder}/embed"]), (0, printed, ""))

    def test_bindings_python(self):
        env = {**os.environ, "PGBOARD_LIBRARY": str(build_shared(self.folder)), "PGBOARD_TESTED": str(common.PROGRAM)}
        folder = common.ROOT / "bindings" / "python"
        for python, name in itertools.product(pythons(), sorted(it.name for it in folder.glob("test_*.py"))):
            with self.subTest(python, name=name):
                status, out, err = common.run([python, "-B", folder / name], timeout=600, cwd=folder, env=env)
                self.assertEqual(status, 0, out + err)
                self.assertRegex(err, rb"\nRan [1-9]")
                if common.IS_GATE and python == sys.executable:
                    self.assertNotIn(b"skipped=", err)


if __name__ == "__main__":
    common.main()
