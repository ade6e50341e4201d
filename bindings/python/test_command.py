"""Tests of `python3 -m pgboard` over the library, by unittest; tests/uses/uses.py has all others."""

import contextlib
import hashlib
import io
import json
import os
import pathlib
import re
import signal
import subprocess
import sys
import time
import unittest
import unittest.mock

import pgboard.library

sys.path.append(str(pathlib.Path(__file__).resolve().parents[2] / "tests" / "lib"))
import common
import plain
import scripts
import uses
from pgboard.command import engine, games

LIBRARY = {"PGBOARD_LIBRARY": pgboard.library.path_of_library()}
# what `random` writes for four vertices, and the sum of a longer game
KNOWN_GAME = "parity 3;\n0 0 0 0,2;\n1 1 0 0,1;\n2 0 0 0,2;\n3 0 1 1,2,3;\n"
KNOWN_SUM = "6940deb4040c28144f76d1995367c4bb375a9c127cce933f500f5be2934024e5"
# the command, whose search goes on for ever, since no slice of the recursion takes a step
ENDLESS = f"""import _signal, os, sys
_signal.signal(_signal.SIGINT, _signal.SIG_DFL)
sys.path.insert(0, {str(scripts.BINDINGS)!r})
from pgboard import library
take = library.Handle.advance
def advance(handle, steps):
    open(os.environ.get("BEGUN", os.devnull), "w").close()
    return take(handle, 0)
library.Handle.advance = advance
from pgboard.command import run
from pgboard.command.words import main
run("pgboard", main)
"""


def endless(*given):
    return [sys.executable, "-B", "-c", ENDLESS, *given]


class Command(uses.Solve):
    has_entries = True

    @classmethod
    def setUpClass(cls):
        patch = unittest.mock.patch.dict(os.environ, LIBRARY)
        patch.start()
        cls.addClassCleanup(patch.stop)
        engine.engine.cache_clear()
        with contextlib.redirect_stderr(io.StringIO()):
            # (once a process, a library without proofs is said to be one)
            engine.engine()
        cls.addClassCleanup(engine.engine.cache_clear)

    def texts_of(self, command):
        status, *texts = common.run(command)
        return (status, *(scripts.without_build(it.decode()) for it in texts))

    def hard(self):
        """A game that is left to the recursion, and beside it vertices that are settled at once."""
        ladder = plain.ladder(40)
        easy = {len(ladder) + v: (v % 2, 0, {len(ladder) + v}) for v in range(9)}
        return {**ladder, **easy}, {id: (row[0], id if row[0] == 0 else None) for id, row in easy.items()}

    def test_a_time_limit(self):
        """What is settled in time is written with --partial alone. It holds, and `solve --known` goes on
        from it.
        """
        game, easy = self.hard()
        path = self.file("game.pg", plain.written_game(game))
        limited = lambda *words: self.texts_of(endless("solve", "--timeout", "0.5", *words, path))
        status, out, err = limited()
        self.assertEqual((status, out), (6, ""))
        self.assertRegex(err, r"\Apgboard: after 0.5 s \d+ of 209 vertices are settled\n\Z")
        status, out, err = limited("--partial")
        known = plain.known_of(game, out.encode())
        self.assertEqual((status, next(plain.known_faults(game, known), None)), (6, None))
        self.assertEqual(err, f"pgboard: after 0.5 s {len(known)} of 209 vertices are settled\n")
        self.assertLessEqual(easy.items(), known.items())
        status, again, _ = limited("--partial", "--known", self.file("part.sol", out))
        self.assertEqual(status, 6)
        self.assertLessEqual(known.items(), plain.known_of(game, again.encode()).items())
        # (no slice begins in so little time)
        self.assertEqual(limited("--partial", "--timeout", "0.000001")[:2], (6, "paritysol 0;\n"))
        status, out, _ = limited("--partial", "--json")
        found = json.loads(out)
        self.assertEqual((status, found["is_whole"]), (6, False))
        rows = {it["vertex"]: (it["winner"], it["choice"]) for it in found["solution"]}
        self.assertLessEqual(easy.items(), rows.items())
        left = str(min(game.keys() - known.keys()))
        ended = self.texts_of(endless("winner", "--timeout", "0.2", "--vertex", left, path))
        self.assertEqual(ended[:2], (6, ""))
        # (what is settled at once needs no more)
        for vertex, (winner, choice) in easy.items():
            words = "winner", "--reach", "--vertex", str(vertex), path
            row = f"{vertex} {winner}{'' if choice is None else f' {choice}'}"
            self.assertEqual(self.texts_of(endless(*words)), (winner, f"paritysol {vertex};\n{row};\n", ""))

    def test_progress_on_a_terminal(self):
        game, easy = self.hard()
        path = self.file("game.pg", plain.written_game(game))
        ran, said = common.at_terminal(endless("solve", "--timeout", "2", path))
        first, *lines, last = said.decode().replace("\r\n", "\n").split("\r\x1b[K")
        self.assertEqual((ran.returncode, scripts.without_build(first)), (6, ""))
        found = [re.fullmatch(r"pgboard: (\d+) of 209 vertices settled, (\d+) s", it) for it in lines]
        self.assertIn(len(found), (1, 2, 3))
        settled, seconds = zip(*[map(int, it.groups()) for it in found])
        self.assertEqual((list(settled), list(seconds)), (sorted(settled), sorted(seconds)))
        self.assertGreaterEqual(settled[-1], len(easy))
        self.assertEqual(seconds[0], 1)
        end = re.fullmatch(r"pgboard: after 2 s (\d+) of 209 vertices are settled\n", last)
        self.assertLessEqual(settled[-1], int(end[1]))

    def test_the_game_is_not_read_again_for_what_is_written_of_it(self):
        path, rows = self.file("game.pg", "0 1 0 0,1; 1 2 1 1;"), "paritysol 1;\n0 0 1;\n1 0;\n"
        rows_of_json = [{"vertex": 0, "winner": 0, "choice": 1}, {"vertex": 1, "winner": 0, "choice": None}]
        with unittest.mock.patch.object(games.Game, "of_text", side_effect=AssertionError("it is read")):
            for *flags, wanted in (
                (rows,),
                ("--timeout", "99", rows),
                ("--winners", "paritysol 1;\n0 0;\n1 0;\n"),
                ("--json", json.dumps({"is_whole": True, "solution": rows_of_json}) + "\n"),
            ):
                self.assertEqual(self.call(*flags, path), (0, wanted))

    def test_a_random_game_is_the_same_everywhere(self):
        made = lambda *words: scripts.called(self.script, ["random", *words])[1]
        few = "--priorities", "3", "--successors", "1-3", "--seed", "7"
        self.assertEqual(made("4", *few), KNOWN_GAME)
        text = made("1000", "--seed", str(2**64 - 1))
        self.assertEqual(hashlib.sha256(text.encode()).hexdigest(), KNOWN_SUM)
        for seed in range(40):
            game = plain.game_of(made("4", "--no-loops", "--successors", "2-3", "--seed", str(seed)).encode())
            self.assertEqual([*game], [0, 1, 2, 3])
            for v, (priority, owner, successors) in game.items():
                self.assertTrue(priority < 8 and owner < 2 and v not in successors and len(successors) in (2, 3))

    def test_a_library_that_is_named_comes_before_a_program(self):
        """And that comes before a library which is only found."""
        path, said = self.file("game.pg", "0 0 0 0;"), "paritysol 0;\n0 0 0;\n"
        self.assertEqual(self.run_script(path, PGBOARD="/nowhere"), (0, said, ""))
        found = self.run_script(path, PGBOARD="/nowhere", PGBOARD_LIBRARY="")
        self.assertEqual(found, (4, "", "pgboard: /nowhere: No such file or directory\n"))

    def test_what_library_runs_is_said_as_the_program_says_it(self):
        """One is older than the sources where those of the library are newer, and not those of the program."""
        built = pathlib.Path(self.file("built", ""))
        self.file("crates.txt", "# all\na: b\npgboard_c staticlib: a\npgboard: a\n\nb_tests: b\n")
        for crate in ("a", "pgboard_c", "pgboard", "b_tests"):
            (self.folder / "crates" / crate / "src").mkdir(parents=True)
            pathlib.Path(self.file(f"crates/{crate}/src/it.rt", "")).touch()
        stale = "pgboard: warning: the sources have changed since this build; ./pgboard {}--library builds them\n"
        unproved = "pgboard: unproved: no proof was made of this build; its run-time checks are on\n"
        later = time.time() + 99
        for build, newer, said in (
            ("unproved, commit 1", (), unproved),
            ("unproved, commit 1", ("a",), stale.format("--unproved ") + unproved),
            ("proved", ("pgboard_c",), stale.format("")),
            ("proved", ("pgboard", "b_tests"), ""),
        ):
            os.utime(built, (later - 50, later - 50))
            for crate in ("a", "pgboard_c", "pgboard", "b_tests"):
                os.utime(self.folder / "crates" / crate / "src/it.rt", (1, later if crate in newer else 1))
            of = {"build": lambda: build, "path_of_library": lambda: str(built), "BUILT": [str(built)]}
            library = unittest.mock.patch.multiple(pgboard.library, **of)
            err, top = io.StringIO(), unittest.mock.patch.object(engine, "TOP", str(self.folder))
            with self.subTest(build, newer=newer), library, top, contextlib.redirect_stderr(err):
                engine.warn.__wrapped__()
            self.assertEqual(err.getvalue(), said)

    def test_what_is_solved_is_verified(self):
        """Whether the library reads the text, or the command does."""
        fault = unittest.mock.Mock(side_effect=pgboard.Leaves(0, 1))
        for text, call in (("0 0 0 0,1; 1 1 1 1;", "verify_text"), ("0 0 0 0,1; 1 1 1 1; # a", "verify_csr")):
            with unittest.mock.patch.object(pgboard.calls, call, fault):
                with self.refuses("^what pgboard solved was refused: 0 leaves to 1$"):
                    self.call(self.file("game.pg", text))

    def test_an_interrupt(self):
        """It ends a search at once, as the signal that it is, without a word."""
        given, search = self.file("game.pg", plain.written_game(self.hard()[0])), self.folder / "begun"
        pipes = {"stdout": subprocess.PIPE, "stderr": subprocess.PIPE}
        with subprocess.Popen(endless("solve", given), **pipes, env={**os.environ, "BEGUN": str(search)}) as process:
            common.wait_until(search.exists)
            begun = time.monotonic()
            process.send_signal(signal.SIGINT)
            out, err = process.communicate(timeout=20)
            said = scripts.without_build(err.decode())
            self.assertEqual((out, said, process.returncode), (b"", "", -signal.SIGINT))
            self.assertLess(time.monotonic() - begun, 2)


if __name__ == "__main__":
    unittest.main()
