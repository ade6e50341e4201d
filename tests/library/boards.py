#!/usr/bin/env python3
"""Tests of examples/board and bench/library_calls over the static library."""

import itertools
import os
import pathlib
import random
import re
import signal
import subprocess
import sys
import time
import unittest
import unittest.mock

sys.path.append(str(pathlib.Path(__file__).resolve().parents[1] / "lib"))
import common
import embed
import plain
import random_games
import scripts

BOARD = common.ROOT / "examples" / "board"
SAID = re.compile(r"referee: solver (\d+) \((.*)\): (.*), \d+\.\d s: (.*)")
GAME = {3: (2, 0, {3, 9}), 9: (1, 1, {9}), 12: (0, 1, {3})}
# what the referee says of what a solver printed: the solution, Odd's part of it, and nothing
ALL = "Even settled 2, of which 2 of 2 claimed; Odd settled 1, of which 1 of 1 claimed"
ODD, NOTHING = "Odd settled 1, of which 1 of 1 claimed", "nothing is claimed"
FULL, LONG = "ended, since the board is full", ("--time", "600")


@common.needs("rt", "cc")
class Boards(unittest.TestCase):
    @classmethod
    def setUpClass(cls):
        cls.folder = common.make_folder(cls)
        embed.build_archive(cls.folder)

    def file(self, name, text):
        path = self.folder / name
        path.write_bytes(text if isinstance(text, bytes) else text.encode("utf-8", "surrogateescape"))
        return path

    def solves(self, game, out):
        self.assertIsNone(plain.written_fault(game, out), plain.written_game(game))


class Referee(Boards):
    @classmethod
    def setUpClass(cls):
        super().setUpClass()
        cls.env = {**os.environ, "PGBOARD_LIBRARY": str(embed.build_shared(cls.folder))}

    def run_script(self, *words, given=b"", script=(BOARD / "referee.py",), **env):
        said = self.folder / "said"
        command = ["sh", "-c", 'exec "$@" 2>"$0"', said, sys.executable, "-B", *script, *words]
        status, out, _ = common.run(command, given, timeout=120, env={**self.env, **env})
        return status, out, scripts.without_build(said.read_text())

    def after(self, worker, commands):
        """A solver that runs commands of sh once the referee has said what became of another solver."""
        said = self.folder / "said"
        return f"sh -c 'until grep -q \"solver {worker} \" {said}; do sleep 0.05; done; {commands}'"

    def referee(self, game, *solvers, more=(), **how):
        """The lines of each solver as (worker, command, how it ended, what was done), and how many vertices
        were left to the board. What is printed has to be a solution.
        """
        words = [it for solver in solvers for it in ("--solver", solver)]
        status, out, err = self.run_script(
            *words, *more, self.file("game.pg", plain.written_game(game)), **how
        )
        self.assertEqual(status, 0, err)
        self.solves(game, out)
        *lines, last = err.splitlines()
        left = re.fullmatch(rf"referee: the board itself settled (\d+) of {len(game)}", last)
        self.assertTrue(left, err)
        self.assertEqual(len(lines), len(solvers), err)
        return [SAID.fullmatch(line).groups() for line in lines], int(left[1])

    def check(self, wanted, left, *solvers, game=GAME, **how):
        """How each solver ends with what is done, and how many vertices are left to the board."""
        lines, rest = self.referee(game, *solvers, **how)
        self.assertEqual(([it[2:] for it in sorted(lines)], rest), (wanted, left))

    def printing(self, text):
        """A solver that prints a text."""
        return f"cat {self.file('solution', text)}"

    def test_the_example_of_the_page(self):
        command, printed = re.search(
            r"(?ms)^```console\n\$ python3 (.*?)\n(.*?)^```$", common.text_of("examples", "README.md")
        ).groups()
        status, out, err = common.run(
            ["bash", "-c", f"exec 2>&1; {sys.executable} -B {command}"], env=self.env, cwd=common.ROOT
        )
        self.assertEqual((status, err), (0, b""))
        seconds = lambda text: re.sub(r"\d+\.\d s", "N s", scripts.without_build(text))
        self.assertEqual(seconds(out.decode()), seconds(printed))

    def test_what_is_said_of_a_solver(self):
        for said, text in scripts.rows_of("claimed.txt"):
            with self.subTest(text):
                settled = sum(map(int, re.findall(r"settled (\d)", said)))
                self.check([("status 0", said)], len(GAME) - settled, self.printing(scripts.bytes_of(text)))
        # (what another solver has settled is lost)
        game = {3: (2, 0, {9}), 9: (1, 1, {9}), 12: (0, 0, {12})}
        late = self.after(1, f"cat {self.file('even', '3 0 9; 9 1 9;')}")
        refused = "Even refused: 3 is lost; Odd refused: all of it is settled already"
        wanted = [("status 0", "Odd settled 2, of which 1 of 1 claimed"), ("status 0", refused)]
        self.check(wanted, 1, self.printing("9 1 9;"), late, game=game)

    def test_how_solvers_end(self):
        """What one printed before is taken, and all that it started in its session is ended."""
        half, pid = self.file("half", "paritysol 12;\n9 1 9;\n3 0"), self.folder / "pid"
        ends = lambda end, to="": f"sh -c 'sleep 600 {to} & echo $! >{pid}; cat {half}; {end}'"
        late, all_of_it = "ended after 4.5 s", self.printing("3 0 3; 9 1 9; 12 0;")
        apart = f"sh -c 'cat {half}; setsid sleep 90 2>/dev/null &'"
        for time_limit, left, solvers in (
            ("600", 2, {ends("exit 3", ">/dev/null"): ("status 3", ODD)}),
            ("600", 2, {ends("kill -SEGV $$", ">/dev/null"): ("signal 11", ODD)}),
            ("600", 3, {"false": ("status 1", NOTHING)}),
            ("4.5", 2, {ends("wait"): (late, ODD), "sleep 600": (late, NOTHING)}),
            ("4.5", 2, {apart: (late, ODD)}),
            ("600", 0, {"sleep 600": (FULL, NOTHING), all_of_it: ("status 0", ALL)}),
        ):
            begun = time.monotonic()
            with self.subTest(solvers):
                self.check([*solvers.values()], left, *solvers, more=["--time", time_limit])
                self.assertLess(time.monotonic() - begun, 60)
                common.wait_until(lambda: not pid.exists() or not common.is_alive(int(pid.read_text())))

    def test_a_signal_ends_the_solvers_and_leaves_nothing(self):
        """Even one that the referee can't catch."""
        heeds = lambda: signal.signal(signal.SIGINT, signal.SIG_DFL)
        for number in (signal.SIGINT, signal.SIGKILL):
            made = self.folder / str(int(number))
            for it in ("scratch", "pids"):
                (made / it).mkdir(parents=True)
            solver = f"sh -c 'sleep 600 & echo $! > {made}/pids/$$; touch {made}/pids/$$.begun; wait'"
            # (one has ended before)
            words = [*["--solver", solver] * 3, "--solver", "true", self.file("game.pg", plain.written_game(GAME))]
            env = {**self.env, "TMPDIR": str(made / "scratch")}
            how = {"stdout": subprocess.PIPE, "stderr": subprocess.PIPE, "env": env, "preexec_fn": heeds}
            with subprocess.Popen([sys.executable, "-B", BOARD / "referee.py", *words], **how) as ran:
                common.wait_until(lambda: len([*made.glob("pids/*.begun")]) == 3)
                said = ran.stderr.readline()
                self.assertEqual(len([*(made / "scratch").iterdir()]), 1)
                ran.send_signal(number)
                out, err = ran.communicate(timeout=60)
            self.assertEqual((out, b"Traceback" in said + err, ran.returncode), (b"", False, -number), err)
            common.wait_until(lambda: not [*(made / "scratch").iterdir()])
            for it in made.glob("pids/*[0-9]"):
                for pid in (int(it.name), int(it.read_text())):
                    common.wait_until(lambda: not common.is_alive(pid))

    def by_hand(self, lines, *words):
        begin = f"import sys, threading, time; sys.path.insert(1, {str(BOARD)!r}); import referee\n"
        return {"script": ["-c", f"{begin}{lines}\nreferee.run('referee', referee.main)"], "more": words}

    def test_a_solver_that_is_ended_before_it_starts_is_not_started(self):
        # the second one's command is begun once the board is full
        lines = """start = referee.Solver.run
def run(self, *given):
    if self.worker == 2: time.sleep(3)
    return start(self, *given)
referee.Solver.run = run"""
        begun = self.folder / "begun"
        solvers = self.printing("3 0 3; 9 1 9; 12 0;"), f"sh -c 'touch {begun}; sleep 600'"
        self.check([("status 0", ALL), (FULL, NOTHING)], 0, *solvers, **self.by_hand(lines, *LONG))
        self.assertFalse(begun.exists())

    def test_one_solver_is_posted_at_a_time(self):
        lines = """busy, post = threading.Lock(), referee.Referee.post_all
def one(*given):
    alone = busy.acquire(blocking=False)
    time.sleep(0.2)
    found = post(*given)
    if alone: busy.release()
    return found if alone else 'two at a time'
referee.Referee.post_all = one"""
        said, _ = self.referee(GAME, *[self.printing("9 1 9;")] * 4, **self.by_hand(lines))
        self.assertEqual([it[3] for it in said], [ODD, *["Odd refused: all of it is settled already"] * 3])

    def test_what_a_solver_says_on_standard_error_is_shown(self):
        solver = "sh -c 'echo out of luck >&2; exit 7'"
        _, _, err = self.run_script("--solver", solver, self.file("game.pg", plain.written_game(GAME)))
        line = r"referee: solver 1 .*: status 7, \d+\.\d s: nothing is claimed"
        self.assertRegex(err, rf"\Aout of luck\n{line}\n")

    def test_a_solver_that_prints_without_end_is_ended(self):
        wanted = "ended, since it printed too much", "output:2:1: vertex 3: written twice"
        self.check([wanted], 3, "yes '3 0 3;'", **self.by_hand("referee.MOST = 10**6", *LONG))

    def test_how_a_solver_gets_the_game_and_gives_the_solution(self):
        solution, got, whole = self.file("all", "3 0 3; 9 1 9; 12 0;"), self.folder / "got", [("status 0", ALL)]
        for solver in (
            f"sh -c 'cat > {got}; cat {solution}'",
            f"sh -c 'cat {{game}} > {got}; cat {solution}'",
            f"sh -c 'cat {{game}} > {got}; cp {solution} {{solution}}; echo no;'",
        ):
            self.check(whole, 0, solver)
            self.assertEqual(got.read_text(), plain.written_game(GAME))
            got.unlink()
        self.check([("status 1", NOTHING)], 3, "sh -c 'test -e {game} && test -e {solution}'")
        # (a path is one word, whatever it has)
        strange = self.folder / "a folder; of {game}"
        strange.mkdir(exist_ok=True)
        self.check(whole, 0, f"sh -c 'cp {solution} \"$0\"' {{solution}}", TMPDIR=str(strange))

    def test_the_game_may_have_any_form_and_be_standard_input(self):
        status, out, err = self.run_script("-", given=b'12 0 1 3 "c"; 9 1 1 9; 3 02 0 9, 3,3;')
        self.assertEqual((status, err), (0, "referee: the board itself settled 3 of 3\n"))
        self.solves(GAME, out)

    def test_what_is_refused(self):
        good = str(self.file("game.pg", plain.written_game(GAME)))
        bad = str(self.file("bad.pg", "0 0 0 7;"))
        unknown = rf"{re.escape(bad)}:1:7: vertex 0: successor 7 is not specified\n  0 0 0 7;\n        \^"
        for status, line, *words in (
            (3, unknown, bad),
            (4, "referee: /nowhere.pg: No such file or directory", "/nowhere.pg"),
            (2, "referee: --solver sh -c 'x: No closing quotation", "--solver", "sh -c 'x", good),
            (2, "referee: --solver: there is no command", "--solver", " ", good),
            (2, r"[\s\S]*argument --time: invalid number of seconds .* value: '0'", "--time", "0", good),
        ):
            with self.subTest(words):
                found, out, err = self.run_script(*words)
                self.assertEqual((found, out), (status, b""))
                self.assertRegex(err, rf"^{line}\n$")
        status, out, err = self.run_script(good, PGBOARD_LIBRARY="/nowhere.so")
        self.assertEqual((status, out), (4, b""))
        self.assertRegex(err, "^referee: pgboard: its library can't be loaded .*\n$")
        status, _, err = self.run_script("--solver", "/nowhere\n{game}", good)
        said = r"referee: solver 1 (/nowhere\n{game}): /nowhere: No such file or directory" + "\n"
        self.assertEqual((status, err), (0, f"{said}referee: the board itself settled 3 of 3\n"))


def layers(chance, size):
    """Edges mostly lead down or stay near, so that many small parts are won one after another."""
    width, priorities = chance.choice([3, 5, 8]), chance.choice([3, size])
    near = lambda v: chance.randint(
        max(0, v - chance.choice([1, width, 3 * width])), min(size - 1, v + chance.choice([0, 1, width]))
    )
    return {
        v: (
            chance.randrange(priorities),
            chance.randrange(2),
            {near(v) for _ in range(chance.choice([1, 2, 3]))},
        )
        for v in range(size)
    }


@common.needs("g++")
class Outside(Boards):
    @classmethod
    def setUpClass(cls):
        super().setUpClass()
        sanitizers = [embed.SANITIZERS, ["-g", "-fsanitize=thread"]]
        builds = [["g++", "-O2"], *(["g++", "-O1", *it] for it in sanitizers)]
        builds += [["clang++", "-O2"]] * ("clang++" in common.installed("clang++"))
        cls.programs = {" ".join(words): cls.built(*words) for words in builds}
        cls.program = cls.programs["g++ -O2"]
        # the same beside others
        wrapped = "-Wl,--wrap=pgboard_board_post"
        claims = cls.folder / "claims.o"
        status, _, err = embed.run(["cc", *embed.FLAGS, "-c", "tests/library/claims.c", "-o", claims])
        assert (status, err) == (0, ""), err
        cls.beside = cls.built("g++", "-O2", wrapped, claims)

    @classmethod
    def built(cls, compiler, *flags):
        program = cls.folder / f"outside{len([*cls.folder.glob('outside*')])}"
        words = [compiler, "-std=c++17", *embed.WARNINGS, BOARD / "outside.cpp", *flags, *embed.ARCHIVES]
        status, _, err = embed.run([*words, "-lpthread", "-o", program])
        assert (status, err) == (0, ""), err
        return program

    def ran(self, program, game, **env):
        path = self.file("game.pg", plain.written_game(game))
        status, out, err = common.run([program, path], timeout=300, env={**os.environ, **env})
        line = rf"outside: posts (\d+), stale (\d+), refused (\d+), settled (\d+) of {len(game)}\n"
        said = re.fullmatch(line, err.decode())
        self.assertTrue(status == 0 and said, (status, err))
        self.solves(game, out)
        return [int(it) for it in said.groups()]

    def game(self, chance, *sizes):
        kind = chance.choice([random_games.random_game, layers])
        return kind(chance, chance.choice(sizes))

    def test_random_games(self):
        for name, program in self.programs.items():
            count = 150 if name == "g++ -O2" else 30
            games = [self.game(random.Random(seed), 8, 8, 20, 60, 200) for seed in range(count)]
            ran = [self.ran(program, game) for game in games]
            posts, _, refused, settled = map(sum, zip(*ran))
            self.assertTrue(posts > count and settled > count and refused == 0, (name, ran))

    def test_stale_late_and_refused_claims(self):
        for how, seed in itertools.product(("stale", "late", "refused"), range(40)):
            with self.subTest(how, seed=seed):
                game = self.game(random.Random(seed), 8, 20, 40)
                posts, stale, refused, settled = self.ran(self.beside, game, HOW=how)
                by_others = {"stale": settled, "late": len(game) * (posts > 0), "refused": 0}[how]
                counts = (0, posts) if how == "refused" else (posts, 0)
                self.assertEqual((stale, refused, settled), (*counts, by_others))
                # (each thread looks at the board, or ends, after its first claim)
                self.assertLessEqual(posts, len(game) if how == "stale" else 2)

    def test_statuses(self):
        good, bad = common.ROOT / "examples" / "requests.pg", self.file("bad.pg", "0 0 0 7;")
        refused = "outside: .*"
        fault = r"outside: a successor is no vertex \(0, 7\)"
        runs = [
            (2, "outside: usage: .*", "a b"), (2, "outside: usage: .*", "--help"), (3, fault, f"{bad}"),
            (4, "outside: read or write fault", "/nowhere"), (4, "outside: read or write fault", "/tmp"),
            (4, "outside: read or write fault", f"{good} >/dev/full"), (3, refused, f"<{bad}"),
            (0, "outside: posts .*", f"<{good}"), (5, "outside: no memory", f"{self.long()}"),
        ]  # fmt: skip
        for status, line, words in runs:
            with self.subTest(words):
                limit = "ulimit -v 100000; " if status == 5 else ""
                got = common.run(["bash", "-c", f'{limit}"$0" {words}', self.program])
                self.assertEqual((got[0], bool(got[1])), (status, status == 0), got[2])
                self.assertRegex(got[2].decode(), rf"^{line}\n$")

    def long(self):
        return self.file("long.pg", "".join(f"{v} {v} 0 {v};\n" for v in range(500_000)))

    def test_the_commands_of_the_page(self):
        page = common.text_of("examples", "README.md").split("`board/outside.cpp`")[1].split("\n## ")[0]
        commands = re.findall(r"(?m)^\$ (.*)$", page)
        embed.give_clone(self.folder, "include", "examples")
        shell = ["bash", "-e", "-c", embed.without_build("\n".join(commands))]
        status, out, err = common.run(shell, timeout=3000, cwd=self.folder)
        self.assertEqual((status, len(commands)), (0, 3), out + err)
        game = plain.game_of(common.text_of("examples", "requests.pg").encode())
        self.solves(game, out[out.index(b"paritysol") :])


@common.needs("rustc", "c++")
class Library(Boards):
    SCRIPT = common.ROOT / "bench" / "library_calls"

    @classmethod
    def setUpClass(cls):
        super().setUpClass()
        cls.bench = common.load(cls.SCRIPT)

    def table(self, *words, program=common.PROGRAM):
        given = ["--runs", "1", "--only", "own_loops", "--program", program, "--archive", embed.ARCHIVES[0]]
        status, out, err = common.run([sys.executable, "-B", self.SCRIPT, *words, *given], timeout=1800)
        self.assertNotIn(b"Traceback", err, err.decode())
        return status, out.decode().splitlines()

    def test_the_command_of_the_page_prints_its_table(self):
        (words,) = re.findall(r"(?m)^bench/library_calls (.+)$", common.text_of("docs/BENCHMARKS.md"))
        status, shown = self.table(*words.split())
        self.assertEqual((status, shown[0]), (0, f"| {' | '.join(self.bench.HEADS)} |"), shown)
        self.assertRegex(shown[2], r"^\| own_loops( \| -?[0-9.]+( \(-?[0-9.]+\))?){4} \|$")

    def test_a_solution_that_the_program_refuses_is_named(self):
        text = f'#!/bin/sh\ncase "$*" in verify*.pg*out) exit 1 ;; *) exec {common.PROGRAM} "$@" ;; esac\n'
        status, shown = self.table(program=common.write_program(self.folder / "refuses", text))
        self.assertEqual((status, shown[2]), (1, "| own_loops | WRONG |"), shown)

    def test_the_cells_of_a_solving(self):
        # reading takes 10 ms, a byte of 200 more 0.1 ms, and so 5 ms are for the 50 bytes of the solution
        took = {"verify": 10, "tidy": 30, "solve": 60}
        sizes = {"tidy": 200, "solve": 50}
        bench, last = self.bench.Bench.__new__(self.bench.Bench), []
        bench.program, bench.runs = "program", 3
        bench.took = lambda _, *words, **__: last.append(words[0]) or (took[words[0]], "")
        bench.size = lambda: sizes[last[-1]]
        bench.in_library = lambda game, mode: {"solve": 49.5, "known": 54, "make": 9}[mode]
        self.assertEqual(bench.row("game"), ["45.0", "49.5 (1.10)", "54.0 (1.20)", "9.0 (0.20)"])

    def test_each_mode_solves_random_games(self):
        library = self.bench.built(embed.ARCHIVES[0])
        for seed in range(60):
            chance = random.Random(seed)
            game = chance.choice([random_games.random_game, layers])(chance, chance.choice([8, 20, 60, 200]))
            path = self.file("game.pg", plain.written_game(game))
            for mode in ("solve", "known"):
                with self.subTest(mode, seed=seed):
                    status, out, err = common.run([library, mode, path])
                    self.assertEqual(status, 0)
                    self.solves(game, out)
                    self.assertRegex(err, rb"^[0-9.e-]+ [0-9.e-]+\n$")


if __name__ == "__main__":
    common.main()
