#!/usr/bin/env python3
"""Tests of bench/run."""

import math
import os
import pathlib
import re
import sys
import unittest

sys.path.append(str(pathlib.Path(__file__).resolve().parents[1] / "lib"))
import common
import plain

BENCH = common.ROOT / "bench"
COMMANDS = "tidy tidy-pipe verify verify-any wrong solve winners".split()
# a program that changes what the one under test writes to some words, at once or after its first run
WRONG = """#!/bin/sh
"{program}" "$@" > {out}; status=$?
case "$*" in
"{words} "*.pg*) if {when}; then sed '{change}' {out}; exit {status}; fi ;;
esac
cat {out}; exit $status
"""
# the input, the command, the words of the program, the change and the status
ANSWERS = [
    ("own_loops", "tidy", "tidy", "$s/0/1/", 0),
    ("own_loops", "tidy", "tidy", "", 3),
    ("own_loops", "verify", "verify", "s/ok/not a solution: bad cycle at 0/", 1),
    ("own_loops", "winners", "solve --winners", "$s/0;/1;/", 0),
    ("own_loops", "solve", "solve", "$s/ 0 / 1 /", 0),
    ("own_loops", "solve", "solve", "", 1),
    ("chain", "wrong", "verify", "s/at .*/at 7/", 1),
]
# the least and the greatest number of successors, the share of the edges of a form, and that form
SPARSE = {
    "small_world": ((3, 4, 0.9), lambda v, w: (w - v) % 100_000 in (1, 2, 99_998, 99_999)),
    "clusters": ((1, 3, 1), lambda v, w: (w // 50 - v // 50) % 2_000 in (0, 1)),
    "layers": ((1, 3, 1), lambda v, w: v - 15 <= w <= v + 5),
    "one_or_two_1": ((1, 2, 1), lambda *_: True),
}


@common.needs("rustc")
class Bench(unittest.TestCase):
    @classmethod
    def setUpClass(cls):
        cls.bench = common.load(BENCH / "run")
        os.makedirs(cls.bench.OUT, exist_ok=True)

    def ran(self, *words, program=common.PROGRAM, status=0):
        words = [sys.executable, BENCH / "run", program, *words, "--runs", "1"]
        got, out, err = common.run(words, timeout=1800)
        self.assertEqual(got, status, out + err)
        return out.decode().splitlines()

    def without_inputs(self, **fields):
        """One whose methods are called, or replaced, each by itself."""
        made = self.bench.Bench.__new__(self.bench.Bench)
        vars(made).update(runs=3, comparator="comparator", scratch="scratch", folder="folder", **fields)
        made.agree = lambda *_: True
        return made

    def test_each_command_runs(self):
        inputs = ["own_loops", "one_own_loop_too_many"]
        _, _, first, refused, *_ = self.ran("--only", *inputs, "--commands", *COMMANDS)
        self.assertRegex(first, r"^\| own_loops( \| [0-9.]+ \([0-9., ]+\)){14} \|$")
        # (a text, and only `tidy` gets one)
        self.assertRegex(refused, r"^\| one_own_loop_too_many( \| [0-9.]+ \([0-9.]+\)){4}( \| -){10} \|$")

    def test_a_wrong_answer_is_named_and_is_the_status(self):
        folder = common.make_folder(self)
        once = f"[ -e {folder}/ran ] || ! touch {folder}/ran"
        for name, command, words, change, status in ANSWERS:
            for when in ("true", once):
                with self.subTest(command, change=change, status=status, when=when):
                    (folder / "ran").unlink(missing_ok=True)
                    text = dict(words=words, change=change, status=status, when=when, out=folder / "out")
                    text = WRONG.format(program=common.PROGRAM, **text)
                    program = common.write_program(folder / "program", text)
                    lines = self.ran("--only", name, "--commands", command, program=program, status=1)
                    self.assertIn(f"| {name} | WRONG | WRONG |", lines)
                    self.assertRegex(lines[-1], f"^- {name} {command} WRONG: statuses ")

    def test_the_cells_of_given_figures(self):
        """Medians of three runs, their units, and each ratio."""
        bench = self.without_inputs(columns=["ms", "cpu", "MiB"], binary="program")
        # seconds, CPU seconds and MiB of each run, after one that does not count
        took = {
            "program": [(9, 9, 9), (0.004, 0.03, 2), (0.001, 0.07, 6), (0.009, 0.02, 4)],
            "comparator": [(9, 9, 9), (0.005, 0.1, 1), (0.002, 0.5, 2), (0.003, 0.2, 9)],
            "verify": [(9, 9, 9), (0.002, 0.04, 8), (0.001, 0.01, 3), (0.007, 0.02, 3)],
        }
        bench.run = lambda who, words, *_: (0, *took["verify" if words[0] == "verify" else who].pop(0))
        solve = bench.case("own_loops", "solve")
        # medians: 4 ms, 30 ms and 4 MiB; 3 ms, 200 ms and 2 MiB; and 2 ms, 20 ms and 3 MiB of its verify
        wanted = ["4.0 (1.33, 0.80)", "30.0 (0.15, 0.14)", "4.0 (2.00, 1.33)", "-"]
        self.assertEqual([self.bench.cell([solve], it) for it in [*bench.columns, "plain"]], wanted)
        # (without its input `tidy` would be as fast in both, and as wrong)
        piped = []
        bench.run = lambda who, words, out, given: piped.append((words, given)) or (0, 1, 1, 1)
        bench.case("own_loops", "tidy-pipe")
        self.assertEqual(piped, [(["tidy"], "folder/own_loops.pg")] * 8)

    def test_the_cells_of_several_games(self):
        """The median and the greatest figure, with ratios of medians, and a plain recursion that takes long."""
        cases = [
            [{"cpu": mine, "plain": plain}, {"cpu": other, "plain": other}, {"cpu": verify}]
            for mine, plain, other, verify in ((4, 40, 1, 1), (1, math.inf, 2, 2), (3, 30, 8, 4))
        ]
        wanted = ["3000.0 (1.50, 0.75), at most 4000.0", "40000.0 (20.00), at most inf"]
        self.assertEqual([self.bench.cell(cases, it) for it in ("cpu", "plain")], wanted)
        self.assertEqual(self.bench.cell(cases[1:2], "plain"), "inf (inf)")

    def test_the_plain_recursion(self):
        """It is a column of `solve` alone; what takes over the limit is ended, and a wrong status is named."""
        words = ["--only", "own_loops", "--commands", "tidy", "solve", "--columns", "plain"]
        self.assertRegex(self.ran(*words)[2], r"^\| own_loops \| - \| [0-9.]+ \([0-9.]+\) \|$")
        bench = self.without_inputs(wrong=[])
        for statuses, wanted in (((0, 0, 0, 0), 3), ((0, 124), math.inf), ((0, 1), "WRONG")):
            took = iter([(status, 9, at, 9) for status, at in zip(statuses, (1, 2, 4, 3))])
            bench.run = lambda *_: next(took)
            self.assertEqual(bench.plain("game"), wanted)
        self.assertEqual(bench.wrong, ["game plain WRONG: status 1, or no solution"])

    def test_the_sparse_games_are_those_of_the_page(self):
        n, found = 100_000, {}
        for name, (_, is_so) in SPARSE.items():
            text = (self.bench.inputs([f"{name}_{n}"]) / f"{name}_{n}.pg").read_text(encoding="ascii")
            rows = [[*map(int, line[:-1].split()[3].split(","))] for line in text.splitlines()[1:]]
            forms = [is_so(v, w) for v, row in enumerate(rows) for w in row]
            sizes = {len(row) for row in rows}
            found[name] = len(rows), min(sizes), max(sizes), round(sum(forms) / len(forms), 2)
        self.assertEqual(found, {name: (n, *it[0]) for name, it in SPARSE.items()})

    def test_the_figures_of_a_run_are_in_their_units(self):
        bench = self.without_inputs(measure=self.bench.build(str(BENCH / "measure.rs"), "measure"))
        ran = lambda text: bench.run(sys.executable, ["-c", text], os.devnull)
        sleep = ran("import time; time.sleep(0.6)")
        loop = ran("import time\nwhile time.process_time() < 0.6: pass")
        fill = ran("x = b'x' * (200 << 20)")
        self.assertEqual([sleep[0], loop[0], fill[0], ran("exit(3)")[0]], [0, 0, 0, 3])
        self.assertTrue(0.6 <= sleep[1] < 30 and sleep[2] < 0.6, sleep)
        self.assertTrue(0.6 <= loop[2] <= loop[1] + 0.1 and loop[2] < 3, loop)
        self.assertTrue(200 <= fill[3] < 400 and sleep[3] < 100, (sleep, fill))

    def test_the_comparator_is_built_with_optimisation(self):
        source = common.make_folder(self) / "main.rs"
        source.write_text('fn main() { println!("{}", cfg!(debug_assertions)); }\n')
        made = self.bench.build(str(source), "test_of_optimisation")
        self.addCleanup(os.unlink, made)
        self.assertEqual(common.run([made])[1], b"false\n")

    def test_the_game_that_takes_the_recursion_long_is_that_of_the_definition(self):
        name = "recursive_ladder"
        with open(f"{self.bench.inputs([name])}/{name}.pg", "rb") as file:
            game = plain.game_of(file.read())
        levels = len(game) // 5

        def at(v):
            """The definition has its vertices level by level, and bench one kind after another."""
            if v < 2 * levels:
                return v % 2 * levels + v // 2
            return (2 + (v - 2 * levels) % 3) * levels + (v - 2 * levels) // 3

        rows = plain.ladder(levels).items()
        wanted = {at(v): (priority, owner, set(map(at, to))) for v, (priority, owner, to) in rows}
        self.assertEqual((game, levels >= 20), (wanted, True))

    def test_the_commands_of_the_page_print_its_tables(self):
        commands = re.findall(r"(?m)^bench/run (.+) > (.+)$", common.text_of("docs/BENCHMARKS.md"))
        self.assertEqual(len(commands), 3)
        for words, table in commands:
            with self.subTest(words):
                # (of one small input, once)
                lines = self.ran(*words.split(), "--only", "own_loops")
                self.assertEqual(lines[0], re.search(r"(?m)^\| input \|.*$", common.text_of(table))[0])
                self.assertEqual(lines[2].count("("), lines[0].count(", "))

    def test_the_comparators_fast_parts_are_its_plain_ones(self):
        status, out, _ = common.run([BENCH / "out" / "comparator", "selftest", "20000"], timeout=1800)
        self.assertEqual(status, 0, out)


if __name__ == "__main__":
    common.main()
