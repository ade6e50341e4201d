#!/usr/bin/env python3
"""Refuses allocations, starts of threads, reads and writes."""

import concurrent.futures
import itertools
import pathlib
import re
import sys
import unittest

sys.path.append(str(pathlib.Path(__file__).resolve().parents[1] / "lib"))
import common
import plain
import random_games
from common import NO_MEMORY, READ_FAULT
from common import SOLUTION as HOLDS

CONTINENTS = b'parity 4; 0 6 1 4,2 "Africa"; 4 5 1 0 "Antarctica"; 1 8 1 2,4,3 "America"; '
CONTINENTS += b'3 6 0 4,2 "Australia"; 2 7 0 3,1,0,4 "Asia";'
ONE_EACH = b"0 2 0 0,1; 1 1 1 1;"
LAYERS = b"0 0 0 0; 1 3 0 0,1; 2 3 1 1;"
GAPS = b"9 2 1 3,3,9; 3 1 0 9;"
# settled by its solitaire parts, and by no loop
TWO_CYCLE = b"0 0 0 1; 1 1 1 0;"
# a hundred parts alike, of which neither loops nor solitaire parts settle anything
PART = b"%d 4 0 %d; %d 3 1 %d,%d; %d 0 1 %d,%d; %d 3 0 %d,%d;"
TWO_SIDED = b"".join(
    PART % tuple(v + it for it in (0, 1, 1, 2, 3, 2, 0, 3, 3, 1, 2)) for v in range(0, 400, 4)
)
GAMES = [CONTINENTS, ONE_EACH, LAYERS, GAPS, b"parity 5;start 77;00 07 01 0,00;"]
JOINED = common.GAME + b"%" + HOLDS
# no worker could be started: the calling thread settles all
REPORT = b"".join(b"job %d - 0 0 0 0 0 0\n" % job for job in range(5)) + b"total 0 0 0 0\n"
NOBODY = b"journal 2 2\nentry 0 0 0 1 1\n0 0;\nentry 1 0 1 1 1\n1 1;\nreport 5\n" + REPORT
FILES = {
    "game.pg": ONE_EACH,
    "owner.pg": b"0 0 2 0;",
    "continents.pg": CONTINENTS,
    "cycle.sol": b"0 0; 1 0; 2 0 0; 3 0 4; 4 0;",
    "game.sol": HOLDS,
    "wrong.sol": b"0 0; 1 1 1;",
    "stranger.sol": b"0 0 0; 7 0;",
    "part.sol": b"0 0 0;",
    "odd.sol": b"1 1 1;",
    "open.sol": b"2 0;",
    "choice.sol": b"1 0;",
}
# the words, the input, and the status of a run with all memory, whose whole output is tested elsewhere
RUNS = [
    ("", JOINED, 0),
    ("", ONE_EACH + b"%0 0; 1 1 1;", 1),
    ("verify game.pg game.sol", b"", 0),
    ("verify game.pg wrong.sol", b"", 1),
    ("verify continents.pg cycle.sol", b"", 1),
    ("verify owner.pg game.sol", b"", 3),
    ("verify game.pg stranger.sol", b"", 3),
    ("verify game.pg none.sol", b"", 4),
    *(("tidy", game, 0) for game in GAMES),
    ("tidy game.pg", b"", 0),
    ("tidy", b"0 0 0 7;", 3),
    *(
        (f"{command} --workers {n}", game, 0)
        for command in ("solve", "trace")
        for game in GAMES
        for n in (1, 2)
    ),
    ("solve --workers 1 --known part.sol", LAYERS, 0),
    ("solve --workers 2 --known odd.sol", ONE_EACH, 0),
    ("solve --known open.sol", LAYERS, 1),
    ("solve --known choice.sol", LAYERS, 1),
    ("solve --known stranger.sol game.pg", b"", 3),
    ("solve --known none.sol game.pg", b"", 4),
    ("solve --winners", CONTINENTS, 0),
    ("solve --bound 0 --workers 1", CONTINENTS, 0),
    *((words, b"", 0) for words in ("--version", "--help", "-h", "solve --help", "help verify")),
    *((words, b"", 2) for words in ("x", "tidy --x", "tidy a b", "verify a", "trace --workers x")),
    *((f"solve {words}", b"", 2) for words in ("--workers 0", "--bound 9")),
]


class Refusing(unittest.TestCase):
    @classmethod
    def setUpClass(cls):
        cls.folder, cls.numbers = common.make_folder(cls), itertools.count()
        for name, text in FILES.items():
            (cls.folder / name).write_bytes(text)
        words = ["cc", "-O1", "-shared", "-fPIC", "-o", cls.folder / "refuse.so", "-ldl"]
        built = common.run([*words, common.ROOT / "tests" / "program" / "refuse.c"])
        assert built[0] == 0, built

    def counted(self, words, given=b"", path=None, **refused):
        """Status, standard output and standard error, and the six numbers of refuse.c."""
        counts = self.folder / f"counts {next(self.numbers)}"
        env = {"LD_PRELOAD": self.folder / "refuse.so", "COUNTS": counts}
        env.update((name, str(n)) for name, n in refused.items())
        ran = common.run([path or common.PROGRAM, *words], given, cwd=self.folder, env=env)
        # (a program that a signal ends leaves no counts)
        return ran, [int(it) for it in counts.read_text().split()] if counts.exists() else [0] * 6

    def each(self, kind, numbers, words, given=b"", path=None, **more):
        """The number and the answer of each refusal; a run that asked less often was refused nothing."""
        with concurrent.futures.ThreadPoolExecutor(4) as pool:
            yield from zip(
                numbers, pool.map(lambda n: self.counted(words, given, path, **{kind: n}, **more)[0], numbers)
            )


@common.needs("cc")
@common.needs_speed
class Program(Refusing):
    def is_right(self, words, given, whole, got):
        may_differ = words[:1] in (["solve"], ["trace"]) and "--winners" not in words
        if got == whole or not may_differ or got[0] or got[2]:
            return got == whole
        game = plain.game_of(given)
        if words[0] == "solve":
            return plain.written_fault(game, got[1]) is None
        return plain.trace_fault(game, int(words[2]), got[1]) is None

    def judge_allocations(self, words, given, status, more, **started):
        whole, (count, *_) = self.counted(words, given, **started)
        self.assertEqual(whole[0], status, whole)
        # (some more numbers, since two workers share out their allocations anew in each run)
        answers = list(self.each("REFUSE_ALLOC", range(1, count + 10), words, given, **more, **started))
        for n, got in answers:
            self.assertTrue(
                got == NO_MEMORY or self.is_right(words, given, whole, got), f"allocation {n}: {got}"
            )
        self.assertIn(NO_MEMORY, [got for _, got in answers])

    def test_each_allocation(self):
        for (words, given, status), more in itertools.product(RUNS, ({}, {"REFUSE_FROM": 1})):
            with self.subTest(words, given=given, **more):
                self.judge_allocations(words.split(), given, status, more)

    def test_each_allocation_while_two_workers_run(self):
        words = ["solve", "--workers", "2"]
        for game, more in itertools.product(GAMES, ({}, {"REFUSE_FROM": 1})):
            with self.subTest(game, **more):
                self.assertEqual(self.counted(words, game, TOGETHER=2)[1][1], 2)
                self.judge_allocations(words, game, 0, more, TOGETHER=2)

    def test_a_start_that_is_refused_leaves_the_worker_out(self):
        """The report has five rows without a worker. The system refuses a start, or an allocation."""
        for command, out in (("trace", NOBODY), ("solve", HOLDS)):
            words = [command, "--workers", "1"]
            self.assertEqual(self.counted(words, ONE_EACH, REFUSE_THREAD=1)[0], (0, out, b""))
        count = self.counted(["trace", "--workers", "1"], ONE_EACH)[1][0]
        answers = self.each("REFUSE_ALLOC", range(1, count + 1), ["trace", "--workers", "1"], ONE_EACH)
        self.assertIn((0, NOBODY, b""), [got for _, got in answers])

    def test_the_workers_that_start_do_all_jobs(self):
        """A start that is refused ends no other. The workers keep their numbers."""
        game = plain.game_of(TWO_SIDED)
        for workers, more in itertools.product((2, 4), ({}, {"REFUSE_FROM": 1})):
            words = ["trace", "--workers", str(workers)]
            for n in range(1, workers + 1):
                with self.subTest(workers=workers, start=n, **more):
                    got, (_, starts, *_) = self.counted(words, TWO_SIDED, REFUSE_THREAD=n, **more)
                    said = got[0], got[2], plain.trace_fault(game, workers, got[1])
                    self.assertEqual((*said, starts), (0, b"", None, workers))
                    # the one that did not start has no job
                    out = [*range(n, workers + 1)] if more else [n]
                    drawers = {*re.findall(r"(?m)^job \d+ (\S+)", got[1].decode())}
                    self.assertFalse(drawers & {*map(str, out)}, got)
                    self.assertEqual("-" in drawers, len(out) == workers, got)

    def test_each_worker_is_started_whatever_the_game(self):
        for game, workers in itertools.product((*GAMES, TWO_CYCLE, TWO_SIDED), (1, 2, 64)):
            with self.subTest(workers=workers, game=game):
                self.assertEqual(self.counted(["solve", "--workers", str(workers)], game)[1][1], workers)

    def test_a_run_takes_so_many_bytes_for_each_vertex_and_worker(self):
        """Each bound is at most 2 % above what was measured.

        Of a cycle all vertices are one claim. The other game has a long journal, whose entries have memory
        for their own rows alone.
        """
        n, jobs = 65_536, 2_051
        cycle = b"".join(b"%d 0 0 %d;" % (v, (v + 1) % n) for v in range(n))
        many = plain.written_game(random_games.small_dominions(n)).encode()
        rows = [*itertools.product(("solve", "trace"), ((cycle, 156, 1), (many, 122, 1), (many, 130, 64)))]
        for command, (game, each, workers) in rows + [
            ("solve --known known.sol", it) for it in ((cycle, 116, 1), (many, 120, 1))
        ]:
            with self.subTest(command, each=each, workers=workers):
                if "--known" in command:
                    (self.folder / "known.sol").write_bytes(self.counted(["solve"], game)[0][1])
                ran, numbers = self.counted([*command.split(), "--workers", str(workers)], game)
                self.assertEqual(ran[0], 0, ran[2])
                # (a worker has a ticket with 8 bytes for each job, and rows of 56)
                self.assertLess(numbers[5], each * n + 64 * jobs * (workers - 1))

    def test_all_memory_is_freed_at_the_end(self):
        game = plain.written_game(random_games.small_dominions(20_000)).encode()
        (self.folder / "great.pg").write_bytes(game)
        (self.folder / "great.sol").write_bytes(self.counted(["solve"], game)[0][1])
        for words, status in (
            ("tidy great.pg", 0),
            ("verify great.pg great.sol", 0),
            ("verify great.pg game.sol", 3),
            ("solve --workers 2 great.pg", 0),
            ("solve --known great.sol great.pg", 0),
            ("trace --workers 2 great.pg", 0),
        ):
            with self.subTest(words):
                ran, (_, threads, _, _, left, most) = self.counted(words.split())
                self.assertEqual(ran[0], status, ran[2])
                self.assertGreater(most, len(game))
                # (the C library keeps less than this of a thread)
                self.assertLessEqual(left, 512 * threads)

    def test_a_solution_text_is_freed_before_its_rows_are_made(self):
        """A text with many blanks takes as much memory as where its last byte is refused after its lines."""
        (self.folder / "great.pg").write_bytes(b"".join(b"%d 0 0 %d;" % (v, v) for v in range(50_000)))
        text = b"".join(b"%d 0 %d;" % (v, v) for v in range(50_000)) + b" " * 10_000_000
        most = []
        for last, status in ((b" ", 0), (b"0", 3)):
            (self.folder / "great.sol").write_bytes(text + last)
            ran, numbers = self.counted("verify great.pg great.sol".split())
            self.assertEqual(ran[0], status, ran[2])
            most.append(numbers[5])
        self.assertGreater(most[0], len(text))
        self.assertLess(most[0] - most[1], 50_000)

    def test_a_file_is_read_into_one_buffer_of_its_length(self):
        (self.folder / "blanks").write_bytes(b" " * 1_000_000)
        for words in ("tidy blanks", "verify game.pg blanks", "solve --known blanks game.pg"):
            with self.subTest(words):
                whole = self.counted(words.split())[0]
                self.assertNotEqual(whole, NO_MEMORY)
                # (one byte more is for the read that returns none)
                self.assertEqual(self.counted(words.split(), REFUSE_ABOVE=1_000_001)[0], whole)
                self.assertEqual(self.counted(words.split(), REFUSE_ABOVE=1_000_000)[0], NO_MEMORY)

    def test_a_read_or_a_write_that_fails_at_each_place_of_a_text_and_at_its_end(self):
        """Bytes go out one by one up to the failure, and with pieces of 5 the first failure leaves 5."""
        reads = [("", JOINED), ("tidy", GAPS), ("solve", ONE_EACH), ("trace", LAYERS)]
        reads += [("verify game.pg game.sol", b""), ("solve --known game.sol game.pg", b"")]
        writes = [("", JOINED), ("tidy", GAPS), ("solve --winners", CONTINENTS)]
        writes += [("trace --workers 1", ONE_EACH), ("--version", b"")]
        for kind, (words, text) in (*(("READ", it) for it in reads), *(("WRITE", it) for it in writes)):
            with self.subTest(words, kind=kind):
                how = {"PIECE": 1} if kind == "READ" else {}
                (status, out, _), _ = self.counted(words.split(), text, **how)
                self.assertEqual(status, 0)
                count = len(out) if kind == "WRITE" else len(text) + 1 if text else len(ONE_EACH + HOLDS) + 2
                for n, got in self.each(f"REFUSE_{kind}", range(1, count + 1), words.split(), text, PIECE=1):
                    wanted = (4, out[: n - 1], b"pgboard: write fault\n") if kind == "WRITE" else READ_FAULT
                    self.assertEqual(got, wanted, n)
        got = self.counted(["tidy"], GAPS, PIECE=5, REFUSE_WRITE=2)[0]
        self.assertEqual(got, (4, b"parit", b"pgboard: write fault\n"))


# what a unit test says where memory was refused to what it needs itself
TEST_ENDED = b'error: "no memory for the test itself"\nthe test failed: its result gives status 1\n'
# The first test of each row needs fewer allocations than the second and this number more. The games of a
# row have as many vertices. Lists in order are the game as they are, and no allocation is made for it;
# others are laid out flat, without a value for each of the 40 vertices. The searches of a long cycle end
# before a ranking is made, as it is of a ladder. Of two games that differ in one edge, or whose searches
# do, the second makes one, which takes more than three allocations.
LISTS, CHECKS = "pg_game_tests_tests tests::allocations", "pg_dominion_tests_tests tests::worked"
IN_ORDER = "many_lists_in_order_are_a_game"
FEWER = [
    (LISTS, "many_lists_in_order_are_the_game_itself", "many_lists_in_order_are_made", 1),
    (LISTS, IN_ORDER, "many_lists_with_repeated_successors_are_laid_out", 0),
    (LISTS, "many_falling_lists_are_laid_out", IN_ORDER, 40),
    (CHECKS, "a_long_cycle_is_judged", "a_ladder_is_judged", 0),
    (CHECKS, "each_edge_of_a_cycle_is_looked_at_once", "with_one_edge_more_a_ranking_is_made", -3),
    (CHECKS, "many_short_searches_need_no_ranking", "many_searches_that_are_one_edge_longer_need_one", -3),
]


@common.needs("cc")
@unittest.skipUnless(
    common.PROGRAM == common.BUILT, "the program is not that of `rt ci`, which builds the unit tests"
)
class UnitTests(Refusing):
    def test_each_allocation(self):
        listed = []
        for path in sorted(common.ROOT.glob("crates/*/out/*_tests")):
            _, out, err = common.run([path, "--list"])
            listed += [
                (path, it)
                for it in sorted(set(re.findall(r"\b(?:\w+::)+\w+_after_a_refusal\b", (out + err).decode())))
            ]
        texts = "".join(it.read_text() for it in common.ROOT.glob("crates/*_tests/src/**/*.rt"))
        written = re.findall(r"#\[test\]\nfn \w+_after_a_refusal\(", texts)
        self.assertEqual((len(listed), bool(listed)), (len(written), True))
        for path, test in listed:
            with self.subTest(f"{path.name} {test}"):
                self.judge(path, test)

    def judge(self, path, test):
        whole, (count, *_) = self.counted([test], path=path)
        self.assertEqual(whole[0], 0, whole)
        answers = list(self.each("REFUSE_ALLOC", range(1, count + 5), [test], path=path))
        for n, (status, out, err) in answers:
            self.assertTrue(
                status == 0 or (status, err) == (101, TEST_ENDED), f"allocation {n}: {status}, {out}, {err}"
            )
        # the calls are met by refusals, and not the test alone
        self.assertIn(0, [status for _, (status, _, _) in answers[:count]])

    def test_some_tests_need_fewer_allocations(self):
        for module, *tests, allowed in FEWER:
            with self.subTest(tests[0]):
                name, module = module.split()
                (path,) = common.ROOT.glob(f"crates/*/out/{name}")
                fewer, more = (self.counted([f"{module}::{it}"], path=path)[1][0] for it in tests)
                self.assertTrue(0 < fewer < more + allowed, (fewer, more))


if __name__ == "__main__":
    common.main()
