"""Tests of the package pgboard, by unittest: what its calls take, return and refuse, on one or two vertices.

What the library answers is tested in C (tests/library/embed). The other files test boards, long calls and
the command.
"""

import ast
import ctypes
import ctypes.util
import doctest
import functools
import gzip
import itertools
import os
import pathlib
import pickle
import re
import shutil
import subprocess
import sys
import tempfile
import threading
import unittest
from array import array
from unittest import mock

import pgboard

sys.path.append(str(pathlib.Path(__file__).resolve().parents[2] / "tests" / "lib"))
import plain

try:
    import networkx
except ImportError:
    networkx = None
try:
    import numpy
except ImportError:
    numpy = None
try:
    import scipy.sparse
except ImportError:
    scipy = None

TWO = [0, 1], [2, 1], [[0, 1], [1]]
CSR = array("B", [0, 1]), array("I", [2, 1]), array("I", [0, 2, 3]), array("I", [0, 1, 1])
SOLVED = array("B", [0, 1]), array("I", [0, 1])
NAMES = "owners", "priorities", "indptr", "indices"
GAME = "9 1 1 9; 3 2 0 3, 9;"
HERE = os.path.dirname(os.path.abspath(__file__))


def csr_of(owners, priorities, successors):
    starts = [0, *itertools.accumulate(map(len, successors))]
    targets = array("I", itertools.chain(*successors))
    return array("B", owners), array("I", priorities), array("I", starts), targets


def lists_of(game):
    number, rows = {id: v for v, id in enumerate(sorted(game))}, [game[id] for id in sorted(game)]
    successors = [sorted(map(number.get, it[2])) for it in rows]
    return [it[1] for it in rows], [it[0] for it in rows], successors


def python(program, cwd=HERE, stdin=None, **env):
    env = {name: value for name, value in {**os.environ, **env}.items() if value}
    how = {"stdin": stdin, "stdout": subprocess.PIPE, "stderr": subprocess.PIPE, "text": True, "start_new_session": True}
    return subprocess.Popen([sys.executable, "-B", "-c", program], cwd=cwd, env=env, **how)


def with_one(game, place, value):
    return [*game[:place], value, *game[place + 1 :]]


class Tests(unittest.TestCase):
    def raises(self, wanted, call, *arguments, **named):
        """That a call raises an exception of this type, with its text, or at the same places."""
        with self.subTest(wanted=wanted, arguments=arguments), self.assertRaises(type(wanted)) as found:
            call(*arguments, **named)
        self.assertEqual((type(found.exception), found.exception.args), (type(wanted), wanted.args))

    def begun(self, call):
        raised = []

        def run():
            try:
                call()
            except pgboard.Fault as error:
                raised.append(type(error))

        thread = threading.Thread(target=run, daemon=True)
        thread.start()
        return thread, raised

    def other_library(self, name, call):
        """Has a call of the library be another one, to the end of the test; that gets the true one first."""
        true = pgboard.library.LIBRARY
        one = functools.partial(call, getattr(true, name))
        found = lambda _, asked: one if asked == name else getattr(true, asked)
        self.addCleanup(setattr, pgboard.library, "LIBRARY", true)
        pgboard.library.LIBRARY = type("Other", (), {"__getattr__": found})()


class Arrays(Tests):
    # of each call a fault without a place, with one and with two; what C refuses is tested in C
    GAMES = [
        (pgboard.NoVertex(), [], [], []),
        (pgboard.BadLengths(1), [0], [0, 1], [[0]]),
        (pgboard.UnknownSuccessor(1, 2), [0, 0], [0, 1], [[0], [2]]),
    ]
    SOLUTIONS = [
        (pgboard.BadResults(5), [0, 1], [0]),
        (pgboard.BadWinner(1), [0, None], [0, 1]),
        (pgboard.NoChoice(0), [0, 1], [None, 1]),
        (pgboard.Leaves(0, 1), [0, 1], [1, 1]),
    ]
    KNOWN = [
        (pgboard.KnownChoice(0), [0, None], [None, None]),
        (pgboard.KnownLeaves(0, 1), [0, None], [1, None]),
        (pgboard.BadWinner(1), [None, 2], [None, None]),
        (pgboard.BadResults(4), [0], [0, 1]),
    ]

    def test_solves_and_verifies(self):
        lazy = map(iter, TWO[:2]), (iter(row) for row in TWO[2])
        self.assertEqual(pgboard.solve(*lazy[0], lazy[1]), ([0, 1], [0, 1]))
        self.assertEqual(pgboard.solve(*TWO, known=([None, 1], [None, 1])), ([0, 1], [0, 1]))
        self.assertEqual(pgboard.solve([1], [0], [[0]]), ([0], [None]))
        pgboard.verify([1], [0], [[0]], iter([0]), iter([None]))

    def test_refuses_games_solutions_and_what_is_known(self):
        """What is known by one call, and by posts to a board, which come before it in a large game."""
        for fault, *game in self.GAMES:
            for call, *more in ((pgboard.solve,), (pgboard.Board,), (pgboard.verify, [0], [0])):
                self.raises(fault, call, *game, *more)
        # (the library takes no null pointer, not even of an empty array)
        self.assertTrue(pgboard.native.span_of(array("I"))[0])
        for fault, *solution in self.SOLUTIONS:
            self.raises(fault, pgboard.verify, *TWO, *solution)
        rows = [(fault, TWO, known) for fault, *known in self.KNOWN]
        rows += [(fault, game, ([None] * len(game[0]),) * 2) for fault, *game in self.GAMES[1:]]
        for size, (fault, game, known) in itertools.product((pgboard.solving.SMALL, -1), rows):
            with mock.patch.object(pgboard.solving, "SMALL", size):
                self.raises(fault, pgboard.solve, *game, known=known)

    def test_gives_up_by_one_call_and_in_slices(self):
        for levels in (3, 10):
            game = lists_of(plain.ladder(levels))
            solved, nothing = pgboard.solve(*game), ([None] * len(game[0]),) * 2
            for known in (None, nothing):
                self.raises(pgboard.GaveUp(), pgboard.solve, *game, known, 0)
            for known, steps in ((nothing, 10**6), (solved, 0), *((None, it) for it in (2**64 - 1, 2**64))):
                self.assertEqual(pgboard.solve(*game, known, steps), solved)
            with self.assertRaises(pgboard.NotKnown):
                pgboard.solve(*game, ([1 - it for it in solved[0]], solved[1]), 0)

    def test_arguments_of_another_type_or_out_of_range_are_named(self):
        whole, listed, far = "has to be an integer, not", "a list is needed, not int", "is out of range"
        pair = "known: a pair of winners and choices is needed, not"
        solve = lambda at, it: pgboard.solve(*with_one(TWO, at, it))
        claim = functools.partial(pgboard.verify, *TWO)
        for said, call, *given in (
            (f"owners: {listed}", solve, 0, 5),
            (f"successors: {listed}", solve, 2, 5),
            (f"successors[1]: {listed}", solve, 2, [[0, 1], 1]),
            (f"owners[0] {whole} str", solve, 0, ["0", 1]),
            (f"priorities[1] {whole} NoneType", solve, 1, [2, None]),
            (f"successors[1][1] {whole} str", solve, 2, [[0, 1], [1, "1"]]),
            (f"owners[1]: 256 {far}", solve, 0, iter([0, 256])),
            (f"priorities[0]: -1 {far}", solve, 1, iter([-1, 0])),
            (f"successors[1][0]: {2**32} {far}", solve, 2, [[0, 1], iter([2**32])]),
            (f"{pair} int", pgboard.solve, *TWO, 5),
            (f"{pair} tuple", pgboard.solve_csr, *CSR, (1, 2, 3)),
            (f"winners: {listed}", claim, 5, [0, 1]),
            (f"choices: {listed}", claim, [0, 1], 5),
            (f"choices[0] {whole} float", claim, [0, 1], [0.5, 1]),
            (f"winners[1]: {2**40} {far}", claim, iter([0, 2**40]), [0, 1]),
            # (in a list no number is none)
            (f"choices[1]: {pgboard.NO_CHOICE} {far}", claim, [0, 1], [None, pgboard.NO_CHOICE]),
            (f"steps: -1 {far}", pgboard.solve, *TWO, None, -1),
            (f"steps {whole} float", pgboard.solve, *TWO, None, 1.5),
        ):
            self.raises((ValueError if said.endswith(far) else TypeError)(said), call, *given)


class Buffers(Tests):
    def forms(self):
        yield [array("b", CSR[0]), *(array("i", it) for it in CSR[1:])]
        yield [bytes(CSR[0]), *(memoryview(bytes(it)).cast("I") for it in CSR[1:])]
        yield [(ctypes.c_uint8 * 2)(*CSR[0]), *((ctypes.c_uint32 * len(it))(*it) for it in CSR[1:])]
        yield [*CSR[:3], memoryview(array("I", [7, *CSR[3], 7]))[1:4]]
        if numpy:
            for kinds in (("u1", "u4"), ("i1", "i4"), ("i8", "i8")):
                yield [numpy.array(it, kinds[at > 0]) for at, it in enumerate(CSR)]
            # (the owner is Odd where it holds)
            yield [numpy.array([False, True]), *map(numpy.array, CSR[1:])]

    def test_takes_any_integers(self):
        for game in self.forms():
            with self.subTest(game):
                self.assertEqual(pgboard.solve_csr(*game), SOLVED)
        for kind in (list, tuple, *(functools.partial(array, it) for it in "hHiIqQ")):
            with self.subTest(kind), pgboard.Board.from_csr(*map(kind, CSR)) as board:
                self.assertEqual(board.post_arrays(1, kind([1]), kind([1])), (0, 1, 1))
                known = kind([pgboard.NO_WINNER, 1]), kind([0, 1])
                self.assertEqual(pgboard.solve_csr(*map(kind, CSR), known=known), SOLVED)
                pgboard.verify_csr(*CSR, *map(kind, SOLVED))

    def test_refuses_numbers_out_of_range(self):
        """In lists, in tuples, and in the arrays that hold such numbers."""
        board = pgboard.Board.from_csr(*CSR)
        solve = lambda at: lambda it: pgboard.solve_csr(*with_one(CSR, at, it))
        calls = {name: solve(at) for at, name in enumerate(NAMES)}
        calls["winners"] = lambda it: pgboard.solve_csr(*CSR, known=(it, [0, 1]))
        calls["choices"] = lambda it: board.post_arrays(1, [0, 1], it)
        for (name, call), value in itertools.product(calls.items(), (-1, -(2**31), 256, 2**32, 2**40, 2**64)):
            least = dict(b=2**7, h=2**15, i=2**31, q=2**63)
            letters = [it for it in least if -least[it] <= value < least[it]]
            if value != 256 or name in ("owners", "winners"):
                error = ValueError(f"{name}[1]: {value} is out of range")
                for kind in (list, tuple, *(functools.partial(array, it) for it in letters)):
                    self.raises(error, call, kind([0, value]))
        error = ValueError("indices[1]: -1 is out of range")
        for call, *more in ((pgboard.Board.from_csr,), (pgboard.verify_csr, *SOLVED)):
            self.raises(error, call, *CSR[:3], [0, -1], *more)

    def test_refuses_what_is_no_buffer_of_integers(self):
        needed = "a contiguous buffer of integers in one dimension is needed, not"
        gaps = "one with gaps between its items: numpy.ascontiguousarray copies it"
        rows = [
            (0, {0, 1}, "set"),
            (0, b"".join, "builtin_function_or_method"),
            (3, "01", "str"),
            (1, array("f", [2, 1]), "one of items 'f' of 4 bytes"),
            (2, memoryview(bytes(24)).cast("I")[::2], gaps),
            (1, memoryview(bytes(8)).cast("B").cast("I", [2, 1]), "one of 2 dimensions"),
        ]
        for at, kind in enumerate((ctypes.c_uint16, ctypes.c_uint32, ctypes.c_int32, ctypes.c_int64)):
            swapped = (kind.__ctype_be__ * len(CSR[at]))(*CSR[at])
            letter = memoryview(swapped).format
            rows.append((at, swapped, f"one of items {letter!r} of {ctypes.sizeof(kind)} bytes"))
        if numpy:
            rows.append((3, numpy.array(CSR[3], ">i8"), "one of items '>q' of 8 bytes"))
        for at, wrong, said in rows:
            self.raises(TypeError(f"{NAMES[at]}: {needed} {said}"), pgboard.solve_csr, *with_one(CSR, at, wrong))
        said = TypeError(f"vertices: {needed} NoneType")
        self.raises(said, pgboard.Board(*TWO).post_arrays, 0, None, b"")
        for at, wrong in zip(range(4), ([1.5, 0], ["0", "1"], [None], (0.5,))):
            said = f"{NAMES[at]}[0] has to be an integer, not {type(wrong[0]).__name__}"
            self.raises(TypeError(said), pgboard.solve_csr, *with_one(CSR, at, wrong))

    @unittest.skipUnless(scipy, "scipy is not installed")
    def test_takes_a_matrix_of_scipy(self):
        kinds = scipy.sparse.csr_matrix, scipy.sparse.csr_array
        for matrix in (kind([[1, 2], [0, 3]]) for kind in kinds):
            self.assertEqual(pgboard.solve_csr(*TWO[:2], matrix), SOLVED)
            pgboard.verify_csr(*TWO[:2], matrix, None, *SOLVED)
            with pgboard.Board.from_csr(*TWO[:2], matrix) as board:
                self.assertEqual(board.post(1, {1: 1}), (0, 1, 1))
        # (a column-compressed one has the same fields, by which each edge would go the other way)
        for it in (matrix.tocsc(), matrix.tocoo(), numpy.array([0, 1]), array("I", [0, 1]), [0, 2, 3]):
            said = "indices: without them a SciPy matrix in the form csr is needed for indptr, not "
            self.raises(TypeError(said + type(it).__name__), pgboard.solve_csr, *TWO[:2], it)
        for kind in kinds:
            self.raises(pgboard.BadLengths(2), pgboard.solve_csr, *TWO[:2], kind([[1, 1]] * 3))
            self.raises(pgboard.UnknownSuccessor(0, 2), pgboard.solve_csr, *TWO[:2], kind([[1] * 3] * 2))

    @unittest.skipUnless(scipy, "scipy is not installed")
    def test_gives_the_strategy_as_a_matrix_of_scipy(self):
        game = csr_of([0, 1, 0, 1], [2, 1, 0, 2], [[0, 1], [1], [1, 0], [0]])
        found = pgboard.solve_csr(*game)
        strategy = found.strategy()
        self.assertEqual((strategy.format, strategy.shape, strategy.dtype), ("csr", (4, 4), bool))
        self.assertEqual(list(zip(*map(list, strategy.nonzero()))), [(0, 0), (1, 1), (2, 0)])
        # only what was chosen is left of the winners' edges
        kept = scipy.sparse.lil_matrix(strategy)
        kept[3, 0] = True
        self.assertEqual(pgboard.solve_csr(*game[:2], kept.tocsr()), found)
        self.assertEqual(pgboard.solve_csr([1], [0], [0, 1], [0]).strategy().nnz, 0)


class Faults(Tests):
    def test_texts_name_places_and_vertices_and_survive_pickling(self):
        fit = "do not fit the owners: there is one owner, one priority and one row of successors for each"
        lost = "vertex 1 is known for player 1, and player 0 attracts it to what is known for him"
        shape = "row 1: there is none, or its vertex is not in the game or not greater than the one before"
        shape += ", or has no choice that is a successor where the player owns it"
        bad = "its priority is the other player's, and the greatest"
        outside = "which is neither in the claim nor settled for its player"
        for it, base, said in (
            (pgboard.BadLengths(3), ValueError, f"the successors {fit} vertex"),
            (pgboard.UnknownSuccessor(7, 9), pgboard.Refused, "vertex 7: the successor 9 is no vertex"),
            (pgboard.NoToken(7), pgboard.Refused, "byte 7: no token"),
            (pgboard.MissingAttribute(1, "x", "owner"), ValueError, "node 'x' has no attribute 'owner'"),
            (pgboard.OutOfMemory(), MemoryError, "memory was refused"),
            (pgboard.TimedOut(), TimeoutError, str(pgboard.TimedOut())),
            (pgboard.BadResults(4), pgboard.Refused, "the winners have not one entry for each vertex"),
            (pgboard.KnownLost(1), pgboard.NotKnown, lost),
            (pgboard.ClaimCycle(3), pgboard.BadCycle, f"vertex 3: {bad} on a closed walk in the claim"),
            (pgboard.BadPlayer(2), pgboard.RefusedClaim, str(pgboard.BadPlayer(2))),
            (pgboard.BadClaimLengths(2, 1), pgboard.RefusedClaim, "there are 2 vertices and 1 choices"),
            (pgboard.BadShape(1), pgboard.RefusedClaim, f"{shape}, or a choice where he does not"),
            (pgboard.ClaimCycle(3), pgboard.RefusedClaim, str(pgboard.ClaimCycle(3))),
            (pgboard.Lost(2), pgboard.RefusedClaim, "vertex 2 is settled for the other player"),
            (pgboard.Stale(), pgboard.RefusedClaim, "each vertex of the claim is settled for its player"),
            (pgboard.Open(2, 3), pgboard.RefusedClaim, f"vertex 2: a kept edge leads to 3, {outside}"),
        ):
            again = pickle.loads(pickle.dumps(it))
            self.assertEqual(str(it), said)
            self.assertTrue(isinstance(it, base) and isinstance(it, pgboard.Fault))
            self.assertEqual((type(again), str(again), vars(again)), (type(it), str(it), vars(it)))
        self.assertEqual(pgboard.Leaves(0, 1).args, (0, 1))


class Texts(Tests):
    CALLS = pgboard.solve_text, pgboard.tidy_text, lambda it: pgboard.verify_text("0 0 0 0;", it)

    def test_solves_tidies_and_verifies(self):
        self.assertEqual(pgboard.solve_text(GAME), "paritysol 9;\n3 0 3;\n9 1 9;\n")
        self.assertEqual(pgboard.tidy_text(GAME.encode()), "parity 9;\n3 2 0 3,9;\n9 1 1 9;\n")
        self.assertEqual(pgboard.tidy_text(b'0 0 0 0 "\xff";'), "parity 0;\n0 0 0 0;\n")
        pgboard.verify_text(GAME, b"9 1 9; 3 0 3;")

    def test_no_text_is_longer_than_its_buffer(self):
        last, of = 2**31 - 1, lambda size: "".join(f"{v} 0 {v % 2} {v};" for v in range(size))
        falling = "".join(f"{last - v} 0 0 {last};" for v in range(200))
        for game in (f"{last} {last} 1 {last};", of(10), of(3000), falling, "0 0 0 0,0,0;"):
            tidy = pgboard.tidy_text(game)
            self.assertEqual(pgboard.tidy_text(tidy), tidy)
            pgboard.verify_text(game, pgboard.solve_text(game))

    def test_takes_bytes_or_str_that_utf_8_can_encode(self):
        """Python may have made a str of bytes that are no UTF-8, as of names of files; bytes have any."""
        others = None, 5, [48], bytearray(b"0 0 0 0;"), memoryview(b"0 0 0 0;")
        for other, call in zip(others, itertools.cycle(self.CALLS)):
            self.raises(TypeError(f"a text is bytes or str, not {type(other).__name__}"), call, other)
        for text, call in zip(('0 0 0 0 "\ud800";', "0 0 0 0\udcff;", "\udcff"), self.CALLS):
            with self.assertRaises(UnicodeEncodeError):
                call(text)

    def test_solves_a_file(self):
        with tempfile.TemporaryDirectory() as folder:
            path = pathlib.Path(folder, "game.pg")
            path.write_bytes(GAME.encode() + b' 4 1 0 9 "\xff";')
            packed = pathlib.Path(f"{path}.\udcff")
            for it in (path, str(path), os.fsencode(path), packed, os.fsencode(packed)):
                packed.write_bytes(gzip.compress(path.read_bytes()))
                self.assertEqual(pgboard.solve_file(it), "paritysol 9;\n3 0 3;\n4 1;\n9 1 9;\n")
            with self.assertRaises(FileNotFoundError):
                pgboard.solve_file(f"{path}.gz")
            packed.write_bytes(gzip.compress(bytes(1000))[:-9])
            with self.assertRaisesRegex(ValueError, "^.*: it can't be unpacked: .*$"):
                pgboard.solve_file(packed)
            packed.write_bytes(gzip.compress(bytes(1000)))
            for it in (packed, "/dev/zero"):
                with mock.patch("pgboard.command.MOST_BYTES", 999):
                    with self.assertRaisesRegex(ValueError, "^.*: it has more than 999 bytes$"):
                        pgboard.solve_file(it)

    def test_standard_input_stays_open(self):
        program = "import sys, pgboard\nprint(pgboard.%s('-'), sys.stdin.read(), sys.stdin.closed)"
        for call, said in (("read_game", "Game("), ("solve_file", "paritysol 9")):
            out, err = python(program % call, stdin=subprocess.PIPE).communicate(GAME, timeout=60)
            self.assertTrue(out.startswith(said) and out.endswith("  False\n"), out + err)

    def says(self, said, fault, call, *texts):
        with self.subTest(said), self.assertRaises(fault) as found:
            call(*texts)
        self.assertEqual(str(found.exception), said)

    def test_a_fault_of_a_text_has_its_line_and_column(self):
        for text, fault, said in (
            ('0 0 0 0 "\u03a9";\n1 ?', pgboard.NoToken, "2:3: byte 16: no token"),
            ('0 0 0 0 "\u03a9"; 1 ?', pgboard.NoToken, "1:16: byte 16: no token"),
            ('0 0 0 0 "; 0 1";\n 0 1 1 0;', pgboard.SpecifiedTwice, "2:2: vertex 0 is specified twice"),
            ('7 8 0 7,8 "8";', pgboard.UnknownSuccessor, "1:9: vertex 7: the successor 8 is no vertex"),
            ("", pgboard.BadText, "1:1: byte 0: not expected"),
        ):
            for call in (pgboard.solve_text, pgboard.tidy_text, pgboard.Board.from_text):
                self.says(f"game:{said}", fault, call, text)
            with tempfile.NamedTemporaryFile() as file:
                pathlib.Path(file.name).write_bytes(text.encode())
                self.says(f"{file.name}:{said}", fault, pgboard.solve_file, file.name)
        for text, fault, said in (
            ("3 0 3;\n9 ?", pgboard.NoToken, "solution:2:3: byte 9: no token"),
            ("3 0 3;\n9 1 9;\n 3 0 3;", pgboard.WrittenTwice, "solution:3:2: vertex 3 is written twice"),
            ("3 0 3;\n 9 1 5;", pgboard.Stranger, "solution:2:6: vertex 5 is not in the game"),
            ("3 0 3;", pgboard.NotWritten, "vertex 9 is not written"),
        ):
            self.says(said, fault, pgboard.verify_text, GAME, text)


class Package(Tests):
    @unittest.skipUnless(shutil.which("cc"), "not installed: cc")
    def test_a_library_is_proved_that_says_so_itself(self):
        for symbol, said in (
            ("other", "not recorded"),
            ('pgboard_proved[] = "proved, commit 1"', "proved"),
            ('pgboard_unproved[] = "unproved, commit 1"', "unproved, commit 1"),
        ):
            with tempfile.TemporaryDirectory() as folder:
                words = ["cc", "-shared", "-x", "c", "-", "-o", f"{folder}/built.so"]
                subprocess.run(words, input=f"const char {symbol};".encode(), check=True)
                loaded = {"loaded": ctypes.CDLL(f"{folder}/built.so")}
                with mock.patch.dict(pgboard.library.LIBRARY.__dict__, loaded):
                    self.assertEqual(pgboard.build(), said)

    @unittest.skipUnless(os.path.exists(os.path.join(HERE, "pyproject.toml")), "pyproject.toml is not here")
    def test_the_least_python_can_read_it(self):
        said = pathlib.Path(HERE, "pyproject.toml").read_text()
        least = int(re.search(r'requires-python = ">=3\.(\d+)"', said)[1])
        for path in pathlib.Path(pgboard.__file__).parent.rglob("*.py"):
            ast.parse(path.read_text(), feature_version=(3, least))
        # (what it takes of Python's library is there too)
        if shutil.which("mypy"):
            said = self.mypy(f"--python-version=3.{least}", os.path.dirname(pgboard.__file__))
            self.assertEqual(said[0], 0, said[1])

    def test_examples(self):
        self.assertEqual(doctest.testmod(pgboard), (0, 3))
        self.assertEqual(doctest.testmod(pgboard.board), (0, 1))
        page = pathlib.Path(HERE, "README.md").read_text()
        blocks = re.findall(r"(?ms)^```text\n(>>> .*?)^```$", page)
        parse = doctest.DocTestParser().get_doctest
        examples = [parse(it, {"pgboard": pgboard}, "README.md", None, 0) for it in blocks]
        self.assertEqual([doctest.DocTestRunner().run(it) for it in examples], [(0, 3), (0, 7), (0, 5)])

    def mypy(self, *words):
        env = {**os.environ, "MYPYPATH": os.path.dirname(os.path.dirname(pgboard.__file__))}
        words = ["mypy", "--strict", "--cache-dir", os.devnull, *words]
        ran = subprocess.run(words, capture_output=True, text=True, env=env, check=False)
        return ran.returncode, ran.stdout + ran.stderr

    @unittest.skipUnless(shutil.which("mypy"), "mypy is not installed")
    def test_types(self):
        folder = os.path.dirname(pgboard.__file__)
        self.assertTrue(os.path.exists(f"{folder}/py.typed"))
        status, said = self.mypy(folder)
        self.assertEqual(status, 0, said)
        head = (
            "from array import array\nimport pgboard\n"
            "class Mine:\n    def __buffer__(self, flags: int, /) -> memoryview: return memoryview(b'')\n"
        )
        taken = ["b''", "bytearray()", "memoryview(b'')", "array('I')", "Mine()", "[0, 1]", "(0, 1)"]
        if numpy and "site-packages" not in numpy.__file__:
            taken.append("numpy.zeros(3)")
            head += "import numpy\n"
        call, first = "pgboard.solve_csr(b'', {0}, {0}, b'', known=(b'', {0}))".format, 1 + head.count("\n")
        refused = [*map(call, ["[0.5, 1]", "3", "'text'", "None", "object()", "range(3)"])]
        absent = [f"pgboard.{it}" for it in ("nothing", "__wrapped__", "text_bytes", "ctypes")]
        # lines that mypy takes, and those that it refuses, each with the kind of error
        there = [*map(call, taken), *(f"pgboard.{it}" for it in pgboard.__all__)]
        rows = (there, [], ""), ([], refused, "(?:Argument|List item)"), ([], absent, ".*attr")
        for good, bad, kind in rows:
            said = self.mypy("-c", head + "\n".join([*good, *bad]))[1]
            lines = sorted({*map(int, re.findall(rf"(?m)^<string>:(\d+): error: {kind}", said))})
            self.assertEqual(lines, [*range(first, first + len(bad))], said)
        types = "pgboard.solve_csr(b'', b'', b'', b'').winners, pgboard.Leaves().at"
        said = self.mypy("-c", f"{head}reveal_type(({types}))")[1]
        self.assertRegex(said, r'Revealed type is "[Tt]uple\[array.array\[builtins.int\], builtins.int\]')


class Loading(Tests):
    CALL = "import pgboard.library; print(pgboard.library.LIBRARY._name, pgboard.solve([0], [0], [[0]]))"

    def test_an_import_without_the_library_says_what_to_do(self):
        for path in ("/nowhere/libpgboard.so", ctypes.util.find_library("c") or "libc.so.6"):
            run = python("import pgboard.command\nfrom pgboard import solve\nsolve([], [], [])", PGBOARD_LIBRARY=path)
            err = run.communicate(timeout=60)[1]
            self.assertEqual(run.returncode, 1)
            todo = "build one by `./pgboard --library` .*, or set PGBOARD_LIBRARY"
            self.assertRegex(err, f"ImportError: pgboard: .*{todo}")

    def test_what_looks_at_the_package_needs_no_library(self):
        program = """import doctest, inspect, rlcompleter, pgboard
assert not hasattr(pgboard, "__wrapped__") and not hasattr(pgboard, "nothing") and not hasattr(pgboard, "ctypes")
assert inspect.unwrap(pgboard) is pgboard and inspect.unwrap(pgboard.solve) is pgboard.calls.solve
assert {*pgboard.__all__} <= {*dir(pgboard)} and all(hasattr(pgboard, it) for it in dir(pgboard))
print(doctest.testmod(pgboard)[:2], rlcompleter.Completer({"pgboard": pgboard}).attr_matches("pgboard.solve_f"))
"""
        out, err = python(program, PGBOARD_LIBRARY="/nowhere.so").communicate(timeout=60)
        self.assertRegex(out + err, r"(?s)ImportError: pgboard: .*\n\(2, 3\) \['pgboard.solve_file\(?'\]\n$")

    def test_an_old_processor_is_refused(self):
        with tempfile.TemporaryDirectory() as folder, mock.patch("pgboard.native.PROCESSORS", f"{folder}/cpuinfo"):
            pgboard.native.check_processor()
            new = "processor\t: 0\nflags\t\t: fpu pni ssse3 cx16 sse4_1 sse4_2 popcnt lahf_lm avx\n\n"
            path, said = pathlib.Path(folder, "cpuinfo"), " level x86-64-v2, and this one lacks popcnt, sse4_2$"
            for text in (new, "processor: 0\n"):
                path.write_text(text)
                pgboard.native.check_processor()
            path.write_text(new.replace("popcnt", "").replace("sse4_2", "") + new)
            with self.assertRaisesRegex(ImportError, said):
                pgboard.library.Library().pgboard_version

    def test_a_library_of_another_version_is_refused(self):
        mine = pgboard.library.VERSION
        self.assertEqual(f"{mine // 10000}.{mine // 100 % 100}.{mine % 100}", pgboard.__version__)
        for version in (7, mine + 1, mine + 100, 10 * mine):
            other = f"class Other:\n    def __getattr__(self, name):\n        return lambda: {version}\n"
            program = f"import ctypes\n{other}ctypes.CDLL = lambda path: Other()\n"
            program += "import pgboard\npgboard.Board.from_text('')"
            err = python(program, PGBOARD_LIBRARY="other.so").communicate(timeout=60)[1]
            self.assertIn(f"other.so is of version {version}, and this package of {mine}: build one", err)

    def test_the_named_one_is_before_the_wheels_the_repositorys_and_the_systems(self):
        library = pgboard.library.path_of_library()
        with tempfile.TemporaryDirectory() as folder:
            folder = os.path.realpath(folder)
            here = f"{folder}/bindings/python"
            without = shutil.ignore_patterns("libpgboard.so")
            shutil.copytree(os.path.dirname(pgboard.__file__), f"{here}/pgboard", ignore=without)
            env = {"cwd": here, "PYTHONPATH": "", "PGBOARD_LIBRARY": "", "LD_LIBRARY_PATH": folder}
            if not ctypes.util.find_library("pgboard"):
                err = python(self.CALL, **env).communicate(timeout=60)[1]
                self.assertIn("ImportError: pgboard: its library can't be loaded", err)
            built = [f"{folder}/out/{it}/libpgboard.so" for it in ("unproved", "proved")]
            for it in built:
                os.makedirs(os.path.dirname(it))
            places = f"{folder}/libpgboard.so.0", *built, f"{here}/pgboard/libpgboard.so"
            for path, name in zip(places, ("libpgboard.so.0", *places[1:])):
                os.symlink(library, path)
                found = python(self.CALL, **env).communicate(timeout=60)
                self.assertEqual(found, (f"{name} ([0], [0])\n", ""))
            found = python(self.CALL, **{**env, "PGBOARD_LIBRARY": places[0]}).communicate(timeout=60)
            self.assertEqual(found, (f"{places[0]} ([0], [0])\n", ""))


@unittest.skipUnless(networkx, "networkx is not installed")
class Graphs(Tests):
    def setUp(self):
        self.graph = networkx.DiGraph()
        self.graph.add_node("stay", owner=0, priority=2)
        self.graph.add_node("lose", owner=1, priority=1)
        self.graph.add_edges_from([("stay", "stay"), ("stay", "lose"), ("lose", "lose")])

    def test_networkx_in_and_out(self):
        solved = pgboard.solve_graph(self.graph)
        self.assertEqual(dict(solved.nodes(data="winner")), {"stay": 0, "lose": 1})
        self.assertEqual(dict(solved.nodes(data="choice")), {"stay": "stay", "lose": "lose"})
        self.assertNotIn("winner", self.graph.nodes["stay"])
        # what was found before is gone
        solved.nodes["lose"].update(owner=0, note="kept")
        again = pgboard.solve_graph(solved).nodes
        self.assertEqual(again["lose"], {"owner": 0, "priority": 1, "winner": 1, "note": "kept"})
        self.assertEqual(again["stay"], {"owner": 0, "priority": 2, "winner": 0, "choice": "stay"})

    def test_other_rules(self):
        graph = networkx.DiGraph([(0, 1), (1, 0)])
        graph.add_node(2)
        for v, priority in ((0, 1), (1, 2), (2, 0)):
            graph.nodes[v].update(owner=0, priority=priority)
        for least, winners in ((False, [0, 0, 1]), (True, [1, 1, 1])):
            found = pgboard.solve_graph(graph, dead_ends=True, least=least)
            self.assertEqual([it for _, it in found.nodes(data="winner")], winners)

    def test_attributes_have_the_names_that_are_given(self):
        for _, data in self.graph.nodes(data=True):
            data.update(player=data.pop("owner"), colour=data.pop("priority"), choice="mine", winner="mine")
        names = {"owner": "player", "priority": "colour", "winner": "w", "choice": "c"}
        found = pgboard.solve_graph(self.graph, **names).nodes["stay"]
        wanted = {"player": 0, "colour": 2, "choice": "mine", "winner": "mine", "w": 0, "c": "stay"}
        self.assertEqual(found, wanted)

    def test_faults_name_their_node(self):
        self.graph.add_node(("a", 1), owner=0, priority=0)
        with self.assertRaisesRegex(pgboard.NoSuccessor, r"^node \('a', 1\) has no successor$") as found:
            pgboard.solve_graph(self.graph)
        self.assertEqual((found.exception.at, found.exception.node), (2, ("a", 1)))
        self.assertEqual(str(pickle.loads(pickle.dumps(found.exception))), str(found.exception))
        data = self.graph.nodes["lose"]
        rows = ("priority", 2**31, 2**32), ("owner", 2, 256)
        for (name, wrong, far), kind in itertools.product(rows, range(3)):
            data[name] = given = [far, "1", wrong][kind]
            error = ValueError, TypeError, (pgboard.BadPriority if name == "priority" else pgboard.BadOwner)
            said = f": {given} is out of range", " has to be an integer, not str"
            said = (*(f"{name}{it}" for it in said), f"the {name} is ")[kind]
            with self.subTest(said), self.assertRaisesRegex(error[kind], f"^node 'lose': {said}"):
                pgboard.solve_graph(self.graph)
            data[name] = 1
        self.raises(pgboard.NoVertex(), pgboard.solve_graph, networkx.DiGraph())

    def test_what_is_missing_is_named(self):
        missing = pgboard.MissingAttribute
        self.raises(missing(0, "stay", "rank"), pgboard.solve_graph, self.graph, priority="rank")
        del self.graph.nodes["lose"]["priority"]
        self.raises(missing(1, "lose", "priority"), pgboard.solve_graph, self.graph)
        other = networkx.Graph(self.graph)
        self.raises(TypeError("a graph is a networkx.DiGraph, not Graph"), pgboard.solve_graph, other)


if __name__ == "__main__":
    unittest.main()
