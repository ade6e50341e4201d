"""Tests of pgboard.Board, by unittest: what it takes, returns and refuses, its turns, its memory, and copies.

What a board settles is tested in C, where a plain board replays what threads post (tests/library/embed.py).
"""

import copy
import ctypes
import gc
import itertools
import pathlib
import pickle
import sys
import threading
import unittest
from array import array
from unittest import mock

import pgboard
from pgboard import library
from test_pgboard import CSR, SOLVED, TWO, Tests

NONE = pgboard.NO_CHOICE


def loops(size):
    return [0] * size, [2] * size, [[v] for v in range(size)]


class Boards(Tests):
    def test_posts_and_all_that_can_be_read(self):
        board = pgboard.Board([0, 1, 0, 1, 0], [2, 1, 0, 1, 1], [[0, 1], [1], [0, 3], [2, 3], [0, 1]])
        self.raises(pgboard.Unsettled(5), board.solution)
        self.assertEqual(board.post(0, {0: 0}, worker=2**32 - 1), (0, 1, 3))
        self.assertEqual(board.state(), (array("B", [0, 255, 0, 255, 0]), array("I", [0, NONE, 0, NONE, 0])))
        self.assertEqual(board.post_arrays(1, array("q", [1]), [1], 7), (1, 1, 1))
        rows = [(0, 0), (1, 1), (0, 0), (None, None), (0, 0)]
        self.assertEqual([(board.winner(v), board.choice(v)) for v in range(5)], rows)
        self.assertEqual((board.settled, board.unsettled()), (4, array("I", [3])))
        board.finish()
        first = 2**32 - 1, 0, 1, array("I", [0, 2, 4]), array("I", [0, 0, 0])
        second, third = ((worker, 1, 1, array("I", [v]), array("I", [v])) for worker, v in ((7, 1), (0, 3)))
        self.assertEqual(board.entries[:], [first, second, third])
        self.assertEqual(board.solution(), board.state())
        self.assertEqual(board.solution(), (array("B", [0, 1, 0, 1, 0]), array("I", [0, 1, 0, 3, 0])))

    def test_a_board_of_a_text(self):
        with pgboard.Board.from_text("9 1 1 9; 3 2 0 3,9,3;") as board:
            self.assertEqual((board.vertices, board.settled, board.winner(1)), (2, 0, None))
            rows = (3, 2, 0, array("I", [0, 1])), (9, 1, 1, array("I", [1]))
            self.assertEqual((board.vertex(0), board.vertex(True)), rows)
            for v in (-1, 2, 2**32, 2**64):
                self.raises(IndexError(f"{v} is no vertex"), board.vertex, v)
            self.raises(TypeError("a vertex has to be an integer, not str"), board.vertex, "0")
            self.raises(pgboard.Unsettled(2), board.solution_text)
            self.assertEqual(board.post(1, {1: 1}), (0, 1, 1))
            board.finish()
            self.assertEqual(board.solution(), (array("B", [0, 1]), array("I", [0, 1])))
            self.assertEqual(board.solution_text(), "paritysol 9;\n3 0 3;\n9 1 9;\n")
        for call in (lambda: board.vertices, lambda: board.vertex(0), board.solution_text):
            self.raises(pgboard.Closed(), call)
        self.raises(pgboard.NoToken(6), pgboard.Board.from_text, b"0 0 0 ?;")
        self.raises(TypeError("a text is bytes or str, not list"), pgboard.Board.from_text, [48])
        # the longest rows
        last = 2**31 - 1
        texts = "".join(f"{last - v} {last} 1 {last - v};" for v in range(100)), "7 0 0 7;"
        for text in texts:
            with pgboard.Board.from_text(text) as board:
                board.finish()
                self.assertEqual(board.solution_text(), pgboard.solve_text(text))
        # of arrays the vertices are the identifiers
        with pgboard.Board(*TWO) as board:
            board.finish()
            self.assertEqual((board.vertex(0).id, board.vertex(1)), (0, (1, 1, 1, array("I", [1]))))
            self.assertEqual(board.solution_text(), "paritysol 1;\n0 0 0;\n1 1 1;\n")

    def test_the_state_is_read_again_after_a_refused_read(self):
        board, answers = pgboard.Board(*TWO), [1]
        self.assertEqual(board.winner(0), None)
        board.post(0, {0: 0})
        refused = lambda true, *given: answers.pop() if answers else true(*given)
        self.other_library("pgboard_board_state", refused)
        with self.assertRaises(pgboard.OutOfMemory):
            board.state()
        self.assertEqual((board.winner(0), board.unsettled()), (0, array("I", [1])))

    def test_calls_of_one_board_take_turns(self):
        libc, lock, reached = ctypes.CDLL(None), ctypes.create_string_buffer(64), threading.Event()
        self.assertIs(type(library.LIBRARY.loaded), ctypes.CDLL)  # which releases the interpreter's lock
        libc.pthread_mutex_lock(lock)

        def slowly(true, *given):
            reached.set()
            libc.pthread_mutex_lock(lock)
            libc.pthread_mutex_unlock(lock)
            return true(*given)

        found = []
        self.other_library("pgboard_board_advance", slowly)
        slow, other = pgboard.Board(*TWO), pgboard.Board(*TWO)
        threads = [self.begun(slow.finish)[0]]
        self.assertTrue(reached.wait(60))
        # another board is free, and this one is not
        free, _ = self.begun(lambda: other.post(0, {0: 0}))
        free.join(60)
        self.assertFalse(free.is_alive())
        reads, posts = lambda: found.append(slow.settled), lambda: found.append(slow.post(0, {0: 0}))
        threads += [self.begun(it)[0] for it in (reads, posts, slow.close)]
        threads[-1].join(0.3)
        self.assertEqual((found, [it.is_alive() for it in threads], other.settled), ([], [True] * 4, 1))
        libc.pthread_mutex_unlock(lock)
        for it in threads:
            it.join(60)
        self.assertEqual([it.is_alive() for it in threads], [False] * 4)

    def test_an_interrupt_as_a_turn_begins(self):
        """It leaves no thread for which `finish` would wait."""
        for count in range(1, 5):
            board, left = pgboard.Board(*TWO), [count]

            def trace(frame, event, _, left=left):
                if frame.f_code.co_name == "_turn" and event == "line":
                    left[0] -= 1
                    if not left[0]:
                        sys.settrace(None)
                        raise KeyboardInterrupt
                return trace

            with self.assertRaises(KeyboardInterrupt):
                sys.settrace(trace)
                board.unsettled()
            with mock.patch("time.sleep") as sleep:
                board.finish()
            self.assertFalse(sleep.called, count)

    def test_what_changes_during_a_call_has_no_effect(self):
        claim = [array("I", [1]), array("I", [1])]

        def late(true, *given):
            for it in (*game, *claim, *solution):
                it[0] = it[-1] = 9
            return true(*given)

        board = pgboard.Board(*TWO)
        for name in ("solve", "check", "board_open", "board_post"):
            self.other_library(f"pgboard_{name}", late)
        for call in (
            lambda: self.assertEqual(pgboard.solve_csr(*game), SOLVED),
            lambda: self.assertIsNone(pgboard.verify_csr(*game, *solution)),
            lambda: self.assertEqual(pgboard.Board.from_csr(*game).post(1, {1: 1}), (0, 1, 1)),
            lambda: self.assertEqual(board.post_arrays(1, *claim), (0, 1, 1)),
        ):
            game, solution = [it[:] for it in CSR], [it[:] for it in SOLVED]
            claim[:] = array("I", [1]), array("I", [1])
            call()

    def test_a_closed_board_answers_closed(self):
        board = pgboard.Board(*TWO)
        entries = board.entries
        board.post(0, {0: 0})
        # (a block closes where it raises)
        with self.assertRaises(pgboard.Stale), board as same:
            self.assertIs(same, board)
            board.post(0, {0: 0})
        with self.assertRaises(pgboard.Closed), board:
            self.fail("a closed board was entered")
        calls = [
            lambda: board.post(0, {0: 0}), lambda: board.post(7, {}), lambda: board.state(),
            lambda: board.post_arrays(9, b"", b""), lambda: board.winner(0), lambda: board.winner(9), lambda: board.choice(0),
            lambda: board.settled, lambda: board.unsettled(), lambda: len(board.entries),
            lambda: board.entries[0], lambda: entries[-1], lambda: board._entry(0), lambda: list(entries),
            lambda: board.finish(), lambda: board.solution(),
        ]  # fmt: skip
        for call in calls:
            self.raises(pgboard.Closed(), call)

    def test_the_state_is_read_under_the_lock(self):
        owned, board = [], pgboard.Board(*TWO)

        class Watched(array):
            def __getitem__(self, at):
                owned.append(board._lock._is_owned())
                return super().__getitem__(at)

            def tobytes(self):
                owned.append(board._lock._is_owned())
                return super().tobytes()

        board.post(1, {1: 1})
        board.state()
        board._state = pgboard.Solution(*(Watched(it.typecode, it) for it in board._state))
        self.assertEqual(board.state(), (array("B", [255, 1]), array("I", [NONE, 1])))
        self.assertEqual((board.unsettled(), board.winner(1), board.choice(0)), (array("I", [0]), 1, None))
        self.assertEqual(owned, [True] * 7)

    def test_memory_is_freed_where_a_board_ends(self):
        size = 20_000
        row = array("I", range(size + 1))
        game = bytes(size), memoryview(bytes(4 * size)).cast("I"), row, row[:-1]
        pages = lambda: int(pathlib.Path("/proc/self/statm").read_text().split()[1])
        closed = lambda: pgboard.Board.from_csr(*game).close()
        for way in (closed, lambda: pgboard.Board.from_csr(*game)):
            way()
            gc.collect()
            before = pages()
            for _ in range(20):
                way()
            gc.collect()
            # (a board of this game takes at least five pages of memory for a thousand vertices)
            self.assertLess(pages() - before, 1000)

    def test_memory_is_freed_where_an_exception_comes_as_a_board_opens(self):
        handles, open_board = [], library.Handle.open

        def interrupted(handle, game):
            # (as a signal's handler may, once the library has opened it)
            open_board(handle, game)
            handles.append((handle, game))
            raise KeyboardInterrupt

        with mock.patch.object(library.Handle, "open", interrupted), self.assertRaises(KeyboardInterrupt):
            pgboard.Board(*TWO)
        ((handle, game),) = handles
        # (the library refuses to open one that is open)
        open_board(handle, game)
        handle.close()

    def test_a_board_is_not_copied(self):
        for way in (copy.copy, copy.deepcopy, pickle.dumps):
            self.raises(TypeError("a board can be neither copied nor pickled"), way, pgboard.Board(*TWO))

    def test_what_is_given_and_returned_is_a_copy(self):
        game, claim = [it[:] for it in CSR], [array("I", [1]), array("I", [1])]
        board = pgboard.Board.from_csr(*game)
        for it in game:
            it[0] = it[-1] = 1
        self.assertEqual(board.post_arrays(1, *claim), (0, 1, 1))
        entry = board.entries[0]
        for it in (*claim, *board.state(), entry.vertices, entry.choices, board.unsettled()):
            it[0] = 77
        self.assertEqual(board.state(), (array("B", [255, 1]), array("I", [NONE, 1])))
        self.assertEqual(board.entries[0], (0, 1, 1, array("I", [1]), array("I", [1])))
        self.assertEqual((board.unsettled(), board.post(0, {0: 0})), (array("I", [0]), (1, 1, 1)))

    def test_a_board_is_shown_with_its_numbers(self):
        class Mine(pgboard.Board):
            pass

        board = Mine(*TWO)
        board.post(0, {0: 0})
        self.assertEqual(repr(board), "<pgboard.Mine: vertices: 2, settled vertices: 1, entries: 1>")
        board.close()
        self.assertEqual(repr(board), "<pgboard.Mine: vertices: 2, closed>")
        # (a subclass is made by both ways)
        other = Mine.from_csr(*CSR)
        self.assertEqual((type(other), other.post(0, {0: 0})), (Mine, (0, 1, 1)))

    def test_what_is_refused(self):
        """By Python, and by the library, which is tested in C, with no place, one and two."""
        board = pgboard.Board([0, 1, 0, 1], [2, 1, 0, 1], [[0, 1], [1], [0, 3], [2, 3]])
        whole = "has to be an integer, not"
        for claim in (None, [(0, 0)]):
            said = f"choices are a mapping from vertices, not {type(claim).__name__}"
            self.raises(TypeError(said), board.post, 0, claim)
        for claim in ({None: 0}, {"0": 0}, {0: "0"}, {0.5: 0}, {0: float("nan")}):
            with self.subTest(claim), self.assertRaises(TypeError):
                board.post(0, claim)
        for wrong in (None, "0", 0.0):
            kind = type(wrong).__name__
            self.raises(TypeError(f"player {whole} {kind}"), board.post, wrong, {0: 0})
            self.raises(TypeError(f"worker {whole} {kind}"), board.post, 0, {0: 0}, worker=wrong)
            self.raises(TypeError(f"a vertex {whole} {kind}"), board.winner, wrong)
        self.raises(TypeError(f"steps {whole} float"), board.finish, 1.5)
        for wrong in (-1, 2**32, 2**64):
            for name, player, claim, worker in (
                ("worker", 0, {0: 0}, wrong),
                ("player", wrong, {0: 0}, 0),
                ("vertices[0]", 0, {wrong: 0}, 0),
                ("choices[0]", 0, {0: wrong}, 0),
            ):
                self.raises(ValueError(f"{name}: {wrong} is out of range"), board.post, player, claim, worker)
        for v, call in itertools.product((-1, 4, 2**32), (board.winner, board.choice)):
            self.raises(IndexError(f"{v} is no vertex"), call, v)
        for fault, player, claim in (
            (pgboard.BadPlayer(2**32 - 1), 2**32 - 1, {0: 0}),
            (pgboard.BadShape(0), 0, {2**32 - 2: None}),
            (pgboard.ClaimCycle(3), 0, {2: 3, 3: None}),
            (pgboard.Open(2, 3), 0, {2: 3}),
        ):
            self.raises(fault, board.post, player, claim)
        self.raises(pgboard.BadPlayer(255), board.post_arrays, 255, b"", [1])
        self.raises(pgboard.BadClaimLengths(2, 1), board.post_arrays, 0, [0, 1], [0])
        self.assertEqual((board.settled, len(board.entries)), (0, 0))

    def test_entries_are_a_sequence_and_a_mapping_has_no_order(self):
        board = pgboard.Board(*loops(7))
        entries = board.entries
        for v in range(4):
            self.assertEqual(len(entries), v)
            board.post(0, {v: v}, worker=v)
        self.assertEqual(board.post(0, {6: 6, 4: 4, 5: 5}), (4, 3, 3))
        self.assertEqual([it.worker for it in reversed(entries)], [0, 3, 2, 1, 0])
        self.assertEqual([it.worker for it in entries[-2:0:-2]], [3, 1])
        self.assertEqual((entries[-5].worker, entries.index(entries[2])), (0, 2))
        for at in (5, -6, 2**64):
            with self.assertRaises(IndexError):
                entries[at]


if __name__ == "__main__":
    unittest.main()
