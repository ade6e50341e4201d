"""Tests of Board.finish, by unittest: its slices, what it keeps where it is ended, and threads.

What it finds is tested in C (tests/library/embed/advance.c).
"""

import itertools
import signal
import threading
import time
import unittest
from unittest import mock

import pgboard
from pgboard import board as module
from pgboard import library
from test_pgboard import TWO, Tests, lists_of, plain

# what may end a call before it has found all
ENDS = pgboard.GaveUp, pgboard.TimedOut


class Finishing(Tests):
    def slices(self, act=lambda count: None, most=2**64 - 1):
        """Counts the slices of all boards to the end of the test, and acts before each. None takes more than so many steps:
        without a step the recursion goes on for ever.
        """
        taken, take = [], library.Handle.advance

        def counted(handle, steps):
            act(len(taken))
            taken.append(threading.get_ident())
            found = take(handle, min(steps, most))
            self.steps += found.steps
            return found

        self.steps = 0
        self.addCleanup(setattr, library.Handle, "advance", take)
        library.Handle.advance = counted
        return taken

    def test_a_call_goes_on_where_one_has_ended(self):
        views = []
        self.slices(lambda count: time.sleep(0.001))
        for way in ({}, {"steps": 50}, {"timeout": 0.003}):
            self.steps = 0
            with pgboard.Board(*lists_of(plain.ladder(100))) as board:
                for ended in itertools.count():
                    try:
                        board.finish(**way)
                        break
                    except ENDS:
                        pass
                views.append((self.steps, board.solution(), board.entries[:]))
            self.assertEqual(ended > 3, bool(way), ended)
        self.assertEqual(views, views[:1] * 3)

    def test_what_is_settled_stays_where_memory_is_refused(self):
        calls, game = [], lists_of(plain.ladder(40))

        def refusing(true, *given):
            calls.append(given)
            return 1 if len(calls) == 4 else true(*given)

        self.other_library("pgboard_board_advance", refusing)
        with pgboard.Board([*game[0], 0], [*game[1], 2], [*game[2], [len(game[0])]]) as board:
            with self.assertRaises(pgboard.OutOfMemory):
                board.finish()
            before = board.entries[:]
            self.assertEqual(board.winner(len(game[0])), 0)
            board.finish()
            self.assertEqual(
                (board.entries[: len(before)], list(board.solution().winners)),
                (before, [*pgboard.solve(*game)[0], 0]),
            )
        self.assertGreater(len(calls), 10)
        calls.clear()
        with self.assertRaises(pgboard.OutOfMemory):
            pgboard.solve(*game)

    def wait_for(self, holds):
        ends = time.monotonic() + 60
        while not holds():
            self.assertLess(time.monotonic(), ends)
            time.sleep(0.001)

    def test_a_handler_of_a_signal_may_settle_meanwhile(self):
        self.addCleanup(signal.signal, signal.SIGALRM, signal.getsignal(signal.SIGALRM))
        self.slices(lambda count: signal.raise_signal(signal.SIGALRM))
        for player in (0, 1):
            board, posts = pgboard.Board(*TWO), []
            # (the handler runs under the board's lock, which its thread has)
            post = lambda *_, board=board, player=player, posts=posts: posts or posts.append(
                board.post(player, {player: player}, 7)
            )
            signal.signal(signal.SIGALRM, post)
            board.finish()
            self.assertEqual([(it.worker, it.player) for it in board.entries], [(7, player), (0, 1 - player)])

    def endless(self):
        """A board that is left to the recursion, which gets no step, and beside it a vertex that Even wins at once."""
        owners, priorities, rows = lists_of(plain.ladder(40))
        return pgboard.Board([*owners, 0], [*priorities, 0], [*rows, [len(rows)]])

    def test_others_use_the_board_between_slices(self):
        part = lists_of(plain.ladder(22))
        owners, priorities, rows = lists_of(plain.ladder(40))
        size = len(part[0])
        won = [*zip(*pgboard.solve(*part), range(size))]
        taken = self.slices(most=0)
        rows = [*part[2], *([size + to for to in row] for row in rows)]
        board, cancel = pgboard.Board(part[0] + owners, part[1] + priorities, rows), pgboard.Cancel()
        claim = {v: choice for winner, choice, v in won if winner == 0}
        thread, raised = self.begun(lambda: board.finish(cancel=cancel))
        self.wait_for(lambda: len(taken) > 40)
        found = board.entries[:]
        self.assertIn(None, map(board.winner, claim))
        posted = board.post(0, claim, 3)
        self.assertEqual((posted.entry, set(map(board.winner, claim))), (len(found), {0}))
        # (the search goes on, with what is posted)
        taken.clear()
        self.wait_for(lambda: len(taken) > 40)
        self.assertTrue(thread.is_alive())
        self.assertEqual((board.entries[: len(found)], board.entries[len(found)].worker), (found, 3))
        cancel.cancel()
        thread.join(60)
        self.assertEqual((raised, [it.worker for it in board.entries].count(3)), ([pgboard.Cancelled], 1))

    def test_who_waits_for_the_board_goes_before_the_next_slice(self):
        board, reads, late = pgboard.Board(*lists_of(plain.ladder(40))), [], []

        def act(count):
            late.extend(it for it in reads if it.is_alive())
            reads.append(self.begun(lambda: board.settled)[0])
            # (which gets it when this slice is over)
            reads[-1].join(0.02)

        self.slices(act)
        with mock.patch.object(module, "PAUSE", 0.2):
            board.finish()
        self.assertGreater(len(reads), 10)
        self.assertEqual(late, [])

    def test_a_slice_comes_where_those_that_wait_do_not_get_the_board(self):
        lock_of, may = threading.RLock, threading.Event()

        class Lock:
            def __init__(self):
                self.lock, self.thread = lock_of(), threading.get_ident()

            def __enter__(self):
                if threading.get_ident() != self.thread:
                    may.wait(60)
                self.lock.acquire()

            def __exit__(self, *_):
                self.lock.release()

        with mock.patch.object(module.threading, "RLock", Lock):
            board = pgboard.Board(*TWO)
        thread, raised = self.begun(lambda: board.settled)
        pauses = []
        with mock.patch.object(module.time, "sleep", pauses.append):
            board.finish()
        self.assertEqual((set(pauses), thread.is_alive()), ({module.PAUSE}, True))
        self.assertEqual(len(pauses) % module.TIMES, 0)
        may.set()
        thread.join(60)
        self.assertEqual((thread.is_alive(), raised), (False, []))

    def test_a_slice_says_how_long_it_took(self):
        handle = library.Handle()
        self.addCleanup(handle.close)
        handle.open(pgboard.arrays.game_of(*TWO))
        with mock.patch.object(library.time, "monotonic", side_effect=[5.0, 7.5]):
            self.assertEqual(handle.advance(9), (True, 0, 2.5))

    def test_close_ends_finish(self):
        taken = self.slices(most=0)
        for count in (1, 2):
            board, begun = self.endless(), len(taken)
            threads = [self.begun(board.finish) for _ in range(count)]
            self.wait_for(lambda: len(taken) > begun + 40)
            before = time.monotonic()
            board.close()
            self.assertLess(time.monotonic() - before, 5)
            for thread, raised in threads:
                thread.join(60)
                self.assertEqual(raised, [pgboard.Closed])

    def test_a_cancel_of_one_call_leaves_the_other(self):
        taken, first = self.slices(most=0), self.endless()
        for second in (first, self.endless()):
            cancel, other = pgboard.Cancel(), pgboard.Cancel()
            one, ended = self.begun(lambda: first.finish(cancel=cancel))
            two, later = self.begun(lambda: second.finish(cancel=other))
            self.wait_for(lambda: {one.ident, two.ident} <= set(taken))
            cancel.cancel()
            one.join(60)
            taken.clear()
            self.wait_for(lambda: len(taken) > 10)
            self.assertEqual((ended, two.is_alive()), ([pgboard.Cancelled], True))
            other.cancel()
            two.join(60)
            self.assertEqual(later, [pgboard.Cancelled])


if __name__ == "__main__":
    unittest.main()
