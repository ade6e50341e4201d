"""Tests of calls that may take long, by unittest: they end with a signal's exception, a timeout or a cancel.

They leave the program's children and signals alone.
"""

import itertools
import os
import tempfile
import threading
import unittest
from unittest import mock

import pgboard
from pgboard import slices
from test_pgboard import GAME, TWO, Tests, networkx, plain, python

LARGE = [0] * 200, [0] * 200, [[0]] * 200
# a game that is left to the recursion, which takes for ever, since no slice of it takes a step; and the slices that were begun
ENDLESS = f"""import os, signal, subprocess, sys, threading, time
sys.path.append({os.path.dirname(plain.__file__)!r})
import pgboard, test_pgboard
# (a shell has what it runs in the background ignore the interrupt)
signal.signal(signal.SIGINT, signal.default_int_handler)
ENDLESS = test_pgboard.lists_of(test_pgboard.plain.ladder(40))
TAKEN, take = [], pgboard.library.Handle.advance
def counted(self, steps):
    TAKEN.append(threading.get_ident())
    return take(self, 0)
pgboard.library.Handle.advance = counted
def wait_for(holds):
    ends = time.monotonic() + 40
    while not holds() and time.monotonic() < ends:
        time.sleep(0.001)
    return holds()
def interrupt():
    # (after some slices of a call)
    def later():
        wanted = len(TAKEN) + 40
        wait_for(lambda: len(TAKEN) >= wanted)
        interrupt.sent = time.monotonic()
        os.kill(os.getpid(), signal.SIGINT)
    threading.Thread(target=later).start()
"""
INTERRUPTED = """row = '{} {} {} {};'.format
lines = enumerate(zip(*ENDLESS))
text = ''.join(row(v, p, o, ','.join(map(str, to))) for v, (o, p, to) in lines)
board = pgboard.Board(*ENDLESS)
for call in (lambda: pgboard.solve(*ENDLESS), lambda: pgboard.solve_text(text), board.finish):
    late = []
    for _ in range(4):
        try:
            interrupt()
            call()
        except KeyboardInterrupt:
            late.append(time.monotonic() - interrupt.sent)
            print(late[-1] < 10, wait_for(lambda: threading.active_count() == 1))
    print(min(late) < 1)
"""
# the calls make no child and no thread, and send no signal
ALONE = """def refuse(*_, **__):
    raise AssertionError
os.kill = os.killpg = os.fork = signal.pthread_kill = signal.signal = refuse
subprocess.Popen.__init__ = refuse
large = [0] * 200, [0] * 200, [[0]] * 200
assert pgboard.solve(*large)[0] == [0] * 200
try:
    pgboard.solve(*ENDLESS, timeout=0.02)
except pgboard.TimedOut:
    print(threading.active_count(), len(os.listdir('/proc/self/task')))
try:
    os.wait()
except ChildProcessError:
    print('none')
"""


def outcome_of(call):
    try:
        return call()
    except pgboard.Fault as fault:
        return type(fault), fault.at, fault.to


class Calls(Tests):
    def run_of(self, program):
        run = python(ENDLESS + program)
        out, err = run.communicate(timeout=120)
        self.assertEqual((err, run.returncode), ("", 0), out)
        return out

    def test_an_interrupt_ends_a_long_call(self):
        # (other work on the machine may take a second once, and not four times)
        self.assertEqual(self.run_of(INTERRUPTED), ("True True\n" * 4 + "True\n") * 3)

    def test_no_child_is_made_and_no_signal_is_sent(self):
        self.assertEqual(self.run_of(ALONE), "1 1\nnone\n")

    def test_limits_that_suffice_have_no_effect(self):
        cancel = pgboard.Cancel()
        for game, timeout in zip(itertools.cycle((LARGE, TWO)), (1e300, 10**400, float("inf"), None)):
            self.assertEqual(pgboard.solve(*game, timeout=timeout, cancel=cancel), pgboard.solve(*game))
        # a cancel ends each later call
        cancel.cancel()
        for game in (LARGE, TWO, LARGE, TWO):
            self.raises(pgboard.TimedOut(), pgboard.solve, *game, timeout=0)
            self.raises(pgboard.Cancelled(), pgboard.solve, *game, cancel=cancel)

    def calls(self, file):
        size, claims = 200, ([0] * 200, [0] * 200)
        csr = bytes(size), [0] * size, list(range(size + 1)), [0] * size
        text = "".join(f"{v} 0 0 0;" for v in range(size))
        file.write(text)
        file.flush()
        of_text = "paritysol 199;\n" + "".join(f"{v} 0 0;\n" for v in range(size))
        yield [0] * size, lambda **how: pgboard.solve(*LARGE, **how)[0]
        yield [0] * size, lambda **how: pgboard.solve(*LARGE, steps=9, **how)[0]
        yield [0] * size, lambda **how: pgboard.solve(*LARGE, known=claims, **how)[0]
        yield [0] * size, lambda **how: list(pgboard.solve_csr(*csr, **how).winners)
        yield of_text, lambda **how: pgboard.solve_text(text, **how)
        yield of_text, lambda **how: pgboard.solve_file(file.name, **how)
        yield None, lambda **how: pgboard.Board(*LARGE).finish(**how)
        if networkx:
            graph = networkx.DiGraph((v, 0) for v in range(size))
            for v in graph:
                graph.nodes[v].update(owner=0, priority=0)
            won = lambda **how: [it for _, it in pgboard.solve_graph(graph, **how).nodes(data="winner")]
            yield [0] * size, won

    def test_each_call_has_its_limits(self):
        cancelled = pgboard.Cancel()
        cancelled.cancel()
        with tempfile.NamedTemporaryFile("w") as file:
            for wanted, call in self.calls(file):
                self.assertEqual(call(timeout=600, cancel=pgboard.Cancel()), wanted)
                self.raises(pgboard.TimedOut(), call, timeout=0)
                self.raises(pgboard.Cancelled(), call, cancel=cancelled)

    def test_refuses_limits(self):
        for wrong in (-0.5, float("nan")):
            self.raises(ValueError(f"timeout {wrong} is not 0 or more"), pgboard.solve, *TWO, timeout=wrong)
        for wrong in ("1", True):
            said = f"timeout is a number of seconds, not {type(wrong).__name__}"
            self.raises(TypeError(said), pgboard.solve, *TWO, timeout=wrong)
        said = "cancel is a pgboard.Cancel, not Event"
        self.raises(TypeError(said), pgboard.solve, *TWO, cancel=threading.Event())


class Boards(Tests):
    def test_what_holds_never_leads_to_the_call_that_cannot_be_ended(self):
        # (no choice of a loser, as of vertex 2, is read)
        game, wanted = ([0, 1, 1], [2, 1, 1], [[0, 1], [1], [0]]), ([0, 1, 0], [0, 1, None])
        without = mock.patch.object(pgboard.solving, "run", side_effect=AssertionError)
        with without, mock.patch.object(pgboard.solving, "SMALL", -1):
            for part in ([0, 1, 0], [None, 1, None], [None] * 3):
                self.assertEqual(pgboard.solve(*game, known=(part, [0, 1, 7])), wanted)

    def test_boards_are_closed(self):
        closed, close, wrong = [], pgboard.library.Handle.close, ([0, 0], [0, 0])

        def closing(handle):
            closed.append(handle.count("entries") > 0)
            close(handle)

        with mock.patch.object(pgboard.library.Handle, "close", closing):
            pgboard.solve(*LARGE)
            pgboard.solve_text(GAME)
            self.raises(pgboard.TimedOut(), pgboard.solve, *LARGE, timeout=0)
            with mock.patch.object(pgboard.solving, "SMALL", -1):
                self.raises(pgboard.KnownCycle(1), pgboard.solve, *TWO, known=wrong)
            self.raises(pgboard.TimedOut(), pgboard.solve_text, GAME, timeout=0)
        self.assertEqual(closed, [True, True, False, False, False])


class Slices(Tests):
    def counting(self, needed, searches=3):
        def take(steps):
            take.given.append(steps)
            if len(take.given) <= searches:
                return slices.Slice(False, 0, 0)
            used = min(steps, needed - take.used)
            take.used += used
            return slices.Slice(take.used == needed, used, 0)

        take.used, take.given = 0, []
        return take

    def test_a_bound_is_exact(self):
        for needed in range(1, 70):
            for steps in [None, *range(70)]:
                take, is_enough = self.counting(needed), steps is None or steps >= needed
                found = outcome_of(lambda: slices.advance(take, 5, slices.Limits(), steps))
                self.assertEqual(found, None if is_enough else (pgboard.GaveUp, 0, 0), (needed, steps))
                self.assertLessEqual(take.used, needed if steps is None else steps + 1)
        self.assertGreater(max(take.given), 1)

    def by_clock(self, cost, timeout=None, cancel=None, needed=10**9, slowest=None, vertices=5, wait=0):
        """The seconds of each slice of a call, where a step takes so many, after a wait for its turn.

        And what ended the call.
        """
        now, took, take = [100.0], [], self.counting(needed, searches=0)

        def slow(steps):
            found = take(steps)
            took.append(found.steps * (cost if slowest is None or now[0] < 101 else slowest))
            now[0] += wait + took[-1]
            return found._replace(seconds=took[-1])

        with mock.patch.object(slices.time, "monotonic", lambda: now[0]):
            limits = slices.limits_of(timeout, cancel)
            return took, outcome_of(lambda: slices.advance(slow, vertices, limits, None))

    def test_slices_take_some_milliseconds(self):
        for cost, wait in (*((it, 0) for it in (1e-6, 1e-5, 1e-3, 0.004)), (1e-6, 0.05)):
            # (a wait is no part of a slice)
            took, ended = self.by_clock(cost, timeout=20 if wait else 2, wait=wait)
            self.assertEqual(ended, (pgboard.TimedOut, 0, 0))
            self.assertTrue(0.01 <= min(took[20:]) and max(took) <= 0.03, cost)
        self.assertEqual(set(self.by_clock(0.5, timeout=5)[0]), {0.5})
        # (the steps get slow in the middle: a slice or two are long, and then none)
        took, _ = self.by_clock(1e-6, timeout=60, slowest=1e-3)
        late = took[[it > 0.03 for it in took].index(True) :]
        self.assertTrue(sum(it > 0.03 for it in late) <= 2 and len(late) > 100)
        # (of a large game the first long slice has few steps)
        took, _ = self.by_clock(1e-6, timeout=30, slowest=0.01, vertices=10**6)
        self.assertEqual((max(took), [round(it * 1e6) for it in took[:7]]), (0.2, [1, 2, 4, 8, 16, 20, 20]))

    def test_the_time_that_it_takes_to_open_a_board_counts(self):
        now, begin = [100.0], pgboard.library.Handle.open

        def opened(handle, game):
            begin(handle, game)
            now[0] += 2

        with mock.patch.object(slices.time, "monotonic", lambda: now[0]), mock.patch.object(
            pgboard.library.Handle, "open", opened
        ):
            self.assertEqual(pgboard.solve(*LARGE, timeout=3)[0], [0] * 200)
            with self.assertRaises(pgboard.TimedOut):
                pgboard.solve(*LARGE, timeout=1)

    def test_limits_are_looked_at_before_each_slice(self):
        cancel = pgboard.Cancel()
        timed_out, cancelled = (pgboard.TimedOut, 0, 0), (pgboard.Cancelled, 0, 0)
        for how, count, ended in (
            ({"timeout": 1}, 4, timed_out),
            ({"timeout": 1, "needed": 4}, 4, None),
            ({"timeout": 0}, 0, timed_out),
            ({"cancel": cancel, "needed": 3}, 3, None),
        ):
            self.assertEqual(self.by_clock(0.25, **how), ([0.25] * count, ended))

        def take(steps):
            cancel.cancel()
            return slices.Slice(False, steps, 0)

        limits = slices.Limits(None, cancel)
        self.assertEqual(outcome_of(lambda: slices.advance(take, 5, limits, 5)), cancelled)
        self.assertEqual(self.by_clock(0.25, cancel=cancel), ([], cancelled))


if __name__ == "__main__":
    unittest.main()
