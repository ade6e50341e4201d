#!/usr/bin/env python3
"""Solves a game by other solvers, none of which has to be trusted.

Each --solver is a command that prints a solution, or a part of one, in
PGSolver's format. All run at once. What each says that a player wins goes to
a board as one claim. The board checks it: it settles what holds, and refuses
the rest. The board itself settles what no solver has found. Then the
solution is printed, which is right whatever the solvers said.

In a command {game} is the path of the game, in the form of `pgboard tidy`;
without it the game is the command's standard input. {solution} is the path of
a file that the command writes; without it the command's standard output is
read. There is no shell, so use sh -c '..' where you need one.

Standard error says of each solver how it ended, what was settled of each
player's part, and what was refused, with the vertex.
"""

import os
import sys

sys.path.insert(1, os.path.dirname(os.path.dirname(os.path.abspath(__file__))))
import lib  # noqa: F401 isort: skip

import contextlib
import re
import select
import shlex
import shutil
import signal
import subprocess
import tempfile
import threading
import time

from pgboard.command import FILE, WORDS, Parser, Refused, engine, on_signals, printable, run
from pgboard.command import seconds, undone, write
from pgboard.command.games import PLAYERS, Solution, game_of, solution_of

HELP = """
examples:
  examples/board/referee.py --solver 'oink {game} {solution}' game.pg
  examples/board/referee.py --time 5 --solver 'a-solver {game}' --solver another game.pg

status: 0 where all is written, 2 where something was refused
"""
# a solver may print so many bytes; a text that pgboard takes is not longer
MOST = 268_435_456


class Table(engine.Table):
    """A game on a board, and the identifiers of its vertices."""

    def __init__(self, game):
        super().__init__(game)
        self.text = self.calls.tidy_text(engine.plain(game).written())
        self.shared = self.board()

    def is_full(self):
        return self.shared.settled == len(self.ids)

    def parts_of(self, text):
        """What a solver says that each player wins: a choice or None of each vertex.

        Where it can't be read, what comes after the last semicolon is left out, since a solver may be ended as
        it prints.
        """
        try:
            rows = solution_of("output", text).rows
        except Refused as refused:
            try:
                rows = solution_of("output", text[: text.rfind(";") + 1] or text).rows
            except Refused:
                raise refused from None
        for id in rows:
            if id not in self.number:
                raise Refused(f"vertex {id}: not in the game")
        return self.claim(0, rows), self.claim(1, rows)


class Guard:
    """A folder, and a process that removes it, and ends the solvers that run, where the referee is killed."""

    # (each line has all of their groups)
    ENDS = 'while read -r it; do all=$it; done; for it in $all; do kill -s KILL -- "-$it"; done; rm -rf -- "$0"'

    def __init__(self):
        self.path, self.groups, self.lock = tempfile.mkdtemp(prefix="pgboard-"), set(), threading.Lock()
        how = {"stdin": subprocess.PIPE, "stdout": subprocess.DEVNULL, "stderr": subprocess.DEVNULL}
        words = ["sh", "-c", self.ENDS, self.path]
        self.process = subprocess.Popen(words, text=True, start_new_session=True, **how)

    def turn(self, group):
        """A solver has begun, or has ended."""
        with self.lock, contextlib.suppress(OSError):
            self.groups ^= {group}
            print(*self.groups, file=self.process.stdin, flush=True)

    def end(self):
        self.process.kill()
        self.process.wait()
        shutil.rmtree(self.path, ignore_errors=True)


def end_all(solvers):
    for it in solvers:
        it.end("ended")


class Solver:
    """A command, and what it has done."""

    def __init__(self, worker, command):
        self.worker, self.command, self.words = worker, command, shlex.split(command)
        self.process, self.is_over, self.why, self.starting = None, False, "", threading.Lock()

    def name(self):
        return f"solver {self.worker} ({self.command})"

    def run(self, limit, guard):
        """Runs the command until it ends or the limit in seconds is over, unless it was ended before.
        Returns what it has printed.
        """
        names = {"{game}": "game.pg", "{solution}": f"{self.worker}.sol"}
        paths = {word: os.path.join(guard.path, name) for word, name in names.items()}
        words = [re.sub(r"\{game\}|\{solution\}", lambda it: paths[it[0]], word) for word in self.words]
        writes_file = any("{solution}" in word for word in self.words)
        with contextlib.ExitStack() as open_files:
            given = (
                subprocess.DEVNULL
                if any("{game}" in word for word in self.words)
                else open_files.enter_context(open(paths["{game}"], "rb"))
            )
            out = subprocess.DEVNULL if writes_file else subprocess.PIPE
            with self.starting:
                if self.why:
                    return ""
                self.process = subprocess.Popen(words, stdin=given, stdout=out, start_new_session=True)
                guard.turn(self.process.pid)
        timer = threading.Timer(limit, self.end, [f"ended after {limit:g} s"])
        timer.start()
        printed = b"" if writes_file else self.printed()
        if len(printed) > MOST:
            self.end("ended, since it printed too much")
        self.process.wait()
        timer.cancel()
        self.end()
        self.is_over = True
        guard.turn(self.process.pid)
        if writes_file and os.path.isfile(paths["{solution}"]):
            with open(paths["{solution}"], "rb") as file:
                printed = file.read(MOST + 1)
        return printed[:MOST].decode("utf-8", "replace")

    def printed(self):
        """What the command prints until it ends or is ended; what it has started in a session of its own may
        keep the pipe open.
        """
        found = bytearray()
        with self.process.stdout as pipe:
            os.set_blocking(pipe.fileno(), False)
            while len(found) <= MOST:
                was_ended = self.why
                select.select([pipe], [], [], 0.1)
                piece = pipe.read(1 << 20)
                found += piece or b""
                if piece == b"" or was_ended:
                    break
        return bytes(found)

    def end(self, why=""):
        if self.is_over:
            return
        with self.starting:
            self.why = self.why or why
            if self.process:
                with contextlib.suppress(ProcessLookupError):
                    os.killpg(self.process.pid, signal.SIGKILL)

    def how_it_ended(self):
        if self.why:
            return self.why
        status = self.process.returncode
        return f"status {status}" if status >= 0 else f"signal {-status}"


class Referee:
    """Runs solvers, and posts what they print."""

    def __init__(self, game, solvers, limit):
        self.game, self.solvers, self.limit = game, solvers, limit
        self.begun, self.lock = time.monotonic(), threading.Lock()

    def run(self):
        with undone(Guard, Guard.end) as guard, undone(lambda: self.solvers, end_all):
            write(os.path.join(guard.path, "game.pg"), self.game.text)
            threads = [
                threading.Thread(target=self.serve, args=(it, guard), daemon=True) for it in self.solvers
            ]
            for it in threads:
                it.start()
            for it in threads:
                it.join()
        # (no signal reaches Python during a call of the board)
        on_signals()
        board = self.game.shared
        left = len(self.game.ids) - board.settled
        board.finish()
        self.say(f"the board itself settled {left} of {len(self.game.ids)}")

    def serve(self, solver, guard):
        """Runs a solver and posts what it prints; where the board is full then, the other solvers end."""
        try:
            text = solver.run(self.limit, guard)
        except OSError as error:
            self.say(f"{solver.name()}: {error.filename or solver.command}: {error.strerror}")
            return
        parts = self.read(text)
        with self.lock:
            after = f"{solver.name()}: {solver.how_it_ended()}, {time.monotonic() - self.begun:.1f} s"
            self.say(f"{after}: {self.post_all(solver.worker, parts)}")
            if self.game.is_full():
                for it in self.solvers:
                    it.end("ended, since the board is full")

    def read(self, text):
        try:
            return self.game.parts_of(text)
        except Refused as refused:
            return str(refused)
        except Exception as error:
            return f"it can't be read: {error!r}"

    def post_all(self, worker, parts):
        """Posts each player's part, and says what became of it."""
        if isinstance(parts, str):
            return parts
        said = [
            f"{PLAYERS[player]} {self.post(worker, player, part)}"
            for player, part in enumerate(parts)
            if part
        ]
        return "; ".join(said) or "nothing is claimed"

    def post(self, worker, player, part):
        try:
            posted = self.game.shared.post(player, part, worker)
        except self.game.calls.RefusedClaim as refused:
            return f"refused: {self.game.said(refused, part)}"
        return f"settled {posted.settled}, of which {posted.claimed} of {len(part)} claimed"

    def say(self, line):
        print(f"referee: {printable(line)}", file=sys.stderr, flush=True)


def main(words):
    parser = Parser(__doc__, HELP)
    parser.add_argument("game", metavar="GAME", help="a game; - is standard input")
    said = "the command of a solver; there may be several"
    parser.add_argument("--solver", metavar="COMMAND", action="append", default=[], help=said)
    said = "the time that each solver has (60)"
    parser.add_argument("--time", metavar="SECONDS", type=seconds, default=60, help=said)
    parser.set_defaults(min=False, odd=False, dead_ends=None)
    given = parser.parse_args(words)
    solvers = []
    for worker, command in enumerate(given.solver, 1):
        try:
            solvers.append(Solver(worker, command))
        except ValueError as error:
            raise Refused(f"--solver {command}: {error}", WORDS) from None
        if not solvers[-1].words:
            raise Refused("--solver: there is no command", WORDS)
    try:
        table = Table(game_of(given.game, given))
    except ImportError as error:
        raise Refused(str(error), FILE) from None
    Referee(table, solvers, given.time).run()
    sys.stdout.write(Solution(table.rows(table.shared.solution())).written())
    sys.stdout.flush()
    return 0


if __name__ == "__main__":
    run("referee", main)
