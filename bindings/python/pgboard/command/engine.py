"""Solves and verifies games: over the library where it is found, else over the program."""

# mypy: ignore-errors

import contextlib
import functools
import os
import re
import shlex
import shutil
import sys
import time
from typing import NamedTuple, Optional

from . import FILE, LATE, TEXT, Refused, child, in_memory, shown, working
from .games import Solution, solution_of

TOP = os.path.abspath(os.path.join(os.path.dirname(__file__), "..", "..", "..", ".."))
NO_PROGRAM = (
    "there is no pgboard: ./pgboard --unproved builds one in two minutes, "
    "./pgboard --install proves one, or set PGBOARD"
)
VERDICT = re.compile(r"not a solution: ((?:no choice|bad choice|bad cycle) at \d+|\d+ leaves to \d+)\n")
# what the program says of a fault, by its name in the library
SAID = {
    "NoChoice": "no choice at {}",
    "BadChoice": "bad choice at {}",
    "BadShape": "bad choice or none at {}",
    **dict.fromkeys(("BadCycle", "ClaimCycle"), "bad cycle at {}"),
    **dict.fromkeys(("Leaves", "Open"), "{} leaves to {}"),
    "Lost": "{} is lost",
    "Stale": "all of it is settled already",
}


class Solved(NamedTuple):
    """A solution, or the part of one that was found in time; seconds; and the entries of the journal, where
    they are known.
    """

    solution: Solution
    is_whole: bool
    seconds: float
    entries: Optional[int] = None


@functools.lru_cache(maxsize=None)
def engine():
    """What solves and verifies. Only this knows which: a program that PGBOARD names, else the library, else
    a program that is found. A proved program of the clone comes before its library without proofs.
    """
    if os.environ.get("PGBOARD") and not os.environ.get("PGBOARD_LIBRARY"):
        return Program("PGBOARD names a program, and PGBOARD_LIBRARY no library")
    try:
        from .. import calls, library

        # (which loads it)
        if library.build() != "proved" and not os.environ.get("PGBOARD_LIBRARY") and has_proved():
            return Program("the program of this clone is proved, and its library is not")
        return Library(calls)
    except ImportError as error:
        why = str(error).replace("pgboard: ", "", 1)
        if os.environ.get("PGBOARD_LIBRARY"):
            raise Refused(why, FILE) from None
        return Program(why)


@functools.lru_cache(maxsize=None)
def warn():
    """Says of the library what ./pgboard says of its program, once."""
    from .. import library

    path, is_unproved = library.path_of_library(), library.build().startswith("unproved")
    # (a source may go meanwhile)
    with contextlib.suppress(OSError):
        if path in library.BUILT and is_stale(path):
            flag = "--unproved " * is_unproved
            said = f"the sources have changed since this build; ./pgboard {flag}--library builds them"
            print(f"pgboard: warning: {said}", file=sys.stderr)
    if is_unproved:
        said = "no proof was made of this build; its run-time checks are on"
        print(f"pgboard: unproved: {said}", file=sys.stderr)


def is_stale(path):
    """Whether a source of the library is newer: of the crates in the first part of the list, but the program's."""
    with open(os.path.join(TOP, "crates.txt"), encoding="utf-8") as file:
        crates = re.findall(r"(?m)^(\w+)(?: staticlib)?:", file.read().partition("\n\n")[0])
    of_library = [it for it in crates if it not in ("pgboard", "pgboard_program")]
    folders = [os.path.join(TOP, "crates", it, "src") for it in of_library]
    sources = (os.path.join(at, it) for top in folders for at, _, files in os.walk(top) for it in ("", *files))
    return max((os.stat(it).st_mtime for it in sources), default=0) > os.stat(path).st_mtime


def solved(game, known=None, timeout=None, partial=False, until=None):
    """Solves a game, from what is known of it, and verifies the solution. Late without one where so many
    seconds were not enough. The library ends once it has settled the vertex `until`.
    """
    begun = time.monotonic()
    with working("solves"):
        solution, is_whole, entries = engine().solve(game, known, timeout, partial, until)
        found = Solved(solution, is_whole, time.monotonic() - begun, entries)
        if is_whole:
            verify(game, solution)
    return found


def verify(game, solution):
    check(verdict(game, solution))


def check(said):
    if said != "ok":
        raise Refused(f"what pgboard solved was refused: {said}", FILE)


def verdict(game, solution):
    """What `pgboard verify` says of a solution, without what is the same in each of its faults."""
    return engine().verify(game, solution)


class Table:
    """A game in arrays, by its identifiers, for the calls of the library."""

    # (all that it needs is loaded with it)
    def __init__(self, game):
        from .. import calls

        warn()
        self.calls, self.game, (self.ids, *self.arrays) = calls, game, game.arrays()
        self.number = {id: v for v, id in enumerate(self.ids)}

    def board(self):
        return self.calls.Board.from_csr(*self.arrays)

    def claim(self, player, rows):
        """A player's part of a solution, as a board takes it: choices that he does not own are left out."""
        is_chosen = lambda v, choice: choice is not None and self.arrays[0][v] == player
        part = {self.number[id]: choice for id, (winner, choice) in rows.items() if winner == player}
        none = len(self.ids)
        return {v: self.number.get(it, none) if is_chosen(v, it) else None for v, it in part.items()}

    def rows(self, state):
        choice = lambda it: None if it == self.calls.NO_CHOICE else self.ids[it]
        each = zip(self.ids, *state)
        return {id: (winner, choice(it)) for id, winner, it in each if winner != self.calls.NO_WINNER}

    def said(self, fault, claim=()):
        """What the program says of a fault; that of a claim may name one of its rows."""
        at = sorted(claim)[fault.at] if isinstance(fault, self.calls.BadShape) else fault.at
        return SAID[type(fault).__name__].format(self.ids[at], self.ids[fault.to])


class Library:
    """Solves on a board, by slices."""

    def __init__(self, calls):
        warn()
        # a game that was made to arrays, which is verified after it is solved
        self.calls, self.last = calls, None

    def table(self, game):
        if not self.last or self.last.game is not game:
            self.last = Table(game)
        return self.last

    def solve(self, game, known, timeout, partial, until):
        table = self.table(game)
        with table.board() as board:
            for player in (0, 1) if known else ():
                claim = table.claim(player, known.rows)
                try:
                    claim and board.post(player, claim)
                except self.calls.RefusedClaim as fault:
                    refuse_known(known, table.said(fault, claim))
            self.finish(board, timeout, table.number.get(until))
            rows, entries = table.rows(board.state()), len(board.entries)
        is_whole = len(rows) == len(table.ids)
        if not is_whole and not partial and until not in rows:
            raise late(timeout, len(rows), len(table.ids))
        return Solution(rows), is_whole, entries

    def finish(self, board, timeout, until=None):
        """Settles what is left of a board, or less where the time is over or the vertex `until` is settled."""
        with working("solves") as work, contextlib.suppress(self.calls.TimedOut):
            board._advance = watched(board, work, until)
            board.finish(timeout=timeout)

    def solve_bytes(self, data, timeout):
        with self.of_texts(self.calls.Board.from_text, data) as board:
            self.finish(board, timeout)
            if board.settled < board.vertices:
                raise late(timeout, board.settled, board.vertices)
            return board.solution_text()

    def verify(self, game, solution):
        table = self.table(game)
        rows = [solution.rows.get(id, (self.calls.NO_WINNER, None)) for id in table.ids]
        choices = [self.calls.NO_CHOICE if it is None else table.number[it] for _, it in rows]
        try:
            self.calls.verify_csr(*table.arrays, [winner for winner, _ in rows], choices)
        except self.calls.NotASolution as fault:
            return table.said(fault)
        return "ok"

    def verify_bytes(self, *texts):
        try:
            self.of_texts(self.calls.verify_text, *texts)
        except self.calls.NotASolution as fault:
            return SAID[type(fault).__name__].format(fault.at, fault.to)
        return "ok"

    def tidy_bytes(self, data):
        return self.of_texts(self.calls.tidy_text, data)

    def of_texts(self, call, *texts):
        try:
            return call(*map(bytes, texts))
        except self.calls.Refused as fault:
            raise Refused(str(fault)) from None


def late(timeout, settled, vertices):
    return Refused(f"after {timeout:g} s {settled} of {vertices} vertices are settled", LATE)


def watched(board, work, until):
    """Takes a slice of a board, and says how far it is; the last one where it settles the vertex `until`."""
    take, vertices = board._advance, board.vertices

    def slice_of(steps):
        done = take(steps)
        work[0] = f"{board.settled:,} of {vertices:,} vertices settled"
        is_last = done.is_last or until is not None and board.winner(until) is not None
        return done._replace(is_last=is_last)

    return slice_of


def refuse_known(known, said):
    known.refuse(int(re.search(r"\d+", said)[0]), f"known: {said}", 1)


class Program:
    """Solves by the program, which says nothing before its end: on a terminal a line says that it runs."""

    # (several may find other choices in another run)
    workers = 1

    def __init__(self, why):
        self.words, self.why, self.warned = program(), why, set()
        # (./pgboard runs the program alone: what it refuses is said here)
        os.environ["PGBOARD_STRICT"] = "1"

    def run(self, *words, timeout=None):
        """The status where it is 0 or 1, what is written, and what is said. A word in bytes is a file."""
        with contextlib.ExitStack() as files:
            files.enter_context(working(f"{words[0]} runs"))
            held = []
            for at, word in enumerate(words):
                if not isinstance(word, str):
                    held.append(files.enter_context(in_memory(word)).fileno())
                    words = [*words[:at], f"/dev/fd/{held[-1]}", *words[at + 1 :]]
            status, out, said = child([*self.words, *words], timeout=timeout, pass_fds=held)
        left = self.without_warnings(said)
        if left == "pgboard: read fault\n":
            given = " and ".join(it for it in words if it.startswith("/dev/fd/"))
            left = f"{self.words[0]} can't read {given}, by which it gets what this command has read"
        if status > 1:
            self.refuse(status, left, status)
        return status, out.decode(errors="replace"), left

    def without_warnings(self, said):
        """What is left of what the program says. Each warning is written to standard error once."""
        left = ""
        for line in said.splitlines(keepends=True):
            if not line.startswith(("pgboard: unproved: ", "pgboard: warning: ")):
                left += line
            elif line not in self.warned:
                self.warned.add(line)
                sys.stderr.write(line)
        return left

    def refuse(self, status, said, ends):
        first, _, rest = said.strip().partition("\n")
        why = re.sub("^pgboard: ", "", first) or f"{self.words[0]}: status {status}"
        raise Refused(why, ends, said=rest.encode())

    def solution(self, timeout, *words, known=None):
        status, text, said = self.run("solve", "--workers", str(self.workers), *words, timeout=timeout)
        fault = known and re.fullmatch(r"pgboard: known: (.*\d.*)\n", said)
        if status and fault:
            refuse_known(known, fault[1])
        if status:
            self.refuse(status, said, FILE)
        sys.stderr.write(said)
        return text

    def solve(self, game, known, timeout, partial, _):
        if partial:
            raise Refused(f"--partial needs the library. {self.why}", FILE)
        words = ["--known", data_of(known)] if known else []
        text = self.solution(timeout, *words, data_of(plain(game)), known=known)
        return solution_of("the solution", text), True, None

    def solve_bytes(self, data, timeout):
        return self.solution(timeout, data)

    def verify(self, game, solution):
        return self.verify_bytes(data_of(plain(game)), data_of(solution))

    def verify_bytes(self, *texts):
        status, out, left = self.run("verify", *texts)
        fault = VERDICT.fullmatch(out)
        if (status, out) != (0, "ok\n") and not (status and fault):
            said = shown(out.strip()) or "nothing"
            why = f"this is no verdict of pgboard's: {said}, with status {status}"
            raise Refused(why, FILE, said=left.encode())
        sys.stderr.write(left)
        return fault[1] if fault else "ok"

    def tidy_bytes(self, data):
        return self.run("tidy", data)[1]


def as_it_is(name, *given):
    """What pgboard gives for the bytes of files, or None where it refuses what this command may read."""
    try:
        return getattr(engine(), name)(*given)
    except Refused as refused:
        if refused.status != TEXT:
            raise
    return None


def data_of(it):
    return it.written().encode("utf-8", "surrogateescape")


def plain(game):
    return type(game)({id: (*row[:3], "") for id, row in game.rows.items()})


def has_proved():
    """Whether the clone has a proved program."""
    places = "out/proved/pgboard", "crates/pgboard_program/out/pgboard_program"
    return any(os.path.isfile(os.path.join(TOP, it)) for it in places)


def program():
    """The words that run pgboard: PGBOARD's, else this clone's build, a proved one before another, else the
    PATH's.
    """
    named, launcher = os.environ.get("PGBOARD"), os.path.join(TOP, "pgboard")
    if named:
        return [os.path.abspath(named)] if os.path.isfile(named) else words_of(named)
    if has_proved():
        return [launcher]
    if os.path.isfile(os.path.join(TOP, "out/unproved/pgboard")):
        return [launcher, "--unproved"]
    if shutil.which("pgboard"):
        return ["pgboard"]
    raise Refused(NO_PROGRAM, FILE)


def words_of(named):
    try:
        words = shlex.split(named)
    except ValueError as error:
        raise Refused(f"PGBOARD: {error}: {shown(named)}", FILE) from None
    if not words:
        raise Refused("PGBOARD has no word", FILE)
    return words
