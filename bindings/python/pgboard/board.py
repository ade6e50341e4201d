"""A board of include/pgboard.h. Solvers post what they find to it; it settles what holds, and refuses the rest.

Each board has a lock, since the library takes one call at a time on it, and ctypes releases the interpreter's lock during a call. The
library gets arrays of our own alone: no other thread can change one during the call.
"""

from __future__ import annotations

import contextlib
import threading
import time
import weakref
from array import array
from collections.abc import Mapping as MappingOf
from collections.abc import Sequence as SequenceOf
from itertools import compress
from typing import TYPE_CHECKING, Any, Callable, Iterable, Iterator, Mapping, NamedTuple, TypeVar, overload

from . import faults, native, slices
from .arrays import Buffer, Numbers, Rows, Solution, Text, game_of, game_views, moves_of, numbers, text_bytes, view_of
from .library import NO_CHOICE, NO_WINNER, Handle, Ints, bound, index_of, number_of, own, owned
from .places import placed
from .slices import Cancel, Slice, limits_of
from .solving import blank

# in bytes of winners: 1 where a vertex is unsettled, and else 0
HAS_NONE = bytes(it == NO_WINNER for it in range(256))
# how often, and for how many seconds, `finish` lets those go first that wait for the board
TIMES, PAUSE = 100, 0.0001

if TYPE_CHECKING:
    EntrySequence = SequenceOf["Entry"]
else:
    # (it has no parameters before Python 3.9)
    EntrySequence = SequenceOf


class Posted(NamedTuple):
    """What a board has done with a claim: the number of its entry, how many vertices of the claim were unsettled, and how many vertices
    were settled, which are these and all that they attract."""

    entry: int
    claimed: int
    settled: int


class Entry(NamedTuple):
    """An entry of the journal: who posted it for which player, and its rows, a vertex and a choice or NO_CHOICE each. The first `claimed`
    rows were unsettled vertices of the claim, and the others were attracted."""

    worker: int
    player: int
    claimed: int
    vertices: Ints
    choices: Ints


class Vertex(NamedTuple):
    """A vertex of a board's game: its identifier in the game's text, or its number in arrays; and its successors, each once, which rise."""

    id: int
    priority: int
    owner: int
    successors: Ints


AnyBoard = TypeVar("AnyBoard", bound="Board")


class Board:
    """A game, and what is settled of it.

        >>> with Board(owners=[0, 1], priorities=[2, 1], successors=[[0, 1], [1]]) as board:
        ...     board.post(0, {0: 0}, worker=7)
        ...     board.finish()
        ...     board.solution().winners
        Posted(entry=0, claimed=1, settled=1)
        array('B', [0, 1])

    Several threads may use a board, and their calls take turns. `finish` takes one for each slice of its work. `close`, the end of a
    `with` block or of the board frees its memory. After that each call raises Closed. Each call may raise OutOfMemory, and then has done
    nothing, but for `finish`."""

    def __init__(self, owners: Numbers, priorities: Numbers, successors: Iterable[Numbers], *, dead_ends: bool = False, least: bool = False) -> None:
        """Takes a game as `solve` does. Nothing of it is settled. Raises Refused."""
        self._open_arrays(*game_of(owners, priorities, successors), dead_ends, least)

    @classmethod
    def from_csr(
        cls: type[AnyBoard],
        owners: Buffer,
        priorities: Buffer,
        indptr: Buffer | Rows,
        indices: Buffer | None = None,
        *,
        dead_ends: bool = False,
        least: bool = False,
    ) -> AnyBoard:
        """A board of a game in compressed sparse rows, which are copied, as `solve_csr` takes them."""
        board = cls.__new__(cls)
        board._open_arrays(owners, priorities, indptr, indices, dead_ends, least)
        return board

    @classmethod
    def from_text(cls: type[AnyBoard], game: Text) -> AnyBoard:
        """A board of a game's text in PGSolver's format. Its vertices have the numbers from 0 on, in the order of their identifiers."""
        board, given = cls.__new__(cls), text_bytes(game)
        with placed(given):
            board._open(lambda handle: handle.open_text(given))
        return board

    def _open_arrays(self, *given: Any) -> None:
        game = owned(game_views(*given))
        self._open(lambda handle: handle.open(game))

    def _open(self, opened: Callable[[Handle], None]) -> None:
        # (a handler of a signal may call the board that its thread calls)
        self._lock, self._handle = threading.RLock(), Handle()
        # the threads that have it or wait for it
        self._users: set[int] = set()
        self._seen, self._state = 0, blank(0)
        # (before it opens, since an exception of a signal's handler may come once it is open)
        self._close = weakref.finalize(self, self._handle.close)
        self._close.atexit = False
        opened(self._handle)
        size = self._handle.count("vertices")
        self._state = Solution(array("B", [NO_WINNER]) * size, array("I", [NO_CHOICE]) * size)

    @contextlib.contextmanager
    def _turn(self) -> Iterator[None]:
        """Has the board to itself meanwhile."""
        me = threading.get_ident()
        try:
            # (an interrupt may come after each of these lines)
            self._users.add(me)
            with self._lock:
                yield
        finally:
            self._users.discard(me)

    def __repr__(self) -> str:
        with self._turn():
            is_open = hasattr(self, "_close") and self._close.alive
            counts = [self._handle.count(it) for it in ("settled", "entries")]
        said = "settled vertices: {}, entries: {}".format(*counts) if is_open else "closed"
        return f"<pgboard.{type(self).__name__}: vertices: {len(self._state.winners)}, {said}>"

    def _count(self, what: str) -> int:
        """A number of the board. (A closed one has 0 of everything.)"""
        with self._turn():
            if not self._close.alive:
                raise faults.Closed()
            return self._handle.count(what)

    def post(self, player: int, choices: Mapping[int, int | None], worker: int = 0) -> Posted:
        """Claims that the player wins these vertices, by these choices at those that he owns, and None at the others.

        Kept edges may also lead to what is settled for him. `worker` is any number from 0 to 4294967295 that the entry is to have. Raises
        a RefusedClaim: the first that applies of BadPlayer, BadShape, ClaimCycle (a BadCycle), Lost, Stale and Open. `at` of BadShape is
        the row, where the vertices rise; and else `at` and `to` are vertices."""
        if not isinstance(choices, MappingOf):
            raise TypeError(f"choices are a mapping from vertices, not {type(choices).__name__}")
        rows = sorted(choices.items(), key=lambda row: row[0])
        return self._post(player, numbers("vertices", "I", [v for v, _ in rows]), moves_of(it for _, it in rows), worker)

    def post_arrays(self, player: int, vertices: Buffer, choices: Buffer, worker: int = 0) -> Posted:
        """The same with two buffers of one length, as of `solve_csr`: vertices that rise, and choices, which are NO_CHOICE at the
        opponent's vertices. Else BadClaimLengths is raised, after BadPlayer."""
        return self._post(player, own(view_of("vertices", vertices, "I")), own(view_of("choices", choices, "I")), worker)

    def _post(self, player: int, vertices: Ints, choices: Ints, worker: int) -> Posted:
        worker, player = (number_of(name, it, 2**32 - 1) for name, it in (("worker", worker), ("player", player)))
        with self._turn():
            return Posted(*self._handle.post(worker, player, (vertices, choices)))

    def _read(self) -> Solution:
        """The state, which is read again where an entry has been added."""
        with self._turn():
            entries = self._count("entries")
            if entries != self._seen:
                self._handle.write("state", self._state)
                self._seen = entries
            return self._state

    def state(self) -> Solution:
        """A copy of what is settled, with NO_WINNER and NO_CHOICE at each unsettled vertex: `known` of `solve_csr` takes it."""
        with self._turn():
            return Solution(*(it[:] for it in self._read()))

    def winner(self, v: int) -> int | None:
        """The player for whom a vertex is settled, or None. Raises IndexError for what is no vertex."""
        return self._at(v)[0]

    def choice(self, v: int) -> int | None:
        """The choice at a vertex that is settled for its owner, or None."""
        return self._at(v)[1]

    def _at(self, v: int) -> tuple[int | None, int | None]:
        with self._turn():
            winners, choices = self._read()
            v = index_of("a vertex", v)
            if not 0 <= v < len(winners):
                raise IndexError(f"{v} is no vertex")
            winner, choice = winners[v], choices[v]
        return None if winner == NO_WINNER else winner, None if choice == NO_CHOICE else choice

    @property
    def vertices(self) -> int:
        """How many vertices the game has."""
        return self._count("vertices")

    def vertex(self, v: int) -> Vertex:
        """A vertex of the game. Raises IndexError for what is none."""
        number = index_of("a vertex", v)
        with self._turn():
            if not 0 <= number < self._count("vertices"):
                raise IndexError(f"{v} is no vertex")
            numbers, (successors,) = self._handle.read("vertex", number, native.VERTEX.size, 1)
        id, priority, owner, _ = native.VERTEX.unpack(numbers)
        return Vertex(id, priority, owner, successors)

    @property
    def settled(self) -> int:
        """How many vertices are settled."""
        return self._count("settled")

    def unsettled(self) -> Ints:
        """The vertices that are unsettled, in rising order."""
        with self._turn():
            winners = self._read().winners.tobytes()
        return array("I", compress(range(len(winners)), winners.translate(HAS_NONE)))

    @property
    def entries(self) -> Entries:
        """The journal, the oldest entry first, which grows with the board. An entry is read when it is asked for."""
        return Entries(self)

    def _entry(self, number: int) -> Entry:
        with self._turn():
            numbers, (vertices, choices) = self._handle.read("entry", number, native.ENTRY.size, 2)
        worker, player, claimed, _ = native.ENTRY.unpack(numbers)
        return Entry(worker, player, claimed, vertices, choices)

    def finish(self, steps: int | None = None, timeout: float | None = None, cancel: Cancel | None = None) -> None:
        """Settles what is unsettled, by posts of worker 0 that solve as `solve` does.

        Raises GaveUp if the recursion takes more than `steps`, and TimedOut or Cancelled as `solve_csr` does. Ctrl-C ends it too. What it
        has found stays then, and another call goes on. Between two slices other threads may use the board; a post of theirs has the
        search begin anew. Raises Closed if another thread closes the board meanwhile."""
        slices.advance(self._advance, len(self._state.winners), limits_of(timeout, cancel), bound(steps))

    def _advance(self, steps: int) -> Slice:
        """Takes a slice; the threads that wait for the board go first."""
        for _ in range(TIMES):
            if not self._users:
                break
            time.sleep(PAUSE)
        with self._turn():
            return self._handle.advance(steps)

    def solution(self) -> Solution:
        """The solution, of a full board. Raises Unsettled, whose `at` is the number of unsettled vertices."""
        found = blank(len(self._state.winners))
        with self._turn():
            self._handle.write("solution", found)
        return found

    def solution_text(self) -> str:
        """The solution of a full board as text, with the identifiers of the game's text. Raises Unsettled as `solution` does."""
        # (a first line, and a row with two numbers for each vertex, of 10 digits at most)
        into = array("B", bytes(22 + 25 * len(self._state.winners)))
        with self._turn():
            return self._handle.solution_text(into)

    def close(self) -> None:
        """Frees the board, and ends `finish` in other threads after a slice. To close it again does nothing."""
        with self._turn():
            self._close()

    def __enter__(self: AnyBoard) -> AnyBoard:
        self._count("entries")
        return self

    def __exit__(self, *_: object) -> None:
        self.close()

    def __reduce__(self) -> str:
        raise TypeError("a board can be neither copied nor pickled")


class Entries(EntrySequence):
    """The journal of a board, as a sequence."""

    def __init__(self, board: Board) -> None:
        self._board = board

    def __len__(self) -> int:
        return self._board._count("entries")

    @overload
    def __getitem__(self, at: int) -> Entry: ...
    @overload
    def __getitem__(self, at: slice) -> list[Entry]: ...
    def __getitem__(self, at: int | slice) -> Entry | list[Entry]:
        numbers = range(len(self))[at]
        return self._board._entry(numbers) if isinstance(numbers, int) else [self._board._entry(it) for it in numbers]
