"""The library of include/pgboard.h, which is found and loaded at the first call, and calls of it on copies
of memory.
"""

from __future__ import annotations

import contextlib
import ctypes
import functools
import math
import operator
import os
import time
from array import array
from typing import TYPE_CHECKING, Any, Iterable, Sequence

from . import native
from .faults import FAULTS, Unsettled
from .slices import Slice
from .version import __version__

if TYPE_CHECKING:
    Ints = array[int]
else:
    # (it has no parameters before Python 3.9)
    Ints = array

NO_CHOICE = 4294967295
NO_WINNER = 255

# the answers on a solution's text
OF_SOLUTIONS = range(40, 50)
# the package's version as pgboard_version says it
NUMBERS = [int(it) for it in __version__.split(".")]
VERSION = NUMBERS[0] * 10000 + NUMBERS[1] * 100 + NUMBERS[2]
# (the number is that of the interface, as in ./package)
SONAME = "libpgboard.so.0"
HERE = os.path.dirname(os.path.abspath(__file__))
# where a clone's own builds are, a proved one first
BUILT = [os.path.normpath(os.path.join(HERE, "../../../out", it, "libpgboard.so")) for it in ("proved", "unproved")]


def path_of_library() -> str:
    """The file that PGBOARD_LIBRARY names, else the one of the wheel, else of the repository, else of the
    system.
    """
    there = [it for it in (os.path.join(HERE, "libpgboard.so"), *BUILT) if os.path.exists(it)]
    return os.environ.get("PGBOARD_LIBRARY") or [*there, SONAME][0]


def load() -> ctypes.CDLL:
    """The library; ImportError, which says what to do, where it isn't there or is of another version."""
    what_to_do = (
        "build one by `./pgboard --library` at the top of the repository, with `--unproved` before it in a minute, "
        "without proofs; or install the wheel that ./package makes, or set PGBOARD_LIBRARY to the path of libpgboard.so"
    )
    try:
        return native.load(path_of_library(), VERSION)
    except (OSError, AttributeError) as error:
        raise ImportError(f"pgboard: its library can't be loaded ({error}): {what_to_do}") from error
    except ImportError as error:
        raise ImportError(f"pgboard: {error}: {what_to_do}") from None


class Library:
    """The library, which is loaded when one of its calls is used."""

    @functools.cached_property
    def loaded(self) -> ctypes.CDLL:
        native.check_processor()
        return load()

    def __getattr__(self, name: str) -> Any:
        return getattr(self.loaded, name)


LIBRARY = Library()


def build() -> str:
    """What the loaded library says that it is: 'proved', or 'unproved' with the commit of its sources; else 'not recorded'."""
    for name in ("pgboard_unproved", "pgboard_proved"):
        with contextlib.suppress(ValueError):
            said = ctypes.string_at((ctypes.c_char * 100).in_dll(LIBRARY.loaded, name)).decode("ascii")
            return said if said.startswith("unproved") else "proved"
    return "not recorded"


def index_of(name: str, value: Any) -> int:
    """A value as an integer; TypeError, with its name, for what is none."""
    try:
        return operator.index(value)
    except TypeError:
        raise TypeError(f"{name} has to be an integer, not {type(value).__name__}") from None


def number_of(name: str, value: Any, most: float = math.inf) -> int:
    """A value as an integer that is not below 0 nor above the greatest; else TypeError or ValueError."""
    number = index_of(name, value)
    if not 0 <= number <= most:
        raise ValueError(f"{name}: {number} is out of range")
    return number


def bound(steps: int | None) -> int | None:
    """The argument of a call for this bound on the steps of the recursion."""
    return None if steps is None else min(number_of("steps", steps), 2**64 - 1)


def own(view: memoryview) -> Ints:
    """A copy of a view of 8 or 32 bits, as an array."""
    return array("I" if view.itemsize == 4 else "B", view.tobytes())


def owned(views: Iterable[memoryview]) -> list[Ints]:
    """Copies of views. (The library releases the interpreter's lock, so another thread may change what a
    caller has given.)
    """
    return [own(it) for it in views]


def run(name: str, *arguments: Any) -> None:
    """Makes a call, or raises the fault of its answer."""
    report = native.REPORT()
    answer = getattr(LIBRARY, name)(*arguments, report)
    if answer:
        raise fault_of(answer, report[0], report[1])


def fault_of(answer: int, at: int, to: int) -> Exception:
    if answer not in FAULTS:
        return RuntimeError(f"the library of pgboard answers {answer}")
    fault = FAULTS[answer](at, to)
    if answer in OF_SOLUTIONS:
        fault.text = "solution"
    return fault


def written(into: Ints, name: str, *arguments: Any) -> str:
    """The text that a call writes to the front of a buffer."""
    size = ctypes.c_size_t()
    run(name, *arguments, *native.span_of(into), ctypes.byref(size))
    return into[: size.value].tobytes().decode("ascii")


class Handle:
    """A board of the library, which is closed at first. The library takes one call at a time on it."""

    def __init__(self) -> None:
        # (without a library there is no board that has to be closed)
        self.memory, self.end = ctypes.create_string_buffer(16), LIBRARY.pgboard_board_close

    def open(self, game: Sequence[Ints]) -> None:
        run("pgboard_board_open", self.memory, native.struct_of(game))

    def open_text(self, text: Ints) -> None:
        run("pgboard_board_open_text", self.memory, *native.span_of(text))

    def post(self, worker: int, player: int, claim: Sequence[Ints]) -> tuple[int, int, int]:
        """Posts a claim. Returns the numbers of the post."""
        posted = (ctypes.c_uint64 * 3)()
        run("pgboard_board_post", self.memory, native.struct_of(claim, worker, player), posted)
        return posted[0], posted[1], posted[2]

    def write(self, what: str, results: Sequence[Ints]) -> None:
        """Fills arrays with the state or the solution."""
        run(f"pgboard_board_{what}", self.memory, native.struct_of(results))

    def advance(self, steps: int) -> Slice:
        """Makes a search, or takes up to so many steps of the recursion."""
        left, begun, is_last = ctypes.c_uint64(steps), time.monotonic(), True
        try:
            run("pgboard_board_advance", self.memory, ctypes.byref(left))
        except Unsettled:
            is_last = False
        return Slice(is_last, steps - left.value, time.monotonic() - begun)

    def solution_text(self, into: Ints) -> str:
        return written(into, "pgboard_board_solution_text", self.memory)

    def count(self, what: str) -> int:
        return int(getattr(LIBRARY, f"pgboard_board_{what}")(self.memory))

    def read(self, what: str, number: int, size: int, rows: int) -> tuple[bytes, list[Ints]]:
        """The numbers, in so many bytes, and the arrays of an entry or a vertex."""
        outcome, found = native.read(LIBRARY, f"pgboard_board_{what}", self.memory, number, size, rows)
        if outcome[0]:
            raise fault_of(*outcome)
        return found

    def close(self) -> None:
        self.end(self.memory)
