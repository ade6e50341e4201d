"""The arrays that the calls take and return: what a caller gives is read, copied where it has to be, and
refused where C could not read it.
"""

from __future__ import annotations

import importlib
import operator
from array import array
from itertools import accumulate
from typing import Any, Iterable, Iterator, List, NamedTuple, Optional, Protocol, Tuple, Union

from .library import NO_CHOICE, NO_WINNER, Ints, number_of


class HasBuffer(Protocol):
    def __buffer__(self, flags: int, /) -> memoryview:
        ...


class HasArrayInterface(Protocol):
    """An array of NumPy, as its types of any version say it."""

    @property
    def __array_interface__(self) -> dict[str, Any]:
        ...


class Rows(Protocol):
    """A matrix of SciPy in the form `csr`, whose rows are what vertices lead to."""

    @property
    def indptr(self) -> Any:
        ...

    @property
    def indices(self) -> Any:
        ...


Buffer = Union[bytes, bytearray, memoryview, Ints, HasBuffer, HasArrayInterface, List[int], Tuple[int, ...]]
Numbers = Iterable[int]
MaybeNumbers = Iterable[Optional[int]]
Text = Union[str, bytes]


class Solution(NamedTuple):
    """The winner of each vertex, and his choice where he owns it, else NO_CHOICE."""

    winners: Ints
    choices: Ints

    def strategy(self) -> Any:
        """The choices as a matrix of SciPy in the form csr: row v has True at what the winner of v chooses there."""
        numpy, sparse = importlib.import_module("numpy"), importlib.import_module("scipy.sparse")
        choices = numpy.array(self.choices)
        (vertices,) = numpy.nonzero(choices != NO_CHOICE)
        size = len(choices)
        return sparse.csr_matrix((numpy.ones(len(vertices), bool), (vertices, choices[vertices])), shape=(size, size))


# the formats of items that are integers in this machine's order of bytes, and those of them that C takes as
# they are where nothing is below 0
INTEGERS = "?bBhHiIlLqQnN"
TAKEN = {"B": "?bB", "I": "iI"}
# the greatest priority
MOST = 2**31 - 1


def integers(view: memoryview) -> Ints:
    """The items of a view of integers, in a new array."""
    is_signed = view.format[-1].islower()
    return array({1: "Bb", 2: "Hh", 4: "Ii", 8: "Qq"}[view.itemsize][is_signed], bytes(view))


def view_of(name: str, value: Buffer, code: str) -> memoryview:
    """A view of a buffer's memory, if C takes its items for those of this code; else of a copy with such
    items. TypeError for what is no contiguous buffer of integers, and ValueError for one out of range.
    """
    needed = "a contiguous buffer of integers in one dimension is needed, not"
    if isinstance(value, (list, tuple)):
        return memoryview(numbers(name, code, value))
    try:
        view = memoryview(value)  # type: ignore[arg-type]
    except (TypeError, ValueError, BufferError) as error:
        raise TypeError(f"{name}: {needed} {type(value).__name__}") from error
    if view.ndim != 1:
        raise TypeError(f"{name}: {needed} one of {view.ndim} dimensions")
    if not view.c_contiguous:
        raise TypeError(
            f"{name}: {needed} one with gaps between its items: numpy.ascontiguousarray copies it"
        )
    if view.format.lstrip("@=<") not in tuple(INTEGERS):
        raise TypeError(f"{name}: {needed} one of items {view.format!r} of {view.itemsize} bytes")
    if view.format in tuple(TAKEN[code]):
        # (what is below 0 has the first bit in its last byte, as no letter of ASCII has)
        signs = view.tobytes()[view.itemsize - 1 :: view.itemsize] if view.format in "bi" else b""
        if signs.isascii():
            return view
    return memoryview(numbers(name, code, integers(view)))


def items_of(name: str, values: Iterable[Any]) -> Iterator[Any]:
    """The items of what can be gone through; TypeError, with its name, for what can't."""
    try:
        return iter(values)
    except TypeError:
        raise TypeError(f"{name}: a list is needed, not {type(values).__name__}") from None


def numbers(name: str, code: str, values: Numbers) -> Ints:
    """An array of these numbers; TypeError or ValueError, with its name and place, for the first that is no
    integer or out of range.
    """
    held = values if isinstance(values, (list, tuple, array)) else list(items_of(name, values))
    try:
        return array(code, held)
    except (TypeError, OverflowError):
        for at, it in enumerate(held):
            number_of(f"{name}[{at}]", it, 2 ** (8 * array(code).itemsize) - 1)
        raise


def text_bytes(text: Text) -> Ints:
    """The bytes of a text; TypeError for what is none."""
    if not isinstance(text, (str, bytes)):
        raise TypeError(f"a text is bytes or str, not {type(text).__name__}")
    return array("B", text.encode("utf-8") if isinstance(text, str) else text)


def rows_of(successors: Iterable[Numbers]) -> tuple[Ints, Ints]:
    """Where each row begins and ends, and the rows one after another."""
    starts, targets = array("I", [0]), array("I")
    for v, row in enumerate(items_of("successors", successors)):
        targets += numbers(f"successors[{v}]", "I", row)
        starts.append(len(targets))
    return starts, targets


def game_of(
    owners: Numbers, priorities: Numbers, successors: Iterable[Numbers]
) -> tuple[Ints, Ints, Ints, Ints]:
    return (numbers("owners", "B", owners), numbers("priorities", "I", priorities), *rows_of(successors))


def claims_of(winners: MaybeNumbers, choices: MaybeNumbers) -> tuple[Ints, Ints]:
    """The arrays of winners and choices. None is no winner, which is taken of what is known alone, or no
    choice.
    """
    held = [NO_WINNER if it is None else it for it in items_of("winners", winners)]
    return numbers("winners", "B", held), moves_of(choices)


def pair_of(known: Any) -> tuple[Any, Any]:
    try:
        winners, choices = known
    except (TypeError, ValueError):
        raise TypeError(
            f"known: a pair of winners and choices is needed, not {type(known).__name__}"
        ) from None
    return winners, choices


def moves_of(choices: MaybeNumbers) -> Ints:
    """The array of choices. None is none, and no number is."""
    held = list(items_of("choices", choices))
    if NO_CHOICE in held:
        number_of(f"choices[{held.index(NO_CHOICE)}]", NO_CHOICE, NO_CHOICE - 1)
    return numbers("choices", "I", [NO_CHOICE if it is None else it for it in held])


def rows_of_matrix(indptr: Buffer | Rows, indices: Buffer | None) -> tuple[Buffer, Buffer]:
    """Two buffers as they are given, or those of a matrix that is given alone."""
    if indices is not None:
        return indptr, indices  # type: ignore[return-value]
    if getattr(indptr, "format", None) != "csr":
        raise TypeError(
            f"indices: without them a SciPy matrix in the form csr is needed for indptr, not {type(indptr).__name__}"
        )
    return indptr.indptr, indptr.indices  # type: ignore[union-attr]


def game_views(
    owners: Buffer,
    priorities: Buffer,
    indptr: Buffer | Rows,
    indices: Buffer | None,
    dead_ends: bool,
    least: bool,
) -> list[memoryview]:
    """The views of a game: of what is given, or of copies in the form that the library takes."""
    starts, targets = rows_of_matrix(indptr, indices)
    views = [
        view_of("owners", owners, "B"),
        view_of("priorities", priorities, "I"),
        view_of("indptr", starts, "I"),
        view_of("indices", targets, "I"),
    ]
    if least:
        views[1] = with_greatest(views[1])
    return with_loops(*views) if dead_ends else views


def with_greatest(priorities: memoryview) -> memoryview:
    """Priorities of which the greatest decides, for those of which the least does: in falling order, each
    gets the least number of its parity that is above those before it. (What is no priority stays, and is
    refused.)
    """
    held = integers(priorities)
    if max(held, default=0) > MOST:
        return priorities
    new: dict[int, int] = {}
    last = -1
    for it in sorted(set(held), reverse=True):
        last += 1 + (last + 1 + it) % 2
        new[it] = last
    return memoryview(array("I", map(new.__getitem__, held)))


def with_loops(
    owners: memoryview, priorities: memoryview, indptr: memoryview, indices: memoryview
) -> list[memoryview]:
    """The game in which a vertex without successors leads to itself, with the priority that its owner loses
    by. (Where the arrays do not fit, they stay, and are refused.)
    """
    starts, ranks = integers(indptr), array("I", priorities.tobytes())
    dead = [v for v in range(min(len(owners), len(ranks), len(starts) - 1)) if starts[v] == starts[v + 1]]
    fits = (
        len(starts) == len(owners) + 1
        and starts[0] == 0
        and starts[-1] == len(indices)
        and all(map(operator.le, starts, starts[1:]))
    )
    if not dead or not fits:
        return [owners, priorities, indptr, indices]
    targets, begin = array("I"), 0
    for v in dead:
        # (what is no priority stays, and is refused)
        if ranks[v] <= MOST:
            ranks[v] = 1 - owners[v] % 2
        targets.frombytes(indices[begin : starts[v]].tobytes())
        targets.append(v)
        begin = starts[v]
    targets.frombytes(indices[begin:].tobytes())
    added = accumulate(it == after for it, after in zip(starts, starts[1:]))
    return [
        owners,
        memoryview(ranks),
        memoryview(array("I", [0, *map(operator.add, starts[1:], added)])),
        memoryview(targets),
    ]


def claim_views(winners: Buffer, choices: Buffer) -> list[memoryview]:
    return [view_of("winners", winners, "B"), view_of("choices", choices, "I")]
