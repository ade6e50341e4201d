"""The library's exports by ctypes, and what they take."""

from __future__ import annotations

import contextlib
import ctypes
import struct
from array import array
from typing import Any, Iterable, Tuple

# the exports; of each argument whether it is a pointer, a length or a number of 64 bits, or one of 32
EXPORTS = {
    "pgboard_solve": "ppp",
    "pgboard_solve_within": "pnpp",
    "pgboard_solve_known": "pppp",
    "pgboard_solve_known_within": "ppnpp",
    "pgboard_check": "ppp",
    "pgboard_tidy_text": "pnpnpp",
    "pgboard_verify_text": "pnpnp",
    "pgboard_version": "",
    "pgboard_board_open": "ppp",
    "pgboard_board_open_text": "ppnp",
    "pgboard_board_post": "pppp",
    "pgboard_board_state": "ppp",
    "pgboard_board_vertices": "p",
    "pgboard_board_vertex": "pippnp",
    "pgboard_board_settled": "p",
    "pgboard_board_entries": "p",
    "pgboard_board_entry": "pnppnpnp",
    "pgboard_board_advance": "ppp",
    "pgboard_board_solution": "ppp",
    "pgboard_board_solution_text": "ppnpp",
    "pgboard_board_close": "p",
}
KINDS = {"p": ctypes.c_void_p, "n": ctypes.c_uint64, "i": ctypes.c_uint32}
# those that return a number of 64 bits; the others return an answer or nothing
NUMBERS_OF_64_BITS = "pgboard_board_vertices", "pgboard_board_settled", "pgboard_board_entries"
# the answer, and the places of a report
Outcome = Tuple[int, int, int]
# an address and a length
Span = Tuple[int, int]
# the answer that a buffer is too small
CAPACITY = 50
# an entry of a board: its worker and player, how many of its rows were claimed, and how many there are
ENTRY = struct.Struct("IIQQ")
# a vertex: its identifier, priority and owner, and how many successors it has
VERTEX = struct.Struct("IIII")
# what Linux says of the processors, and its names of what the level x86-64-v2 has beside x86-64
PROCESSORS, LEVEL = "/proc/cpuinfo", ["cx16", "lahf_lm", "pni", "popcnt", "sse4_1", "sse4_2", "ssse3"]
REPORT = ctypes.c_uint64 * 2
# (an empty array may have no address, and the library takes no null pointer)
NOWHERE = ctypes.create_string_buffer(8)


def check_processor() -> None:
    """ImportError where the processor lacks what the library needs; there a call would end the process by a signal."""
    with contextlib.suppress(OSError), open(PROCESSORS, encoding="utf-8") as file:
        # (each processor has the same)
        flags = next((it.split(":")[1].split() for it in file if it.startswith("flags")), LEVEL)
        lacking = sorted({*LEVEL} - {*flags})
        if lacking:
            raise ImportError(f"pgboard: its library needs a processor of level x86-64-v2, and this one lacks {', '.join(lacking)}")


def load(path: str, version: int) -> ctypes.CDLL:
    """The library of a path; OSError, AttributeError or ImportError where it isn't there or is of another version."""
    library = ctypes.CDLL(path)
    for name, kinds in EXPORTS.items():
        result = ctypes.c_uint64 if name in NUMBERS_OF_64_BITS else ctypes.c_uint32
        getattr(library, name).restype, getattr(library, name).argtypes = result, [KINDS[it] for it in kinds]
    found = library.pgboard_version()
    if found != version:
        raise ImportError(f"{path} is of version {found}, and this package of {version}")
    return library


def span_of(held: array[int]) -> Span:
    """The address and the length of an array, which has to be kept meanwhile."""
    address, length = held.buffer_info()
    return address or ctypes.addressof(NOWHERE), length


def struct_of(arrays: Iterable[array[int]], *numbers: int) -> bytes:
    """A struct of the header: its size, some numbers of 32 bits, and the spans of arrays."""
    flat = [it for held in arrays for it in span_of(held)]
    return struct.pack(f"Q{len(numbers)}I{len(flat)}Q", 8 + 4 * len(numbers) + 8 * len(flat), *numbers, *flat)


def read(library: Any, name: str, board: Any, number: int, size: int, rows: int) -> tuple[Outcome, tuple[bytes, list[array[int]]]]:
    """Reads an entry or a vertex of a board: the outcome, its numbers, and so many arrays of one length."""
    numbers, report, length = ctypes.create_string_buffer(size), REPORT(), 0
    while True:
        held = [array("I", [0]) * length for _ in range(rows)]
        spans = [it for row in held for it in span_of(row)]
        answer = getattr(library, name)(board, number, numbers, *spans, report)
        if answer != CAPACITY:
            return (answer, report[0], report[1]), (numbers.raw, held)
        length = report[0]
