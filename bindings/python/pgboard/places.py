"""Where a fault of a text stands, by what the library or the program says of it."""

from __future__ import annotations

import contextlib
import re
from typing import TYPE_CHECKING, Iterator, Optional, Union

from . import faults

if TYPE_CHECKING:
    from array import array

    Bytes = Union[bytes, "array[int]"]

NAME = re.compile(rb'"[^"]*"')


@contextlib.contextmanager
def placed(game: Bytes, solution: Bytes = b"", path: Optional[str] = None) -> Iterator[None]:
    """Adds the line and the column to a fault that is raised meanwhile of one of these texts, and a file's path."""
    try:
        yield
    except faults.Refused as fault:
        text = bytes(solution if fault.text == "solution" else game)
        at = place_of(fault, text)
        if at is not None:
            begins = text.rfind(b"\n", 0, at) + 1
            fault.line, fault.column = text.count(b"\n", 0, at) + 1, characters(text, begins, at) + 1
            fault.text = path or fault.text
        raise


def characters(text: bytes, begins: int, ends: int) -> int:
    return len(text[begins:ends].decode("utf-8", "surrogateescape"))


def place_of(fault: faults.Refused, text: bytes) -> Optional[int]:
    if isinstance(fault, faults.TextTooLong):
        return None
    if isinstance(fault, faults.BadText):
        return fault.at
    if isinstance(fault, faults.UnknownSuccessor):
        return place_of_vertex(text, fault.at, to=fault.to)
    is_again = isinstance(fault, (faults.SpecifiedTwice, faults.WrittenTwice))
    return place_of_vertex(text, fault.at, is_again) if is_again or isinstance(fault, faults.Stranger) else None


def place_of_vertex(text: bytes, vertex: int, is_again: bool = False, to: Optional[int] = None) -> Optional[int]:
    """Where the line of a vertex begins, or its second one; or where the line names this successor. A vertex
    without a line is named by one.
    """
    if b'"' in text:
        text = NAME.sub(lambda it: b" " * len(it[0]), text)
    number = rb"(?<![0-9])0*%d(?![0-9])"
    rows = [*re.finditer(rb"(?:\A|;)\s*(%s)" % (number % vertex), text)]
    if not rows:
        found = re.search(b"(%s)" % (number % vertex), text)
    elif to is None:
        found = rows[is_again] if is_again < len(rows) else None
    else:
        found = re.compile(rb"\s+[0-9]+\s+[0-9]+\s[^;]*?(%s)" % (number % to)).match(text, rows[0].end())
    return found.start(1) if found else None
