"""Calls that may take long, in slices: the library stops after each, so that Python can handle signals and the call can end early."""

from __future__ import annotations

import time
from typing import Callable, NamedTuple

from .faults import Cancelled, GaveUp, TimedOut

# the seconds below which slices of the recursion get longer, and above which they get shorter
SHORT, LONG = 0.01, 0.03
# A slice has at most so many steps times vertices: a step may be short, and the next one may look at the whole game.
MOST = 20_000_000


class Cancel:
    """Ends calls from another thread: a call that has it as `cancel` raises Cancelled after `cancel()`, also if that came before."""

    def __init__(self) -> None:
        self.is_cancelled = False

    def cancel(self) -> None:
        """Ends all calls that have it, and those that will."""
        self.is_cancelled = True


class Limits(NamedTuple):
    """When a call is to end without a result: at this time of the monotonic clock, or after a `Cancel`."""

    end: float | None = None
    cancel: Cancel | None = None


def limits_of(timeout: float | None, cancel: Cancel | None) -> Limits:
    """The limits of a call that begins now; TypeError or ValueError for what are none."""
    if timeout is not None and (isinstance(timeout, bool) or not isinstance(timeout, (int, float))):
        raise TypeError(f"timeout is a number of seconds, not {type(timeout).__name__}")
    if timeout is not None and not 0 <= timeout:
        raise ValueError(f"timeout {timeout} is not 0 or more")
    if cancel is not None and not isinstance(cancel, Cancel):
        raise TypeError(f"cancel is a pgboard.Cancel, not {type(cancel).__name__}")
    # (a great integer is no float)
    return Limits(None if timeout is None else time.monotonic() + min(timeout, 1e9), cancel)


def check(limits: Limits) -> None:
    """Raises Cancelled or TimedOut where a call has to end."""
    if limits.cancel is not None and limits.cancel.is_cancelled:
        raise Cancelled
    if limits.end is not None and time.monotonic() >= limits.end:
        raise TimedOut


class Slice(NamedTuple):
    """What a slice has done: whether nothing is left, how many steps it took, and how many seconds, without a wait for its turn."""

    is_last: bool
    steps: int
    seconds: float


def advance(take: Callable[[int], Slice], vertices: int, limits: Limits, steps: int | None) -> None:
    """Takes slices of a game with so many vertices until nothing is left; `take` makes one of up to so many steps. Raises GaveUp if more
    than `steps` are needed, and TimedOut or Cancelled before a slice."""
    size, left = 1, steps
    while True:
        check(limits)
        # (one step above the bound says that more are needed)
        taken = take(size if left is None else min(size, left + 1))
        if left is not None:
            if taken.steps > left:
                raise GaveUp
            left -= taken.steps
        if taken.is_last:
            return
        # (a search takes no step)
        if taken.steps == size and taken.seconds < SHORT:
            size = max(1, min(2 * size, MOST // vertices))
        elif taken.steps and taken.seconds > LONG:
            size = max(1, int(taken.steps * SHORT / taken.seconds))
