"""Solves a game in arrays or as text: a small one by one call, and others in slices on a board that lasts for the call."""

from __future__ import annotations

from array import array
from contextlib import closing
from typing import Sequence

from . import faults
from .arrays import Solution
from .library import NO_CHOICE, NO_WINNER, Handle, Ints, run
from .native import struct_of
from .slices import Limits, advance, check

# A game of so many bytes takes no time: it has fewer than 60 vertices.
SMALL = 512


def blank(size: int) -> Solution:
    return Solution(array("B", bytes(size)), array("I", bytes(4 * size)))


def solve_arrays(game: list[Ints], known: list[Ints] | None, steps: int | None, limits: Limits) -> Solution:
    """A solution of a game, from what is known of it, by a recursion of so many steps at most."""
    given = [game] if known is None else [game, known]
    if sum([len(it) * it.itemsize for group in given for it in group]) <= SMALL:
        check(limits)
        return at_once(given, steps)
    with closing(Handle()) as board:
        try:
            board.open(game)
            if known is not None:
                post_known(board, game[0], known)
        except faults.Refused:
            # (this call says what is wrong, before it solves)
            return at_once(given, steps)
        advance(board.advance, len(game[0]), limits, steps)
        found = blank(len(game[0]))
        board.write("solution", found)
    return found


def at_once(given: Sequence[Sequence[Ints]], steps: int | None) -> Solution:
    """The solution by one call, which can't be ended."""
    found = blank(len(given[0][0]))
    name = "pgboard_solve" if len(given) == 1 else "pgboard_solve_known"
    limit = [] if steps is None else [steps]
    run(name + "_within" * len(limit), *map(struct_of, given), *limit, struct_of(found))
    return found


def post_known(board: Handle, owners: Ints, known: Sequence[Ints]) -> None:
    """Posts what Even and then what Odd is known to win. Raises Refused if it is no part of a solution."""
    winners, choices = known
    if not len(owners) == len(winners) == len(choices) or not {*winners} <= {0, 1, NO_WINNER}:
        raise faults.Refused
    for player in (0, 1):
        vertices = array("I", [v for v, it in enumerate(winners) if it == player])
        if vertices:
            moves = array("I", [choices[v] if owners[v] == player else NO_CHOICE for v in vertices])
            board.post(0, player, (vertices, moves))


def blank_text(game: Ints) -> Ints:
    """A buffer that no text of this game or of its solution is too long for (PGBOARD_TEXT_BOUND in include/pgboard.h)."""
    return array("B", bytes(len(game) + len(game) // 8 + 22))


def solve_bytes(game: Ints, limits: Limits) -> str:
    with closing(Handle()) as board:
        board.open_text(game)
        # (a vertex takes eight bytes or more)
        advance(board.advance, len(game) // 8, limits, None)
        return board.solution_text(blank_text(game))
