"""The calls of the package."""

from __future__ import annotations

import os
from array import array
from typing import Any, Iterable, Sequence

from . import faults

from .arrays import (
    Buffer, MaybeNumbers, Numbers, Rows, Solution, Text, claim_views, claims_of, game_of, game_views, pair_of, text_bytes,
)  # fmt: skip
from .board import Board, Entries, Entry, Posted, Vertex  # noqa: F401
from .faults import *  # noqa: F401,F403
from .files import read_bytes, read_game  # noqa: F401
from .library import NO_CHOICE, NO_WINNER, bound, build, number_of, owned, run, written  # noqa: F401
from .native import span_of, struct_of
from .places import placed
from .slices import Cancel, limits_of
from .solving import blank_text, solve_arrays, solve_bytes
from .version import __version__  # noqa: F401


def solve_csr(
    owners: Buffer,
    priorities: Buffer,
    indptr: Buffer | Rows,
    indices: Buffer | None = None,
    known: tuple[Buffer, Buffer] | None = None,
    steps: int | None = None,
    *,
    dead_ends: bool = False,
    least: bool = False,
    timeout: float | None = None,
    cancel: Cancel | None = None,
) -> Solution:
    """Solves a game in compressed sparse rows: vertex v has the successors indices[indptr[v]:indptr[v + 1]].

    The arguments are buffers or lists of integers, which are copied. Buffers of 8 bits for `owners`, and of
    32 bits for the others, are copied as they are; those of other items are converted before. A SciPy matrix
    in the form csr may be given for both `indptr` and `indices`: what it stores are edges. Returns arrays of
    the winners and of their choices, which have NO_CHOICE where the winner doesn't own the vertex.

    `known` has winners (NO_WINNER where there is none) and choices in the same form. `steps` limits
    Zielonka's recursion: GaveUp is raised if it begins more subgames, and never for n vertices of
    d priorities from 3 * (n + 1) ** d - 2 on. With `dead_ends` a vertex without successors is lost by its owner. With
    `least` the least priority that is seen again and again decides.

    Raises TimedOut before a slice that would begin after `timeout` seconds, and Cancelled once another
    thread calls `cancel.cancel()`. Raises Refused, NotKnown or OutOfMemory too, and TypeError for other
    arguments.
    """
    number, limits = bound(steps), limits_of(timeout, cancel)
    game = owned(game_views(owners, priorities, indptr, indices, dead_ends, least))
    claims = None if known is None else owned(claim_views(*pair_of(known)))
    return solve_arrays(game, claims, number, limits)


def verify_csr(
    owners: Buffer,
    priorities: Buffer,
    indptr: Buffer | Rows,
    indices: Buffer | None,
    winners: Buffer,
    choices: Buffer,
    *,
    dead_ends: bool = False,
    least: bool = False,
) -> None:
    """Looks whether winners and choices are a solution of a game, all as `solve_csr` takes and returns them,
    and raises NotASolution with what is wrong first if they are none. Raises what `solve_csr` does too.
    (`indices` is None where `indptr` is a matrix.)
    """
    game = owned(game_views(owners, priorities, indptr, indices, dead_ends, least))
    claims = owned(claim_views(winners, choices))
    run("pgboard_check", struct_of(game), struct_of(claims))


def solve(
    owners: Numbers,
    priorities: Numbers,
    successors: Iterable[Numbers],
    known: tuple[MaybeNumbers, MaybeNumbers] | None = None,
    steps: int | None = None,
    *,
    dead_ends: bool = False,
    least: bool = False,
    timeout: float | None = None,
    cancel: Cancel | None = None,
) -> tuple[list[int], list[int | None]]:
    """Solves a game: the owner (0 or 1), the priority and the successors of each vertex.

    Returns the winner of each vertex, and for each vertex that its winner owns the successor that he moves
    to, else None. `known` has winners and choices of this form, with None for a winner that isn't known. The
    other arguments are those of `solve_csr`, and so are the faults. A choice is None too at a vertex without
    successors.
    """
    claims = None if known is None else claims_of(*pair_of(known))
    found = solve_csr(
        *game_of(owners, priorities, successors),
        claims,
        steps,
        dead_ends=dead_ends,
        least=least,
        timeout=timeout,
        cancel=cancel,
    )
    return list(found.winners), [None if it == NO_CHOICE else it for it in found.choices]


def verify(
    owners: Numbers,
    priorities: Numbers,
    successors: Iterable[Numbers],
    winners: Numbers,
    choices: MaybeNumbers,
    *,
    dead_ends: bool = False,
    least: bool = False,
) -> None:
    """Looks whether winners and choices are a solution of a game, and raises NotASolution with what is wrong
    first if they are none. A choice may be None. Raises what `solve` does too.
    """
    game, claims = game_of(owners, priorities, successors), claims_of(winners, choices)
    verify_csr(*game, *claims, dead_ends=dead_ends, least=least)


def solve_text(game: Text, *, timeout: float | None = None, cancel: Cancel | None = None) -> str:
    """A solution's text of a game's text in PGSolver's format. Raises what `solve` does; a fault has its
    line and column.
    """
    limits, given = limits_of(timeout, cancel), text_bytes(game)
    with placed(given):
        return solve_bytes(given, limits)


def solve_file(
    path: str | bytes | os.PathLike[str], *, timeout: float | None = None, cancel: Cancel | None = None
) -> str:
    """A solution's text of the game that a file has as text, which may be packed, or of standard input for
    `-`. Raises OSError where the file can't be read, ValueError where it can't be unpacked or has more bytes
    than a text may have, and what `solve_text` raises.
    """
    limits = limits_of(timeout, cancel)
    given = array("B", read_bytes(path))
    with placed(given, path=os.fsdecode(path)):
        return solve_bytes(given, limits)


def tidy_text(game: Text) -> str:
    """The one written form of a game's text. Raises what `solve_text` does."""
    given = text_bytes(game)
    with placed(given):
        return written(blank_text(given), "pgboard_tidy_text", *span_of(given))


def verify_text(game: Text, solution: Text) -> None:
    """Looks whether a text is a solution of a game's text, and raises NotASolution if it is none. Raises
    what `solve_text` does too.
    """
    given = [text_bytes(it) for it in (game, solution)]
    with placed(given[0], given[1]):
        run("pgboard_verify_text", *span_of(given[0]), *span_of(given[1]))


def attributes(graph: Any, nodes: Sequence[Any], name: str, most: int) -> list[int]:
    """The attribute of each node, up to a number; MissingAttribute for the first that has none."""
    for at, node in enumerate(nodes):
        if name not in graph.nodes[node]:
            raise faults.MissingAttribute(at, node, name)
    return [number_of(f"node {it!r}: {name}", graph.nodes[it][name], most) for it in nodes]


def solve_graph(
    graph: Any,
    owner: str = "owner",
    priority: str = "priority",
    winner: str = "winner",
    choice: str = "choice",
    *,
    dead_ends: bool = False,
    least: bool = False,
    timeout: float | None = None,
    cancel: Cancel | None = None,
) -> Any:
    """Solves a networkx.DiGraph, whose nodes have an owner and a priority, by the names of attributes that
    are given.

    Returns a copy whose nodes have a winner too, and a choice where the winner owns the node; what they had
    under these names is gone. A fault names its node. Raises MissingAttribute for a node without an owner or
    a priority, TypeError for what is no directed graph, and what `solve` raises.
    """
    if not hasattr(graph, "successors"):
        raise TypeError(f"a graph is a networkx.DiGraph, not {type(graph).__name__}")
    nodes = list(graph)
    places = {node: v for v, node in enumerate(nodes)}
    owners, priorities = attributes(graph, nodes, owner, 255), attributes(graph, nodes, priority, NO_CHOICE)
    try:
        rows = [[places[to] for to in graph.successors(it)] for it in nodes]
        winners, choices = solve(
            owners, priorities, rows, dead_ends=dead_ends, least=least, timeout=timeout, cancel=cancel
        )
    except faults.Fault as fault:
        if "{vertex}" in fault.words:
            fault.node = nodes[fault.at]
        raise
    solved = graph.copy()
    for node, by, move in zip(nodes, winners, choices):
        found = solved.nodes[node]
        found.pop(choice, None)
        found[winner] = by
        if move is not None:
            found[choice] = nodes[move]
    return solved
