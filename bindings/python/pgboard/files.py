"""Games of files in each form that the command reads. It needs no library."""

# mypy: ignore-errors

from __future__ import annotations

import os
from types import SimpleNamespace
from typing import TYPE_CHECKING, NamedTuple

if TYPE_CHECKING:
    from .arrays import Ints


class Game(NamedTuple):
    """A game in arrays as `solve_csr` takes them, the identifiers and the names of its vertices, the vertex in
    which the text begins, or None, and of a text in the HOA format the vertex of each state.
    """

    ids: list[int]
    owners: Ints
    priorities: Ints
    indptr: Ints
    indices: Ints
    names: list[str]
    first: int | None
    states: dict[int, int]


def read_bytes(path: str | bytes | os.PathLike[str]) -> bytes:
    """The bytes of a file, or for `-` of standard input, unpacked. Raises what `read_game` does."""
    from .command import Refused
    from .command.texts import bytes_of

    try:
        return bytes(*bytes_of(os.fsdecode(path)))
    except Refused as refused:
        raise ValueError(str(refused)) from None


def read_game(
    path: str | os.PathLike[str], *, least: bool = False, odd: bool = False, dead_ends: bool = False
) -> Game:
    """The game of a file, which may be packed, or for `-` of standard input, with the rules that its text
    does not say. Vertices have the order of their identifiers. Raises OSError where the file can't be read, and ValueError, which names the
    place, where it has no game.
    """
    from .command import Refused
    from .command.games import game_of

    try:
        rules = SimpleNamespace(min=least, odd=odd, dead_ends=dead_ends)
        game = game_of(os.fspath(path), rules)
        arrays = game.arrays()
        vertices = {id: vertex for vertex, id in enumerate(arrays[0])}
        states = {state: vertices[id] for state, id in game.states.items()}
        names = [game.rows[id][3] for id in vertices]
        return Game(*arrays, names, vertices.get(game.start), states)
    except Refused as refused:
        raise ValueError(str(refused)) from None
