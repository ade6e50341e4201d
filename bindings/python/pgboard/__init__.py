"""Solutions of parity games, and their check, by the library of include/pgboard.h, over ctypes alone.

    >>> import pgboard
    >>> winners, choices = pgboard.solve(owners=[0, 1], priorities=[2, 1], successors=[[0, 1], [1]])
    >>> winners, choices
    ([0, 1], [0, 1])

Vertices are 0, 1 and so on. Player 0 is Even, who wins a play where the greatest priority seen again and
again is even.

The first use of a call loads the library, which PGBOARD_LIBRARY may name. Without one that is an ImportError,
which says what to do. Ctrl-C ends a call of the main thread that solves, and `timeout` and `cancel` end those
of any thread.
"""

from .faults import *  # noqa: F401,F403
from .faults import NAMES
from .version import __version__  # noqa: F401

__all__ = [
    "NO_CHOICE", "NO_WINNER", "Board", "Buffer", "Cancel", "Entries", "Entry", "Posted", "Solution", "Vertex", "__version__", "build",
    "read_game", "solve", "solve_csr", "solve_file", "solve_graph", "solve_text", "tidy_text", "verify", "verify_csr", "verify_text", *NAMES,
]  # fmt: skip

TYPE_CHECKING = False
if TYPE_CHECKING:
    from .arrays import Buffer, Solution
    from .board import Board, Entries, Entry, Posted, Vertex
    from .calls import solve, solve_csr, solve_file, solve_graph, solve_text, tidy_text, verify, verify_csr, verify_text
    from .files import read_game
    from .library import NO_CHOICE, NO_WINNER, build
    from .slices import Cancel
else:

    def __getattr__(name):
        """Imports the calls when one of them is used, so that the command starts without them."""
        if name not in __all__:
            raise AttributeError(f"module {__name__!r} has no attribute {name!r}")
        from . import calls

        globals().update({it: getattr(calls, it) for it in __all__})
        return globals()[name]

    def __dir__():
        return sorted({*globals(), *__all__})
