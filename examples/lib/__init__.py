"""What a script of examples/ has beside the Python package pgboard. Nothing in this folder is a command.

A clone has the package in bindings/python; elsewhere it is installed. A script imports this first, before
all that takes time to load.
"""

# (`signal` takes long to load, and Ctrl-C may come meanwhile)
import _signal

if _signal.getsignal(_signal.SIGINT) != _signal.SIG_IGN:
    _signal.signal(_signal.SIGINT, _signal.SIG_DFL)

import os
import sys

# (1 is an answer)
sys.excepthook = lambda *error: (sys.__excepthook__(*error), os._exit(7))
sys.path.insert(1, os.path.join(os.path.dirname(os.path.abspath(__file__)), "..", "..", "bindings", "python"))
try:
    import pgboard.command  # noqa: F401
except ImportError:
    print(
        "the Python package pgboard is not here: install its wheel, or run this in a clone of the repository",
        file=sys.stderr or open(os.devnull, "w"),
    )
    sys.exit(4)
