"""The command `python3 -m pgboard`, which a wheel installs as `pgboard`. The script `pgboard` of a clone or a package
runs it for the words, flags and files that the program does not have.
"""

# mypy: ignore-errors

# (`signal` takes long to load, and Ctrl-C may come meanwhile)
import _signal

if _signal.getsignal(_signal.SIGINT) != _signal.SIG_IGN:
    _signal.signal(_signal.SIGINT, _signal.SIG_DFL)

import os
import sys

# (1 is an answer)
sys.excepthook = lambda *error: (sys.__excepthook__(*error), os._exit(7))
if not __package__:
    sys.path[0] = os.path.dirname(os.path.dirname(os.path.abspath(__file__)))
elif not (sys.flags.isolated or getattr(sys.flags, "safe_path", False)):
    # under -m it is the current folder, whose files may be named as Python's modules are
    del sys.path[0]

from pgboard.command import run
from pgboard.command.words import main


def command():
    run("pgboard", main)


if __name__ == "__main__":
    command()
