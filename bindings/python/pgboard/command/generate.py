"""Writes a random game with the vertices 0, 1 and so on.

Priorities, owners, the numbers of successors and these themselves are drawn
evenly. The same words write the same bytes on each machine, under each version
of Python.
"""

# mypy: ignore-errors

import random
import re

from . import WORDS, Refused, number
from .games import MOST_VERTICES, check_size
from .texts import MOST

HELP = """
example:
  pgboard random 1000 --priorities 5 --successors 1-4 --seed 7 -o game.pg

status: 0 where it is done, 2 where the command line was refused, 3 where there
are too many edges, 4 where the output can't be written
"""


def within(least, most, what):
    """What argparse takes as the type of a number within bounds."""

    def word(text):
        if not least <= number(text) <= most:
            raise ValueError
        return number(text)

    word.__name__ = f"{what} (from {least} to {most})"
    return word


def bounds_of(word):
    found = re.fullmatch("([1-9][0-9]{0,6})(?:-([1-9][0-9]{0,6}))?", word, re.ASCII)
    if not found or int(found[2] or found[1]) < int(found[1]):
        raise ValueError
    return int(found[1]), int(found[2] or found[1])


bounds_of.__name__ = "number of successors, as 2, or from the least to the most, as 1-4"


def add_options(parser):
    vertices, priorities = within(1, MOST_VERTICES, "number"), within(1, MOST + 1, "number")
    parser.add_argument("vertices", metavar="VERTICES", type=vertices, help="how many vertices")
    said = "draw from 0 to P - 1 (8 priorities)"
    parser.add_argument("--priorities", metavar="P", type=priorities, default=8, help=said)
    said = "how many successors a vertex has, as 2, or from the least to the most (1-4)"
    parser.add_argument("--successors", metavar="K", type=bounds_of, default=(1, 4), help=said)
    parser.add_argument("--no-loops", action="store_true", help="no vertex leads to itself")
    seed, said = within(0, 2**64 - 1, "number"), "another game for each number (0)"
    parser.add_argument("--seed", metavar="S", type=seed, default=0, help=said)


def sampled(draw, count, below):
    """So many of the numbers below a bound: each set of them is as likely (Floyd's algorithm)."""
    found = set()
    for last in range(below - count, below):
        it = int(draw() * (last + 1))
        found.add(last if it in found else it)
    return found


def lines(given):
    least, most = given.successors
    others = given.vertices - given.no_loops
    if most > others:
        raise Refused(f"--successors: there are {others} vertices to lead to, not {most}", WORDS)
    # (of what Python draws, this alone is the same in each version)
    draw, edges = random.Random(given.seed).random, 0
    yield f"parity {given.vertices - 1};\n"
    for id in range(given.vertices):
        priority, owner = int(draw() * given.priorities), int(draw() * 2)
        found = sampled(draw, least + int(draw() * (most - least + 1)), others)
        successors = sorted(it + 1 if given.no_loops and it >= id else it for it in found)
        edges += len(successors)
        check_size("the game", 0, edges)
        yield f"{id} {priority} {owner} {','.join(map(str, successors))};\n"


def main(given):
    print("".join(lines(given)), end="")
