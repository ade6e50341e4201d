#!/usr/bin/env python3
"""Writes the games that the worked uses make of a random model or specification:
`uses.py FOLDER NAME..`. A name is modelcheck_N or synthesise_N, of a game of about N vertices.
"""

import os
import random
import sys

sys.path.append(os.path.join(os.path.dirname(os.path.abspath(__file__)), "..", "bindings", "python"))

from pgboard.command import modelcheck, synthesise, write
from pgboard.command.games import Game

CONDITION = "Fin(5) & (Inf(4) | (Fin(3) & (Inf(2) | (Fin(1) & Inf(0)))))"

# fixed points that alternate three deep, with priorities from 0 to 2
FORMULA = (
    "nu A. ([true] A && [ask] nu X. mu Y. "
    "(([fail] X && [work] Y) || (<answer> true || <ask> nu Z. (<work> Z || <fail> Y))))"
)
LABELS = ["ask", "answer", "fail", *["work"] * 5]


def model_of(chance, states):
    """Threads of work that go on to near states, and now and then back by a long way."""
    lines = []
    for state in range(states):
        for _ in range(chance.randint(1, 3)):
            to = state + chance.randint(1, 9) if chance.random() < 0.9 else chance.randrange(states)
            lines.append(f'({state}, "{chance.choice(LABELS)}", {to % states})\n')
    return f"des (0, {len(lines)}, {states})\n" + "".join(lines)


def specification_of(chance, states):
    """An automaton of six sets, of which the greater ones are rare: in each state one input says which of
    two outputs matters.
    """
    lines = ['HOA: v1\nStart: 0\nAP: 4 "i0" "i1" "o0" "o1"\ncontrollable-AP: 2 3\n']
    lines.append(f"Acceptance: 6 {CONDITION}\n--BODY--\n")
    for state in range(states):
        lines.append(f"State: {state}\n")
        given = chance.randrange(2)
        for label in (f"{given} & 2", f"{given} & !2", f"!{given} & 3", f"!{given} & !3"):
            to = (state + chance.randint(-9, 9)) % states
            lines.append(f"[{label}] {to} {{{min(chance.randrange(6), chance.randrange(6))}}}\n")
    return "".join([*lines, "--END--\n"])


def write_game(folder, name):
    kind, _, size = name.rpartition("_")
    chance, path = random.Random(name), os.path.join(folder, name)
    if kind == "modelcheck":
        formula = modelcheck.Formula("formula", FORMULA)
        text = model_of(chance, int(size) // 10)
        write(f"{path}.aut", text)
        rows = modelcheck.Product(modelcheck.Model("model", text), formula).rows
    else:
        text = specification_of(chance, int(size) // 6)
        write(f"{path}.hoa", text)
        rows = synthesise.Play(synthesise.Automaton("specification", text)).rows
    write(f"{path}.pg", Game.of_rows(rows).written())


if __name__ == "__main__":
    for wanted in sys.argv[2:]:
        write_game(sys.argv[1], wanted)
