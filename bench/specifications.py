#!/usr/bin/env python3
"""Writes specifications of controllers in the HOA format, and measures `synthesise` on them:
`specifications.py FOLDER [NAME..]`. A name is arbiter_N or unasked_N of N clients, counter_N of N bits, lift_N
of N floors or random_N of N propositions; with _turns after it the players take turns.
"""

import os
import random
import re
import subprocess
import sys

HERE = os.path.dirname(os.path.abspath(__file__))
COMMAND = os.path.join(HERE, "..", "bindings", "python", "pgboard")
NAMES = [f"arbiter_{n}{turns}" for turns in ("", "_turns") for n in (2, 4, 8, 12, 16)]
NAMES += [f"unasked_{n}" for n in (2, 4, 8, 12, 16)]
NAMES += [f"{kind}_{n}{turns}" for kind in ("counter", "lift") for turns in ("", "_turns") for n in (4, 8)]
NAMES += [f"random_{20 + at}" for at in range(1, 21)]


class Specification:
    """States are numbered as they are added. An edge has two labels, of inputs and of outputs, and the labels
    of inputs of a state are disjoint.
    """

    def __init__(self, inputs, outputs, acceptance):
        self.inputs, self.outputs, self.acceptance = inputs, outputs, acceptance
        # of each state, by a label of inputs, its edges (label of outputs, target, sets)
        self.states, self.aliases = [], []

    def add(self, rows):
        self.states.append(rows)

    def head(self, names, states):
        first = len(self.inputs)
        lines = [f"HOA: v1\nStates: {states}\nStart: 0"]
        lines.append(f"AP: {len(names)} " + " ".join(f'"{it}"' for it in names))
        lines.append("controllable-AP: " + " ".join(map(str, range(first, len(names)))))
        lines += [f"Alias: {name} {label}" for name, label in self.aliases]
        return [*lines, f"Acceptance: {self.acceptance}"]

    def text(self):
        lines = [*self.head(self.inputs + self.outputs, len(self.states)), "--BODY--"]
        for state, rows in enumerate(self.states):
            lines.append(f"State: {state}")
            for given, edges in rows.items():
                lines += [f"[({given}) & ({taken})] {to} {sets}" for taken, to, sets in edges]
        return "\n".join([*lines, "--END--", ""])

    def turns(self):
        """The same as a game: after each state's label of inputs a state of the controller."""
        middle = len(self.states)
        owners, first, later = [0] * middle, [], []
        for state, rows in enumerate(self.states):
            first.append(f"State: {state}")
            for given, edges in rows.items():
                first.append(f"[{given}] {len(owners)}")
                later += [f"State: {len(owners)}", *(f"[{taken}] {to} {sets}" for taken, to, sets in edges)]
                owners.append(1)
        lines = self.head(self.inputs + self.outputs, len(owners))
        players = f"spot-state-player: {' '.join(map(str, owners))}"
        return "\n".join([*lines, players, "--BODY--", *first, *later, "--END--", ""])


def arbiter(clients, asked=""):
    """At most one client is granted at a time. A client whose turn it is has not asked, or waits until it is
    granted; then it is the next one's turn.
    """
    asks, grants = ([f"{name}_{it}" for it in range(clients)] for name in ("request", "grant"))
    made = Specification(asks, grants, "1 Inf(0)")
    # that none is granted, and at most one, from a client on
    grant = lambda it: clients + it
    made.aliases = [("@none", "t"), ("@one", "t")]
    for it in reversed(range(clients)):
        none, one = made.aliases[-2][0], made.aliases[-1][0]
        made.aliases.append((f"@none{it}", f"!{grant(it)} & {none}"))
        made.aliases.append((f"@one{it}", f"{grant(it)}{asked.format(it)} & {none} | !{grant(it)} & {one}"))
    for it in range(clients):
        after = (it + 1) % clients
        done = f"@one0 & {grant(it)}", 2 * after, "{0}"
        waits = f"@one0 & !{grant(it)}", 2 * it + 1, ""
        made.add({f"!{it}": [("@one0", 2 * after, "{0}")], str(it): [done, waits]})
        made.add({"t": [done, waits]})
    return made


def unasked(clients):
    """An arbiter that grants nothing unasked. So a client whose turn it is waits until it asks once more."""
    return arbiter(clients, " & {}")


def counter(bits):
    """The outputs are the value of a counter, which an input resets and another one lets count; and a third
    output holds at the greatest value alone.
    """
    made = Specification(["enable", "reset"], [*(f"bit_{it}" for it in range(bits)), "full"], "0 t")
    size = 1 << bits
    for value in range(size):
        each = [("" if value >> it & 1 else "!") + str(2 + it) for it in range(bits)]
        shows = " & ".join([*each, ("" if value == size - 1 else "!") + str(2 + bits)])
        to = lambda it: [(shows, it, "")]
        made.add({"1": to(0), "!1 & 0": to((value + 1) % size), "!1 & !0": to(value)})
    return made


def lift(floors):
    """A lift that moves by one floor at most in a step, and opens only where it stays. One floor after the other
    is watched, until its button is not pressed or the lift opens there.
    """
    buttons, moves = [f"button_{it}" for it in range(floors)], ["up", "down", "open"]
    made = Specification(buttons, moves, "1 Inf(0)")
    up, down, opens = range(floors, floors + 3)
    number = lambda at, watched, waits: (at * floors + watched) * 2 + waits
    for at in range(floors):
        for watched in range(floors):
            for waits in (0, 1):
                rows = {}
                for given in ("t",) if waits else (str(watched), f"!{watched}"):
                    is_served = given[0] == "!"
                    after = (watched + 1) % floors, 0, "{0}"
                    stays = after if is_served else (watched, 1, "")
                    rows[given] = edges = []
                    ways = [(f"!{up} & !{down} & !{opens}", at, stays)]
                    ways += [(f"!{up} & !{down} & {opens}", at, after if at == watched else stays)]
                    ways += [(f"{up} & !{down} & !{opens}", at + 1, stays)] * (at + 1 < floors)
                    ways += [(f"!{up} & {down} & !{opens}", at - 1, stays)] * (at > 0)
                    edges += [(label, number(to, *more[:2]), more[2]) for label, to, more in ways]
                made.add(rows)
    return made


def drawn(propositions):
    """Ten states of which each looks at three inputs and three outputs."""
    chance, half = random.Random(propositions), propositions // 2
    sides = ("in_", half), ("out_", propositions - half)
    names = [[f"{name}{it}" for it in range(count)] for name, count in sides]
    made = Specification(*names, "4 Inf(3) | (Fin(2) & (Inf(1) | Fin(0)))")
    for _ in range(10):
        rows, (first, second, third) = {}, chance.sample(range(half), 3)
        for given in (f"{first} & ({second} | {third})", f"{first} & !({second} | {third})", f"!{first}"):
            one, two, three = chance.sample(range(half, propositions), 3)
            edge = lambda label: (label, chance.randrange(10), f"{{{chance.choice([0, 0, 1, 1, 2, 3])}}}")
            taken = f"{one} & {two}", f"{one} & !{two} & {three}", f"!{one} & !{three}"
            rows[given] = [edge(it) for it in taken]
        made.add(rows)
    return made


KINDS = {"arbiter": arbiter, "unasked": unasked, "counter": counter, "lift": lift, "random": drawn}


def text_of(name):
    kind, size, *turns = name.split("_")
    made = KINDS[kind](int(size))
    return made.turns() if turns else made.text()


def measured(folder, name):
    """A row of the table: the answer, states, propositions, vertices of the game, processor time and memory of
    one call, with what it runs, and gates of the circuit.
    """
    path, text = os.path.join(folder, name), text_of(name)
    with open(f"{path}.hoa", "w") as file:
        file.write(text)
    words = [sys.executable, COMMAND, "synthesise", "--game", f"{path}.pg", "--aiger", "-", f"{path}.hoa"]
    with subprocess.Popen(words, stdout=subprocess.PIPE, stderr=subprocess.DEVNULL, text=True) as process:
        answer, head = process.stdout.read().splitlines()[:2]
        used = os.wait4(process.pid, 0)[2]
        process.returncode = 0
    states, propositions = (int(re.search(rf"{it}: (\d+)", text)[1]) for it in ("States", "AP"))
    with open(f"{path}.pg") as game:
        vertices = sum(1 for _ in game) - 2
    time, memory = used.ru_utime + used.ru_stime, used.ru_maxrss / 1024
    return name, answer, states, propositions, vertices, f"{time:.1f}", f"{memory:.0f}", head.split()[-1]


def main(folder, *names):
    print("| Specification | Answer | States | Propositions | Vertices | Seconds | MB | Gates |")
    print("|---|---|---|---|---|---|---|---|")
    for name in names or NAMES:
        row = measured(folder, name)
        print("|", " | ".join(["`" + row[0] + "`", *map(str, row[1:])]), "|", flush=True)


if __name__ == "__main__":
    main(*sys.argv[1:])
