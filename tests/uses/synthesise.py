#!/usr/bin/env python3
"""Tests of the word `synthesise`, and of games in the HOA format.

The check takes nothing of the script: it reads the table or the circuit, and follows machine and automaton
letter by letter. That is a game of one player, and plain.py says who wins it.
"""

import contextlib
import io
import itertools
import pathlib
import random
import re
import sys
import unittest.mock

sys.path.append(str(pathlib.Path(__file__).resolve().parents[1] / "lib"))
import circuits
import common
import plain
import scripts
from pgboard.command import diagrams, synthesise
from pgboard.files import read_game

SPECIFICATIONS = scripts.EXAMPLES / "synthesise"
KINDS = "max even", "max odd", "min even", "min odd"


def condition(kind, count):
    """A condition over this many sets: what decides most stands first."""
    direction, parity = kind.split()
    text = ""
    for it in range(count) if direction == "max" else reversed(range(count)):
        name, sign = ("Inf", "|") if it % 2 == (parity == "odd") else ("Fin", "&")
        rest = f"({text})" if " " in text else text
        text = f"{name}({it})" + (f" {sign} {rest}" if rest else "")
    # (without a set: in no set is the least number, and the greatest is odd)
    return text or "ft"[kind in ("max odd", "min even")]


def spelled_condition(chance, formula):
    leaf, sign, rest = re.fullmatch(r"(\w+(?:\(\d+\))?)(?: ([&|]) (.*))?", formula).groups()
    leaf = f"({leaf})" if chance.random() < 0.2 else leaf
    if not sign:
        return leaf
    rest = spelled_condition(chance, rest[1:-1] if rest[0] == "(" else rest)
    # (& binds more strongly than |, so what is inside it needs brackets)
    if sign == "&" or chance.random() < 0.5:
        rest = f"({rest})"
    parts = [leaf, rest] if chance.random() < 0.5 else [rest, leaf]
    return chance.choice([sign, f" {sign} "]).join(parts)


def holds(formula, sets):
    """Whether a condition's formula holds on a run that sees exactly these sets again and again."""
    formula = formula.replace("&", "and").replace("|", "or")
    names = {"t": True, "f": False, "Inf": lambda it: it in sets, "Fin": lambda it: it not in sets}
    return eval(formula, names)


OTHER_LINES = [
    "",
    'tool: "a \\"tool\\"" "1"',
    "properties: deterministic\n/* a { note [ */",
    "a.tool-says: x 1 {",
    "States: 9",
]
OTHER_LINES += ['/* a /* note " */ in /* * a / **/ note */', 'name: "/* no note"/**/']


class Automaton:
    """A random deterministic automaton: of each state and letter the target and the sets that are visited,
    or nothing.
    """

    # how often labels are implied where they can be, how many sets there are at most, and in a game whose
    # each state is
    implies, most, owners = 0.4, 4, ()

    def __init__(self, seed):
        self.chance = chance = random.Random(seed)
        self.width = chance.randint(0, 4)
        self.controllable = chance.sample(range(self.width), chance.randint(0, self.width))
        self.count = chance.randint(0, self.most)
        self.kind = KINDS[seed % 4]
        self.states = chance.sample(range(9), chance.randint(1, 5))
        self.first = self.states[0]
        by_state, lacks = chance.random() < 0.5, chance.choice([0, 0, 0.03, 0.2])
        self.marks = {state: self.some_sets() if by_state else () for state in self.states}
        self.lines, self.next = {}, {}
        for state in self.states:
            marked = lambda: () if by_state and chance.random() < 0.8 else self.some_sets()
            edges = [(chance.choice(self.states), marked()) for _ in range(chance.randint(1, 4))]
            taken = {
                letter: chance.choice(edges) for letter in range(1 << self.width) if chance.random() >= lacks
            }
            self.lines[state] = [(edge, [it for it in taken if taken[it] is edge]) for edge in edges]
            self.next.update(
                {(state, letter): (edge[0], {*self.marks[state], *edge[1]}) for letter, edge in taken.items()}
            )

    def some_sets(self):
        return tuple(
            self.chance.sample(range(self.count), self.chance.choice([0, 1, 1, 2]) % (self.count + 1))
        )

    def spelled(self, letter, propositions):
        return " & ".join(("" if letter >> it & 1 else "!") + str(it) for it in propositions)

    def label(self, letters):
        is_turned = self.chance.random() < 0.3
        chosen = [it for it in range(1 << self.width) if (it in letters) != is_turned]
        text = " | ".join(self.spelled(it, range(self.width)) or "t" for it in chosen) or "f"
        return f"!({text})" if is_turned else text

    def text(self):
        chance = self.chance
        sets = lambda them: " {" + " ".join(map(str, them)) + "}" if them or chance.random() < 0.1 else ""
        formula = spelled_condition(chance, condition(self.kind, self.count))
        formula = formula.replace(" ", chance.choice(["", " ", "\n", " /* /**/ */ "]))
        lines = [
            "HOA: v1",
            f"Start: {self.first}",
            f"AP: {self.width}" + "".join(f' "p{it}"' for it in range(self.width)),
        ]
        lines += ["controllable-AP: " + " ".join(map(str, self.controllable)), chance.choice(OTHER_LINES)]
        lines += [f"acc-name: parity {self.kind} {self.count}"] * chance.randint(0, 1) + [
            f"Acceptance: {self.count} {formula}"
        ]
        if self.owners:
            lines = [it for it in lines if it != "States: 9"] + [
                f"spot-state-player: {' '.join(map(str, self.owners))}"
            ]
        lines.append("--BODY--")
        for state in chance.sample(self.states, len(self.states)):
            edges, common = self.lines[state], ""
            by_letter = sorted((letter, edge) for edge, letters in edges for letter in letters)
            labels = [f"[{self.label(letters)}] " for _, letters in edges]
            if chance.random() < self.implies and [letter for letter, _ in by_letter] == list(
                range(1 << self.width)
            ):
                # labels are implied by the order of edges
                edges, labels = [(edge, [letter]) for letter, edge in by_letter], [""] * len(by_letter)
            elif chance.random() < 0.4 and len(edges) == 1:
                common, labels = labels[0], [""]
            lines.append(
                f"State: {common}{state}" + chance.choice(["", ' "a state"']) + sets(self.marks[state])
            )
            lines += [f"{label}{to}{sets(them)}" for label, ((to, them), _) in zip(labels, edges)]
        return "\n".join([*lines, "--END--", ""])

    def priority(self, sets):
        """A priority of an edge with these sets, which is greater where they decide more, and odd where a run
        that sees them alone again and again is accepted.
        """
        decides = (
            max(sets, default=-1) + 1 if "max" in self.kind else self.count - min(sets, default=self.count)
        )
        return 2 * decides + holds(condition(self.kind, self.count), sets)


class Turns(Automaton):
    """A random automaton as a game of turns: player 0 chooses the inputs, which a state in between knows,
    and player 1 the outputs. A state's own sets are seen by the first move, and those of an edge by the
    second one.
    """

    def text(self):
        head = super().text().split("--BODY--")[0].replace("States: 9\n", "").rstrip()
        states, owners = {state: [] for state in range(9)}, [0] * 9
        inputs = [it for it in range(self.width) if it not in self.controllable]
        part = lambda letter: sum(letter & 1 << it for it in inputs)
        letters = range(1 << self.width)
        for state, given in itertools.product(self.states, sorted(set(map(part, letters)))):
            marks, between = set(self.marks[state]), len(owners)
            states[state].append(self.edge(given, inputs, between, marks))
            taken = (
                (it, *self.next[state, it])
                for it in letters
                if part(it) == given and (state, it) in self.next
            )
            states[between] = [self.edge(it, self.controllable, to, sets - marks) for it, to, sets in taken]
            owners.append(1)
        lines = (line for state, edges in states.items() for line in (f"State: {state}", *edges))
        players = f"spot-state-player: {' '.join(map(str, owners))}"
        return "\n".join([head, players, "--BODY--", *lines, "--END--", ""])

    def edge(self, letter, propositions, to, sets):
        return f"[{self.spelled(letter, propositions) or 't'}] {to} {{{' '.join(map(str, sets))}}}"


class Arena(Automaton):
    """A random game in the HOA format: the owner of a state takes any of its edges, and loses where there is
    none. Not each number is a state.
    """

    most = 13

    def __init__(self, seed):
        super().__init__(seed)
        chance = self.chance
        self.states.sort()
        self.first = chance.choice(self.states)
        self.owners = [chance.randrange(2) for _ in range(chance.randint(max(self.states) + 1, 9))]
        self.marks = {state: self.some_sets() if chance.random() < 0.4 else () for state in self.states}
        edge = lambda: (chance.choice(self.states), self.some_sets() if chance.random() < 0.8 else ())
        count = lambda: chance.randint(0, 2) % (1 + (1 << self.width))
        letters = lambda: chance.sample(range(1 << self.width), count())
        self.lines = {
            state: [(edge(), letters()) for _ in range(chance.randint(0, 2))] for state in self.states
        }
        for lines in self.lines.values():
            lines += [(edge(), [0])] * (chance.random() < 0.8)

    def won_by_1(self):
        """The states that player 1 wins, each of whose edges is a vertex of its own, which has its sets."""
        rows = {}
        for state, lines in self.lines.items():
            edges = [(state, at) for at, (_, letters) in enumerate(lines) if letters]
            rows[state] = (0 if edges else 1 - self.owners[state], self.owners[state], set(edges or [state]))
            rows.update(
                {
                    it: (self.priority({*self.marks[state], *lines[it[1]][0][1]}), 0, {lines[it[1]][0][0]})
                    for it in edges
                }
            )
        return {state for state, winner in plain.winners(rows).items() if winner and state in self.lines}


class Machine:
    """A table in KISS2: of each state its lines, (cube that is read, next state, what is written)."""

    def __init__(self, text):
        lines = text.splitlines()
        self.read_names, self.write_names = (line.split(": ", 1)[1].split() for line in lines[:2])
        heads = dict(line.split(" ", 1) for line in lines if re.match(r"\.[a-z] ", line))
        rows = [line.split(" ") for line in lines if not re.match(r"[#.]", line)]
        self.reads, self.writes, self.first = int(heads[".i"]), int(heads[".o"]), heads[".r"]
        assert (len(self.read_names), len(self.write_names)) == (self.reads, self.writes), text
        assert all(
            len(row) == 4 and len(row[0]) == self.reads and len(row[3]) == self.writes for row in rows
        ), text
        assert len(rows) == int(heads[".p"]) and lines[-1] == ".e", text
        self.rows = {}
        for read, state, to, written in rows:
            self.rows.setdefault(state, []).append((read, to, written))
        assert len(self.rows) == int(heads[".s"]) and self.first in self.rows, text

    def step(self, state, read):
        found = [row for row in self.rows[state] if all(a in ("-", b) for a, b in zip(row[0], read))]
        assert len(found) == 1, (state, read, found)
        return found[0][1:]


def groups(steps):
    """How many groups there are of states that behave alike, by the definition."""
    found = dict.fromkeys(steps, 0)
    for _ in steps:
        keys = {it: str([(found[to], written) for to, written in steps[it]]) for it in steps}
        found = {it: sorted(set(keys.values())).index(keys[it]) for it in steps}
    return len(set(found.values()))


def choices(width):
    return ["".join(it) for it in itertools.product("01", repeat=width)]


def product(automaton, machine, environment):
    outputs = automaton.controllable
    inputs = [it for it in range(automaton.width) if it not in outputs]
    reads, writes = ([int(it[1:]) for it in names] for names in (machine.read_names, machine.write_names))
    assert (sorted(reads), sorted(writes)) == (
        (sorted(outputs), inputs) if environment else (inputs, sorted(outputs))
    )
    found, edges, is_stuck = [(machine.first, automaton.first)], [], False
    for at in found:
        answers = [(read, *machine.step(at[0], read)) for read in choices(len(reads))]
        assert (
            not environment or len({written for *_, written in answers}) == 1
        ), "the environment chooses first"
        for read, to, written in answers:
            letter = sum(int(value) << it for it, value in [*zip(reads, read), *zip(writes, written)])
            if (at[1], letter) not in automaton.next:
                is_stuck = True
                continue
            target, sets = automaton.next[at[1], letter]
            edges.append((at, (to, target), sets))
            if (to, target) not in found:
                found.append((to, target))
    return edges, is_stuck


def by_letters(automaton):
    """The game in which the environment chooses the inputs of each letter, and the controller its outputs,
    and its first vertex.
    """
    inputs = [it for it in range(automaton.width) if it not in automaton.controllable]
    rows = {"lost": (1, 0, {"lost"})}
    for state in automaton.states:
        rows[state] = 0, 1, set()
        for letter in range(1 << automaton.width):
            given = state, tuple(letter >> it & 1 for it in inputs)
            target, sets = automaton.next.get((state, letter), ("lost", ()))
            edge = (state, letter, "edge") if target != "lost" else target
            rows[state][2].add(given)
            rows.setdefault(given, (0, 0, set()))[2].add(edge)
            if target != "lost":
                rows[edge] = automaton.priority(sets) + 1, 0, {target}
    numbers = {id: at for at, id in enumerate(rows)}
    game = {numbers[id]: (*it[:2], {numbers[to] for to in it[2]}) for id, it in rows.items()}
    return numbers[automaton.first], game


# the specifications, and whether there is a controller
KNOWN = {
    True: [*(f"arbiter_{count}" for count in range(2, 7)), "lift", "traffic_light"],
    False: ["arbiter_2_at_once", "arbiter_6_at_once", "lift_at_once", "traffic_light_hasty"],
}


def letters(cube):
    """The numbers that have bit j as the cube has it, or either."""
    found = [0]
    for at, value in enumerate(cube):
        found = [it | bit << at for it in found for bit in (0, 1) if value in ("-", str(bit))]
    return found


class Diagrams(unittest.TestCase):
    def test_random_formulas(self):
        """Each call agrees with truth tables, in which bit k is the value where variable j is bit j of k."""
        least, most = (lambda *it, of=of: of(it) if max(it) < 2 else None for of in (min, max))
        for seed in range(200):
            chance = random.Random(seed)
            width = chance.randint(0, 10)
            made, everything = diagrams.Diagrams(), (1 << (1 << width)) - 1
            column = lambda it: sum(1 << k for k in range(1 << width) if k >> it & 1)
            tables = {0: 0, 1: everything, **{made.variable(it): column(it) for it in range(width)}}
            for _ in range(30):
                test, then, other = (chance.choice(list(tables)) for _ in range(3))
                a, b, c = tables[test], tables[then], tables[other]
                for found, table in (
                    (made.both(test, then), a & b),
                    (made.either(test, then), a | b),
                    *((made.apply(of, test, then), table) for of, table in ((least, a & b), (most, a | b))),
                    (made.inverse(test), everything & ~a),
                    (made.choice(test, then, other), a & b | c & ~a),
                ):
                    # (equal diagrams are one number, and others are not)
                    self.assertEqual(tables.setdefault(found, table), table)
            self.assertEqual(len({*tables.values()}), len(tables))
            some = chance.sample(list(tables), min(len(tables), 5))
            self.check_leaves(made, width, {it: tables[it] for it in some})
            for it in some[1:]:
                self.check_substitution(made, width, tables, it, some[0], chance)

    def check_substitution(self, made, width, tables, diagram, other, chance):
        """Some variables may be as they like, and in place of some is another diagram."""
        levels = set(chance.sample(range(width), chance.randint(0, width)))
        bits = sum(1 << it for it in levels)
        holds = lambda k: tables[diagram] >> k & 1
        like = {k & ~bits for k in range(1 << width) if holds(k)}
        free = sum(1 << k for k in range(1 << width) if k & ~bits in like)
        self.check_leaves(made, width, {made.without(diagram, levels, made.either): free})
        put = lambda k: k | bits if tables[other] >> k & 1 else k & ~bits
        placed = made.placed(diagram, lambda it: other if it in levels else made.variable(it), {})
        self.check_leaves(made, width, {placed: sum(1 << k for k in range(1 << width) if holds(put(k)))})

    def check_leaves(self, made, width, tables):
        """Their cubes are disjoint and make them; and a diagram of leaves has each where it should."""
        joined, levels = made.leaf(0), range(width)
        for at, (diagram, table) in enumerate(tables.items(), 1):
            joined = made.choice(diagram, made.leaf(at), joined)
            cubes = list(made.cubes(diagram, levels))
            taken = sorted(k for it in cubes for k in letters(it))
            self.assertEqual(taken, [k for k in range(1 << width) if table >> k & 1])
            for it in cubes:
                cube = made.cube({j: v == "1" for j, v in enumerate(it) if v != "-"})
                self.assertEqual(made.both(cube, diagram), cube)
        each = list(enumerate(tables.values(), 1))
        last = [max([0, *(at for at, it in each if it >> k & 1)]) for k in range(1 << width)]
        parts = {made.value(leaf): part for leaf, part in made.parts(joined).items()}
        self.assertEqual({made.value(it) for it in made.leaves(joined)}, {*last})
        for at, part in parts.items():
            holds = {k for it in made.cubes(part, levels) for k in letters(it)}
            self.assertEqual(holds, {k for k, it in enumerate(last) if it == at})
            word = lambda k: "".join(str(k >> j & 1) for j in levels)
            first = next(made.cubes(part, levels)).replace("-", "0")
            self.assertEqual(first, min(map(word, holds)))


class Synthesise(scripts.Use, unittest.TestCase):
    name = "synthesise"

    def answer(self, path):
        status, out = self.call(path)
        first, _, rest = out.partition("\n")
        self.assertEqual(first, ("REALIZABLE", "UNREALIZABLE")[status])
        return not status, Machine(rest)

    def circuits(self, path):
        found = []
        for end in ("aag", "aig"):
            circuit = self.folder / f"circuit.{end}"
            status, out = self.call("--aiger", circuit, path)
            self.assertEqual(out, ("REALIZABLE\n", "UNREALIZABLE\n")[status])
            found.append(circuit.read_bytes())
        self.assertEqual(self.call("--aiger", "-", path)[1], out + found[0].decode())
        return [circuits.Circuit(it) for it in found]

    def known(self, name):
        return self.answer(SPECIFICATIONS / f"{name}.hoa")

    def test_known_specifications(self):
        for expected, names in KNOWN.items():
            for name in names:
                with self.subTest(name):
                    is_realizable, machine = self.known(name)
                    self.assertEqual(is_realizable, expected)
                    self.check_circuits(machine, SPECIFICATIONS / f"{name}.hoa")

    def test_random_automata(self):
        answers = []
        for seed in range(150):
            with self.subTest(seed=seed):
                automaton = Automaton(seed)
                answers.append(self.check_machines(automaton, self.file("random.hoa", automaton.text())))
        self.assertGreater(min(answers.count(True), answers.count(False)), 40)

    def check_circuits(self, machine, path):
        """They write what the table does, whatever is read."""
        for circuit in self.circuits(path):
            names = circuit.read_names, circuit.write_names
            self.assertEqual(names, (machine.read_names, machine.write_names))
            found = [(machine.first, circuit.first)]
            for state, bits in found:  # which grow on the way
                for read in choices(machine.reads):
                    (to, written), (after, given) = machine.step(state, read), circuit.step(bits, read)
                    self.assertEqual(given, written)
                    found += [(to, after)] * ((to, after) not in found)

    def check_machines(self, automaton, path):
        is_realizable, machine = self.answer(path)
        self.check_circuits(machine, path)
        edges, is_stuck = product(automaton, machine, not is_realizable)
        self.assertFalse(is_stuck and is_realizable)
        rows = {}
        for at, to, sets in edges:
            edge = at, to, automaton.priority(sets)
            rows.setdefault(at, (0, is_realizable, set()))[2].add(edge)
            rows[edge] = edge[2], 0, {to}
        # who has no edge any more has lost
        rows.update({to: (int(is_realizable), 0, {to}) for _, to, _ in edges if to not in rows})
        self.assertLessEqual({*plain.winners(rows).values()}, {int(is_realizable)}, automaton.text())
        steps = {state: [machine.step(state, it) for it in choices(machine.reads)] for state in machine.rows}
        self.assertEqual(groups(steps), len(steps))
        return is_realizable

    def test_each_check_of_a_machine(self):
        """Tables of which one thing alone is wrong. The output has to be the input, and without that there
        is no edge.
        """
        head = 'HOA: v1 Start: 0 AP: 2 "i" "o" controllable-AP: 1 Acceptance: 2 Fin(1) & Inf(0) --BODY-- '
        read = lambda text: synthesise.Automaton("a.hoa", f"{head}{text} --END--")
        same = read("State: 0 [0&1] 0 {0} [!0&!1] 0 {0}")
        each = read("State: 0 [1] 0 {0} [!1] 1 {0} State: 1 [t] 1 {1}")
        two, none, fails = "s0 has two answers", "s0 has no answer to something", "fails: "
        for name, automaton, player, rows, said in [
            ("right", same, 0, ["0 s0 s0 0", "1 s0 s0 1"], None),
            ("two answers, both right", same, 0, ["0 s0 s0 0", "1 s0 s0 1", "1 s0 s0 1"], two),
            ("no answer to an input", same, 0, ["1 s0 s0 1"], none),
            ("a letter without an edge", same, 0, ["0 s0 s0 0", "1 s0 s0 0"], fails),
            ("the same in a later state", same, 0, ["0 s0 s1 0", "1 s0 s1 1", "- s1 s1 1"], fails),
            ("right, by the other output", each, 0, ["- s0 s0 1"], None),
            ("an edge that is not accepted", each, 0, ["- s0 s0 0"], fails),
            ("such an edge in a later state", each, 0, ["- s0 s1 1", "0 s1 s1 0", "1 s1 s0 1"], fails),
            ("a state that nothing reaches", each, 0, ["- s0 s0 1", "- s1 s1 0"], None),
            ("the environment loses", same, 1, ["- s0 s0 0"], fails),
            ("the environment sees the output", same, 1, ["0 s0 s0 1", "1 s0 s0 0"], two),
            ("a state without a row", same, 0, ["0 s0 s0 0", "1 s0 s1 1"], "s1 has no answer to something"),
            ("the environment has no answer", same, 1, ["0 s0 s0 1"], none),
        ]:
            machine = synthesise.Machine(automaton, player)
            with self.subTest(name), self.refuses(said) if said else contextlib.nullcontext():
                machine.read("\n".join([f".r {rows[0].split(' ')[1]}", *rows]))
                machine.check()

    def test_forty_propositions(self):
        """A random automaton has the same answer where its propositions are some of forty."""
        answers = []
        for seed in range(40):
            automaton = Automaton(seed)
            automaton.implies, chance = 0, random.Random(seed)
            text, numbers = automaton.text(), chance.sample(range(40), automaton.width)
            head, body = text.split("--BODY--")
            moved = lambda it: str(numbers[int(it[0])])
            label = lambda it: re.sub("[0-9]+", moved, it[0])
            names = " ".join(f'"p{it}"' for it in range(40))
            others = [it for it in range(40) if it not in numbers and chance.random() < 0.5]
            chosen = [*(numbers[it] for it in automaton.controllable), *others]
            head = re.sub("(?m)^AP: .*$", f"AP: 40 {names}", head)
            head = re.sub("(?m)^controllable-AP:.*$", f"controllable-AP: {' '.join(map(str, chosen))}", head)
            wide = self.winner(head + "--BODY--" + re.sub(r"\[.*?\]", label, body))
            self.assertEqual(wide, self.winner(text), text)
            answers.append(wide)
        self.assertGreater(min(answers.count(0), answers.count(1)), 10)

    def winner(self, text):
        rows = enumerate(synthesise.Arena(synthesise.Automaton("a.hoa", text)).rows)
        return plain.winners({id: (priority, owner, set(to)) for id, (priority, owner, to, _) in rows})[0]

    def test_merged_machines(self):
        """They have a state for each group of those that behave alike, by the definition."""
        automaton = synthesise.Automaton("a.hoa", common.text_of(SPECIFICATIONS, "arbiter_2.hoa"))
        for seed in range(300):
            chance, machine = random.Random(seed), synthesise.Machine(automaton, 0)
            count, high = chance.randint(1, 12), machine.diagrams.variable(0)
            low = machine.diagrams.inverse(high)
            step = lambda: (chance.randrange(count), chance.choice((0, 0, 1)))
            steps = {it: [step(), step()] for it in range(count)}
            for it, ((to, one), (to_high, one_high)) in steps.items():
                written = machine.diagrams.choice(high, one_high, one)
                machine.steps[it] = {to: 1} if to == to_high else {to: low, to_high: high}, [written]
            machine.merge()
            self.assertEqual(len(machine.steps), groups(steps), seed)

    def test_arrays(self):
        """The Python API says names, the first vertex, and the vertices of states."""
        label = f"{'(' * 300}!!t{')' * 300}"
        text = "HOA: v1 Start: 5 AP: 0 Acceptance: 0 t spot-state-player: 0 0 1 0 0 1 --BODY-- "
        text += f'State: 5 "five" [{label}] 2 State: 2 "two" [t] 5 --END--'
        found = read_game(self.file("game.hoa", text))
        wanted = [2, 5], ["two", "five"], 1, {5: 1, 2: 0}, [1, 0]
        self.assertEqual((found.ids, *found[5:], list(found.indices)), wanted)
        found = read_game(SPECIFICATIONS / "arbiter_2.hoa")
        names = {state: found.names[vertex] for state, vertex in found.states.items()}
        self.assertEqual(names, {it: f"{it}, the environment" for it in (0, 1)})
        self.assertEqual((found.first, found.states[0]), (0, 0))

    def test_aliases_before_the_outputs_are_named(self):
        """Then the order of propositions in labels is another one, and the machine is the same."""
        text = common.text_of(SPECIFICATIONS, "arbiter_3.hoa")
        line = "controllable-AP: 3 4 5\n"
        moved = text.replace(line, "").replace("acc-name", f"{line}acc-name")
        for some in (line, "controllable-AP: 5 4 3\n"):
            self.assertEqual(self.winner(moved.replace(line, some)), 0)
        self.assertNotEqual(moved, text)
        path = self.file("moved.hoa", moved)
        circuits = (self.call("--aiger", "-", it) for it in (path, SPECIFICATIONS / "arbiter_3.hoa"))
        self.assertEqual(*circuits)

    def test_a_circuit_uses_numbers_without_a_state(self):
        circuit = self.call("--aiger", "-", SPECIFICATIONS / "traffic_light.hoa")[1]
        self.assertEqual(circuit.splitlines()[1], "aag 21 1 3 2 17")

    def test_winners_by_letters(self):
        """They are those of the game of all letters."""
        answers = []
        for seed in range(300):
            automaton = Automaton(seed)
            with self.subTest(seed=seed):
                answers.append(self.winner(automaton.text()))
                first, game = by_letters(automaton)
                self.assertEqual(answers[-1], plain.winners(game)[first])
        self.assertGreater(min(answers.count(0), answers.count(1)), 80)

    def test_outputs_that_are_inputs(self):
        """A table of seven, and a circuit of twenty, whose diagrams are small."""
        for width in (7, 20):
            names, both = " ".join(f'"p{it}"' for it in range(2 * width)), range(width)
            head = f"HOA: v1 Start: 5 AP: {2 * width} {names} Acceptance: 0 t controllable-AP: "
            head += " ".join(str(width + it) for it in both)
            same = "&".join(f"({it}&{it + width} | !{it}&!{it + width})" for it in both)
            path = self.file("same.hoa", f"{head} --BODY-- State: 5 [{same}] 5 --END--")
            lines = self.call("--aiger", "-", path)[1].splitlines()[1:]
            literals = [str(2 * it + 2) for it in both]
            wanted = [f"aag {width} {width} 0 {width} 0", *literals, *literals]
            self.assertEqual(lines[: 2 * width + 1], wanted)
            if width == 7:
                machine = self.answer(path)[1]
                for read in choices(width):
                    self.assertEqual(machine.step(machine.first, read), (machine.first, read))

    def test_an_arbiter_that_grants_nothing_unasked(self):
        text = common.load(common.ROOT / "bench" / "specifications.py").text_of("unasked_16")
        path, game = self.file("unasked.hoa", text), self.folder / "game.pg"
        with unittest.mock.patch.object(diagrams, "MOST_NODES", 20_000):
            self.assertEqual(self.call("--aiger", "-", "--game", game, path)[0], 0)
        self.assertEqual(len(game.read_text().splitlines()), 2 + 128)

    def test_random_games_with_turns(self):
        answers = []
        for seed in range(100):
            with self.subTest(seed=seed):
                game = Turns(seed)
                answers.append(self.check_machines(game, self.file("game.hoa", game.text())))
        self.assertGreater(min(answers.count(True), answers.count(False)), 25)

    def converted(self, *words):
        status, out, err = scripts.called(scripts.WORDS, ["convert", *words])
        self.assertEqual((status, err), (0, ""))
        return plain.game_of(out.encode()), out

    def test_random_games(self):
        wins = 0
        for seed in range(240):
            with self.subTest(seed=seed):
                arena = Arena(seed)
                game, text = self.converted("--dead-ends", self.file("game.hoa", arena.text()))
                self.assertIn(f";\nstart {arena.first};\n", text)
                self.assertEqual(
                    {it: game[it][1] for it in arena.states}, {it: arena.owners[it] for it in arena.states}
                )
                self.assertEqual(set(game), {*arena.states, *range(max(arena.states) + 1, max(game) + 1)})
                won = arena.won_by_1()
                self.assertEqual(set(arena.states) - scripts.even_wins(game), won)
                wins += len(won) / len(arena.states)
        self.assertTrue(60 < wins < 180, wins)

    def test_games_by_hand(self):
        games = re.findall(
            r"(?ms)^-- (.*?) \| (.*?) \| ?(.*?) \| ?(.*?)\n(.*?)(?=^-- |\Z)",
            common.text_of("tests", "uses", "hoa_games.txt"),
        )
        self.assertGreater(len(games), 20)
        for name, flags, won, said, text in games:
            with self.subTest(name):
                path = self.file("game.hoa", text)
                game, made = self.converted(*flags.split(), path)
                count = int(re.search("States: ([0-9]+)", text)[1])
                self.assertEqual(
                    [state for state in range(count) if state not in scripts.even_wins(game)],
                    [int(it) for it in won.split()],
                )
                for title, state in re.findall('State: .*?([0-9]+) "(.*?)"', text):
                    self.assertRegex(made, f'(?m)^{title} .* "{re.escape(state)}";$')
                if said:
                    self.assertEqual("REALIZABLE" if self.answer(path)[0] else "UNREALIZABLE", said)
                    self.circuits(path)

    def test_another_tool_reads_a_circuit(self):
        """Berkeley's ABC counts its inputs, outputs, latches and gates, of which there are no more."""
        common.installed("berkeley-abc")
        self.call("--aiger", self.folder / "it.aig", SPECIFICATIONS / "traffic_light.hoa")
        out = common.run(["berkeley-abc", "-c", "read_aiger it.aig; print_stats"], cwd=self.folder)[1]
        self.assertEqual(re.findall(r"(?<=[=/])\s*(\d+)", out.decode())[:4], ["1", "2", "3", "17"], out)

    def test_differences_of_each_size_in_the_binary_form(self):
        gate = 2 * 20_001
        circuit = object.__new__(synthesise.aiger.Circuit)
        circuit.latches, circuit.output_names, circuit.roots = 0, ["out"], [gate]
        circuit.input_names = [f"in_{it}" for it in range(20_000)]
        for difference in (127, 128, 129, 16_383, 16_384):
            circuit.gates = [(gate, gate - difference, gate - 2 * difference)]
            sides = circuits.Circuit(circuit.data()).gates[gate]
            self.assertEqual(sides, (gate - difference, gate - 2 * difference))

    def test_a_circuit_of_too_many_nodes(self):
        """An answer comes before a file, and none before a circuit that is the answer."""
        made = synthesise.aiger.Circuit

        def circuit(machine):
            with unittest.mock.patch.object(diagrams, "MOST_NODES", len(machine.diagrams.nodes) + 1):
                return made(machine)

        for path, wanted in (("-", ""), (self.folder / "c.aag", "REALIZABLE\n")):
            out, words = io.StringIO(), ["--aiger", path, SPECIFICATIONS / "arbiter_2.hoa"]
            few = unittest.mock.patch.object(synthesise.aiger, "Circuit", circuit)
            with few, contextlib.redirect_stdout(out), self.refuses("the labels: .* more than [0-9]+ nodes$"):
                self.script.main([self.name, *map(str, words)])
            self.assertEqual(out.getvalue(), wanted)

    def test_a_table_of_too_many_lines(self):
        words = "--aiger", "-", SPECIFICATIONS / "arbiter_2.hoa"
        with unittest.mock.patch.object(synthesise, "MOST_ROWS", 3):
            self.assertEqual(self.call(*words)[0], 0)
            with self.refuses("the table has more than 3 lines, and --aiger writes no table"):
                self.call(*words[2:])

    def test_names_with_signs(self):
        head = (
            r'HOA: v1 Start: 0 AP: 2 "x == \"a\"" "C:\\out'
            + '\n" controllable-AP: 1 Acceptance: 0 t --BODY-- '
        )
        path = self.file("a.hoa", f"{head}State: 0 [0&1 | !0&!1] 0 --END--")
        wanted = 'REALIZABLE\naag 1 1 0 1 0\n2\n2\ni0 x == "a"\no0 C:\\out\\n\n'
        self.assertEqual(self.call("--aiger", "-", path)[1], wanted)
        self.assertIn('# inputs: x == "a"\n# outputs: C:\\out\\n\n', self.call(path)[1])
        head = r"HOA: v1 Start: 0 AP: 0 Acceptance: 0 t spot-state-player: 0 --BODY-- "
        head += r'State: 0 "a \"b\" \\" [t] 0 --END--'
        path = self.file("a.hoa", head)
        self.assertEqual(self.converted(path)[1], "parity 0;\nstart 0;\n0 1 0 0 \"a 'b' \\\";\n")
        solved = scripts.called(scripts.WORDS, ["solve", "--keep-names", path])[:2]
        self.assertEqual(solved, (0, "paritysol 0;\n0 1 \"a 'b' \\\";\n"))

    def test_game_of_the_benchmarks(self):
        self.check_benchmark(10_000)

    def test_damaged_texts(self):
        for name in ("arbiter_2", "traffic_light_hasty"):
            text = common.text_of(SPECIFICATIONS, f"{name}.hoa")
            self.check_damaged(lambda it: self.call(self.file("damaged.hoa", it)), text)

    def test_many_aliases_take_little_time(self):
        def read(count):
            aliases = "".join(rf"Alias: @a{it + 1} @a{it} | 0\n" for it in range(count))
            text = scripts.HEAD.replace("Acceptance", rf"Alias: @a0 0\n{aliases}Acceptance") + scripts.BODY
            self.assertEqual(
                len(synthesise.Automaton("a.hoa", text.replace("\\n", "\n")).aliases), count + 1
            )

        self.check_growth(read, 6_000)

    def test_pictures_read_back(self):
        paths = [SPECIFICATIONS / f"{name}.hoa" for name in (*KNOWN[True], *KNOWN[False])]
        later = 'HOA: v1 Start: 7 AP: 1 "a" controllable-AP: 0 Acceptance: 0 t --BODY-- '
        later += "State: 7 [t] 7 --END--"
        for path in (*paths, self.file("later.hoa", later)):
            with self.subTest(path):
                picture = self.folder / "machine.dot"
                machine = Machine(self.call("--picture", picture, path)[1].partition("\n")[2])
                arrows = {}
                for state, rows in machine.rows.items():
                    for read, to, written in rows:
                        arrows.setdefault((state[1:], to[1:]), set()).add(f"{read} / {written}")
                _, edges = scripts.graph_of(picture.read_text())
                self.assertEqual(edges.pop(("first", machine.first[1:])), "")
                labels = {
                    it: set(style.removeprefix('label="').removesuffix('"').split("\n"))
                    for it, style in edges.items()
                }
                self.assertEqual(labels, arrows)


if __name__ == "__main__":
    common.main()
