"""Finds a controller that meets a specification, or says that there is none.

The specification is a deterministic parity automaton in the HOA format. Its
header `controllable-AP` names the propositions that the controller sets; the
environment sets the others. In each step the environment chooses its
propositions. Then the controller, who sees them, chooses his, and the
automaton takes the edge of that letter. The controller wins where the
automaton accepts; where it has no edge he does not.

Or it is a game in that format: by the header `spot-state-player` the
environment (0) and the controller (1) own states, and take turns.

pgboard solves the game and verifies the solution. The first line of the output
is REALIZABLE, or UNREALIZABLE where the environment keeps every controller
from it. After it is a Mealy machine for the controller, or a machine for the
environment, as a table in KISS2: each line has the inputs, the state, the next
state and the outputs. The environment's inputs are the controller's
propositions, and its outputs are the same on all lines of a state, since it
chooses first. States that behave alike are one. Each table is read again, and
`pgboard verify` judges its product with the automaton, a game of one player.

--aiger writes the machine as a circuit, in place of the table. Its inputs and
outputs have the names of the propositions. Its latches are the bits of the
state, from 0.
"""

# mypy: ignore-errors

import functools
import itertools

from . import FILE, Refused, aiger, engine, pictures, printable, write
from .games import Game, Solution, reached
from .hoa import Arena, Automaton
from .texts import text_of

HELP = """
example, an arbiter of two clients, and one that has to grant at once:
  python3 -m pgboard synthesise examples/synthesise/arbiter_2.hoa
  python3 -m pgboard synthesise --aiger - examples/synthesise/arbiter_2.hoa
  python3 -m pgboard synthesise examples/synthesise/arbiter_2_at_once.hoa

status: 0 where there is a controller, 1 where there is none, 2 or more where
something was refused
"""

MOST_ROWS = 1 << 18
WRONG = "the machine that was found"


class Machine:
    """A player's machine: of each state, by next states where these come, and where each proposition of
    `named` is written. These are diagrams of what is read, by its places in `order`.
    """

    def __init__(self, automaton, player):
        self.automaton, self.player, self.diagrams = automaton, player, automaton.diagrams
        self.reads, self.writes = (automaton.inputs, automaton.controllable)[:: -1 if player else 1]
        self.order = sorted(self.reads, reverse=bool(player))
        self.levels = [*map({it: at for at, it in enumerate(self.order)}.get, self.reads)]
        # what is written; other propositions that no label names are not, and so they are 0
        self.named = [it for it in self.writes if it in automaton.levels]
        self.first, self.steps = automaton.first, {}

    def names(self):
        return ([self.automaton.names[it] for it in some] for some in (self.reads, self.writes))

    def merge(self):
        """Makes states one that behave alike, by finer and finer groups (Hopcroft 1971)."""
        before, group = {state: [] for state in self.steps}, dict.fromkeys(self.steps, 0)
        for state, (targets, _) in self.steps.items():
            for to, reads in targets.items():
                before[to].append((state, reads))
        members = [set(before)]
        waiting = split(group, members, {state: tuple(step[1]) for state, step in self.steps.items()})
        for into in waiting:  # which grows on the way
            keys = {}
            for state, reads in (it for to in into for it in before[to]):
                keys[state] = self.diagrams.either(reads, keys.get(state, 0))
            waiting += split(group, members, keys)
        first = {group[state]: state for state in [*before][::-1]}
        kept, self.steps = self.steps, {}
        for state in before:
            if first[group[state]] == state:
                targets, _ = self.steps[state] = {}, kept[state][1]
                for to, reads in kept[state][0].items():
                    to = first[group[to]]
                    targets[to] = self.diagrams.either(reads, targets.get(to, 0))

    def rows(self):
        """The rows of the table: (cube that is read, state, next state, what is written)."""
        lines = ((state, *it) for state, step in self.steps.items() for it in self.lines(*step))
        rows = ((cube, *it) for *it, read in lines for cube in self.diagrams.cubes(read, self.levels))
        found = list(itertools.islice(rows, MOST_ROWS + 1))
        if len(found) > MOST_ROWS:
            raise Refused(f"the table has more than {MOST_ROWS:,} lines, and --aiger writes no table")
        return found

    def lines(self, targets, writes):
        """Of a state (next state, what is written, what is read)."""
        diagrams, found = self.diagrams, 0
        for to, reads in targets.items():
            found = diagrams.choice(reads, diagrams.leaf((to, "")), found)
        values = dict(zip(self.named, writes))
        varied = [it for it, one in values.items() if one > 1]
        for name in varied:
            is_1, is_0 = (diagrams.mapped(found, lambda it: (it[0], it[1] + bit)) for bit in "10")
            found = diagrams.choice(values[name], is_1, is_0)
        for it, reads in diagrams.parts(found).items():
            to, bits = diagrams.value(it)
            values.update(zip(varied, bits))
            yield to, "".join(str(values.get(it, 0)) for it in self.writes), reads

    def table(self, rows):
        inputs, outputs = (printable(" ".join(it)) for it in self.names())
        head = f"# inputs: {inputs}\n# outputs: {outputs}\n.i {len(self.reads)}\n.o {len(self.writes)}\n"
        head += f".p {len(rows)}\n.s {len({it[1] for it in rows})}\n.r s{rows[0][1]}\n"
        return head + "".join("{} s{} s{} {}\n".format(*row) for row in rows) + ".e\n"

    def read(self, text):
        """Reads a table."""
        seen = {}
        for line in text.splitlines():
            if line.startswith(".r "):
                self.first = line[3:]
            elif line[0] not in "#.":
                self.add(seen, *line.split(" "))

    def add(self, seen, read, state, to, written):
        either, bits = self.diagrams.either, zip(self.levels, read)
        read = self.diagrams.cube({level: bit == "1" for level, bit in bits if bit != "-"})
        if self.diagrams.both(read, seen.get(state, 0)):
            raise Refused(f"{WRONG} is none: {state} has two answers")
        seen[state] = either(read, seen.get(state, 0))
        targets, writes = self.steps.setdefault(state, ({}, [0] * len(self.named)))
        targets[to], bits = either(read, targets.get(to, 0)), dict(zip(self.writes, written))
        writes[:] = (either(read, it) if bits[name] == "1" else it for name, it in zip(self.named, writes))

    def check(self):
        """Judges the product of the machine with the automaton, in which the opponent alone chooses."""
        diagrams, known, loser = self.diagrams, {}, 1 - self.player
        for state in dict.fromkeys(itertools.chain(self.steps, *(it[0] for it in self.steps.values()))):
            targets, writes = self.steps.get(state, ({}, ()))
            if functools.reduce(diagrams.either, targets.values(), 0) != 1:
                raise Refused(f"{WRONG} is none: {state} has no answer to something")
            if self.player and not {0, 1}.issuperset(writes):
                raise Refused(f"{WRONG} is none: {state} has two answers")
        # (no edge has this leaf)
        other = diagrams.leaf(None)
        letters = {state: self.letters(*step) for state, step in self.steps.items()}

        def row(vertex):
            kind, *more = vertex
            if kind == "edge":
                return more[0], loser, [("at", *more[1:])], ""
            if kind == "lost":
                return 1, loser, [vertex], ""
            state, at = more
            known[at] = steps, edges = known.get(at) or self.automaton.steps(at)
            leaves = lambda some: diagrams.leaves(diagrams.choice(some, steps, other))
            taken = ((to, it) for to, some in letters[state] for it in leaves(some) if it != other)
            edge = lambda to, priority, target: ("edge", priority, to, target)
            after = (edge(to, *edges[diagrams.value(it)]) if it else ("lost",) for to, it in taken)
            return 0, loser, list(after), ""

        _, rows = reached(("at", self.first, self.automaton.first), row)
        won = Solution(dict.fromkeys(range(len(rows)), (self.player, None)))
        said = engine.verdict(Game.of_rows(rows), won)
        if said != "ok":
            raise Refused(f"{WRONG} fails: {said}", FILE)

    def letters(self, targets, writes):
        """Of a state (next state, the letters that lead there)."""
        diagrams, level, known, written = self.diagrams, self.automaton.level, {}, 1
        placed = lambda it: diagrams.placed(it, lambda at: diagrams.variable(level(self.order[at])), known)
        for it, one in sorted(zip(self.named, map(placed, writes)), key=lambda it: -level(it[0])):
            same = diagrams.choice(diagrams.variable(level(it)), one, diagrams.inverse(one))
            written = diagrams.both(same, written)
        return [(to, diagrams.both(placed(reads), written)) for to, reads in targets.items()]


def split(group, members, keys):
    """Splits groups of which some states have a key, and the others none, where keys differ. The largest part
    keeps the group's number; the others are returned.
    """
    parts, made = {}, []
    for state, key in keys.items():
        parts.setdefault(group[state], {}).setdefault(key, []).append(state)
    for number, by_key in parts.items():
        lists = sorted(by_key.values(), key=len)
        rest = len(members[number]) - sum(map(len, lists))
        if rest < len(lists[-1]):
            # (the rest is listed only where it is no more than what was touched)
            kept = lists.pop()
            lists.append(list(members[number].difference(kept, *lists)))
        for states in filter(None, lists):
            members[number].difference_update(states)
            group.update(dict.fromkeys(states, len(members)))
            members.append(set(states))
            made.append(states)
    return made


class Play(Arena):
    """The game of environment and controller, and the machine of its winner."""

    def chosen(self, solution, *vertex):
        return self.vertices[solution[self.numbers[vertex]][1]][1:]

    def controller(self, solution, state):
        """By inputs the next state, and where each output holds: 0 before 1, the last output first."""
        diagrams, (steps, edges, sets, _) = self.diagrams, self.steps[state]

        def edge(leaf):
            taken = self.chosen(solution, "edges", state, leaf)
            return diagrams.leaf(next(it for it in self.members(state, leaf) if edges[it] == taken))

        edge_by_input, writes = diagrams.fold(sets, edge), {}
        right = diagrams.apply(self.same, steps, edge_by_input)
        tested = diagrams.levels(right).intersection(self.outputs)
        for level in sorted(tested, key=self.outputs.get, reverse=True):
            output = diagrams.variable(level)
            may_be_0 = diagrams.both(right, diagrams.inverse(output))
            may_be_0 = diagrams.without(may_be_0, self.outputs, diagrams.either)
            writes[level] = diagrams.inverse(may_be_0)
            right = diagrams.both(right, diagrams.choice(output, writes[level], may_be_0))
        return diagrams.mapped(edge_by_input, lambda it: edges[it][1]), writes

    def same(self, left, right):
        if left == right or self.diagrams.is_leaf(left) and self.diagrams.is_leaf(right):
            return int(left == right)

    def environment(self, solution, state):
        """By outputs the next state, and which inputs hold."""
        diagrams, (steps, edges, sets, _) = self.diagrams, self.steps[state]
        levels = [self.automaton.levels[it] for it in self.automaton.inputs if it in self.automaton.levels]
        cubes = diagrams.cubes(diagrams.parts(sets)[self.chosen(solution, "state", state)[1]], levels)
        values = dict(zip(levels, (int(it == "1") for it in next(cubes))))
        after = diagrams.placed(steps, lambda it: values.get(it, diagrams.variable(it)), {})
        # without an edge the environment has won, and may do what it likes
        to = lambda it: state if it is False else edges[it][1]
        return diagrams.mapped(after, to), values

    def machine(self, solution):
        machine, states, known = Machine(self.automaton, solution[0][0]), [self.automaton.first], {}
        step = self.environment if machine.player else self.controller
        levels, diagrams = self.automaton.levels, self.diagrams
        of = {levels.get(it): diagrams.variable(at) for at, it in enumerate(machine.order)}
        placed = lambda diagram: diagrams.placed(diagram, of.get, known)
        for state in states:
            if state not in machine.steps:
                after, writes = step(solution, state)
                targets = {diagrams.value(it): reads for it, reads in diagrams.parts(placed(after)).items()}
                machine.steps[state] = targets, [placed(writes.get(levels[it], 0)) for it in machine.named]
                states += targets
        machine.merge()
        return machine


def draw(path, rows):
    arrows = {}
    for read, state, to, written in rows:
        arrows.setdefault((state, to), []).append(f"{read} / {written}")
    labelled = ((*ends, "\n".join(labels)) for ends, labels in arrows.items())
    pictures.draw_machine(path, len({it[1] for it in rows}), rows[0][1], labelled)


def add_options(parser):
    parser.add_argument(
        "specification", metavar="SPEC.hoa", help="an automaton or a game; - is standard input"
    )
    circuits = "write a circuit: ASCII to .aag and -, binary to .aig"
    parser.add_argument("--aiger", metavar="FILE", type=aiger.path, help=circuits)
    pictures.add_option(parser, "the machine")
    parser.add_argument("--game", metavar="FILE", help="write the game")


def main(given):
    automaton = Automaton(given.specification, text_of(given.specification))
    play = Play(automaton)
    game = Game.of_rows(play.rows)
    if given.game is not None:
        write(given.game, game.written())
    solution = engine.solved(game).solution.rows
    winner, machine = solution[0][0], play.machine(solution)
    rows = [] if given.aiger is not None and given.picture is None else machine.rows()
    circuit = lambda: aiger.Circuit(machine)
    if given.aiger is not None:
        machine.check()
        text = circuit().text() if given.aiger == "-" else ""
    else:
        text, again = machine.table(rows), Machine(automaton, winner)
        again.read(text)
        again.check()
    print("UNREALIZABLE\n" if winner else "REALIZABLE\n", text, sep="", end="", flush=True)
    if given.aiger not in (None, "-"):
        aiger.write(given.aiger, circuit())
    if given.picture:
        draw(given.picture, rows)
    return winner
