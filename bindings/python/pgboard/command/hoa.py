"""Reads parity automata and parity games in the HOA format (version 1).

An automaton is deterministic and has the header `controllable-AP`. A game has the header
`spot-state-player`, by which each state has an owner, and its edges need not be deterministic. Labels stand
at edges or states or are implied by the order of edges; sets of the condition stand at states or edges. The
condition is max or min, even or odd, in whatever order and groups; conditions of one set or none, as
Buchi's, are such ones. Whatever is not read is refused with its place.
"""

# mypy: ignore-errors

import re
from array import array
from itertools import product

from . import WORDS, Refused, called, shown
from .diagrams import Diagrams
from .games import Game, place_of, reached
from .texts import Tokens, kinds

MOST = 10**9
# what reads the rest of each header that is known
HEADERS = {
    "HOA:": "version",
    "States:": "count",
    "Start:": "start",
    "AP:": "propositions",
    "controllable-AP:": "outputs",
    "Alias:": "alias",
    "Acceptance:": "acceptance",
    "spot-state-player:": "players",
    "acc-name:": "names_condition",
}
# headers that may say whose a state or a proposition is
PLAYERS = re.compile("(?i)player|owner|controll")
COMMENT = re.compile(r"(/\*)|\*/")
IN_STRING = re.compile(r'(?s)\\.|"')
VALUES = {"t": ["t"], "f": ["f"]}
# of names that `acc-name` gives whether the greatest set decides, whether odd ones accept, and how many sets
# there are
NAMED = {"Buchi": (True, 0, 1), "co-Buchi": (True, 1, 1), "all": (True, 1, 0), "none": (True, 0, 0)}


class Text(Tokens):
    """An automaton's text, in which comments may be nested."""

    pattern = kinds(
        blank=r"\s+|/\*",
        string='"',
        header=r"[A-Za-z_][\w.-]*:",
        name=r"@[\w-]+|[A-Za-z_][\w-]*",
        number=r"[0-9]{1,9}(?![0-9])",
        part=r"--[A-Z]+--",
        sign=r"[][{}()&|!]",
    )

    def end_of(self, found):
        if found[0] == "--ABORT--":
            why = "the tool that wrote this has given up: what is before --ABORT-- is no automaton"
            self.refuse(why, found.start())
        if found[0] == '"':
            ends = (it.end() for it in IN_STRING.finditer(self.text, found.end()) if it[0] == '"')
            return next(ends, None) or self.refuse("this quote is never closed", found.start())
        return self.end_of_nested(COMMENT, found.start()) if found[0] == "/*" else found.end()

    def number(self, below):
        if not below:
            self.refuse("no number can stand here")
        if not self.next_is("a number") or int(self.next.text) >= below:
            known = {1: "0", 2: "0 or 1", MOST: "a number"}
            self.wants(known.get(below, f"a number from 0 to {below - 1}"))
        return int(self.take("a number").text)

    def string(self):
        return re.sub(r"(?s)\\(.)", r"\1", self.take("a string").text[1:-1])


def is_parity(tree, greatest, odd, count):
    """Whether an acceptance condition is the parity condition of so many sets, in whatever order and groups
    its operands stand.
    """
    for at in reversed(range(count)) if greatest else range(count):
        wins = at % 2 == odd
        leaf = ["Inf" if wins else "Fin", at]
        if at == (0 if greatest else count - 1):
            return tree == leaf
        if tree[0] != ("|" if wins else "&") or len(tree) != 3 or leaf not in tree[1:]:
            return False
        tree = tree[1 if tree[2] == leaf else 2]
    return tree == ["t" if odd == greatest else "f"]


def joined(operator, _, left, right):
    """A condition of operands, of which none has the same operator."""
    if left[0] != operator:
        left = [operator, left]
    left.extend(right[1:] if right[0] == operator else [right])
    return left


class Automaton:
    """A parity automaton or a parity game: of each state its edges, (letters, priority, target).

    A set of letters is a decision diagram, in which propositions have the order in which labels first name
    them (Fujita, Fujisawa and Kawato 1988). Priorities are those of a game in which the greatest decides, and
    in which even ones accept. In a game `owners` has the player of each state; player 1 wins where the
    automaton accepts. Of an automaton it is None.
    """

    def __init__(self, path, text):
        self.tokens = Text(path, text)
        self.first = self.names = self.controllable = self.condition = self.owners = self.name = None
        self.inputs, self.levels = (), {}
        self.states, self.diagrams = MOST, Diagrams(f"{called(path)}: the labels")
        self.aliases, self.edges, self.called, self.headers = {}, {}, {}, {}
        # where states are described, in the order of these; of each that is not yet, where it is first named
        self.places, self.targets = array("I"), {}
        if not self.tokens.next_is("HOA:"):
            self.tokens.refuse("expected HOA:")
        while not self.tokens.takes("--BODY--"):
            self.header()
        if self.owners is None:
            self.need("controllable-AP:")
        self.need("Start:", "AP:", "Acceptance:")
        if self.name and self.name[0] not in self.conditions:
            self.tokens.refuse("the header acc-name: contradicts the header Acceptance:", self.name[1])
        if self.owners and self.states not in (MOST, len(self.owners)):
            why = f"spot-state-player: has {len(self.owners)} players for {self.states} states"
            self.tokens.refuse(why, self.headers["spot-state-player:"])
        self.states = min(self.states, MOST if self.owners is None else len(self.owners))
        while not self.ends("--END--"):
            self.state()
        self.tokens.take("--END--")
        if self.tokens.next:
            self.tokens.refuse("only one automaton is read")
        for state, at in self.targets.items():
            self.tokens.refuse(f"state {state} is not described", at)

    def need(self, *headers):
        for header in headers:
            if header not in self.headers:
                line = " ".join(["controllable-AP:", *map(str, self.inputs[-1:])])
                cure = f": add a line such as `{line}`, with the numbers of what the controller chooses"
                why = f"there is no header {header} before this"
                self.tokens.refuse(why + cure * (header == "controllable-AP:"))

    def ends(self, *words):
        """Whether one of these is next, since a text doesn't end before --END--."""
        if not self.tokens.next:
            self.tokens.refuse("the text ends here, without its last line --END--")
        return self.tokens.next_is(*words)

    def header(self):
        tokens = self.tokens
        at, name = tokens.at(), tokens.take("a header").text
        if name in ("Alias:", "controllable-AP:") and self.names is None:
            tokens.refuse("the header AP: has to come before this one", at)
        if name in HEADERS:
            if name in self.headers and name not in ("Start:", "Alias:"):
                tokens.refuse(f"the header {name} is given twice", at)
            self.headers[name] = at
            getattr(self, HEADERS[name])()
        elif name[0].isupper() or PLAYERS.search(name):
            # by the format, what a header with a capital letter says may not be passed over; players change a
            # game too
            tokens.refuse(f"the header {shown(name)} is not read", at)
        else:
            while tokens.takes("a string", "a name", "a number", "a sign"):
                pass

    def version(self):
        self.tokens.take("v1")

    def count(self):
        self.states = self.tokens.number(MOST)

    def start(self):
        at = self.tokens.at()
        if self.first is not None:
            self.tokens.refuse("a second first state is not read")
        self.first = self.tokens.number(MOST)
        self.targets[self.first] = at
        if self.tokens.next_is("&"):
            why = "an alternating automaton, which begins in several states at once, is not read"
            self.tokens.refuse(why)

    def propositions(self):
        names = {}
        for number in range(self.tokens.number(MOST)):
            at, name = self.tokens.at(), self.tokens.string()
            if names.setdefault(name, number) < number:
                self.tokens.refuse(f"the proposition {shown(name)} is given twice", at)
        self.names = list(names)
        self.inputs = range(len(names))

    def outputs(self):
        controllable = {}
        while self.tokens.next_is("a number"):
            at, proposition = self.tokens.at(), self.tokens.number(len(self.names))
            if proposition in controllable:
                self.tokens.refuse(f"proposition {proposition} is given twice", at)
            controllable[proposition] = at
        self.controllable = list(controllable)
        self.inputs = [it for it in self.inputs if it not in controllable]

    def players(self):
        self.owners = []
        while self.tokens.next_is("a number"):
            self.owners.append(self.tokens.number(2))

    def alias(self):
        at, name = self.tokens.at(), self.tokens.take("a name").text
        if name[0] != "@" or name in self.aliases:
            why = "is defined twice" if name in self.aliases else "does not begin with @"
            self.tokens.refuse(f"the alias {shown(name)} {why}", at)
        self.aliases[name] = self.label()

    def acceptance(self):
        at, count = self.tokens.at(), self.tokens.number(MOST)
        self.leaf, self.join, self.negation = self.set_condition, joined, []
        tree = self.joined()
        self.conditions = [it for it in product((True, False), (0, 1), [count]) if is_parity(tree, *it)]
        if not self.conditions:
            self.tokens.refuse("this is no parity condition: max or min, even or odd", at)
        self.condition = greatest, _, _ = self.conditions[0]
        self.none = self.priority(-1 if greatest else count)

    def set_condition(self):
        if self.tokens.next_is(*VALUES):
            return VALUES[self.tokens.take("a name").text]
        name = self.tokens.take("Inf", "Fin").text
        self.tokens.take("(")
        number = self.tokens.number(MOST)
        self.tokens.take(")")
        return [name, number]

    def names_condition(self):
        """What acc-name says where it names a parity condition, which has to be that of Acceptance."""
        at, words = self.tokens.at(), []
        while self.tokens.next_is("a name", "a number", "a sign"):
            words.append(self.tokens.take("a name", "a number", "a sign").text)
        kind = NAMED.get(" ".join(words))
        if len(words) == 4 and words[0] == "parity" and words[3].isdigit():
            kind = words[1] == "max", int(words[2] == "odd"), int(words[3])
        self.name = kind and (kind, at)

    def priority(self, number):
        """That of a set. What is in none has a lower one, `none`."""
        greatest, odd, count = self.condition
        return number + 2 - odd if greatest else count + (count + odd) % 2 - number

    def sets(self, priority):
        """The greatest of this priority and those of the sets that come next."""
        if self.tokens.takes("{"):
            while not self.tokens.takes("}"):
                priority = max(priority, self.priority(self.tokens.number(self.condition[2])))
        return priority

    def state(self):
        tokens = self.tokens
        tokens.take("State:")
        # what all edges of the state are labelled with, or None
        common = self.bracket() if tokens.next_is("[") else None
        place, state = tokens.at(), tokens.number(self.states)
        if state in self.edges:
            tokens.refuse(f"state {state} is described twice", place)
        self.places.append(place)
        self.targets.pop(state, None)
        if tokens.next_is("a string"):
            self.called[state] = tokens.string()
        here, edges, seen, count = self.sets(self.none), self.edges.setdefault(state, []), 0, 0
        implied = common is None and tokens.next_is("a number")
        while not self.ends("State:", "--END--"):
            at = tokens.at()
            letters = self.implied(count) if implied else self.bracket() if common is None else common
            count += 1
            if self.owners is None and not implied:
                if self.diagrams.both(letters, seen):
                    why = f"an edge of state {state} before this one takes a letter of it"
                    tokens.refuse(f"not deterministic: {why}", at)
                seen = self.diagrams.either(letters, seen)
            at, target = tokens.at(), tokens.number(self.states)
            if target not in self.edges:
                self.targets.setdefault(target, at)
            edge = letters, self.sets(here), target
            if letters:
                edges.append(edge)
        if implied and count != 1 << len(self.names):
            has = "1 edge without a label" if count == 1 else f"{count} edges without labels"
            width = len(self.names)
            letters = 1 << width if width < 30 else f"2^{width}"
            tokens.refuse(f"{has}, where each of {letters} letters has to have one", place)

    def implied(self, at):
        """The letter of an edge without a label: the first edge's is that without propositions, and so on."""
        if not self.tokens.next_is("a number") or at >= 1 << len(self.names):
            self.tokens.refuse("expected an edge without a label for each letter, and no other edge")
        return self.diagrams.cube({self.level(it): at >> it & 1 for it in range(len(self.names))})

    def level(self, proposition):
        return self.levels.setdefault(proposition, len(self.levels))

    def bracket(self):
        self.tokens.take("[")
        letters = self.label()
        self.tokens.take("]")
        return letters

    def label(self):
        self.leaf, self.join, self.negation = self.atom, self.join_letters, ["!"]
        return self.joined()

    def join_letters(self, sign, _, left, right):
        return self.diagrams.either(left, right) if sign == "|" else self.diagrams.both(left, right)

    def joined(self):
        """What | and & join, brackets group, and a sign of negation may stand before."""
        return self.tokens.chain(("|", "&"), self.part, self.join)

    def part(self):
        is_negated = False
        while self.tokens.takes(*self.negation):
            is_negated = not is_negated
        if self.tokens.takes("("):
            found = self.tokens.inside(self.joined, 6)
            self.tokens.take(")")
        else:
            found = self.leaf()
        return self.diagrams.inverse(found) if is_negated else found

    def atom(self):
        tokens = self.tokens
        if tokens.next_is("a number"):
            return self.diagrams.variable(self.level(tokens.number(len(self.names))))
        name = tokens.next.text if tokens.next else ""
        known = self.aliases if name in self.aliases else {"t": 1, "f": 0}
        if name not in known:
            tokens.refuse("expected a number of a proposition, t, f, an alias from above, ! or (")
        return known[tokens.take("a name").text]

    def taken(self, state, edges):
        """Which of a state's edges each letter takes, as these are given; false where it takes none."""
        found = 0
        for (letters, *_), edge in zip(self.edges[state], edges):
            found = self.diagrams.choice(letters, edge, found)
        return found

    def steps(self, state):
        """The numbers of the edges that letters take, and these edges (priority, target). In a game in which
        the players take turns an edge is a move of player 0 and one of player 1.

        Player 0 begins, and chooses the propositions that are not controllable; each choice of them has one
        edge.
        """
        if self.owners is None:
            edges = [it[1:] for it in self.edges[state]]
            return self.taken(state, map(self.diagrams.leaf, range(len(edges)))), edges
        self.check_moves(state, 0)
        after, found = {}, {}
        for _, priority, middle in self.edges[state]:
            if (priority, middle) not in after:
                self.check_moves(middle, 1)
                edges = [(max(priority, last), to) for _, last, to in self.edges[middle]]
                leaves = [self.diagrams.leaf(found.setdefault(it, len(found))) for it in edges]
                after[priority, middle] = self.taken(middle, leaves)
        return self.taken(state, [after[it[1:]] for it in self.edges[state]]), list(found)

    def check_moves(self, state, player):
        """Refuses a state that is not the player's, or whose edges are no choices of his propositions."""
        place = lambda: place_of(self.places, self.edges, state)
        refuse = lambda why: self.tokens.refuse(f"state {state}: {why}", place())
        if self.owners[state] != player:
            turns = "they have to take turns, and player 0 begins"
            refuse(f"player {1 - player}'s, where player {player} moves: {turns}")
        seen = 0
        for letters, _, _ in self.edges[state]:
            tested = self.diagrams.levels(letters)
            for it, level in sorted(self.levels.items()):
                if level in tested and (it in self.controllable) != bool(player):
                    refuse(f"a label names {shown(self.names[it])}, which player {player} doesn't choose")
            if self.diagrams.both(letters, seen):
                refuse("not deterministic: two of its edges take one letter")
            seen = self.diagrams.either(letters, seen)
        if not player and seen != 1:
            refuse("no edge takes one of player 0's choices")


class Arena:
    """The game of environment and controller. Its vertices are

    ("state", q), where the environment chooses; ("edges", q, a leaf that has those that may follow), where
    the controller chooses one; ("edge", priority, target), which is taken; and ("lost",), where the automaton
    has no edge.
    """

    def __init__(self, automaton):
        if automaton.owners is not None:
            automaton.need("controllable-AP:")
        self.automaton, self.diagrams = automaton, automaton.diagrams
        # by the levels of outputs that labels name
        self.outputs = {automaton.levels[it]: it for it in automaton.controllable if it in automaton.levels}
        # of each state its steps, their edges, by inputs the sets of edges, and what these sets number
        self.steps = {}
        self.vertices, self.rows = reached(("state", automaton.first), self.row)
        self.numbers = {vertex: number for number, vertex in enumerate(self.vertices)}

    def row(self, vertex):
        kind, *more = vertex
        if kind == "edge":
            return more[0], 0, [("state", more[1])], f"to {more[1]}"
        if kind == "lost":
            return 1, 0, [vertex], "no edge"
        if kind == "edges":
            edges = self.steps[more[0]][1]
            some = [("edge", *edges[it]) for it in self.members(*more)]
            return 0, 0, some or [("lost",)], f"{more[0]}, the controller"
        steps, edges = self.automaton.steps(more[0])
        leaves = [it for it in self.diagrams.leaves(steps) if it]
        # a set of edges is a number that has bit k for the edge of leaf `first` + k
        marks = {0: 0, **{it: self.diagrams.leaf((at, 1)) for at, it in enumerate(leaves)}}
        sets = self.diagrams.fold(steps, marks.get)
        sets = self.diagrams.without(sets, self.outputs, lambda *it: self.diagrams.apply(self.union, *it))
        self.steps[more[0]] = steps, edges, sets, leaves
        after = [("edges", more[0], it) for it in self.diagrams.leaves(sets)]
        return 0, 1, after, f"{more[0]}, the environment"

    def union(self, left, right):
        if left == right or not (left and right):
            return left or right
        if not (self.diagrams.is_leaf(left) and self.diagrams.is_leaf(right)):
            return None
        (first, some), (second, other) = sorted(map(self.diagrams.value, (left, right)))
        return self.diagrams.leaf((first, some | other << second - first))

    def members(self, state, leaf):
        """The numbers of the edges of a set."""
        first, some = self.diagrams.value(leaf) or (0, 0)
        taken = zip(self.steps[state][3][first:], reversed(f"{some:b}"))
        return sorted(self.diagrams.value(it) for it, bit in taken if bit == "1")


def game_of(automaton, closes):
    """The game of the format, or of an automaton's environment and controller, in which Even is the
    controller.
    """
    if automaton.owners is not None:
        return owned(automaton, closes)
    if closes:
        why = "--dead-ends is for a game, and an automaton needs none"
        raise Refused(f"{called(automaton.tokens.path)}: {why}", WORDS)
    arena = Arena(automaton)
    game = Game.of_rows(arena.rows)
    game.states = {it[1]: at for it, at in arena.numbers.items() if it[0] == "state"}
    return game


def owned(automaton, closes):
    """The game of a game in the HOA format. A priority is one more than the automaton's, so that odd ones
    accept; 0 decides nowhere.
    """
    game = Game((), automaton.tokens.path, automaton.tokens.text, automaton.first)
    last = max(automaton.edges)
    game.decides = "greatest" if automaton.condition[0] else "least"
    game.states = dict(zip(automaton.edges, automaton.edges))
    sets = {automaton.priority(it): it for it in range(automaton.condition[2])}

    def put(id, own, *row):
        game.put(id, own + 1, *row)
        game.given[id] = sets.get(own)

    for state, edges in automaton.edges.items():
        owner, moves = automaton.owners[state], dict.fromkeys(it[1:] for it in edges)
        successors, (priority, *others) = [to for _, to in moves], {own for own, _ in moves} or {-1}
        if others:
            priority, successors = -1, range(last + 1, last + 1 + len(moves))
            last += len(moves)
            for id, (own, to) in zip(successors, moves):
                put(id, own, owner, [to], f"{state} to {to}")
        put(state, priority, owner, list(successors), automaton.called.get(state, ""))
        if not edges:
            if not closes:
                why = f"state {state} has no edge: with --dead-ends its owner loses there"
                automaton.tokens.refuse(why, place_of(automaton.places, automaton.edges, state))
            game.close(state)
    game.rows = dict(sorted(game.rows.items()))
    return game
