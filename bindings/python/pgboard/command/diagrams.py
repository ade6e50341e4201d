"""Reduced ordered decision diagrams (Bryant 1986), whose leaves may be more than false and true (Fujita,
McGeer and Yang 1997).

A diagram is a number, and equal diagrams are one number: 0 is false, and 1 is true. Variables are tested by
rising levels. What a call has found is remembered, so that it takes at most as many steps as its diagrams
have nodes, multiplied. Recursion is as deep as there are levels.
"""

# mypy: ignore-errors

from . import Refused

# the nodes of all diagrams together, each of some 200 bytes; as many results of calls are remembered
MOST_NODES = 1 << 21
# the level of leaves
LEAF = 1 << 40


class Diagrams:
    def __init__(self, owner="the labels"):
        # of each diagram (level, where its variable is false, where true); of a leaf (LEAF, value, None)
        self.nodes = [(LEAF, False, None), (LEAF, True, None)]
        self.numbers, self.known, self.owner = {}, {}, owner

    def made(self, node):
        number = self.numbers.get(node)
        if number is None:
            number = len(self.nodes)
            if number >= MOST_NODES:
                raise Refused(f"{self.owner}: their decision diagrams have more than {MOST_NODES:,} nodes")
            self.numbers[node] = number
            self.nodes.append(node)
        return number

    def node(self, level, low, high):
        """What one diagram is where a variable is false, and another one where it is true."""
        return low if low == high else self.made((level, low, high))

    def leaf(self, value):
        return self.made((LEAF, value, None))

    def value(self, leaf):
        return self.nodes[leaf][1]

    def is_leaf(self, diagram):
        return self.nodes[diagram][0] == LEAF

    def variable(self, level):
        return self.made((level, 0, 1))

    def halves(self, diagram, level):
        """The cofactors of a diagram that tests nothing above a level: where its variable is false, and where
        it is true.
        """
        own, low, high = self.nodes[diagram]
        return (low, high) if own == level else (diagram, diagram)

    def apply(self, of, *given):
        """The diagram that `of` makes of others; where it says None their halves tell."""
        found = of(*given)
        if found is None:
            known = self.known.setdefault(of, {})
            found = known.get(given)
            if found is None:
                level = min([self.nodes[it][0] for it in given])
                lows, highs = zip(*[self.halves(it, level) for it in given])
                found = self.node(level, self.apply(of, *lows), self.apply(of, *highs))
                if len(known) >= MOST_NODES:
                    known.clear()
                known[given] = found
        return found

    # --- of false and true; `then` and `other` may have other leaves ---

    def choice(self, test, then, other):
        """What `then` is where `test` is true, and what `other` is elsewhere."""
        return self.apply(chosen, test, then, other)

    def both(self, test, then):
        return self.choice(test, then, 0)

    def either(self, left, right):
        return self.choice(left, 1, right)

    def inverse(self, diagram):
        return self.choice(diagram, 0, 1)

    def cube(self, bits):
        """Where the variables of some levels are as given."""
        found = 1
        for level in sorted(bits, reverse=True):
            found = self.node(level, *((0, found) if bits[level] else (found, 0)))
        return found

    def cubes(self, diagram, levels):
        """Disjoint cubes that together are a diagram: what each has at these levels, 0, 1 or - for either."""
        waiting = [(diagram, {})]
        while waiting:
            diagram, path = waiting.pop()
            if not self.is_leaf(diagram):
                level, low, high = self.nodes[diagram]
                waiting += [(high, {**path, level: "1"}), (low, {**path, level: "0"})]
            elif diagram:
                yield "".join(path.get(it, "-") for it in levels)

    # --- of all nodes ---

    def fold(self, diagram, of, join=None, known=None):
        """What `join` makes of a node's level and of what was made of both its halves, where `of` makes it of
        the leaves; by itself a diagram of other leaves. The lower halves come first.
        """
        known = {} if known is None else known
        if diagram not in known:
            level, low, high = self.nodes[diagram]
            if level == LEAF:
                known[diagram] = of(diagram)
            else:
                sides = self.fold(low, of, join, known), self.fold(high, of, join, known)
                known[diagram] = (join or self.node)(level, *sides)
        return known[diagram]

    def mapped(self, diagram, of):
        """The diagram of other values in the leaves."""
        return self.fold(diagram, lambda leaf: self.leaf(of(self.value(leaf))))

    def without(self, diagram, levels, join):
        """What `join` makes of both halves at each node of these levels."""
        joined = lambda level, *halves: join(*halves) if level in levels else self.node(level, *halves)
        return self.fold(diagram, lambda leaf: leaf, joined)

    def placed(self, diagram, of, known):
        """The diagram over other diagrams in place of its variables."""
        join = lambda level, low, high: self.choice(of(level), high, low)
        return self.fold(diagram, lambda leaf: leaf, join, known)

    def parts(self, diagram):
        """Where each leaf of a diagram is."""

        def join(level, low, high):
            return {it: self.node(level, low.get(it, 0), high.get(it, 0)) for it in {**low, **high}}

        return self.fold(diagram, lambda leaf: {leaf: 1}, join)

    def leaves(self, diagram):
        found = {}
        self.fold(diagram, found.setdefault, lambda *_: None)
        return list(found)

    def levels(self, diagram):
        """Those of its nodes."""
        found = set()
        self.fold(diagram, bool, lambda level, *_: found.add(level))
        return found


def chosen(test, then, other):
    if test < 2 or then == other:
        return then if test else other
    return test if (then, other) == (1, 0) else None
