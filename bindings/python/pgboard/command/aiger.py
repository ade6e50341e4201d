"""Circuits of and-gates and inverters with latches, and their texts in the AIGER format (version 1.0), ASCII
or binary.

A circuit is made of decision diagrams: one for each bit of the next state and for each output, over the bits
of the state and the inputs. It is made by choices of one variable after the other. Gates with the same inputs
are one. State numbers that no state has may go anywhere.
"""

# mypy: ignore-errors

from .. import command
from . import Refused, of_form, printable


class Gates:
    """And-gates over variables. A literal is twice a number, or one more where it is inverted: 0 is false,
    and 1 is true.
    """

    def __init__(self, diagrams, variables):
        # of each level the literal of its variable
        self.diagrams, self.variables = diagrams, variables
        self.inputs, self.made, self.known = {}, {}, {}

    def both(self, left, right):
        left, right = max(left, right), min(left, right)
        if right < 2 or left ^ right < 2:
            return left if right == 1 or left == right else 0
        if (left, right) not in self.made:
            self.made[left, right] = made = 2 * (len(self.variables) + len(self.inputs) + 1)
            self.inputs[made] = left, right
        return self.made[left, right]

    def either(self, left, right):
        return self.both(left ^ 1, right ^ 1) ^ 1

    def choice(self, variable, low, high):
        return self.either(self.both(variable ^ 1, low), self.both(variable, high))

    def between(self, least, most):
        """A literal of some function between two diagrams."""
        if least == 0 or most == 1:
            return int(least != 0)
        found = self.known.get((least, most))
        if found is None:
            diagrams = self.diagrams
            level = min(diagrams.nodes[it][0] for it in (least, most))
            (low, high), (low_most, high_most) = (diagrams.halves(it, level) for it in (least, most))
            each, any_of = diagrams.either(low, high), diagrams.both(low_most, high_most)
            if diagrams.both(each, any_of) == each:
                found = self.between(each, any_of)
            else:
                parts = self.between(low, low_most), self.between(high, high_most)
                found = self.choice(self.variables[level], *parts)
            self.known[least, most] = found
        return found

    def values(self, literals):
        """The diagrams of literals."""
        values = {0: 0, **{it: self.diagrams.variable(level) for level, it in self.variables.items()}}
        value = lambda it: self.diagrams.inverse(values[it & ~1]) if it & 1 else values[it & ~1]
        for gate, (left, right) in self.inputs.items():
            values[gate] = self.diagrams.both(value(left), value(right))
        return [value(it) for it in literals]


class Circuit:
    """The circuit of a machine: its literals are numbered as AIGER wants it, inputs, then latches, then
    gates.
    """

    def __init__(self, machine):
        self.diagrams, (self.input_names, self.output_names) = machine.diagrams, machine.names()
        self.latches = (len(machine.steps) - 1).bit_length()
        # the bits of the state are above the inputs
        levels = [*machine.levels, *range(-self.latches, 0)]
        variables = {it: 2 * at for at, it in enumerate(levels, 1)}
        self.gates, roots = self.made(variables, self.wanted(machine.steps))
        written = dict(zip(machine.named, roots[self.latches :]))
        self.roots = [*roots[: self.latches], *(written.get(it, 0) for it in machine.writes)]

    def wanted(self, steps):
        """Of each bit of the next state, and of each output, the least and the greatest diagram, by state and
        inputs.
        """
        number, columns = {state: at for at, state in enumerate(steps)}, []
        for targets, writes in steps.values():
            bits = [0] * self.latches
            for to, reads in targets.items():
                for it in (it for it in range(self.latches) if number[to] >> it & 1):
                    bits[it] = self.diagrams.either(reads, bits[it])
            columns.append([*bits[::-1], *writes])
        return [(self.by_state(it, 0), self.by_state(it, 1)) for it in zip(*columns)]

    def by_state(self, parts, free):
        """The diagram of those of the states, and of what a number without a state has."""
        for level in range(-1, -self.latches - 1, -1):
            parts = [*parts, free] if len(parts) % 2 else parts
            parts = [self.diagrams.node(level, *it) for it in zip(parts[::2], parts[1::2])]
        return parts[0]

    def made(self, variables, wanted):
        """The gates that are needed, by rising numbers, and the literals of the bits that are wanted."""
        gates = Gates(self.diagrams, variables)
        roots = [gates.between(*bounds) for bounds in wanted]
        both = self.diagrams.both
        for (least, most), value in zip(wanted, gates.values(roots)):
            if both(least, value) != least or both(value, most) != value:
                raise Refused("the circuit that was made is not that of the machine")
        needed = {it & ~1 for it in roots}
        for gate, sides in reversed(gates.inputs.items()):
            needed.update(it & ~1 for it in sides if gate in needed)
        order = [*variables.values(), *(gate for gate in gates.inputs if gate in needed)]
        new = {0: 0, **{old: 2 * at for at, old in enumerate(order, 1)}}
        literal = lambda old: new[old & ~1] | old & 1
        kept = [
            (new[gate], *sorted(map(literal, gates.inputs[gate]), reverse=True))
            for gate in order
            if gate in gates.inputs
        ]
        return kept, [literal(it) for it in roots]

    def head(self, word):
        inputs, outputs, gates = len(self.input_names), len(self.output_names), len(self.gates)
        return f"{word} {inputs + self.latches + gates} {inputs} {self.latches} {outputs} {gates}\n"

    def symbols(self):
        for letter, names in (
            ("i", self.input_names),
            ("l", [f"state_{it}" for it in range(self.latches)]),
            ("o", self.output_names),
        ):
            yield from (f"{letter}{at} {printable(name)}\n" for at, name in enumerate(names))

    def text(self):
        first = len(self.input_names) + 1
        lines = [f"{2 * it}\n" for it in range(1, first)]
        lines += [f"{2 * (first + at)} {root}\n" for at, root in enumerate(self.roots[: self.latches])]
        lines += [f"{root}\n" for root in self.roots[self.latches :]]
        lines += ["{} {} {}\n".format(*gate) for gate in self.gates]
        return "".join([self.head("aag"), *lines, *self.symbols()])

    def data(self):
        """The binary form, in which a gate is two differences, seven bits in a byte."""
        found = bytearray((self.head("aig") + "".join(f"{root}\n" for root in self.roots)).encode())
        for gate, left, right in self.gates:
            for difference in (gate - left, left - right):
                while difference > 127:
                    found.append(difference & 127 | 128)
                    difference >>= 7
                found.append(difference)
        return bytes(found) + "".join(self.symbols()).encode("utf-8", "surrogateescape")


# by its ending a file has the ASCII or the binary form, and `-` is ASCII
path = of_form(r"-|.*\.(aag|aig)", "circuit (.aag, .aig or -)")


def write(name, circuit):
    if name.endswith(".aig"):
        command.write(name, circuit.data())
    elif name != "-":
        command.write(name, circuit.text())
