"""Reads circuits in the AIGER format (version 1.0), ASCII and binary, and follows them. Nothing of it is
taken from pgboard/command/aiger.py: tests compare the two.
"""


def demand(holds, why):
    if not holds:
        raise AssertionError(f"this is no circuit: {why}")


class Circuit:
    """A circuit as a machine: a state has a bit for each latch, and all are 0 at first."""

    def __init__(self, data):
        line, _, rest = data.partition(b"\n")
        word, *numbers = line.decode("ascii").split(" ")
        demand(word in ("aag", "aig") and len(numbers) == 5, "its head")
        self.most, *counts = map(int, numbers)
        self.is_binary, self.gates, self.rest = word == "aig", {}, rest
        inputs, latches, outputs, gates = counts
        demand(self.most == inputs + latches + gates, "a variable is none of an input, a latch or a gate")
        if self.is_binary:
            self.inputs = [2 * it + 2 for it in range(inputs)]
            self.latches = [(2 * (inputs + it) + 2, *self.numbers(1)) for it in range(latches)]
        else:
            self.inputs = [it for _ in range(inputs) for it in self.numbers(1)]
            self.latches = [tuple(self.numbers(2)) for _ in range(latches)]
        self.outputs = [it for _ in range(outputs) for it in self.numbers(1)]
        for at in range(gates):
            gate = self.binary_gate(2 * (inputs + latches + at) + 2) if self.is_binary else self.numbers(3)
            self.gates[gate[0]] = tuple(gate[1:])
        self.judge(gates)
        names = self.names()
        self.read_names, self.write_names = names[:inputs], names[inputs + latches :]
        bits = [f"state_{it}" for it in range(latches)]
        demand(names[inputs : inputs + latches] == bits, "the names of its latches")
        self.first = (0,) * latches

    def numbers(self, count):
        line, _, self.rest = self.rest.partition(b"\n")
        found = line.decode("ascii").split(" ")
        demand(
            len(found) == count and all(it.isdigit() and (it == "0" or it[0] != "0") for it in found), line
        )
        return list(map(int, found))

    def difference(self):
        """A number in bytes of seven bits, the lowest first, of which all but the last have their eighth
        bit.
        """
        value, shift = 0, 0
        while True:
            byte, self.rest = self.rest[0], self.rest[1:]
            value |= (byte & 127) << shift
            shift += 7
            if byte < 128:
                return value

    def binary_gate(self, gate):
        left = gate - self.difference()
        return gate, left, left - self.difference()

    def judge(self, count):
        defined = [*self.inputs, *(it for it, _ in self.latches), *self.gates]
        demand(
            len(self.gates) == count and sorted(defined) == [2 * it + 2 for it in range(self.most)],
            "variables are defined twice or never",
        )
        used = [
            *self.outputs,
            *(it for _, it in self.latches),
            *(it for sides in self.gates.values() for it in sides),
        ]
        demand(all(0 <= it <= 2 * self.most + 1 for it in used), "a literal of no variable")
        for gate, (left, right) in self.gates.items():
            demand(gate > left >= right, "a gate is before what it takes")

    def names(self):
        found = [line.partition(" ") for line in self.rest.decode("utf-8").splitlines()]
        counts = zip("ilo", map(len, (self.inputs, self.latches, self.outputs)))
        keys = [f"{letter}{at}" for letter, count in counts for at in range(count)]
        demand([key for key, _, _ in found] == keys, "its symbols")
        return [name for _, _, name in found]

    def step(self, state, read):
        values = {
            0: 0,
            **dict(zip(self.inputs, map(int, read))),
            **dict(zip((it for it, _ in self.latches), state)),
        }
        value = lambda literal: values[literal & ~1] ^ literal & 1
        for gate in sorted(self.gates):
            left, right = self.gates[gate]
            values[gate] = value(left) & value(right)
        return tuple(value(it) for _, it in self.latches), "".join(str(value(it)) for it in self.outputs)
