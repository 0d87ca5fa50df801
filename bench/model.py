#!/usr/bin/env python3
"""Writes an AIGER model of so many gates, the same from the same seed.

    model.py SEED INPUTS LATCHES GATES MODEL [--binary] [--bare] [--bit K]

Each gate reads two literals of variables that come before it in an order of the generator's own. In ASCII the variables
are numbered at random and the lines of the gates stand in a random order, so a reader has to find an order in which
they can be evaluated. In binary they stand in the generator's order, as that form wants. The first latches, at most 20,
count the positions in binary where there are gates enough; the other latches step to literals at random. There is one
property and one fairness literal, and with --bare neither; with --bit K a property alone, that bit K of the count is 1.
"""
import random
import sys

COUNTED = 20


class Maker:
    def __init__(self, chance, inputs, latches, gates, is_shuffled):
        self.chance = chance
        numbers = list(range(1, inputs + latches + gates + 1))
        if is_shuffled:
            shuffle(chance, numbers)
        self.inputs = numbers[:inputs]
        self.latches = numbers[inputs : inputs + latches]
        self.names = iter(numbers[inputs + latches :])
        self.known = [*self.inputs, *self.latches]
        self.gates = []

    def literal(self):
        return 2 * self.known[below(self.chance, len(self.known))] + below(self.chance, 2)

    def gate(self, first, second):
        variable = next(self.names)
        self.known.append(variable)
        self.gates.append((2 * variable, first, second))
        return 2 * variable


def below(chance, count):
    # random() is the one method whose sequence is the same in every version of Python
    return int(chance.random() * count)


def shuffle(chance, values):
    for last in range(len(values) - 1, 0, -1):
        other = below(chance, last + 1)
        values[last], values[other] = values[other], values[last]


def counter(maker, bits):
    """Next literals of latches that count: each bit turns where all below it are true. Four gates a bit."""
    carry, steps = 1, []
    for latch in maker.latches[:bits]:
        bit = 2 * latch
        both = maker.gate(bit, carry)
        neither = maker.gate(bit ^ 1, carry ^ 1)
        steps.append(maker.gate(both ^ 1, neither ^ 1))
        carry = both
    return steps


class Made:
    """A model: its inputs and latches, the latches' next literals, the fairness literals and the gates."""

    def __init__(self, seed, inputs, latches, gates, is_shuffled, is_bare, bit=None):
        chance = random.Random(seed)
        maker = Maker(chance, inputs, latches, gates, is_shuffled)
        bits = min(COUNTED, latches, gates // 3)
        steps = counter(maker, bits)
        while len(maker.gates) < gates:
            maker.gate(maker.literal(), maker.literal())
        self.steps = steps + [maker.literal() for _ in range(latches - bits)]
        self.fair = [maker.literal(), maker.literal()]
        if bit is not None:
            self.fair[0] = 2 * maker.latches[bit]
        if is_shuffled:
            shuffle(chance, maker.gates)
        self.inputs, self.latches, self.gates = maker.inputs, maker.latches, maker.gates
        self.is_bare, self.is_fair = is_bare, bit is None
        self.counts = f"{inputs + latches + gates} {inputs} {latches} 0 {gates}" + ("" if is_bare else f" 0 0 1 {int(self.is_fair)}")

    def properties(self):
        literals = self.fair if self.is_fair else self.fair[:1]
        return [] if self.is_bare else ["1", *map(str, literals)]


def ascii_text(made):
    lines = [f"aag {made.counts}"]
    lines += [f"{2 * variable}" for variable in made.inputs]
    lines += [f"{2 * variable} {step}" for variable, step in zip(made.latches, made.steps)]
    lines += made.properties()
    lines += [f"{left} {first} {second}" for left, first, second in made.gates]
    return ("\n".join(lines) + "\n").encode()


def binary_text(made):
    lines = [f"aig {made.counts}", *map(str, made.steps), *made.properties()]
    text = bytearray(("\n".join(lines) + "\n").encode())
    for left, first, second in made.gates:
        greater, less = max(first, second), min(first, second)
        push_delta(text, left - greater)
        push_delta(text, greater - less)
    return text


def push_delta(text, delta):
    while delta >= 128:
        text.append(delta % 128 + 128)
        delta //= 128
    text.append(delta)


def main(words):
    usage = "usage: model.py SEED INPUTS LATCHES GATES MODEL [--binary] [--bare] [--bit K]"
    options, bit = words[5:], None
    if "--bit" in options[:-1]:
        place = options.index("--bit")
        bit = int(options[place + 1])
        del options[place : place + 2]
    if len(words) < 5 or not set(options) <= {"--binary", "--bare"}:
        sys.exit(usage)
    seed, inputs, latches, gates = map(int, words[:4])
    is_binary = "--binary" in options
    made = Made(seed, inputs, latches, gates, not is_binary, "--bare" in options, bit)
    with open(words[4], "wb") as file:
        file.write(binary_text(made) if is_binary else ascii_text(made))


if __name__ == "__main__":
    main(sys.argv[1:])
