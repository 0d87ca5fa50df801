#!/usr/bin/env python3
"""Writes a safety model for a justice property: its output can be 1 exactly where the property has a fair lasso.

    l2s.py MODEL PROPERTY SAFETY

Liveness to safety (Biere, Artho, Schuppan, 2002): an input saves the state once, and the output is 1 where the saved
state comes again after each literal of the property and of fairness was true. MODEL is in ASCII, SAFETY in the binary
form of AIGER 1.0, whose latches all begin with 0 and which has no constraints: so a latch that begins with 1 is kept
negated, one that begins with either value takes an input's at first, and the output stays 0 once a constraint was false.
"""
import sys

FALSE, TRUE = 0, 1


class Safety:
    """A circuit of gates over inputs and latches. A literal is a number twice, and one more where it is negated."""

    def __init__(self):
        self.inputs, self.latches, self.gates, self.known, self.count = [], [], [], {}, 0

    def variable(self, kept):
        self.count += 1
        kept.append(self.count)
        return 2 * self.count

    def both(self, one, other):
        one, other = sorted((one, other))
        if one == FALSE or one == other ^ 1:
            return FALSE
        if one in (TRUE, other):
            return other
        if (one, other) not in self.known:
            self.count += 1
            self.gates.append((self.count, one, other))
            self.known[one, other] = 2 * self.count
        return self.known[one, other]

    def either(self, one, other):
        return self.both(one ^ 1, other ^ 1) ^ 1

    def choose(self, by, one, other):
        return self.either(self.both(by, one), self.both(by ^ 1, other))

    def equal(self, one, other):
        return self.choose(one, other, other ^ 1)

    def all(self, literals):
        found = TRUE
        for literal in literals:
            found = self.both(found, literal)
        return found

    def write(self, steps, output, path):
        """Writes the circuit with these next literals of its latches: inputs first, then latches, then gates."""
        places = {variable: place for place, variable in enumerate([*self.inputs, *self.latches, *(g[0] for g in self.gates)], 1)}
        placed = {2 * v + sign: 2 * p + sign for v, p in places.items() for sign in (0, 1)} | {FALSE: FALSE, TRUE: TRUE}
        counts = (len(places), len(self.inputs), len(self.latches), 1, len(self.gates))
        with open(path, "wb") as out:
            lines = ["aig " + " ".join(map(str, counts)), *(str(placed[step]) for step in steps), str(placed[output])]
            out.write(("\n".join(lines) + "\n").encode())
            for gate, one, other in self.gates:
                high, low = sorted((placed[one], placed[other]), reverse=True)
                out.write(delta(2 * places[gate] - high) + delta(high - low))


def delta(number):
    groups = bytearray()
    while number >= 128:
        groups.append(number % 128 + 128)
        number //= 128
    return bytes(groups + bytes([number]))


def read_model(path):
    """The inputs, latches, gates, constraints, properties and fairness literals of an ASCII model."""
    with open(path, "rb") as file:
        lines = iter(file.read().decode("latin1").split("\n"))
    head = [int(field) for field in next(lines).split()[1:]]
    _, inputs, latches, outputs, gates, bad, constraints, properties, fairness = head + [0] * (9 - len(head))

    def take(count):
        return [[int(field) for field in next(lines).split()] for _ in range(count)]

    inputs, latches, _ = [line[0] for line in take(inputs)], take(latches), take(outputs + bad)
    constraints, sizes = [line[0] for line in take(constraints)], [line[0] for line in take(properties)]
    properties = [[line[0] for line in take(size)] for size in sizes]
    fairness = [line[0] for line in take(fairness)]
    return inputs, latches, take(gates), constraints, properties, fairness


def state_of(safety, latches):
    """For each latch the variable that keeps it, whether it is kept negated, and its literal now."""
    started, kept = safety.variable(safety.latches), []
    for literal, _, *reset in latches:
        latch, negated = safety.variable(safety.latches), reset == [1]
        free = reset == [literal]
        now = safety.choose(started, latch, safety.variable(safety.inputs)) if free else latch ^ negated
        kept.append((literal, negated, now))
    return started, kept


def translate(model, property_number):
    inputs, latches, gates, constraints, properties, fairness = model
    safety = Safety()
    save = safety.variable(safety.inputs)
    values = {0: FALSE} | {literal: safety.variable(safety.inputs) for literal in inputs}
    _, kept = state_of(safety, latches)
    values |= {literal: now for literal, _, now in kept}

    def value(literal):
        return values[literal & ~1] ^ (literal & 1)

    for gate, one, other in in_order(gates, values):
        values[gate] = safety.both(value(one), value(other))
    broken, saved = safety.variable(safety.latches), safety.variable(safety.latches)
    holds = safety.both(broken ^ 1, safety.all(value(literal) for literal in constraints))
    take, off = safety.both(save, saved ^ 1), safety.both(save ^ 1, saved ^ 1)
    copies = [safety.variable(safety.latches) for _ in latches]
    seen = [safety.variable(safety.latches) for _ in properties[property_number] + fairness]
    again = safety.all(safety.equal(now, copy) for (_, _, now), copy in zip(kept, copies))
    steps = [TRUE]
    steps += [value(step) ^ negated for (_, step, *_), (_, negated, _) in zip(latches, kept)]
    steps += [holds ^ 1, off ^ 1]
    steps += [safety.choose(take, now, copy) for (_, _, now), copy in zip(kept, copies)]
    literals = properties[property_number] + fairness
    steps += [safety.both(off ^ 1, safety.either(met, value(literal))) for met, literal in zip(seen, literals)]
    # the state comes again at a position whose own constraints need not hold
    return safety, steps, safety.all([broken ^ 1, saved, again, *seen])


def in_order(gates, values):
    """The gates, each behind those that it reads."""
    by_variable, begun = {gate: (gate, one, other) for gate, one, other in gates}, set()
    for gate in by_variable:
        stack = [gate]
        while stack:
            at = stack[-1]
            open_ones = [read & ~1 for read in by_variable[at][1:] if read & ~1 in by_variable and read & ~1 not in begun]
            if at in begun:
                stack.pop()
            elif open_ones:
                stack.extend(open_ones)
            else:
                begun.add(stack.pop())
                yield by_variable[at]


def main(words):
    model, number, path = words
    safety, steps, output = translate(read_model(model), int(number))
    safety.write(steps, output, path)


if __name__ == "__main__":
    main(sys.argv[1:])
