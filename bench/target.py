#!/usr/bin/env python3
"""Writes a model whose property is one state, which a drawn run of another model comes to.

    target.py SEED POSITIONS MODEL TARGET [LATCH]

MODEL and TARGET are in ASCII. The run has so many positions, as far as inputs are found that the constraints allow; a latch
that the reset leaves open begins with 0. TARGET has MODEL's circuit and constraints, gates that say that the latches are
those of the run's last position (but that the one with the number LATCH has the other value), and one property, whose
literal is the last of these gates.
"""
import random
import sys

from l2s import in_order, read_model

# So many inputs are tried for a position.
TRIES = 1_000


def last_state(model, seed, positions):
    """The latches of the run's last position."""
    inputs, latches, gates, constraints, _, _ = model
    draw, gates = random.Random(seed), list(in_order(gates, {0, *inputs, *(latch[0] for latch in latches)}))
    state = [latch[2] if latch[2:] and latch[2] < 2 else 0 for latch in latches]
    for _ in range(positions - 1):
        values = position_of(draw, inputs, latches, gates, constraints, state)
        if values is None:
            break
        state = [value(values, latch[1]) for latch in latches]
    return state


def position_of(draw, inputs, latches, gates, constraints, state):
    """The values of a position with these latches and drawn inputs, or nothing."""
    for _ in range(TRIES):
        values = {0: 0} | {literal: draw.getrandbits(1) for literal in inputs}
        values |= {latch[0]: bit for latch, bit in zip(latches, state)}
        for gate, one, other in gates:
            values[gate] = value(values, one) & value(values, other)
        if all(value(values, literal) for literal in constraints):
            return values
    return None


def value(values, literal):
    return values[literal & ~1] ^ (literal & 1)


def write_target(model, state, path):
    inputs, latches, gates, constraints, _, _ = model
    literals = [latch[0] ^ (bit == 0) for latch, bit in zip(latches, state)]
    most = max([0, *inputs, *(latch[0] for latch in latches), *(gate[0] for gate in gates)])
    goal, more = literals[0], []
    for literal in literals[1:]:
        most += 2
        more.append((most, goal, literal))
        goal = most
    head = (most // 2, len(inputs), len(latches), 0, len(gates) + len(more), 0, len(constraints), 1)
    lines = ["aag " + " ".join(map(str, head)), *map(str, inputs), *(" ".join(map(str, latch)) for latch in latches)]
    lines += [*map(str, constraints), "1", str(goal), *(" ".join(map(str, gate)) for gate in [*gates, *more])]
    with open(path, "w") as out:
        out.write("\n".join(lines) + "\n")


def main(words):
    seed, positions, source, path, *others = words
    model = read_model(source)
    state = last_state(model, int(seed), int(positions))
    for latch in others:
        state[int(latch)] ^= 1
    write_target(model, state, path)


if __name__ == "__main__":
    main(sys.argv[1:])
