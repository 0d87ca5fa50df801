#!/usr/bin/env python3
"""Writes the model of `fairlive safety`, which is ASCII, in the binary form, for checkers that read that alone.

    safety.py TEXT BINARY

Variables are numbered anew: inputs, then latches, then gates, each behind those that it reads. Resets, the bad state
literal and the constraints stay, so that in berkeley-abc `read BINARY; fold; pdr` decides it (`fold` makes a latch of the
constraints). Where the reset leaves latches open it is `read BINARY; logic; undc; strash; zero; fold; pdr`: ABC takes these as 0
unless inputs give them their first values.
"""
import sys


def delta(number):
    groups = bytearray()
    while number >= 128:
        groups.append(number % 128 + 128)
        number //= 128
    return bytes(groups + bytes([number]))


def read_text(path):
    """The inputs, latches, bad state literals, constraints and gates of an ASCII model without outputs and properties."""
    with open(path, "rb") as file:
        lines = iter(file.read().decode("ascii").split("\n"))
    counts = [int(field) for field in next(lines).split()[1:]]
    _, inputs, latches, outputs, gates, bad, constraints = (counts + [0] * 2)[:7]
    if outputs or len(counts) > 7:
        sys.exit("safety.py: the model has outputs or properties")

    def take(count):
        return [[int(field) for field in next(lines).split()] for _ in range(count)]

    return take(inputs), take(latches), take(bad), take(constraints), take(gates)


def in_order(gates):
    """The gates, each behind those that it reads."""
    by_literal, placed = {gate[0]: gate for gate in gates}, set()
    for gate in gates:
        stack = [gate]
        while stack:
            waits = [by_literal[read & ~1] for read in stack[-1][1:] if read & ~1 in by_literal and read & ~1 not in placed]
            if stack[-1][0] in placed:
                stack.pop()
            elif waits:
                stack.extend(waits)
            else:
                placed.add(stack[-1][0])
                yield stack.pop()


def main(words):
    text, binary = words
    inputs, latches, bad, constraints, gates = read_text(text)
    ordered = list(in_order(gates))
    places = {line[0]: 2 * place for place, line in enumerate([*inputs, *latches, *ordered], 1)} | {0: 0}

    def placed(literal):
        return places[literal & ~1] ^ (literal & 1)

    counts = (len(places) - 1, len(inputs), len(latches), 0, len(gates), len(bad), len(constraints))
    lines = ["aig " + " ".join(map(str, counts))]
    for literal, step, *reset in latches:
        resets = [str(placed(reset[0]) if reset[0] > 1 else reset[0])] if reset else []
        lines.append(" ".join([str(placed(step)), *resets]))
    lines += [str(placed(literal)) for (literal,) in bad + constraints]
    with open(binary, "wb") as out:
        out.write(("\n".join(lines) + "\n").encode())
        for literal, one, other in ordered:
            low, high = sorted((placed(one), placed(other)))
            out.write(delta(placed(literal) - high) + delta(high - low))


if __name__ == "__main__":
    main(sys.argv[1:])
