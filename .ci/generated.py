#!/usr/bin/env python3
"""Generated models, made here from their description alone: ./fairlive gen must print each byte for byte.

A generator has a state of 64 bits, at first the seed. A draw sets it to MULTIPLIER * state + INCREMENT modulo 2^64 and
gives its upper 31 bits.

A ring of n latches has no inputs and no gates. Each latch takes the value of the one before it, the first that of the
last; the latch with the number seed modulo n begins with 1. Its one property has the literals of all latches.

A scramble of size n has two inputs, n latches and 2n gates, numbered in this order, and M = 3n + 2. Drawn are, in this
order: for each gate with variable v two numbers modulo 2v, of which the greater is its first right side; for each latch
a next literal modulo 2M + 2 and a number modulo 4 for its reset (0 and 1 give 0, 2 gives 1, 3 gives the latch's own
literal); two literals of the one property, and the one fairness literal, each modulo 2M + 2."""
import os
import subprocess
import sys

TOP = os.path.dirname(os.path.dirname(os.path.abspath(__file__)))
MULTIPLIER, INCREMENT = 6364136223846793005, 1442695040888963407
SEEDS = [0, 1, 7, 4_294_967_295]
SIZES = [1, 2, 3, 17, 256]

# the first ten draws from three seeds, so that a mistake in this file is told from one in the program
FIRST_DRAWS = {
    0: [167951807, 218396424, 1299921937, 861605236, 823830125, 1204436891, 169888184, 764459975, 1036791264, 959018139],
    1: [908834774, 1093944153, 1392341196, 822192870, 1708211034, 1074839795, 1189567130, 140486902, 1803298089, 426146746],
    4294967295: [69501759, 1503429036, 1091279824, 2129514251, 663846270, 1479768959, 492109816, 1860332840, 1620854143, 553379200],
}

# small models worked out by hand: of a ring each byte, of its draws none
RING = b"aag 2 0 2 0 0 0 0 1\n2 4 1\n4 2\n2\n2\n4\n"
BINARY_RING = b"aig 2 0 2 0 0 0 0 1\n4 1\n2\n2\n2\n4\n"


def draws(seed):
    state = seed
    while True:
        state = (MULTIPLIER * state + INCREMENT) % 2**64
        yield state >> 33


class Model:
    """A circuit as lists: inputs by their variables; latches as (variable, next literal, reset as it is written); gates
    as (variable, first right side, second right side); the literals of the one property, and the fairness literals."""

    def __init__(self, inputs, latches, gates, justice, fairness):
        self.inputs, self.latches, self.gates = inputs, latches, gates
        self.justice, self.fairness = justice, fairness

    def header(self, word):
        i, l, a = len(self.inputs), len(self.latches), len(self.gates)
        # no outputs, bad state literals and constraints; one property
        numbers = [i + l + a, i, l, 0, a, 0, 0, 1, len(self.fairness)]
        while len(numbers) > 5 and numbers[-1] == 0:
            numbers.pop()
        return " ".join([word, *map(str, numbers)]) + "\n"

    def property_lines(self):
        numbers = [len(self.justice), *self.justice, *self.fairness]
        return "".join(f"{n}\n" for n in numbers)

    def ascii(self):
        inputs = "".join(f"{2 * v}\n" for v in self.inputs)
        latches = "".join(f"{2 * v} {latch_end(following, reset)}" for v, following, reset in self.latches)
        gates = "".join(f"{2 * v} {first} {second}\n" for v, first, second in self.gates)
        return (self.header("aag") + inputs + latches + self.property_lines() + gates).encode()

    def binary(self):
        latches = "".join(latch_end(following, reset) for _, following, reset in self.latches)
        gates = b"".join(delta(2 * v - first) + delta(first - second) for v, first, second in self.gates)
        return (self.header("aig") + latches + self.property_lines()).encode() + gates


def latch_end(following, reset):
    return f"{following}\n" if reset == 0 else f"{following} {reset}\n"


def delta(number):
    """In groups of seven bits, the low one first, each but the last with its top bit set."""
    groups = [number & 127]
    while number := number >> 7:
        groups[-1] |= 128
        groups.append(number & 127)
    return bytes(groups)


def ring(seed, n):
    latches = [(i + 1, 2 * ((i - 1) % n + 1), 1 if i == seed % n else 0) for i in range(n)]
    return Model([], latches, [], [2 * v for v, _, _ in latches], [])


def scramble(seed, n):
    drawn = draws(seed)
    greatest = 3 * n + 2
    gates = []
    for v in range(n + 3, greatest + 1):
        sides = [next(drawn) % (2 * v), next(drawn) % (2 * v)]
        gates.append((v, max(sides), min(sides)))

    def literal():
        return next(drawn) % (2 * greatest + 2)

    latches = []
    for v in range(3, n + 3):
        following = literal()
        latches.append((v, following, [0, 0, 1, 2 * v][next(drawn) % 4]))
    justice = [literal(), literal()]
    return Model([1, 2], latches, gates, justice, [literal()])


def self_check():
    for seed, wanted in FIRST_DRAWS.items():
        drawn = draws(seed)
        assert [next(drawn) for _ in wanted] == wanted, f"draws from {seed}"
    assert ring(0, 2).ascii() == RING and ring(0, 2).binary() == BINARY_RING
    assert [delta(2), delta(130), delta(300)] == [b"\x02", b"\x82\x01", b"\xac\x02"]


def printed(words):
    command = [os.path.join(TOP, "fairlive"), "gen", *words]
    ran = subprocess.run(command, stdout=subprocess.PIPE, timeout=60)
    return ran.returncode, ran.stdout


def check(words, wanted):
    status, text = printed(words)
    if (status, text) == (0, wanted):
        return True
    at = next((k for k, pair in enumerate(zip(text, wanted)) if pair[0] != pair[1]), min(len(text), len(wanted)))
    print(f"gen {' '.join(words)}: status {status}, {len(text)} bytes for {len(wanted)}, another byte at {at}")
    return False


def main():
    self_check()
    # a first run without words, which builds the program where it is not built
    subprocess.run([os.path.join(TOP, "fairlive")], stdout=subprocess.DEVNULL)
    good, count = True, 0
    for name, kind in [("ring", ring), ("scramble", scramble)]:
        for seed in SEEDS:
            for size in SIZES:
                model, words = kind(seed, size), [name, str(seed), str(size)]
                good = check(words, model.ascii()) and good
                good = check([*words, "--binary"], model.binary()) and good
                count += 2
    if good:
        print(f"generated models: {count} texts as their description says")
    return 0 if good else 1


if __name__ == "__main__":
    sys.exit(main())
