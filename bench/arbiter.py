#!/usr/bin/env python3
"""An arbiter of N requesters as an AIGER model with N properties: property i fails where requester i can wait for ever.

    arbiter.py fixed|robin N MODEL

fixed: the least requester that waits is granted, so only the first never waits for ever. robin: the first that waits from a
token on, in a ring, is granted, and the token goes behind it; nobody waits for ever."""
import sys


class Model:
    """Literals by number, gates as they are made, and latches with their next literals."""

    def __init__(self):
        self.most, self.inputs, self.latches, self.gates = 0, [], [], []

    def literal(self):
        self.most += 1
        return 2 * self.most

    def input(self):
        self.inputs.append(self.literal())
        return self.inputs[-1]

    def latch(self, reset=0):
        self.latches.append([self.literal(), 0, reset])
        return self.latches[-1][0]

    def follow(self, latch, following):
        next(row for row in self.latches if row[0] == latch)[1] = following

    def both(self, one, other):
        gate = self.literal()
        self.gates.append((gate, max(one, other), min(one, other)))
        return gate

    def either(self, one, other):
        return self.both(one ^ 1, other ^ 1) ^ 1

    def write(self, file, properties):
        counts = self.most, len(self.inputs), len(self.latches), len(self.gates), len(properties)
        file.write("aag {} {} {} 0 {} 0 0 {}\n".format(*counts))
        file.writelines(f"{literal}\n" for literal in self.inputs)
        file.writelines(f"{latch} {following} {reset}\n" for latch, following, reset in self.latches)
        file.writelines("1\n" for _ in properties)
        file.writelines(f"{literal}\n" for literal in properties)
        file.writelines("{} {} {}\n".format(*gate) for gate in self.gates)


def first_of(model, waits):
    """For each of the literals whether it is the first that is true; and whether none is."""
    none, firsts = 1, []
    for wait in waits:
        firsts.append(model.both(wait, none))
        none = model.both(none, wait ^ 1)
    return firsts, none


def fixed_grants(model, waits):
    return first_of(model, waits)[0]


def robin_grants(model, waits):
    tokens = [model.latch(1 if place == 0 else 0) for place in range(len(waits))]
    behind, masked = 0, []
    for token, wait in zip(tokens, waits):
        behind = model.either(behind, token)
        masked.append(model.both(wait, behind))
    first_masked, none_masked = first_of(model, masked)
    first, none = first_of(model, waits)
    grants = [model.either(one, model.both(other, none_masked)) for one, other in zip(first_masked, first)]
    for place, token in enumerate(tokens):
        model.follow(token, model.either(grants[place - 1], model.both(token, none)))
    return grants


def arbiter(kind, count):
    model = Model()
    requests = [model.input() for _ in range(count)]
    begin = model.input()
    waits = [model.latch() for _ in range(count)]
    grants = (fixed_grants if kind == "fixed" else robin_grants)(model, waits)
    watched = model.latch()
    model.follow(watched, model.either(watched, begin))
    properties = []
    for request, wait, grant in zip(requests, waits, grants):
        kept = model.both(wait, grant ^ 1)
        model.follow(wait, model.either(request, kept))
        missed = model.latch()
        model.follow(missed, model.either(missed, model.both(watched, kept ^ 1)))
        properties.append(model.both(watched, missed ^ 1))
    return model, properties


def main(words):
    if len(words) != 3 or words[0] not in ("fixed", "robin") or not words[1].isdigit():
        sys.exit(__doc__)
    model, properties = arbiter(words[0], int(words[1]))
    with open(words[2], "w") as file:
        model.write(file, properties)


if __name__ == "__main__":
    main(sys.argv[1:])
