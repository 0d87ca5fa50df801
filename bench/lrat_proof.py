#!/usr/bin/env python3
"""Writes clauses that have no model, in DIMACS form, and an LRAT proof of that: the same from the same seed.

    lrat_proof.py SEED CLAUSES LINES CNF PROOF

The clauses are implications between variables, in groups: each clause of a group says 'in this context, u implies v',
and the context is none to six literals that all clauses of the group share. At the start each variable of a group
implies the next one, round a ring. A line of the proof walks ten implications, given or learned, from one variable to
another, and learns the clause that the first implies the last; its ten hints are the steps. Two clauses of one literal
each make the first group contradictory, and the last line is the empty clause, with ten hints too.
"""
import random
import sys

STEPS = 10
RING = 100


class Group:
    """The variables of a group, and from each the implications so far: (place that is implied, id of the clause)."""

    def __init__(self, first, size, context):
        self.variables = range(first, first + size)
        self.context = context
        self.implied = [[] for _ in range(size)]

    def learn(self, start, end, number):
        self.implied[start].append((end, number))

    def clause(self, start, end):
        return [*self.context, -self.variables[start], self.variables[end]]


def below(chance, count):
    # random() is the one method whose sequence is the same in every version of Python
    return int(chance.random() * count)


def make_groups(chance, edges):
    groups, used = [], 0
    while edges > 0:
        # the last ring takes what is left, so that no ring is too short to walk
        size = edges if edges < 2 * RING else RING
        width = below(chance, 7) if groups else 0
        context = [-(used + 1 + k) for k in range(width)]
        used += width
        groups.append(Group(used + 1, size, context))
        used += size
        edges -= size
    return groups, used


def walk(chance, group):
    """Places that ten implications lead through, no place twice, and the ids of these implications."""
    while True:
        places, ids = [below(chance, len(group.variables))], []
        while len(ids) < STEPS:
            choices = group.implied[places[-1]]
            place, number = choices[below(chance, len(choices))]
            if place in places:
                break
            places.append(place)
            ids.append(number)
        else:
            return places, ids


def write_clauses(out, groups, variables):
    """Writes the given clauses and numbers their implications. Answers the ids of the two clauses of one literal."""
    first = groups[0].variables
    count = sum(len(group.variables) for group in groups) + 2
    out.write(f"p cnf {variables} {count}\n")
    number = 0
    for group in groups:
        for start in range(len(group.variables)):
            end = (start + 1) % len(group.variables)
            number += 1
            group.learn(start, end, number)
            out.write(" ".join(map(str, group.clause(start, end))) + " 0\n")
    out.write(f"{first[0]} 0\n-{first[STEPS - 2]} 0\n")
    return number + 1, number + 2


def write_lines(out, chance, groups, lines, true, false):
    number = false
    for _ in range(lines - 1):
        group = groups[below(chance, len(groups))]
        places, ids = walk(chance, group)
        number += 1
        group.learn(places[0], places[-1], number)
        out.write(" ".join(map(str, [number, *group.clause(places[0], places[-1]), 0, *ids, 0])) + "\n")
    ring = [groups[0].implied[place][0][1] for place in range(STEPS - 2)]
    out.write(" ".join(map(str, [number + 1, 0, true, *ring, false, 0])) + "\n")


def main(seed, clauses, lines, formula, proof):
    chance = random.Random(int(seed))
    if int(clauses) < RING + 2 or int(lines) < 1:
        sys.exit(f"at least {RING + 2} clauses and 1 line")
    groups, variables = make_groups(chance, int(clauses) - 2)
    with open(formula, "w") as out:
        true, false = write_clauses(out, groups, variables)
    with open(proof, "w") as out:
        write_lines(out, chance, groups, int(lines), true, false)


if __name__ == "__main__":
    if len(sys.argv) != 6:
        sys.exit(__doc__)
    main(*sys.argv[1:])
