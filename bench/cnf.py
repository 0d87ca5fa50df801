#!/usr/bin/env python3
"""Writes clauses in DIMACS form, the same from the same words.

    cnf.py holes N CNF              n + 1 pigeons, each in a hole, and no two in one hole: no model
    cnf.py random N SEED CNF        3-SAT: clauses of three literals over N variables, 4.26 for each variable
    cnf.py counter BITS STEPS CNF   a counter that an input may stop, unrolled over STEPS steps, behind which it stands at
                                    the least power of two above STEPS: no model
    cnf.py shifter BITS STEPS PLACE CNF
                                    a shift register that an input may stop, unrolled over STEPS steps; a 1 enters only
                                    where the two places behind it are 0, and in the end PLACE and the next one are 1:
                                    no model
    cnf.py questions KIND GATES BESIDE COUNT SEED CNF QUESTIONS [CLAUSES]
                                    a circuit of GATES gates over 50 inputs, BESIDE further gates over 50 inputs of their
                                    own, and COUNT lists of up to 61 assumptions, in the same form, with the values of one
                                    run of the first circuit each. KIND model: those of any variables of it. KIND refuted:
                                    those of a cut, from which the value of a gate above it follows, and of this gate the
                                    other value. KIND mixed: the former in each tenth list, and else the latter, where in
                                    each fifth list the cut lacks a variable. With CLAUSES for each list a clause of its
                                    own, true in that run: up to 20 literals of the first circuit, and behind them the
                                    negation of a new variable, which the list begins with
"""
import random
import sys

RATIO = 4.26
INPUTS = 50
FEWEST, MOST = 20, 60
FEWEST_OWN, MOST_OWN = 2, 20


def below(chance, count):
    # random() is the one method whose sequence is the same in every version of Python
    return int(chance.random() * count)


def holes(n):
    """Variable p * n + h + 1 says that pigeon p is in hole h."""
    clauses = [[pigeon * n + hole + 1 for hole in range(n)] for pigeon in range(n + 1)]
    for hole in range(n):
        for first in range(n + 1):
            for second in range(first + 1, n + 1):
                clauses.append([-(first * n + hole + 1), -(second * n + hole + 1)])
    return n * (n + 1), clauses


def random_3sat(n, seed):
    chance = random.Random(seed)
    return n, [draw_clause(chance, n) for _ in range(round(RATIO * n))]


def draw_clause(chance, n):
    """Three literals of three variables."""
    variables = []
    while len(variables) < 3:
        variable = 1 + below(chance, n)
        if variable not in variables:
            variables.append(variable)
    return [variable if below(chance, 2) else -variable for variable in variables]


class Unrolled:
    """Variables that are counted up, and clauses of gates."""

    def __init__(self):
        self.variables, self.clauses = 0, []

    def new(self):
        self.variables += 1
        return self.variables

    def both(self, first, second):
        gate = self.new()
        self.clauses += [[-gate, first], [-gate, second], [gate, -first, -second]]
        return gate

    def one_of(self, first, second):
        gate = self.new()
        self.clauses += [[-gate, first, second], [-gate, -first, -second], [gate, -first, second], [gate, first, -second]]
        return gate

    def choice(self, which, first, second):
        gate = self.new()
        self.clauses += [[-which, -first, gate], [-which, first, -gate], [which, -second, gate], [which, second, -gate]]
        return gate

    def zeros(self, count):
        state = [self.new() for _ in range(count)]
        self.clauses += [[-bit] for bit in state]
        return state


def counter(bits, steps):
    made = Unrolled()
    state = made.zeros(bits)
    for _ in range(steps):
        carry, after = made.new(), []
        for bit in state:
            after.append(made.one_of(bit, carry))
            carry = made.both(bit, carry)
        state = after
    made.clauses += [[bit if place == steps.bit_length() else -bit] for place, bit in enumerate(state)]
    return made.variables, made.clauses


def shifter(bits, steps, place):
    made = Unrolled()
    state = made.zeros(bits)
    for _ in range(steps):
        moves, enters = made.new(), made.new()
        made.clauses += [[-enters, -state[0]], [-enters, -state[1]]]
        state = [made.choice(moves, before, bit) for before, bit in zip([enters, *state], state)]
    made.clauses += [[state[place]], [state[place + 1]]]
    return made.variables, made.clauses


def circuit(gates, chance):
    """Gates with two operands each, as literals of earlier variables; the first variables are inputs."""
    found = []
    for gate in range(INPUTS + 1, INPUTS + gates + 1):
        first, second = 1 + below(chance, gate - 1), 1 + below(chance, gate - 1)
        found.append((gate, first if below(chance, 2) else -first, second if below(chance, 2) else -second))
    return found


def clauses_of(gates, lift):
    """The clauses of gates, all of whose variables are so much greater."""
    clauses = []
    for gate in gates:
        gate, first, second = (literal + lift if literal > 0 else literal - lift for literal in gate)
        clauses += [[-gate, first], [-gate, second], [gate, -first, -second]]
    return clauses


def values_in_run(gates, chance):
    values = [False] + [bool(below(chance, 2)) for _ in range(INPUTS)]
    for _, first, second in gates:
        values.append((values[abs(first)] == (first > 0)) and (values[abs(second)] == (second > 0)))
    return values


def cut_below(gates, gate, size):
    """Variables below a gate from which its value follows, so many where there are as many."""
    found = {gate}
    while len(found) < size and max(found) > INPUTS:
        _, first, second = gates[max(found) - INPUTS - 1]
        found = found - {max(found)} | {abs(first), abs(second)}
    return sorted(found)


def own_clause(values, chance):
    """Some literals of a circuit, one of which at least is true under the values."""
    variables = {1 + below(chance, len(values) - 1) for _ in range(FEWEST_OWN + below(chance, MOST_OWN - FEWEST_OWN + 1))}
    clause = [variable if below(chance, 2) else -variable for variable in sorted(variables)]
    place = below(chance, len(clause))
    if not any(values[abs(literal)] == (literal > 0) for literal in clause):
        clause[place] = -clause[place]
    return clause


def questions(kind, count, gates, chance, of_own):
    """Lists of assumptions, and a clause for each."""
    lists, own = [], []
    for number in range(count):
        values = values_in_run(gates, chance)
        own.append(own_clause(values, of_own))
        size = FEWEST + below(chance, MOST - FEWEST + 1)
        if kind == "model" or (kind == "mixed" and number % 10 == 0):
            chosen = sorted({1 + below(chance, len(values) - 1) for _ in range(size)})
        else:
            gate = len(values) - 1 - below(chance, len(gates) // 2)
            chosen = cut_below(gates, gate, size)
            if kind == "mixed" and number % 5 == 1:
                del chosen[below(chance, len(chosen))]
            values[gate] = not values[gate]
            chosen.append(gate)
        lists.append([variable if values[variable] else -variable for variable in chosen])
    return lists, own


def write_questions(kind, gates, beside, count, seed, clauses, lists, brought=None):
    # the clauses are drawn apart, so that the lists are the same with them and without
    chance, of_own = random.Random(int(seed)), random.Random(int(seed) + 1)
    asked = circuit(int(gates), chance)
    asking, own = questions(kind, int(count), asked, chance, of_own)
    others = circuit(int(beside), chance)
    lift = INPUTS + len(asked)
    variables = lift + (INPUTS + len(others) if others else 0)
    write(clauses, variables, clauses_of(asked, 0) + clauses_of(others, lift))
    if brought:
        new = range(variables + 1, variables + len(asking) + 1)
        asking = [[guard, *assumed] for guard, assumed in zip(new, asking)]
        own = [[*clause, -guard] for guard, clause in zip(new, own)]
        variables += len(asking)
        write(brought, variables, own)
    write(lists, variables, asking)


def write(path, variables, clauses):
    with open(path, "w") as file:
        file.write(f"p cnf {variables} {len(clauses)}\n")
        for clause in clauses:
            file.write(" ".join(map(str, clause)) + " 0\n")


def main(words):
    if len(words) == 3 and words[0] == "holes":
        write(words[2], *holes(int(words[1])))
    elif len(words) == 4 and words[0] == "counter":
        write(words[3], *counter(int(words[1]), int(words[2])))
    elif len(words) == 5 and words[0] == "shifter":
        write(words[4], *shifter(*map(int, words[1:4])))
    elif len(words) in (8, 9) and words[0] == "questions" and words[1] in ("model", "refuted", "mixed"):
        write_questions(*words[1:])
    elif len(words) == 4 and words[0] == "random":
        write(words[3], *random_3sat(int(words[1]), int(words[2])))
    else:
        sys.exit(__doc__)


if __name__ == "__main__":
    main(sys.argv[1:])
