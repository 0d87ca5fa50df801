#!/usr/bin/env python3
"""Writes an AIGER model and a certificate that its one property has no fair lasso, the same from the same words.

    certificate.py chain N GATES IDLE MODEL CERTIFICATE
    certificate.py wide N GATES IDLE MODEL CERTIFICATE
    certificate.py walls N GATES IDLE MODEL CERTIFICATE
    certificate.py proof SEED GATES LINES MODEL CERTIFICATE CNF PROOF

chain: N latches that begin with 0, of which the first gets 0 and each other follows the one before it through GATES
gates. Reach entry k says that latch k is 0, and uses the entry before it; its proof goes through that latch's gates.
wide: the same latches, and one reach entry that says it of all, with a clause and a proof for each.
walls: N latches of which each follows the one before it and then stays 1, through one gate (GATES is not looked at).
Wall k says that latch k is 1, and uses the wall before it.
IDLE gates more read what they like, and nothing reads them: no proof names them.

proof: a chain of GATES gates that each imply the one before, and no entry. The refutation has LINES lines: each walks
ten implications, given or learned, and learns that the first implies the last. Its clauses are written in DIMACS form
to CNF and its lines to PROOF, for another checker.

The numbers of clauses and variables are those of docs/FORMATS.md: in block 0 variable v has the number 1 + v and the
successor's latch v the number M + 2 + v; clause 1 says that variable 0 is false, three come for each gate, then two
for each latch.
"""
import random
import sys

STEPS = 10


def below(chance, count):
    # random() is the one method whose sequence is the same in every version of Python
    return int(chance.random() * count)


class Model:
    """Latches have the variables 1 to n and begin with 0; `steps` are their next literals."""

    def __init__(self, inputs, latches):
        self.inputs, self.latches, self.steps, self.gates = inputs, latches, [], []

    def gate(self, first, second):
        """The literal of a new gate."""
        self.gates.append((first, second))
        return 2 * self.most()

    def most(self):
        return self.inputs + self.latches + len(self.gates)

    def add_idle(self, count):
        chance = random.Random(count)
        for _ in range(count):
            known = self.most()
            self.gate(2 + below(chance, 2 * known), 2 + below(chance, 2 * known))

    def clauses_of_block(self):
        return 1 + 3 * len(self.gates) + 2 * self.latches

    def gate_clause(self, literal, which):
        """The number of a clause of the gate with this literal: 0 and 1 that it implies a side, 2 the other way."""
        return 2 + 3 * (literal // 2 - self.inputs - self.latches - 1) + which

    def latch_clause(self, latch, which):
        """The number of a clause of a latch, from 0: 0 that its successor implies its next literal, 1 the other way."""
        return 2 + 3 * len(self.gates) + 2 * latch + which

    def write(self, path, justice):
        """In ASCII: inputs have the variables behind those of the latches."""
        first_gate = self.inputs + self.latches + 1
        with open(path, "w") as file:
            file.write(f"aag {self.most()} {self.inputs} {self.latches} 0 {len(self.gates)} 0 0 1\n")
            file.writelines(f"{2 * (self.latches + 1 + k)}\n" for k in range(self.inputs))
            file.writelines(f"{2 * (1 + k)} {step}\n" for k, step in enumerate(self.steps))
            file.write(f"1\n{justice}\n")
            file.writelines(f"{2 * (first_gate + k)} {a} {b}\n" for k, (a, b) in enumerate(self.gates))


def line(numbers):
    return " ".join(map(str, numbers)) + "\n"


def write_entry(file, word, uses, clauses, proofs):
    """An entry whose proofs have one line each."""
    file.write(f"{word} {len(clauses)} {len(uses)}\n" + line(uses))
    file.writelines(line([*clause, 0]) for clause in clauses)
    file.writelines("proof 1\n" + line(proof) for proof in proofs)


# ---- latches that stay 0


def following(n, gates, idle):
    """The model, and for each latch the gates through which it follows the one before."""
    model, ways = Model(0, n), [[]]
    model.steps.append(0)
    for k in range(1, n):
        way, literal = [], 2 * k
        for other in range(gates):
            literal = model.gate(literal, 2 * (1 + (k + other) % n))
            way.append(literal)
        model.steps.append(literal)
        ways.append(way)
    model.add_idle(idle)
    return model, ways


def hints_of(model, ways, k, latch_before):
    """Why the successor of latch k is 0 where the clause with this number says it of the latch before."""
    way = [model.gate_clause(literal, 0) for literal in ways[k]]
    return [latch_before if k else 1, *way, model.latch_clause(k, 0)]


def chain(n, gates, idle, model_path, path):
    model, ways = following(n, gates, idle)
    model.write(model_path, 2 * n)
    block = model.clauses_of_block()
    with open(path, "w") as file:
        file.write("0\nj0\nversion 1\n")
        for k in range(n):
            # behind the block: the used clause at both places, the own one, and its denial
            denied = block + (4 if k else 2)
            proof = [denied + 1, 0, *hints_of(model, ways, k, block + 1), denied, 0]
            write_entry(file, "reach", [k - 1] if k else [], [[2 * k + 3]], [proof])
        file.write(f"refute 1 1\n{n - 1}\n{block + 4} 0 {block + 1} {block + 2} 0\nend\n")


def wide(n, gates, idle, model_path, path):
    model, ways = following(n, gates, idle)
    model.write(model_path, 2 * n)
    block = model.clauses_of_block()
    denied = block + n + 1
    proofs = [[denied + 1, 0, *hints_of(model, ways, k, block + k), denied, 0] for k in range(n)]
    with open(path, "w") as file:
        file.write("0\nj0\nversion 1\n")
        write_entry(file, "reach", [], [[2 * k + 3] for k in range(n)], proofs)
        file.write(f"refute 1 1\n0\n{block + 2 * n + 2} 0 {block + 1} {block + n + 1} 0\nend\n")


# ---- latches that stay 1


def walls(n, _, idle, model_path, path):
    model = Model(0, n)
    ors = [model.gate(2 * k + 3, 2 * k + 1 if k else 1) for k in range(n)]
    model.steps = [literal + 1 for literal in ors]
    crossing = model.gate(2 * n + 1, 2 * n - 2)
    model.add_idle(idle)
    model.write(model_path, crossing)
    block = model.clauses_of_block()
    with open(path, "w") as file:
        file.write("0\nj0\nversion 2\n")
        for k in range(n):
            # behind the block: the used wall's six, the own clause, and its denial
            own = block + (7 if k else 1)
            proof = [own + 2, 0, own, model.gate_clause(ors[k], 0), model.latch_clause(k, 1), own + 1, 0]
            write_entry(file, "wall", [k - 1] if k else [], [[2 * k + 2]], [proof])
        # the step that sets the last latch crosses the last wall
        sides = [model.gate_clause(crossing, 0), model.gate_clause(crossing, 1), block + 2]
        step = [model.gate_clause(ors[n - 1], 1), model.latch_clause(n - 1, 1), block + 6, block + 7]
        file.write(f"refute 1 1\n{n - 1}\n" + line([block + 8, 0, block + 1, *sides, *step, 0]) + "end\n")


# ---- a refutation of many lines


def implications(model, seed, gates, lines, literals):
    """The lines but the last: each learns, of two gates, that the upper one implies the lower one."""
    chance = random.Random(seed)
    lower = [[] for _ in range(gates)]
    for k in range(1, gates):
        lower[k].append((k - 1, model.gate_clause(literals[k], 0)))
    number = model.clauses_of_block() + 1
    for _ in range(lines - 1):
        start = at = STEPS + below(chance, gates - STEPS)
        hints = []
        while len(hints) < STEPS and lower[at]:
            at, hint = lower[at][below(chance, len(lower[at]))]
            hints.append(hint)
        number += 1
        lower[start].append((at, number))
        yield [number, -(1 + literals[start] // 2), 1 + literals[at] // 2, 0, *hints, 0]
    at, hints = gates - 1, []
    while at:
        at, hint = min(lower[at])
        hints.append(hint)
    top = model.gate_clause(2 * model.most(), 0)
    yield [number + 1, 0, model.clauses_of_block() + 1, top, top + 1, *hints, 0]


def clauses_of_gates(model):
    """The clauses of the refutation: a model without latches, and its property's literal, the last gate."""
    yield [-1]
    for k, sides in enumerate(model.gates):
        g = model.inputs + 2 + k
        a, b = (1 + side // 2 if side % 2 == 0 else -(1 + side // 2) for side in sides)
        yield from ([-g, a], [-g, b], [g, -a, -b])
    yield [1 + model.most()]


def proof(seed, gates, lines, model_path, path, formula, proof_path):
    model = Model(1, 0)
    literals = [model.gate(2, 2)]
    while len(literals) < gates:
        literals.append(model.gate(literals[-1], 2))
    model.write(model_path, model.gate(literals[-1], literals[0] + 1))
    with open(path, "w") as file, open(proof_path, "w") as beside:
        file.write(f"0\nj0\nversion 1\nrefute 0 {lines}\n\n")
        for numbers in implications(model, seed, gates, lines, literals):
            file.write(line(numbers))
            beside.write(line(numbers))
        file.write("end\n")
    with open(formula, "w") as file:
        file.write(f"p cnf {2 * model.most() + 2} {model.clauses_of_block() + 1}\n")
        file.writelines(line([*clause, 0]) for clause in clauses_of_gates(model))


def main(words):
    kinds = {"chain": (chain, 5), "wide": (wide, 5), "walls": (walls, 5), "proof": (proof, 7)}
    kind, count = kinds.get(words[0], (None, 0)) if words else (None, 0)
    if kind is None or len(words) != 1 + count:
        sys.exit(__doc__)
    kind(*map(int, words[1:4]), *words[4:])


if __name__ == "__main__":
    main(sys.argv[1:])
