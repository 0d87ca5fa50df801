#!/usr/bin/env python3
"""What `export` prints of certificates: each obligation and the refutation of some that `solve` prints. A checker of LRAT that
was written from its paper alone (Cruz-Filipe, Heule, Hunt, Kaufmann, Schneider-Kamp, Efficient Certified RAT Verification,
2017), and has nothing in common with the program's or with that of the judge beside this file, has to accept each proof for its
formula. Where minisat is installed it has to say of each formula that it has no model. And byte for byte the formula is that of
the clauses that the judge makes of model and certificate, and the proof is that of the certificate.

    exported.py"""
import concurrent.futures
import csv
import glob
import os
import shutil
import subprocess
import sys
import tempfile
import threading
import time

sys.dont_write_bytecode = True
import judge as certificates  # noqa: E402

TOP = os.path.dirname(os.path.dirname(os.path.abspath(__file__)))
# the program itself, without the script before it that looks for sources that are newer
PROGRAM = os.path.join(TOP, "crates", "fair_main", "out", "fair_main")
EXAMPLES, MODELS = os.path.join(TOP, "examples"), os.path.join(TOP, "bench", "models")
# How many certificates are looked at, the most items that one may have, the seconds for each answer, how many run at once, and
# after how many seconds of looking at them no other one is begun.
CERTIFICATES, ITEMS, SECONDS, AT_ONCE, ENOUGH = 30, 500, 5, 4, 90
# of the certificates, so many have to be done in time
FEWEST = 10
# one certificate at a time is given to the judge
JUDGING = threading.Lock()


class Wrong(Exception):
    """What is wrong with a formula or a proof."""


# ---- the checker


def lines_of(text):
    """The lines, each of which ends with a line feed, in fields with one space between."""
    if text and not text.endswith("\n"):
        raise Wrong("the last line has no end")
    return [line.split(" ") for line in text.split("\n")[:-1]]


def number(field):
    if not field.lstrip("-").isascii() or not field.removeprefix("-").isdigit() or field == "-0":
        raise Wrong(f"{field!r} is no number")
    return int(field)


def up_to_zero(fields):
    """The numbers in front of the first 0, and the fields behind it."""
    if "0" not in fields:
        raise Wrong(f"no 0 in {' '.join(fields)!r}")
    end = fields.index("0")
    return [number(field) for field in fields[:end]], fields[end + 1 :]


def read_formula(text):
    """The clauses of a formula in DIMACS, as many as its first line says, over so many variables."""
    head, *lines = lines_of(text) or [[]]
    if head[:2] != ["p", "cnf"] or len(head) != 4:
        raise Wrong(f"the first line is {' '.join(head)!r}")
    variables, count = number(head[2]), number(head[3])
    clauses = [read_clause(line) for line in lines]
    if len(clauses) != count:
        raise Wrong(f"{len(clauses)} clauses, and the first line says {count}")
    if any(abs(literal) > variables for clause in clauses for literal in clause):
        raise Wrong(f"a variable above {variables}")
    return clauses


def read_clause(fields):
    literals, others = up_to_zero(fields)
    if others:
        raise Wrong(f"more behind the 0 in {' '.join(fields)!r}")
    return frozenset(literals)


class Held:
    """The clauses that are held, by their ids: at first those of the formula, in their order from 1 on."""

    def __init__(self, clauses):
        self.clauses = dict(enumerate(clauses, 1))
        self.last = len(clauses)
        self.is_refuted = frozenset() in clauses

    def step(self, fields):
        """One line of a proof: an addition with its hints, or a deletion."""
        if fields[1:2] == ["d"]:
            self.delete(read_clause(fields[2:]))
            return
        own, (literals, behind) = number(fields[0]), up_to_zero(fields[1:])
        hints, others = up_to_zero(behind)
        if others or own <= self.last:
            raise Wrong(f"the id {own} behind {self.last}" if not others else f"more behind the hints of {own}")
        self.propagate(own, literals, hints)
        self.clauses[own], self.last = frozenset(literals), own
        self.is_refuted = self.is_refuted or not literals

    def delete(self, ids):
        for one in ids:
            if self.clauses.pop(one, None) is None:
                raise Wrong(f"clause {one} is deleted, and is not there")

    def propagate(self, own, literals, hints):
        """Reverse unit propagation: where all literals are false, the hints' clauses in their order each have one literal left,
        which becomes true, until one has none. (The program's proofs have no step by resolution asymmetric tautologies, whose hints
        are negative: those are refused.)"""
        false = set(literals)
        for hint in hints:
            if hint not in self.clauses:
                raise Wrong(f"hint {hint} of {own} is no clause")
            left = self.clauses[hint] - false
            if not left:
                return
            if len(left) > 1:
                raise Wrong(f"clause {hint}, a hint of {own}, is not unit")
            false.update(-literal for literal in left)
        raise Wrong(f"the hints of {own} end without a conflict")


def judge(formula, proof):
    """What is wrong, or nothing where the proof shows that the formula has no model."""
    try:
        held = Held(read_formula(formula))
        for fields in lines_of(proof):
            held.step(fields)
    except Wrong as what:
        return str(what)
    return "" if held.is_refuted else "the proof has no empty clause"


# ---- what was worked out by hand, so that a mistake of the checker is told from one of the program

# all four clauses of two variables; three ants in two holes by their variables 1 to 6; and a formula with the empty clause
FOUR = "p cnf 2 4\n1 2 0\n-1 2 0\n1 -2 0\n-1 -2 0\n"
HOLES = "p cnf 6 9\n1 2 0\n3 4 0\n5 6 0\n-1 -3 0\n-1 -5 0\n-3 -5 0\n-2 -4 0\n-2 -6 0\n-4 -6 0\n"
EMPTY = "p cnf 1 2\n1 0\n0\n"
# if ant 1 is in the first hole, 2 and 3 are both in the second; so it is in the second, and then those are both in the first
HOLES_PROOF = "10 -1 0 4 2 5 3 9 0\n11 0 10 1 7 2 8 3 6 0\n"
KNOWN = [
    (FOUR, "5 2 0 1 2 0\n6 0 5 3 4 0\n", ""),
    (FOUR, "5 2 0 2 1 0\n5 d 1 2 0\n7 0 5 3 4 0\n", ""),
    (FOUR, "9 1 0 1 3 0\n12 0 9 2 4 0\n13 0 12 0\n", ""),
    (FOUR, "5 2 2 0 1 2 0\n6 0 5 5 3 4 0\n", ""),
    (HOLES, HOLES_PROOF, ""),
    (EMPTY, "", ""),
    (EMPTY, "3 1 0 1 0\n3 d 1 2 0\n", ""),
    # hints that are wrong: not unit, without a conflict, in another order, none, one that is no clause, a negative one
    (FOUR, "5 0 1 2 0\n", "clause 1, a hint of 5, is not unit"),
    (FOUR, "5 2 0 1 3 0\n", "clause 3, a hint of 5, is not unit"),
    (FOUR, "5 2 0 1 0\n", "the hints of 5 end without a conflict"),
    (HOLES, HOLES_PROOF.replace("4 2 5 3 9", "2 4 5 3 9"), "clause 2, a hint of 10, is not unit"),
    (HOLES, HOLES_PROOF.replace("4 2 5 3 9", "4 2 5 3"), "the hints of 10 end without a conflict"),
    (FOUR, "5 2 0 0\n", "the hints of 5 end without a conflict"),
    (FOUR, "5 2 0 1 2 0\n6 0 5 3 7 0\n", "hint 7 of 6 is no clause"),
    (FOUR, "5 2 0 1 2 0\n6 0 5 -3 4 0\n", "hint -3 of 6 is no clause"),
    (FOUR, "5 2 0 1 5 0\n", "hint 5 of 5 is no clause"),
    # a clause that was deleted before, and no empty one at the end
    (FOUR, "5 2 0 1 2 0\n5 d 3 0\n6 0 5 3 4 0\n", "hint 3 of 6 is no clause"),
    (FOUR, "5 d 6 0\n", "clause 6 is deleted, and is not there"),
    (FOUR, "5 2 0 1 2 0\n", "the proof has no empty clause"),
    (FOUR, "", "the proof has no empty clause"),
    # lines and formulas that are not in their form
    (FOUR, "4 2 0 1 2 0\n", "the id 4 behind 4"),
    (FOUR, "5 2 0 1 2 0\n5 0 5 3 4 0\n", "the id 5 behind 5"),
    (FOUR, "5 2 0 1 2\n", "no 0 in '1 2'"),
    (FOUR, "5 2 0 1 2 0 0\n", "more behind the hints of 5"),
    (FOUR, "5 2 0  1 2 0\n", "'' is no number"),
    (FOUR, "5 2 0 1 2 0\n6 0 5 3 4 0", "the last line has no end"),
    (FOUR.replace("2 4", "2 5"), "", "4 clauses, and the first line says 5"),
    (FOUR.replace("2 4", "1 4"), "", "a variable above 1"),
    (FOUR.replace("p cnf", "p dnf"), "", "the first line is 'p dnf 2 4'"),
    (FOUR + "1\n", "", "no 0 in '1'"),
    (FOUR + "1 0 2 0\n", "", "more behind the 0 in '1 0 2 0'"),
    ("", "", "the first line is ''"),
]


def check_checker():
    for formula, proof, wanted in KNOWN:
        said = judge(formula, proof)
        assert said == wanted, f"the checker says {said!r}, not {wanted!r}, of {proof!r} for {formula!r}"


# ---- what the program prints


def ran(*words, seconds=60):
    done = subprocess.run([PROGRAM, *words], stdout=subprocess.PIPE, stderr=subprocess.STDOUT, timeout=seconds, check=False)
    return done.stdout.decode("latin1"), done.returncode


def has_no_model(formula):
    """Whether minisat says so."""
    done = subprocess.run(["minisat", "-verb=0"], input=formula.encode(), stdout=subprocess.PIPE, stderr=subprocess.DEVNULL, check=False)
    return b"UNSATISFIABLE" in done.stdout.split()


def properties():
    """Models, each with the number of one of its properties: those of the examples, and those that are known to hold."""
    for model in sorted(glob.glob(os.path.join(EXAMPLES, "*.aag"))):
        with open(model, encoding="latin1") as file:
            counts = file.readline().split()
        yield from ((model, str(number)) for number in range(int(counts[8]) if len(counts) > 8 else 0))
    with open(os.path.join(MODELS, "index.tsv"), encoding="ascii", newline="") as file:
        for row in csv.DictReader(file, delimiter="\t"):
            if row["verdict"].startswith("holds"):
                yield os.path.join(MODELS, row["name"] + ".aag"), row["property"]


# ---- what it must print, by the judge beside this file


def wanted_of(model, certificate):
    """By entry and clause, of each item of a certificate how many numbers the blocks take, its clauses and its proof."""
    with open(model, "rb") as file:
        circuit = certificates.read_circuit(file.read())
    found, judging = [], certificates.judge_proof

    def keep(lines, count, shared, own, name):
        """In place of the judging of a proof."""
        found.append((name.split(), shared, own, b"".join(lines.need() + b"\n" for _ in range(count)).decode()))

    certificates.judge_proof = keep
    try:
        said = certificates.judge(circuit, certificate.encode())[0].split()
    finally:
        certificates.judge_proof = judging
    assert said[:2] == ["accepted", "certificate"], f"the judge says {said} of {model}"
    size, number, entries = certificates.block_size(circuit), int(said[2][1:]), int(said[4])
    items = {}
    for (word, *rest), shared, own, proof in found:
        if word == "entry":
            items[int(rest[0]), int(rest[2])] = size, shared, own, proof
        else:
            items[entries, 0] = size * max(1, len(circuit.literals(number))), shared, own, proof
    return items


def formula_of(taken, clauses):
    """The clauses in DIMACS, over so many numbers, and those that uses take behind them, each of which stands in a clause."""
    variables = max([taken] + [abs(literal) for clause in clauses for literal in clause])
    lines = ["".join(f"{literal} " for literal in clause) + "0\n" for clause in clauses]
    return f"p cnf {variables} {len(clauses)}\n" + "".join(lines)


class Looked:
    """Certificates in a folder, how many items were looked at, and what was wrong."""

    def __init__(self, folder):
        self.folder, self.items, self.wrong, self.begun = folder, 0, [], time.monotonic()
        self.has_minisat = shutil.which("minisat") is not None

    def certificate(self, place, model, number):
        """The path of the property's certificate, and its items; none where there is no such in time, or it has too many."""
        try:
            text, _ = ran("solve", model, "--property", number, seconds=SECONDS)
        except subprocess.TimeoutExpired:
            return None
        if not text.startswith("0\n") or sum(line.startswith("proof ") for line in text.split("\n")) >= ITEMS:
            return None
        answer = os.path.join(self.folder, f"{place}.cert")
        with open(answer, "w", encoding="latin1") as file:
            file.write(text)
        with JUDGING:
            return answer, wanted_of(model, text)

    def look(self, model, answer, items):
        """Each obligation, the refutation behind the last entry, and that there is no other item."""
        for (entry, clause), (taken, shared, own, proof) in items.items():
            self.look_at(model, answer, entry, clause, (formula_of(taken, [*shared, *own]), proof))
        last = max(items)[0]
        behind = {(entry, clause + 1) for entry, clause in items} | {(entry, 0) for entry in range(last + 2)}
        for entry, clause in sorted(behind - items.keys()):
            said = ran("export", model, answer, str(entry), str(clause))
            if said != (f"no item {entry} {clause}\n", 10):
                self.complain(model, answer, entry, clause, f"printed {said[0][:100]!r} with status {said[1]}, and there is no such item")

    def look_at(self, model, answer, entry, clause, wanted):
        words = ("export", model, answer, str(entry), str(clause))
        formula, proof = ran(*words), ran(*words, "--lrat")
        if formula[1] or proof[1]:
            self.complain(model, answer, entry, clause, f"ends with status {formula[1]}, and with --lrat with {proof[1]}")
            return
        what = judge(formula[0], proof[0])
        if what:
            self.complain(model, answer, entry, clause, what)
        elif (formula[0], proof[0]) != wanted:
            self.complain(model, answer, entry, clause, "the formula or the proof is not that of the judge")
        elif self.has_minisat and not has_no_model(formula[0]):
            self.complain(model, answer, entry, clause, "minisat does not say that the formula has no model")
        self.items += 1

    def complain(self, model, answer, entry, clause, what):
        self.wrong.append(f"export {entry} {clause} of {os.path.basename(answer)} for {os.path.basename(model)}: {what}")


def some_certificates(looked, pool):
    """As many certificates as are wanted, of the first properties that have one."""
    todo, found = list(enumerate(properties())), []
    while todo and len(found) < CERTIFICATES:
        now, todo = todo[:AT_ONCE], todo[AT_ONCE:]
        told = list(pool.map(lambda it: (it[1][0], looked.certificate(it[0], *it[1])), now))
        found += [(model, *made) for model, made in told if made]
    return found[:CERTIFICATES]


def look_in_time(looked, model, answer, items):
    if time.monotonic() - looked.begun > ENOUGH:
        return 0
    looked.look(model, answer, items)
    return 1


def main():
    check_checker()
    # a first run without words, which builds the program where it is not built
    subprocess.run([os.path.join(TOP, "fairlive")], stdout=subprocess.DEVNULL, check=False)
    with tempfile.TemporaryDirectory() as folder, concurrent.futures.ThreadPoolExecutor(AT_ONCE) as pool:
        looked = Looked(folder)
        found = some_certificates(looked, pool)
        looked.begun = time.monotonic()
        runs = [pool.submit(look_in_time, looked, *made) for made in found]
        done = sum(run.result() for run in runs)
    for wrong in looked.wrong[:10]:
        print(wrong)
    beside = "as minisat says too" if looked.has_minisat else "without minisat, which is not installed"
    if looked.wrong or done < FEWEST:
        print(f"exported: {len(looked.wrong)} wrong, {looked.items} items of {done} certificates, {FEWEST} wanted")
        return 1
    print(f"exported: {looked.items} obligations and refutations of {done} certificates refuted by their proofs, {beside}")
    return 0


if __name__ == "__main__":
    sys.exit(main())
