#!/usr/bin/env python3
"""A judge of answers, written from docs/FORMATS.md alone: what fairlive check must print of a model and an answer.

    judge.py MODEL ANSWER

It is slow and plain, so that it can be believed: it holds every text whole and writes out each clause. Models are read
only where they are in the form; the numbering of clauses is that of the format's chapter on obligations."""
import re
import sys

GREATEST = 2**63 - 1
MOST_ENTRIES = 65_536
ANY, IN, OUT = 0, 1, -1


class Refused(Exception):
    """The answer is refused, with these words behind 'refused '."""


# ---- circuits


class Circuit:
    """A circuit: inputs by their variables; latches as (variable, next literal, reset: 0, 1 or None); gates as
    (variable, right side, right side) in the order of the file; constraints, properties and fairness by literals; and
    what the verdict does not ask for: outputs and bad states by literals, and the text behind the gates."""

    def __init__(self, most, inputs, latches, gates, constraints, justice, fairness, outputs, bad, names):
        self.most, self.inputs, self.latches, self.gates = most, inputs, latches, gates
        self.constraints, self.justice, self.fairness = constraints, justice, fairness
        self.outputs, self.bad, self.names = outputs, bad, names
        self.latch_of = {variable: k for k, (variable, _, _) in enumerate(latches)}

    def values(self, state, inputs):
        """The value of each variable, where latches and inputs have these; a variable that is defined nowhere is 0."""
        value = [False] * (self.most + 1)
        for variable, given in zip(self.inputs, inputs):
            value[variable] = given
        for (variable, _, _), given in zip(self.latches, state):
            value[variable] = given
        left = self.gates
        known = {0, *self.inputs, *self.latch_of}
        while left:
            later = []
            for gate in left:
                variable, first, second = gate
                if first // 2 in known and second // 2 in known:
                    value[variable] = is_true(value, first) and is_true(value, second)
                    known.add(variable)
                else:
                    later.append(gate)
            left = later
        return value

    def successor(self, value):
        return [is_true(value, following) for _, following, _ in self.latches]

    def literals(self, j):
        return self.justice[j] + self.fairness


def is_true(value, literal):
    return value[literal // 2] != bool(literal % 2)


def read_circuit(text):
    """Of a model that is in the form, ASCII or binary; a gate of the ASCII form may read one that comes later."""
    reader = ModelText(text)
    word, *numbers = reader.line().split()
    is_binary = word == b"aig"
    m, i, l, o, a, b, c, j, f = (list(map(int, numbers)) + [0] * 4)[:9]
    inputs = list(range(1, i + 1)) if is_binary else [reader.number() // 2 for _ in range(i)]
    latches = [reader.latch(i + 1 + k if is_binary else None) for k in range(l)]
    outputs, bad = reader.numbers(o), reader.numbers(b)
    constraints = reader.numbers(c)
    sizes = reader.numbers(j)
    justice = [reader.numbers(size) for size in sizes]
    fairness = reader.numbers(f)
    gates = [reader.gate(i + l + 1 + k if is_binary else None) for k in range(a)]
    return Circuit(m, inputs, latches, gates, constraints, justice, fairness, outputs, bad, text[reader.at :])


class ModelText:
    def __init__(self, text):
        self.text, self.at = text, 0

    def line(self):
        end = self.text.index(b"\n", self.at)
        line, self.at = self.text[self.at : end], end + 1
        return line

    def number(self):
        return int(self.line())

    def numbers(self, count):
        return [self.number() for _ in range(count)]

    def latch(self, variable):
        fields = list(map(int, self.line().split()))
        if variable is None:
            variable = fields.pop(0) // 2
        reset = fields[1] if len(fields) > 1 else 0
        return variable, fields[0], reset if reset < 2 else None

    def gate(self, variable):
        if variable is None:
            left, first, second = map(int, self.line().split())
            return left // 2, first, second
        first = 2 * variable - self.delta()
        return variable, first, first - self.delta()

    def delta(self):
        number, shift = 0, 0
        while True:
            byte = self.text[self.at]
            self.at += 1
            number += (byte & 127) << shift
            shift += 7
            if byte < 128:
                return number


# ---- lines


class Lines:
    """The lines of a text that are not skipped; `place` is the number of the last one that was taken."""

    def __init__(self, text):
        self.lines = text.split(b"\n")
        if not self.lines[-1]:
            self.lines.pop()
        self.place = 0

    def next(self):
        """The next line, or None at the text's end, which has the number after the last line."""
        while self.place < len(self.lines):
            line = self.lines[self.place]
            self.place += 1
            if line[:1] not in (b"c", b"u"):
                return line
        self.place = len(self.lines) + 1
        return None

    def need(self):
        line = self.next()
        if line is None:
            self.shape()
        return line

    def shape(self):
        raise Refused(f"shape line {self.place}")

    def numbers(self, word, count):
        """The numbers of a line that is a word and so many numbers."""
        return self.fields(self.need(), word, count)

    def fields(self, line, word, count):
        first, *rest = line.split(b" ")
        if first != word or len(rest) != count:
            self.shape()
        return [self.number(field) for field in rest]

    def number(self, field):
        number = natural(field)
        if number is None:
            self.shape()
        return number

    def end(self):
        if self.next() is not None:
            raise Refused(f"trailing line {self.place}")


def natural(field):
    """A number without a sign and without a leading zero, or None."""
    if re.fullmatch(rb"0|[1-9][0-9]*", field) and len(field) < 20 and int(field) <= GREATEST:
        return int(field)
    return None


# ---- answers


def judge(circuit, text):
    """What check prints of an answer, and its status."""
    try:
        return f"accepted {judge_answer(circuit, Lines(text))}\n", 0
    except Refused as refused:
        return f"refused {refused}\n", 1


def judge_answer(circuit, lines):
    status = lines.need()
    if status == b"2":
        raise Refused("unknown status")
    if status[:3] == b"all":
        return judge_sheet(circuit, status, lines)
    if status not in (b"0", b"1"):
        lines.shape()
    line = lines.need()
    if line[:1] != b"j":
        lines.shape()
    j = lines.number(line[1:])
    if j >= len(circuit.justice):
        raise Refused(f"property {j}")
    return judge_stimulus(circuit, j, lines) if status == b"1" else judge_certificate(circuit, j, lines)


def judge_stimulus(circuit, j, lines):
    rows = rows_of(lines)
    lines.end()
    return replay(circuit, j, rows)


def rows_of(lines):
    """The latch line and the position lines of a stimulus, up to its dot."""
    rows = [values_of(lines, lines.need())]
    while (line := lines.need()) != b".":
        rows.append(values_of(lines, line))
    return rows


def values_of(lines, line):
    if re.fullmatch(rb"[01x]*", line) is None:
        lines.shape()
    return [byte == ord("1") for byte in line]


def replay(circuit, j, rows):
    for item, row in enumerate(rows):
        if len(row) != len(circuit.inputs if item else circuit.latches):
            raise Refused(f"width item {item}")
    for latch, (_, _, reset) in enumerate(circuit.latches):
        if reset is not None and rows[0][latch] != bool(reset):
            raise Refused(f"initial latch {latch}")
    states, met = [rows[0]], []
    for position, inputs in enumerate(rows[1:]):
        value = circuit.values(states[-1], inputs)
        if not all(is_true(value, literal) for literal in circuit.constraints):
            raise Refused(f"constraint position {position}")
        met.append({literal for literal in circuit.literals(j) if is_true(value, literal)})
        following = circuit.successor(value)
        if following in states:
            place = states.index(following)
            if set(circuit.literals(j)) <= set().union(*met[place:]):
                return f"lasso j{j} positions {position + 1} loop {place}"
        states.append(following)
    raise Refused("no fair loop")


# ---- certificates


class Entry:
    """What is kept of an entry: whether it is a wall, its uses as (number, side), its clauses of (latch, sign)."""

    def __init__(self, is_wall, uses, clauses):
        self.is_wall, self.uses, self.clauses = is_wall, uses, clauses

    def named(self):
        return [(number, side) for number, side in self.uses if side != ANY]


def judge_certificate(circuit, j, lines):
    version = {b"version 1": 1, b"version 2": 2}.get(lines.need())
    if version is None:
        lines.shape()
    entries, line = judge_entries(circuit, lines, version)
    judge_refutation(circuit, j, lines, version, entries, line, "refutation ")
    if lines.need() != b"end":
        lines.shape()
    lines.end()
    return f"certificate j{j} entries {len(entries)}"


def judge_entries(circuit, lines, version):
    """The entries, and the line behind them."""
    entries = []
    while (line := lines.need()).split(b" ")[0] in (b"reach", b"wall"):
        word = line.split(b" ")[0]
        clauses, uses = lines.fields(line, word, 2)
        if len(entries) == MOST_ENTRIES:
            raise Refused("too long")
        judge_entry(circuit, lines, version, entries, word == b"wall", clauses, uses)
    return entries, line


def judge_refutation(circuit, j, lines, version, entries, line, name):
    """Judges the refutation of property j that begins with this line."""
    uses, count = lines.fields(line, b"refute", 2)
    uses = read_uses(lines, version, uses)
    for place, (number, side) in enumerate(uses):
        if side != ANY or is_bad_use(entries, uses[:place], number):
            raise Refused(f"{name}use {number}")
    given = skeleton_clauses(circuit, j, [(n, entries[n]) for n, _ in uses])
    judge_proof(lines, count, given, [], name)


def judge_sheet(circuit, first, lines):
    """A sheet: entries, and for each property its lasso, its refutation or nothing."""
    (count,) = lines.fields(first, b"all", 1)
    if count != len(circuit.justice):
        raise Refused(f"property {count}")
    if lines.need() != b"version 2":
        lines.shape()
    entries, line = judge_entries(circuit, lines, 2)
    blocks = []
    for j in range(count):
        blocks.append(judge_block(circuit, j, lines, entries, line))
        line = lines.need()
    if line != b"end":
        lines.shape()
    lines.end()
    counts = [blocks.count(word) for word in (b"lasso", b"holds", b"open")]
    return "sheet lassos {} holds {} unknown {} entries {}".format(*counts, len(entries))


def judge_block(circuit, j, lines, entries, line):
    """The word of the block of property j, which begins with this line."""
    word, *rest = line.split(b" ")
    if word not in (b"lasso", b"holds", b"open") or rest != [b"j%d" % j]:
        lines.shape()
    if word == b"holds":
        judge_refutation(circuit, j, lines, 2, entries, lines.need(), f"block {j} ")
    if word == b"lasso":
        rows = rows_of(lines)
        try:
            replay(circuit, j, rows)
        except Refused as refused:
            raise Refused(f"block {j} {refused}") from None
    return word


def judge_entry(circuit, lines, version, entries, is_wall, count, uses):
    """Judges an entry behind its opening line, and adds it to the entries."""
    name = f"entry {len(entries)} "
    uses = read_uses(lines, version, uses)
    for place, (number, side) in enumerate(uses):
        if is_bad_use(entries, uses[:place], number) or not_allowed(is_wall, entries[number], side):
            raise Refused(f"{name}use {number}")
    clauses = []
    while len(clauses) < count:
        clauses.append(read_clause(circuit, lines, name))
        if not is_wall and not any(circuit.latches[latch][2] == sign for latch, sign in clauses[-1]):
            raise Refused(f"{name}base {len(clauses) - 1}")
    entry = Entry(is_wall, uses, clauses)
    shared = entry_clauses(circuit, [(n, entries[n]) for n, _ in uses], entry) if clauses else []
    for place, clause in enumerate(clauses):
        (lines_of_proof,) = lines.numbers(b"proof", 1)
        judge_proof(lines, lines_of_proof, shared, denied(circuit, clause), f"{name}clause {place} proof ")
    entries.append(entry)


def read_uses(lines, version, count):
    """A line of uses: each as its number and its side."""
    line = lines.need()
    fields = line.split(b" ") if line else []
    if len(fields) != count:
        lines.shape()
    return [read_use(lines, version, field) for field in fields]


def read_use(lines, version, field):
    side = {b"+": IN, b"-": OUT}.get(field[-1:], ANY) if version == 2 else ANY
    return lines.number(field if side == ANY else field[:-1]), side


def is_bad_use(entries, before, number):
    """Whether a use behind these does not ascend, is no earlier entry, or names walls that are not among these."""
    if (before and number <= before[-1][0]) or number >= len(entries):
        return True
    earlier = {n for n, _ in before}
    return any(n not in earlier for n, _ in entries[number].named())


def not_allowed(is_wall, used, side):
    """A reach entry uses reach entries alone, and only a wall has sides."""
    return used.is_wall and not is_wall or side != ANY and not used.is_wall


def read_clause(circuit, lines, name):
    """The clause's literals as (latch, sign): 1 where it says that the latch is 1."""
    *literals, last = [lines.number(field) for field in lines.need().split(b" ")]
    if last != 0:
        lines.shape()
    for literal in literals:
        if literal // 2 not in circuit.latch_of:
            raise Refused(f"{name}literal {literal}")
    return [(circuit.latch_of[literal // 2], 1 - literal % 2) for literal in literals]


# ---- obligations: clauses over numbers, in the order in which they are counted


def number_of(base, literal):
    """Of an AIGER literal in the block behind the number base."""
    number = base + 1 + literal // 2
    return -number if literal % 2 else number


def block_size(circuit):
    return 2 * circuit.most + 2


def block_clauses(circuit, block):
    base = block * block_size(circuit)
    clauses = [[-number_of(base, 0)]]
    for variable, first, second in circuit.gates:
        g, a, b = number_of(base, 2 * variable), number_of(base, first), number_of(base, second)
        clauses += [[-g, a], [-g, b], [g, -a, -b]]
    clauses += [[number_of(base, literal)] for literal in circuit.constraints]
    successor = successor_place(circuit, block)
    for latch, (_, following, _) in enumerate(circuit.latches):
        s, n = successor[latch], number_of(base, following)
        clauses += [[-s, n], [s, -n]]
    return clauses


def state_place(circuit, block):
    """The numbers of the latches at the state of a block."""
    base = block * block_size(circuit)
    return [base + 1 + variable for variable, _, _ in circuit.latches]


def successor_place(circuit, block):
    base = block * block_size(circuit)
    return [base + circuit.most + 2 + variable for variable, _, _ in circuit.latches]


def at(place, clause):
    return [place[latch] if sign else -place[latch] for latch, sign in clause]


def signed(number, side):
    return number if side == IN else -number


def use_clauses(uses, places, free):
    """The clauses of uses over places, where numbers are free from this one on; and each used wall's side number."""
    clauses, sides = [], {}
    for number, entry in uses:
        if not entry.is_wall:
            clauses += [at(place, clause) for place in places for clause in entry.clauses]
            continue
        z = sides[number] = free
        free += 1
        names = [signed(sides[n], side) for n, side in entry.named()]
        clauses += [[-z, name] for name in names]
        for place in places:
            marks = []
            for clause in entry.clauses:
                literals = at(place, clause)
                marks.append(free)
                clauses.append([-z, *literals])
                clauses += [[-free, -literal] for literal in literals]
                free += 1
            clauses.append([z, *marks, *[-name for name in names]])
    return clauses, sides


def entry_clauses(circuit, uses, entry):
    """The clauses that all obligations of an entry begin with."""
    state = state_place(circuit, 0)
    over, sides = use_clauses(uses, [state, successor_place(circuit, 0)], block_size(circuit) + 1)
    names = [[signed(sides[number], side)] for number, side in entry.named()]
    return block_clauses(circuit, 0) + over + names + [at(state, clause) for clause in entry.clauses]


def denied(circuit, clause):
    """The clauses that an obligation ends with: the successor breaks this clause."""
    return [[-literal] for literal in at(successor_place(circuit, 0), clause)]


def skeleton_clauses(circuit, j, uses):
    literals = circuit.literals(j)
    blocks = range(max(1, len(literals)))
    clauses = [clause for block in blocks for clause in block_clauses(circuit, block)]
    clauses += [[number_of(block * block_size(circuit), literal)] for block, literal in enumerate(literals)]
    places = [place(circuit, block) for block in blocks for place in (state_place, successor_place)]
    return clauses + use_clauses(uses, places, len(blocks) * block_size(circuit) + 1)[0]


# ---- proofs


def judge_proof(lines, count, shared, own, name):
    """Judges the lines of a proof from these clauses; a fault is named with the line, from 0."""
    checker, place = Checker(shared, own), 0
    while place < count:
        fault = checker.fault_of(lines.need())
        if fault:
            raise Refused(f"{name}line {place} {fault}")
        place += 1
    if not checker.is_refuted:
        raise Refused(f"{name}line {place} unfinished")


class Checker:
    """Judges proof lines over given clauses, which are two lists, so that many proofs can share the first."""

    def __init__(self, shared, own):
        self.shared, self.own, self.added, self.gone = shared, own, {}, set()
        self.last = len(shared) + len(own)
        self.is_refuted = not all(shared) or not all(own)

    def held(self, number):
        """The clause with this id, or None."""
        if number in self.gone:
            return None
        if 1 <= number <= len(self.shared):
            return self.shared[number - 1]
        if 1 <= number - len(self.shared) <= len(self.own):
            return self.own[number - len(self.shared) - 1]
        return self.added.get(number)

    def fault_of(self, line):
        """The fault of a line, or None where it is accepted; then it has its effect."""
        read = read_proof_line(line)
        if read is None:
            return "bad line"
        number, literals, numbers = read
        return self.remove(numbers) if literals is None else self.add(number, literals, numbers)

    def remove(self, numbers):
        for number in numbers:
            if self.held(number) is None:
                return f"no clause {number}"
        self.gone.update(numbers)
        return None

    def add(self, number, literals, hints):
        if number <= self.last:
            return "id order"
        if any(hint < 0 for hint in hints):
            return "rat"
        fault = self.fault_of_hints({-literal for literal in literals}, hints)
        if fault is None:
            self.last, self.added[number] = number, literals
            self.is_refuted = self.is_refuted or not literals
        return fault

    def fault_of_hints(self, assumed, hints):
        for place, hint in enumerate(hints):
            clause = self.held(hint)
            if clause is None:
                return f"no clause {hint}"
            open_literals = {literal for literal in clause if -literal not in assumed}
            if place == len(hints) - 1:
                return "no conflict" if open_literals else None
            if len(open_literals) != 1:
                return f"not unit {hint}"
            assumed |= open_literals
        return "no conflict"


def read_proof_line(line):
    """An addition as its id, literals and hints; a deletion as its id, None and ids; None where it is neither."""
    fields = line.split(b" ")
    if natural(fields[0]) in (None, 0):
        return None
    is_deletion = fields[1:2] == [b"d"]
    numbers = [integer(field) for field in fields[2 if is_deletion else 1 :]]
    if None in numbers or not numbers or numbers[-1] != 0 or numbers.count(0) != (1 if is_deletion else 2):
        return None
    number, middle = int(fields[0]), numbers.index(0)
    if is_deletion:
        return None if any(n < 0 for n in numbers) else (number, None, numbers[:-1])
    return number, numbers[:middle], numbers[middle + 1 : -1]


def integer(field):
    """A number, or one with a minus in front that is not 0; else None."""
    if field[:1] != b"-":
        return natural(field)
    number = natural(field[1:])
    return -number if number else None


def main(words):
    if len(words) != 2:
        sys.exit(__doc__)
    with open(words[0], "rb") as model, open(words[1], "rb") as answer:
        text, status = judge(read_circuit(model.read()), answer.read())
    sys.stdout.write(text)
    sys.exit(status)


if __name__ == "__main__":
    main(sys.argv[1:])
