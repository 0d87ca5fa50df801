"""Small circuits, drawn, and certificates that a property of theirs has no fair lasso, made from explicit states.

A state is a number below 2^L whose bit i is latch i. Reach sets and walls are closed sets that a search over states
finds; proofs come from splitting over sides, latches and inputs. Every choice is drawn, so that certificates of many
forms come out: entries that nothing needs, clauses that say more than they must, literals and clauses twice, uses with
and without signs, ids with gaps, deletions, skipped lines."""
import itertools

import judge


def below(chance, count):
    # random() is the one method whose sequence is the same in every version of Python
    return int(chance.random() * count)


def pick(chance, values):
    return values[below(chance, len(values))]


def shuffled(chance, values):
    values = list(values)
    for last in range(len(values) - 1, 0, -1):
        other = below(chance, last + 1)
        values[last], values[other] = values[other], values[last]
    return values


# ---- circuits


def draw_model(chance):
    """The text of a model: at most 3 latches, 2 inputs and 4 gates, numbered at random with variables left over."""
    l, i, a = 1 + below(chance, 3), below(chance, 3), below(chance, 5)
    c, f = below(chance, 3) // 2, below(chance, 3) // 2
    most = l + i + a + below(chance, 2)
    names = shuffled(chance, range(1, most + 1))
    inputs, latches, outs = names[:i], names[i : i + l], names[i + l : i + l + a]
    known, gates = [*inputs, *latches], []

    def literal():
        return (2 * pick(chance, known) if chance.random() < 0.9 else 0) + below(chance, 2)

    for out in outs:
        gates.append(f"{2 * out} {literal()} {literal()}")
        known.append(out)
    lines = [str(2 * variable) for variable in inputs]
    lines += [f"{2 * v} {literal()}" + pick(chance, ["", "", " 0", " 1", f" {2 * v}"]) for v in latches]
    lines += [str(literal()) for _ in range(c)]
    sizes = [below(chance, 4) for _ in range(1 + below(chance, 2))]
    lines += map(str, sizes)
    lines += [str(literal()) for _ in range(sum(sizes) + f)]
    header = f"aag {most} {i} {l} 0 {a} 0 {c} {len(sizes)} {f}"
    return "\n".join([header, *lines, *shuffled(chance, gates)]) + "\n"


class States:
    """The steps of a circuit as (state, successor, values), and the initial states."""

    def __init__(self, circuit):
        self.circuit, self.count = circuit, 2 ** len(circuit.latches)
        self.steps = []
        for state in range(self.count):
            for inputs in itertools.product([False, True], repeat=len(circuit.inputs)):
                value = circuit.values(self.bits(state), inputs)
                if all(judge.is_true(value, literal) for literal in circuit.constraints):
                    self.steps.append((state, number_of_bits(circuit.successor(value)), value))
        self.initial = [s for s in range(self.count) if self.is_initial(s)]

    def bits(self, state):
        return [bool(state >> k & 1) for k in range(len(self.circuit.latches))]

    def is_initial(self, state):
        resets = [reset for _, _, reset in self.circuit.latches]
        return all(reset is None or bit == bool(reset) for reset, bit in zip(resets, self.bits(state)))

    def closure(self, states, is_allowed):
        """All states that steps lead to from these."""
        found, waiting = set(states), list(states)
        while waiting:
            state = waiting.pop()
            for first, second, _ in self.steps:
                if first == state and second not in found and is_allowed(first, second):
                    found.add(second)
                    waiting.append(second)
        return found

    def satisfying(self, clauses):
        """The set of the states that satisfy each of the clauses over latches."""
        return {s for s in range(self.count) if all(any(s >> k & 1 == sign for k, sign in c) for c in clauses)}

    def has_fair_lasso(self, j):
        """Whether a state that can be reached lies on steps, round and back to it, that make each literal true."""
        for state in self.closure(self.initial, any_step):
            loop = {s for s in self.closure([state], any_step) if state in self.closure([s], any_step)}
            values = [value for first, second, value in self.steps if first in loop and second in loop]
            if values and all(any(judge.is_true(v, x) for v in values) for x in self.circuit.literals(j)):
                return True
        return False

    def fair_lasso(self, j):
        """The steps of a fair lasso of a property that has one: to a state of a loop, and round it."""
        for state in self.closure(self.initial, any_step):
            loop = {s for s in self.closure([state], any_step) if state in self.closure([s], any_step)}
            steps = [step for step in self.steps if step[0] in loop and step[1] in loop]
            wanted = self.circuit.literals(j) or [1]
            fitting = [[step for step in steps if judge.is_true(step[2], x)] for x in wanted]
            if all(fitting):
                walk, last = [], state
                for first, second, value in [fits[0] for fits in fitting]:
                    walk += [*self.way([last], first), (first, second, value)]
                    last = second
                return self.way(self.initial, state) + walk + self.way([last], state)
        raise AssertionError("no fair lasso")

    def way(self, starts, target):
        """Steps from one of the states to the target."""
        ways = {start: [] for start in starts}
        while target not in ways:
            for step in self.steps:
                if step[0] in ways and step[1] not in ways:
                    ways[step[1]] = [*ways[step[0]], step]
        return ways[target]


def any_step(first, second):
    return True


def number_of_bits(bits):
    return sum(1 << k for k, bit in enumerate(bits) if bit)


# ---- entries


class Made(judge.Entry):
    """An entry with its set of states, and the proofs of its clauses."""

    def __init__(self, is_wall, uses, clauses, states):
        super().__init__(is_wall, uses, clauses)
        self.states, self.proofs = states, []

    def keeps(self, first, second):
        """Whether the entry, used, allows a step."""
        if self.is_wall:
            return (first in self.states) == (second in self.states)
        return first in self.states and second in self.states


class Maker:
    """Entries one after another, until they leave no skeleton of the property."""

    def __init__(self, chance, circuit, j, version):
        self.chance, self.circuit, self.j, self.version = chance, circuit, j, version
        self.states, self.entries = States(circuit), []

    def often(self, share):
        return self.chance.random() < share

    def make(self, needless):
        """Makes the entries; so many of them, drawn, are not needed when they are made."""
        while True:
            while needless and self.often(0.6):
                self.add_needless()
                needless -= 1
            skeleton = self.open_skeleton(range(len(self.entries)))
            if skeleton is None and not needless:
                return
            if skeleton:
                self.exclude(skeleton)

    def open_skeleton(self, uses):
        """Steps that make the literals true in order, whose ends lie where these entries allow a skeleton; or None."""
        sides = {}
        for step in self.states.steps:
            first, second, _ = step
            if all(self.entries[n].keeps(first, second) for n in uses):
                side = tuple(first in self.entries[n].states for n in uses)
                sides.setdefault(side, []).append(step)
        wanted = self.circuit.literals(self.j) or [1]
        for side in shuffled(self.chance, sorted(sides)):
            fitting = [[step for step in sides[side] if judge.is_true(step[2], x)] for x in wanted]
            if all(fitting):
                return [pick(self.chance, steps) for steps in fitting]
        return None

    def allows(self, first, second):
        return all(entry.keeps(first, second) for entry in self.entries)

    def allows_reach(self, first, second):
        return all(entry.is_wall or entry.keeps(first, second) for entry in self.entries)

    def exclude(self, skeleton):
        """Adds an entry that excludes the skeleton: one that a failed stem or a failed piece of the ring gives."""
        ways = []
        reached = self.states.closure(self.states.initial, self.allows_reach)
        ends = [first for first, _, _ in skeleton] + [second for _, second, _ in skeleton]
        if not reached.issuperset(ends):
            ways.append((False, reached, None))
        for place, (_, start, _) in enumerate(skeleton):
            target = skeleton[(place + 1) % len(skeleton)][0]
            closed = self.states.closure([start], self.allows)
            if target not in closed:
                ways.append((True, closed, start))
        assert ways, "the property has a fair lasso"
        self.add(*pick(self.chance, ways), lambda states, is_wall: is_excluded(ends, states, is_wall))

    def add_needless(self):
        start = below(self.chance, self.states.count)
        if self.often(0.3):
            self.add(self.often(0.5), set(range(self.states.count)), None, lambda states, is_wall: True)
            return
        is_wall = self.often(0.5)
        starts, allows = ([start], self.allows) if is_wall else (self.states.initial, self.allows_reach)
        self.add(is_wall, self.states.closure(starts, allows), start, lambda states, is_wall: True)

    def add(self, is_wall, states, start, is_wanted):
        """Adds an entry that is wanted: with this set and all uses, or one that varies it."""
        uses = [(n, self.side_of(n, start)) for n, used in enumerate(self.entries) if is_wall or not used.is_wall]
        clauses = [
            [(k, 1 - (s >> k & 1)) for k in range(len(self.circuit.latches))]
            for s in range(self.states.count) if s not in states
        ]
        made = self.entry(is_wall, uses, shuffled(self.chance, clauses))
        assert made and is_wanted(made.states, is_wall), "a closed set is none"
        drops_uses = self.often(0.5)
        for _ in range(below(self.chance, 30)):
            other = self.entry(is_wall, *self.varied(made.uses, made.clauses, drops_uses))
            if other and is_wanted(other.states, is_wall):
                made = other
        self.entries.append(made)

    def side_of(self, n, start):
        """A side of a used wall, where it gets one: that of the start."""
        if start is None or self.version == 1 or not self.entries[n].is_wall or self.often(0.5):
            return judge.ANY
        return judge.IN if start in self.entries[n].states else judge.OUT

    def varied(self, uses, clauses, drops_uses):
        """Other uses and clauses: a use dropped, a clause or a literal of one dropped or put twice."""
        uses, clauses = list(uses), [list(clause) for clause in clauses]
        change = below(self.chance, 6)
        if change < 2:
            if uses and drops_uses:
                uses.pop(below(self.chance, len(uses)))
        elif change == 2 and clauses:
            clauses.pop(below(self.chance, len(clauses)))
        elif change < 5 and clauses:
            clause = pick(self.chance, clauses)
            if clause:
                clause.pop(below(self.chance, len(clause)))
        elif self.often(0.2) and clauses:
            clause = pick(self.chance, clauses)
            if clause and self.often(0.6):
                clause.append(pick(self.chance, clause))
            else:
                clauses.append(clause)
        return uses, clauses

    def entry(self, is_wall, uses, clauses):
        """The entry where it is valid, or None."""
        numbers = [n for n, _ in uses]
        if any(n not in numbers for used in numbers for n, _ in self.entries[used].named()):
            return None
        if not is_wall and any(all(self.circuit.latches[k][2] != sign for k, sign in c) for c in clauses):
            return None
        states = self.states.satisfying(clauses)
        for n, side in uses:
            if side != judge.ANY:
                states = {s for s in states if (s in self.entries[n].states) == (side == judge.IN)}
        for first, second, _ in self.states.steps:
            if first in states and second not in states and all(self.entries[n].keeps(first, second) for n in numbers):
                return None
        return Made(is_wall, uses, clauses, states)

    def refutation_uses(self):
        """All entries, or fewer that leave no skeleton either and are closed."""
        uses = list(range(len(self.entries)))
        for n in shuffled(self.chance, uses):
            fewer = [m for m in uses if m != n]
            is_closed = all(m in fewer for used in fewer for m, _ in self.entries[used].named())
            if is_closed and self.often(0.8) and self.open_skeleton(fewer) is None:
                uses = fewer
        return uses


def is_excluded(ends, states, is_wall):
    inside = [end in states for end in ends]
    return not all(inside) and (any(inside) or not is_wall)


# ---- proofs


class Prover:
    """Additions that refute clauses: as (clause, hints) with hints as numbers of clauses, the given ones from 1 on."""

    def __init__(self, clauses, order):
        self.clauses, self.order, self.count = list(clauses), order, len(clauses)
        self.hints = []
        # a dictionary from literals to the clauses that hold their negations
        self.watching = {}
        for number, clause in enumerate(self.clauses, 1):
            self.watch(number, clause)

    def watch(self, number, clause):
        for literal in set(clause):
            self.watching.setdefault(-literal, []).append(number)

    def refute(self):
        if all(self.clauses):
            self.split([])
        return list(zip(self.clauses[self.count :], self.hints))

    def learn(self, clause, hints):
        self.clauses.append(clause)
        self.hints.append(hints)
        self.watch(len(self.clauses), clause)
        return len(self.clauses)

    def split(self, decided):
        """The number of a clause that is false where these literals are true."""
        value, reasons, trail, conflict = self.propagate(decided)
        if conflict:
            return self.explain(decided, reasons, trail, conflict)
        free = next((v for v in self.order if v not in value and -v not in value), None)
        assert free is not None, "the clauses can be satisfied"
        left = self.split([*decided, free])
        if -free not in self.clauses[left - 1]:
            return left
        right = self.split([*decided, -free])
        if free not in self.clauses[right - 1]:
            return right
        both = [x for x in self.clauses[left - 1] if x != -free]
        both += [x for x in self.clauses[right - 1] if x != free and x not in both]
        return self.learn(both, [left, right])

    def propagate(self, decided):
        value, reasons, trail = set(), {}, []
        waiting = [(literal, None) for literal in decided]
        waiting += [(c[0], n) for n, c in enumerate(self.clauses, 1) if len(set(c)) == 1]
        for literal, reason in waiting:
            if literal in value:
                continue
            if -literal in value:
                return value, reasons, trail, reason
            value.add(literal)
            reasons[literal] = reason
            trail.append(literal)
            for number in self.watching.get(literal, ()):
                left = {x for x in self.clauses[number - 1] if -x not in value}
                if not left:
                    return value, reasons, trail, number
                if len(left) == 1:
                    waiting.append((left.pop(), number))
        return value, reasons, trail, None

    def explain(self, decided, reasons, trail, conflict):
        """Learns the clause of those decisions that the conflict comes from."""
        needed, hints, clause = {-x for x in self.clauses[conflict - 1]}, [conflict], []
        for literal in reversed(trail):
            if literal not in needed:
                continue
            if reasons[literal] is None:
                clause.append(-literal)
            else:
                hints.append(reasons[literal])
                needed |= {-x for x in self.clauses[reasons[literal] - 1] if x != literal}
        return self.learn(clause, hints[::-1])


def proof_lines(chance, clauses, additions):
    """The lines of a proof: ids with gaps, deletions of clauses that no later hint names, and now and then more."""
    given = len(clauses)
    ids, lines, last = {n: n for n in range(1, given + 1)}, [], given
    if given <= 60 and chance.random() < 0.15:
        # each given clause, learned from itself: so a literal that is left out is seen
        lines = [line_of([given + n, *clause, 0, n, 0]) for n, clause in enumerate(clauses, 1)]
        last += given
    final_use = {}
    for place, (_, hints) in enumerate(additions):
        final_use.update((hint, place) for hint in hints)
    has_gaps, deletes = chance.random() < 0.2, chance.random() < 0.3
    for place, (clause, hints) in enumerate(additions):
        last += 1 + (below(chance, 3) if has_gaps else 0)
        ids[given + 1 + place] = last
        lines.append(line_of([last, *clause, 0, *(ids[hint] for hint in hints), 0]))
        done = [ids[h] for h in dict.fromkeys(hints) if final_use[h] == place]
        if deletes and done and chance.random() < 0.5:
            lines.append(line_of([1 + below(chance, last + 2), "d", *done, 0]))
    if lines and chance.random() < 0.1:
        lines.insert(below(chance, len(lines) + 1), "1 d 0")
    return lines


def line_of(fields):
    return " ".join(map(str, fields))


# ---- texts


def sides_first(clauses, places, inputs, free):
    """An order to split in: the numbers of sides (those from free on), then block by block latches and inputs."""
    used = {abs(literal) for clause in clauses for literal in clause}
    marks = {abs(c[0]) for c in clauses if len(c) == 2 and c[0] <= -free and abs(c[1]) < free}
    return sorted(v for v in used if v >= free and v not in marks) + [*places, *inputs] + sorted(used)


def prove(chance, circuit, blocks, clauses):
    size = judge.block_size(circuit)
    places = [n for b in range(blocks) for n in judge.state_place(circuit, b)]
    inputs = [b * size + 1 + v for b in range(blocks) for v in circuit.inputs]
    order = sides_first(clauses, places, inputs, blocks * size + 1)
    return proof_lines(chance, clauses, Prover(clauses, order).refute())


def use_text(n, side):
    return f"{n}" + {judge.IN: "+", judge.OUT: "-", judge.ANY: ""}[side]


def clause_text(circuit, clause):
    literals = [2 * circuit.latches[k][0] + 1 - sign for k, sign in clause]
    return line_of([*literals, 0])


def entry_lines(chance, circuit, entries, entry):
    uses = [(n, entries[n]) for n, _ in entry.uses]
    shared = judge.entry_clauses(circuit, uses, entry)
    lines = [f"{'wall' if entry.is_wall else 'reach'} {len(entry.clauses)} {len(uses)}"]
    lines.append(" ".join(use_text(n, side) for n, side in entry.uses))
    lines += [clause_text(circuit, clause) for clause in entry.clauses]
    for clause in entry.clauses:
        proof = prove(chance, circuit, 1, shared + judge.denied(circuit, clause))
        lines += [f"proof {len(proof)}", *proof]
    return lines


def refutation_lines(chance, maker, j):
    """The lines of a refutation of a property of which the maker's entries leave no skeleton."""
    circuit, maker.j = maker.circuit, j
    uses = maker.refutation_uses()
    clauses = judge.skeleton_clauses(circuit, j, [(n, maker.entries[n]) for n in uses])
    proof = prove(chance, circuit, max(1, len(circuit.literals(j))), clauses)
    return [f"refute {len(uses)} {len(proof)}", " ".join(map(str, uses)), *proof]


def text_of(chance, lines):
    """The text of the lines, now and then with lines between them that are skipped."""
    if chance.random() < 0.1:
        lines = [line for pair in zip(lines, ["c skipped", "u"] * len(lines)) for line in pair]
    return "\n".join(lines) + "\n"


def certificate(chance, maker):
    """The text of the maker's certificate."""
    lines = ["0", f"j{maker.j}", f"version {maker.version}"]
    for entry in maker.entries:
        lines += entry_lines(chance, maker.circuit, maker.entries, entry)
    return text_of(chance, [*lines, *refutation_lines(chance, maker, maker.j), "end"])


def draw(chance):
    """A model's text, and a certificate of some entries that one of its properties has no fair lasso."""
    fewest = pick(chance, [0, 1, 2, 2, 3, 3, 4])
    while True:
        model = draw_model(chance)
        circuit = judge.read_circuit(model.encode())
        states = States(circuit)
        good = [j for j in range(len(circuit.justice)) if not states.has_fair_lasso(j)]
        if good:
            maker = Maker(chance, circuit, pick(chance, good), 2 - below(chance, 3) // 2)
            maker.make(below(chance, 3))
            if len(maker.entries) >= fewest:
                return model, certificate(chance, maker)


# ---- sheets


def row(bits):
    return "".join("01"[bit] for bit in bits)


def lasso_lines(states, j):
    """The lines of a stimulus of a property that has a fair lasso, the dot among them."""
    steps, circuit = states.fair_lasso(j), states.circuit
    inputs = [row(value[variable] for variable in circuit.inputs) for _, _, value in steps]
    return [row(states.bits(steps[0][0])), *inputs, "."]


def block_lines(chance, maker, j):
    if chance.random() < 0.1:
        return [f"open j{j}"]
    if maker.states.has_fair_lasso(j):
        return [f"lasso j{j}", *lasso_lines(maker.states, j)]
    return [f"holds j{j}", *refutation_lines(chance, maker, j)]


def draw_sheet(chance):
    """A model's text, and a sheet of all its properties, of which a few are left open."""
    model = draw_model(chance)
    circuit = judge.read_circuit(model.encode())
    maker = Maker(chance, circuit, 0, 2)
    for j in range(len(circuit.justice)):
        if not maker.states.has_fair_lasso(j):
            maker.j = j
            maker.make(below(chance, 2))
    lines = [f"all {len(circuit.justice)}", "version 2"]
    for entry in maker.entries:
        lines += entry_lines(chance, circuit, maker.entries, entry)
    for j in range(len(circuit.justice)):
        lines += block_lines(chance, maker, j)
    return model, text_of(chance, [*lines, "end"])
