#!/usr/bin/env python3
"""What `rounds` prints of small drawn circuits, for 1 to 6 rounds, beside a search of all their states: which of the two it
says must be right, a printed run must have so many rounds when it is gone through here, and `check` must accept the text.

    rounds.py [SEED [CIRCUITS]]     as many as 120 seconds allow, and 60 at least"""
import concurrent.futures
import os
import random
import subprocess
import sys
import tempfile
import time

sys.dont_write_bytecode = True
import judge  # noqa: E402
import maker  # noqa: E402

TOP = os.path.dirname(os.path.dirname(os.path.abspath(__file__)))
# the program itself, without the script before it that looks for sources that are newer
PROGRAM = [os.path.join(TOP, "crates", "fair_main", "out", "fair_main")]
CIRCUITS, SECONDS, AT_ONCE, FEWEST, MOST = 300, 120, 4, 60, 6


def ran(*words):
    done = subprocess.run([*PROGRAM, *words], stdout=subprocess.PIPE, stderr=subprocess.STDOUT, timeout=120)
    return done.stdout.decode("latin1"), done.returncode


def after(seen, values, literals):
    """Which literals were true in this round behind a position with these values, and whether the round ends there."""
    seen = seen | {k for k, literal in enumerate(literals) if judge.is_true(values, literal)}
    return (frozenset(), True) if len(seen) == len(literals) else (seen, False)


def most_rounds(circuit, j):
    """The greatest number of rounds that an initial run has, or MOST where one has as many."""
    states, literals = maker.States(circuit), circuit.literals(j)
    todo = [(state, frozenset(), 0) for state in states.initial]
    met, most = set(todo), 0
    while todo:
        state, seen, count = todo.pop()
        for _, second, values in [step for step in states.steps if step[0] == state]:
            now, ends = after(seen, values, literals)
            most = max(most, count + ends)
            if most == MOST:
                return most
            if (second, now, count + ends) not in met:
                met.add((second, now, count + ends))
                todo.append((second, now, count + ends))
    return most


def rounds_of(circuit, j, lines):
    """How many rounds the run of these lines has, of the latches and of the inputs; None where it is no initial run."""
    state, *rows = [[c == "1" for c in line] for line in lines]
    resets = [reset for _, _, reset in circuit.latches]
    if any(reset is not None and bit != bool(reset) for reset, bit in zip(resets, state)):
        return None
    seen, count = frozenset(), 0
    for row in rows:
        values = circuit.values(state, row)
        if not all(judge.is_true(values, literal) for literal in circuit.constraints):
            return None
        seen, ends = after(seen, values, circuit.literals(j))
        count, state = count + ends, circuit.successor(values)
    return count


def wrong_text(circuit, k, text, most):
    """What is wrong with the text about k rounds of property 0, if anything is."""
    lines = text.split("\n")
    if lines[:2] != [f"rounds {k}", "j0"] or lines[2] != ("run" if most >= k else "version 2"):
        return f"where an initial run has {most} rounds"
    if most >= k:
        count = rounds_of(circuit, 0, lines[3 : lines.index(".")])
        if count is None or count < k:
            return f"whose run has {count} rounds"
    return None


def compare(folder, seed, number, deadline):
    """What is wrong of one drawn circuit, and how many texts were compared."""
    if time.monotonic() > deadline:
        return [], 0
    model = maker.draw_model(random.Random(f"{seed} rounds {number}"))
    circuit = judge.read_circuit(model.encode("latin1"))
    names = [os.path.join(folder, f"{number}.{end}") for end in ("aag", "text")]
    with open(names[0], "w", encoding="latin1") as file:
        file.write(model)
    most, wrong = most_rounds(circuit, 0), []
    for k in range(1, MOST + 1):
        text, status = ran("rounds", names[0], str(k))
        fault = wrong_text(circuit, k, text, most) if status == 0 else f"with status {status}"
        with open(names[1], "w", encoding="latin1") as file:
            file.write(text)
        said = ran("check", *names)
        if not fault and said != (f"accepted rounds {k} j0 {'reached' if most >= k else 'fewer'}\n", 0):
            fault = f"of which check says {said}"
        if fault:
            wrong.append(f"rounds {k} of {model!r} printed {text[:200]!r}, {fault}")
    return wrong, MOST


def main(words):
    seed, circuits = [int(word) for word in words] + [1, CIRCUITS][len(words) :]
    # a first run without words, which builds the program where it is not built
    subprocess.run([os.path.join(TOP, "fairlive")], stdout=subprocess.DEVNULL)
    deadline = time.monotonic() + SECONDS
    with tempfile.TemporaryDirectory() as folder, concurrent.futures.ThreadPoolExecutor(AT_ONCE) as pool:
        told = list(pool.map(lambda number: compare(folder, seed, number, deadline), range(circuits)))
    wrong, texts = [it for some, _ in told for it in some], sum(count for _, count in told)
    for it in wrong[:10]:
        print(it)
    if wrong or texts < MOST * min(circuits, FEWEST):
        print(f"rounds: {len(wrong)} wrong, {texts} texts in {SECONDS} seconds")
        return 1
    print(f"rounds: {texts // MOST} drawn circuits, {texts} texts right and accepted")
    return 0


if __name__ == "__main__":
    sys.exit(main(sys.argv[1:]))
