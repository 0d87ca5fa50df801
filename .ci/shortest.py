#!/usr/bin/env python3
"""What `shortest` prints of small drawn circuits, for depths from 0 on and under limits on conflicts, beside a search of all
their states: a lasso with the fewest positions, which the judge beside this file and `check` accept, or that there is none of
so many; of a report, that there is none of at most as many as it says.

    shortest.py [SEED [CIRCUITS]]     as many as 90 seconds allow, and 60 at least"""
import concurrent.futures
import os
import random
import re
import subprocess
import sys
import tempfile
import time

sys.dont_write_bytecode = True
import judge  # noqa: E402
import maker  # noqa: E402

TOP = os.path.dirname(os.path.dirname(os.path.abspath(__file__)))
# the program itself, without the script before it that looks for sources that are newer
PROGRAM = [os.path.join(TOP, "crates", "fair_main", "out", "fair_main")]
CIRCUITS, SECONDS, AT_ONCE, FEWEST, DEPTH = 300, 90, 4, 60, 12


def ran(*words):
    done = subprocess.run([*PROGRAM, *words], stdout=subprocess.PIPE, stderr=subprocess.STDOUT, timeout=120)
    return done.stdout.decode("latin1"), done.returncode


def distances(starts, steps):
    """How many steps lead from one of these to each that they lead to, the fewest; `steps` tells those from one."""
    found, last = {start: 0 for start in starts}, list(starts)
    while last:
        reached = []
        for one in last:
            for other in steps(one):
                if other not in found:
                    found[other] = found[one] + 1
                    reached.append(other)
        last = reached
    return found


def shortest_loop(states, literals, state):
    """The fewest steps from the state back to it that make each literal true; None where there are none."""

    def steps(place):
        now, seen, _ = place
        for first, second, values in states.steps:
            if first == now:
                yield second, seen | {k for k, literal in enumerate(literals) if judge.is_true(values, literal)}, True

    found = distances([(state, frozenset(), False)], steps)
    return found.get((state, frozenset(range(len(literals))), True))


def fewest_positions(circuit, j):
    """How many positions the shortest fair lasso of the property has; None where there is none."""
    states, literals = maker.States(circuit), circuit.literals(j)
    stems = distances(states.initial, lambda state: [second for first, second, _ in states.steps if first == state])
    loops = [(stem, shortest_loop(states, literals, state)) for state, stem in stems.items()]
    return min((stem + loop for stem, loop in loops if loop is not None), default=None)


def wrong_lasso(circuit, names, j, text, fewest):
    """What is wrong with the answer, if anything is."""
    with open(names[1], "w", encoding="latin1") as file:
        file.write(text)
    said, wanted = ran("check", *names), judge.judge(circuit, text.encode("latin1"))
    if said != wanted or not said[0].startswith(f"accepted lasso j{j} positions {fewest} loop "):
        return f"of which check says {said}, the judge {wanted}"
    return None


def wrong_text(circuit, names, j, depth, fewest):
    """What is wrong with what is printed for this depth, if anything is."""
    text, status = ran("shortest", names[0], "--property", str(j), "--depth", str(depth))
    if fewest is None or fewest > depth:
        fault = None if (text, status) == (f"no lasso within {depth} j{j}\n", 0) else f"with status {status}"
    else:
        fault = wrong_lasso(circuit, names, j, text, fewest) if status == 0 else f"with status {status}"
    return fault and f"printed {text[:200]!r} for depth {depth}, {fault}, where the fewest are {fewest}"


def wrong_report(circuit, names, j, limit, fewest):
    """The same under a limit on conflicts, where a report may come; and whether it came."""
    text, status = ran("shortest", names[0], "--property", str(j), "--depth", str(DEPTH), "--conflicts", str(limit))
    if status != 2:
        return wrong_text(circuit, names, j, DEPTH, fewest), 0
    form = rf"2\nj{j}\nc entries 0 of 0\nc worker 0 conflicts {limit} of {limit} depth (\d+) of {DEPTH}\n\.\n"
    said = re.fullmatch(form, text)
    if said and int(said[1]) < min(DEPTH, fewest or DEPTH):
        return None, 1
    return f"printed {text!r} for {limit} conflicts, where the fewest are {fewest}", 1


def compare(folder, seed, number, deadline):
    """What is wrong of one drawn circuit, and how many texts were compared, and reports among them."""
    if time.monotonic() > deadline:
        return [], 0, 0
    model = maker.draw_model(random.Random(f"{seed} shortest {number}"))
    circuit = judge.read_circuit(model.encode("latin1"))
    names = [os.path.join(folder, f"{number}.{end}") for end in ("aag", "text")]
    with open(names[0], "w", encoding="latin1") as file:
        file.write(model)
    faults, reports = [], 0
    for j in range(len(circuit.justice)):
        fewest = fewest_positions(circuit, j)
        depths = [0, DEPTH] + [depth for depth in ((fewest or 3) - 1, fewest or 3) if 0 < depth < DEPTH]
        faults += [wrong_text(circuit, names, j, depth, fewest) for depth in depths]
        for limit in (0, 1, 2, 4):
            fault, came = wrong_report(circuit, names, j, limit, fewest)
            faults, reports = [*faults, fault], reports + came
    return [f"shortest of {model!r} {fault}" for fault in faults if fault], len(faults), reports


def main(words):
    seed, circuits = [int(word) for word in words] + [1, CIRCUITS][len(words) :]
    # a first run without words, which builds the program where it is not built
    subprocess.run([os.path.join(TOP, "fairlive")], stdout=subprocess.DEVNULL)
    deadline = time.monotonic() + SECONDS
    with tempfile.TemporaryDirectory() as folder, concurrent.futures.ThreadPoolExecutor(AT_ONCE) as pool:
        told = list(pool.map(lambda number: compare(folder, seed, number, deadline), range(circuits)))
    wrong, done = [it for some, _, _ in told for it in some], sum(1 for _, texts, _ in told if texts)
    texts, reports = (sum(it[k] for it in told) for k in (1, 2))
    for it in wrong[:10]:
        print(it)
    if wrong or done < min(circuits, FEWEST) or not reports:
        print(f"shortest: {len(wrong)} wrong, {done} of {circuits} drawn circuits in {SECONDS} seconds, {reports} reports")
        return 1
    print(f"shortest: {done} drawn circuits, {texts} texts right, {reports} of them reports")
    return 0


if __name__ == "__main__":
    sys.exit(main(sys.argv[1:]))
