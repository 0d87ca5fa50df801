"""The table of prices: what a question to the solver costs within one search, at its beginning and later, beside an earlier
program."""
import os
import re
import sys
import time

from measuring import BENCH, is_asked, make, program, run_once

# The models, how many positions the drawn run has whose last state is searched for, and the place of a latch that has the
# other value there, so that the search is long enough.
SEARCHED = (
    ("models", "lfsr_8", 240, None),
    ("big", "uart_m", 200, None),
    ("models", "token_ring_64", 200, 33),
    ("models", "ys_uart_tx", 200, 1),
)
# Each search is run so many times at least, and for so many seconds, as long as a slow phase of a shared machine may last.
SEED, RUNS, SECONDS = 1, 15, 60
# How many questions are the first ones, after how many a search is old, and how many more are measured then.
YOUNG, OLD, MORE = 1_000, 10_000, 2_000
# Steps that are tried first; and how near to a number of questions is near enough.
FIRST, NEAR = 100, 0.05


def measure_prices(folder, size, other):
    """One search of a model from its initial states to a state, ended behind so many steps that it asked so many questions."""
    place, name, positions, latch = size
    if not is_asked(name):
        return []
    target = os.path.join(folder, "target.aag")
    source = os.path.join(BENCH, place, name + ".aag")
    make("target.py", SEED, positions, source, target, *([] if latch is None else [latch]))
    with open(target) as file:
        head = file.readline().split()
    row = {"model": name, "latches": head[3], "gates": head[5]}
    sides = (("", [program("fair_bench")]), *([("before: ", other)] if other else []))
    for side, words in sides:
        row.update({side + key: told for key, told in prices_of([*words, "search", target]).items()})
    return row


def prices_of(words):
    last = steps_near(words, OLD + MORE)
    most = cost(words, last)[1]
    young, old = (steps_near(words, questions) for questions in (YOUNG, min(OLD, most - YOUNG)))
    first, before, whole = least_of(words, (young, old, last))
    price, later = (price_of(*pair) for pair in (((0, 0), first), (before, whole)))
    return {
        "questions": f"{whole[0]:,}",
        "us a question": f"{price_of((0, 0), whole):.1f}",
        "of the first": f"{first[0]:,}: {price:.1f}",
        "behind": f"{before[0]:,}: {later:.1f}",
        "ratio": f"{later / price:.2f}",
    }


def cost(words, steps):
    """How many steps a search of at most so many takes, how many questions it asks, and its microseconds."""
    out, err, _ = run_once([*words, str(steps)])
    found = re.search(r"^conflicts \d+ steps (\d+) nanoseconds (\d+) frames \d+ questions (\d+)$", err, re.MULTILINE)
    if not found:
        sys.exit(f"{' '.join(words)}: {out}{err}")
    return int(found[1]), int(found[3]), int(found[2]) / 1e3


def steps_near(words, questions):
    """Some steps in which about so many questions are asked, or all that the search takes where it asks fewer."""
    steps = FIRST
    for _ in range(10):
        taken, asked, _ = cost(words, steps)
        if abs(asked - questions) <= NEAR * questions or taken < steps and asked < questions:
            return taken
        steps = max(1, taken * questions // asked)
    return steps


def least_of(words, ends):
    """The questions of searches of so many steps, and the least microseconds of some runs of each, by turns: differences of two
    are told, so a slow minute of the machine has to meet all of them alike."""
    rounds, begun = [], time.monotonic()
    while len(rounds) < RUNS or time.monotonic() < begun + SECONDS:
        rounds.append([cost(words, steps) for steps in ends])
    return [(runs[0][1], min(run[2] for run in runs)) for runs in zip(*rounds)]


def price_of(before, behind):
    """Microseconds a question from one end to a later one."""
    return (behind[1] - before[1]) / max(1, behind[0] - before[0])
