"""The table of shortest lassos: of each property up to one depth after the other, beside bounded search by ABC."""
import os
import re
import shutil
import statistics
import sys

from deciding import NO_LIMITS, check_answer, verdict_of
from measuring import ABC, BENCH, known_of, limited, make, program, run_once

# Up to so many positions a lasso is looked for, until one is found or the time ends.
DEPTHS = (5, 10, 20, 50, 100)
# Times are compared where one of the two is above this, which is a few times what ABC takes to begin; and the aim.
LEAST, AIM = 0.1, 3
# What a time below it counts as: the clock tells no less.
TICK = 0.001
# How ABC takes the model of safety: latches that the reset leaves open become inputs first, and constraints a latch.
TAKEN = "logic; undc; strash; zero; fold"


def measure_lassos(folder, seconds):
    """The shortest lasso of each property of bench/models, or how far there is none, within so many processor seconds a run."""
    rows, pairs = [], []
    for known in known_of("models"):
        ours, theirs = searched_here(folder, seconds, known), searched_by_abc(folder, seconds, known)
        see_alike(known, ours, theirs)
        pairs += [(ours[depth], theirs[depth]) for depth in DEPTHS if ours.get(depth) and theirs.get(depth)]
        rows.append(lasso_row(known, ours, theirs))
    found = [row for row in rows if row["lasso, s"]]
    print(f"{len(found)} of {sum(row['known'] == 'fails' for row in rows)} properties that fail have their shortest lasso")
    print(f"{told_ratios(pairs)}\n")
    return rows


def told_ratios(pairs):
    """The times of both for one depth of one property: in how many the aim is met, and the mean of their ratios."""
    ratios = [max(one.spent, TICK) / max(other.spent, TICK) for one, other in pairs if max(one.spent, other.spent) > LEAST]
    if not ratios:
        return f"no search to a depth, ended by both, takes one of them more than {LEAST} s"
    within = sum(ratio <= AIM for ratio in ratios)
    mean = statistics.geometric_mean(ratios)
    return f"{within} of {len(ratios)} searches to a depth above {LEAST} s within {AIM} times ABC's time; {mean:.2f} of it in the mean"


class Search:
    """One search: up to which depth, how many positions a lasso has that was found, processor seconds, and memory in MB."""

    def __init__(self, depth, positions, usage):
        self.depth, self.positions = depth, positions
        self.spent, self.peak = usage.ru_utime, usage.ru_maxrss * 1024 / 1e6


def searched_to(search):
    """The searches that ended, by their depths: up to the one that finds a lasso, or the last one in time."""
    found = {}
    for depth in DEPTHS:
        one = search(depth)
        if one is None:
            break
        found[depth] = one
        if one.positions is not None:
            break
    return found


def searched_here(folder, seconds, known):
    model = os.path.join(BENCH, "models", known["name"] + ".aag")
    words = [program("fair_main"), "shortest", model, "--property", known["property"], *NO_LIMITS[:2]]

    def search(depth):
        out, _, usage = run_once(limited(seconds, [*words, "--depth", str(depth)]))
        if out == f"no lasso within {depth} j{known['property']}\n":
            return Search(depth, None, usage)
        if not verdict_of(out, model, known):
            return None
        judged, _ = check_answer(folder, model, known, out)
        return Search(depth, int(judged.split()[4]), usage)

    return searched_to(search)


def searched_by_abc(folder, seconds, known):
    """The same on the model that `safety` prints, where ABC is there: a lasso of k positions is a bad state in frame k."""
    if not shutil.which(ABC):
        return {}
    text, binary = (os.path.join(folder, "safety." + end) for end in ("aag", "aig"))
    model = os.path.join(BENCH, "models", known["name"] + ".aag")
    out, _, _ = run_once([program("fair_main"), "safety", model, "--property", known["property"]])
    with open(text, "w") as file:
        file.write(out)
    make("safety.py", text, binary)

    def search(depth):
        out, _, usage = run_once(limited(seconds, [ABC, "-q", f"read {binary}; {TAKEN}; bmc3 -F {depth + 1}"]))
        said = re.search(r"was asserted in frame (\d+)", out)
        if said or re.search(rf"No output (?:asserted|failed) in {depth + 1} frames", out):
            return Search(depth, int(said[1]) if said else None, usage)
        return None

    return searched_to(search)


def see_alike(known, ours, theirs):
    """Ends the bench where one finds a lasso, and the other one a longer one, or none within as many positions."""
    for depth in ours.keys() & theirs.keys():
        if ours[depth].positions != theirs[depth].positions:
            said = f"{ours[depth].positions} positions at depth {depth}, and ABC says {theirs[depth].positions}"
            sys.exit(f"{known['name']} {known['property']}: {said}")


def lasso_row(known, ours, theirs):
    last, other = ([*found.values()][-1] if found else None for found in (ours, theirs))
    both = last and other and last.positions and other.positions
    row = {
        "model": known["name"],
        "property": known["property"],
        "latches": known["latches"],
        "known": known["verdict"],
        "positions": (str(last.positions) if last.positions else f"over {last.depth}") if last else "none in time",
        "lasso, s": f"{last.spent:.2f}" if last and last.positions else "",
        "ABC's, s": f"{other.spent:.2f}" if other and other.positions else "",
        "ratio": f"{last.spent / other.spent:.2f}" if both and other.spent else "",
        "memory, MB": f"{last.peak:.0f}" if last else "",
        "ABC's, MB": f"{other.peak:.0f}" if other else "",
    }
    for depth in DEPTHS:
        for name, found in ((f"{depth}: s", ours), (f"{depth}: ABC's, s", theirs)):
            row[name] = f"{found[depth].spent:.2f}" if depth in found else ""
    return row
