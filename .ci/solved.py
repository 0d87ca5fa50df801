#!/usr/bin/env python3
"""What `solve` prints: of models worked out by hand, and of small drawn circuits beside a search of all their states. Each
verdict must be the right one, and an answer that the judge beside this file and `check` accept; each report must show what
was spent, and of a lasso worker up to how many positions no lasso is. Of all properties the sheet must be one that both accept,
and each block right.

    solved.py [SEED [CIRCUITS]]     as many as 240 seconds allow, and 60 at least"""
import concurrent.futures
import os
import random
import re
import subprocess
import sys
import tempfile
import time

sys.dont_write_bytecode = True
import judge  # noqa: E402
import maker  # noqa: E402
import shortest  # noqa: E402

TOP = os.path.dirname(os.path.dirname(os.path.abspath(__file__)))
# the program itself, without the script before it that looks for sources that are newer
PROGRAM = [os.path.join(TOP, "crates", "fair_main", "out", "fair_main")]
CIRCUITS, SECONDS, WORKERS, FEWEST = 300, 240, 4, 60
KINDS, MOST = ["conflicts", "steps", "skeletons"], 4096
# how many workers search, each on a thread of its own
CREWS = (1, 2, 4, 8, 64)
# up to how many positions lasso workers search
DEPTH = 12

# ---- what was worked out by hand: a model, options, the status, and the text or how it begins

ONE = "aag 1 0 1 0 0 0 0 1 0\n"
CHANGING, STUCK, RISING = ONE + "2 3\n1\n2\n", ONE + "2 2\n1\n2\n", ONE + "2 1\n1\n3\n"
COUNTER = "aag 6 0 2 0 4 0 0 1 0\n2 3\n4 11\n1\n12\n6 5 2\n8 4 3\n10 9 7\n12 4 2\n"
# a property whose literal is the conjunction of two formulas that exclude each other
APART = "aag 9 2 0 0 7 0 0 1 0\n2\n4\n1\n18\n6 5 3\n8 5 2\n10 4 3\n12 4 2\n14 9 7\n16 13 11\n18 16 14\n"
TWICE = "1\nj0\n0\n\n\n.\n"
REPORT = "2\nj0\nc entries {}\nc worker 0 conflicts {} steps {}\n.\n"
RACED = "2\nj0\nc entries 0 of 10000\nc worker 0 conflicts {0} steps 0 of 100000\nc worker 1 conflicts {0} depth {1}\n.\n"
USAGE = "usage: fairlive solve MODEL"
KNOWN = [
    (CHANGING, "", 0, TWICE),
    (STUCK, "", 0, "0\nj0\nversion 2\n"),
    (RISING, "", 0, "0\nj0\nversion 2\n"),
    (ONE + "2 2 2\n1\n2\n", "", 0, "1\nj0\n1\n\n.\n"),
    ("aag 1 0 1 0 0 0 1 1 0\n2 2 2\n3\n1\n2\n", "", 0, "0\nj0\nversion 2\n"),
    (COUNTER, "", 0, "1\nj0\n00\n\n\n\n\n.\n"),
    ("aag 1 1 0 0 0 0 0 1 0\n2\n1\n2\n", "", 0, "1\nj0\n\n1\n.\n"),
    ("aig 1 0 1 0 0 0 0 1 0\n3\n1\n2\n", "", 0, TWICE),
    ("aig 3 1 1 0 1 0 0 1 0\n6\n1\n4\n\x02\x02l0 t\nc\nany", "", 0, "0\nj0\nversion 2\n"),
    (ONE + "2 3\n0\n", "", 0, TWICE),
    (ONE + "2 3\n1\n0\n", "--conflicts 0", 0, "0\nj0\nversion 2\n"),
    (STUCK, "--skeletons 0", 2, "2\nj0\nc entries 0 of 0\nc worker 0 conflicts "),
    (CHANGING, "--skeletons 0", 0, TWICE),
    (CHANGING, "--property 1", 8, "no property 1\n"),
    ("aag 1048576 0 0 0 0\n", "", 8, "no property 0\n"),
    ("aag 2 1 0 0 1 0 0 1 0\n2\n1\n4\n4 4 2\n", "", 3, "model refused cycle 2\n"),
    (APART, "--conflicts 0", 2, REPORT.format("0 of 10000", "0 of 0", "0 of 100000")),
    (STUCK, "--steps 0", 2, REPORT.format("0 of 10000", "0 of 1000000", "0 of 0")),
    (COUNTER, "--workers 4", 0, "1\nj0\n00\n\n\n\n\n.\n"),
    (COUNTER, "--workers 0", 64, USAGE),
    (COUNTER, "--workers 65", 64, USAGE),
    (COUNTER, "--skeletons 65537", 64, USAGE),
    (COUNTER, "--workers 2 --lassos 1", 0, "1\nj0\n00\n\n\n\n\n.\n"),
    (COUNTER, "--workers 64 --lassos 63 --steps 0", 0, "1\nj0\n00\n\n\n\n\n.\n"),
    (STUCK, "--workers 2 --lassos 63 --depth 0", 0, "0\nj0\nversion 2\n"),
    (STUCK, "--lassos 1 --steps 0", 2, REPORT.format("0 of 10000", "0 of 1000000", "0 of 0")),
    (APART, "--conflicts 0 --workers 2 --lassos 1 --depth 3", 2, RACED.format("0 of 0", "0 of 3")),
    (COUNTER, "--lassos 64", 64, USAGE),
    (COUNTER, "--lassos one", 64, USAGE),
    (COUNTER, "--depth 65537", 64, USAGE),
    (COUNTER, "--steps 1 --steps 2", 64, USAGE),
    ("aag 1 0 1 0 0 0 0 2 0\n2 3\n1\n1\n2\n0\n", "--all --workers 2", 0, "all 2\nversion 2\nlasso j0\n0\n\n\n.\nholds j1"),
    ("aag 1 0 1 0 0\n2 3\n", "--all", 0, "all 0\nversion 2\nend\n"),
    ("aag 1 0 1 0 0\n2 3\n", "--all --workers 2 --lassos 1", 0, "all 0\nversion 2\nend\n"),
    (STUCK, "--all --skeletons 0", 2, "all 1\nversion 2\nopen j0\nend\n"),
    ("aag 4 0 4 0 0 0 0 1\n2 8 1\n4 2\n6 4\n8 6\n4\n2\n4\n6\n8\n", "", 0, "1\nj0\n1000\n\n\n\n\n.\n"),
]
# the search spends its budgets on questions that serve
SMALL = "--conflicts 1000 --steps 1000"


def ran(*words):
    done = subprocess.run([*PROGRAM, *words], stdout=subprocess.PIPE, stderr=subprocess.STDOUT, timeout=120)
    return done.stdout.decode("latin1"), done.returncode


class Cases:
    """Models in a folder, and what was wrong."""

    def __init__(self, folder):
        self.folder, self.wrong, self.answers, self.reports, self.sheets = folder, [], 0, 0, 0
        # reports with two workers whose counts differ, those of a full list in which steps were taken, and those of a lasso
        # worker that searched
        self.unlike, self.full, self.raced = 0, 0, 0

    def path(self, name, text):
        path = os.path.join(self.folder, name)
        with open(path, "wb") as file:
            file.write(text.encode("latin1"))
        return path

    def solve(self, name, model, options):
        return ran("solve", self.path(name + ".aag", model), *options.split())

    def verdict(self, name, model, text):
        """What the judge and `check` say of a printed answer; None where they differ or one refuses it."""
        answer = self.path(name + ".answer", text)
        circuit = judge.read_circuit(model.encode("latin1"))
        wanted = judge.judge(circuit, text.encode("latin1"))
        if wanted[1] != 0 or ran("check", os.path.join(self.folder, name + ".aag"), answer) != wanted:
            return None
        self.answers += 1
        return wanted[0]

    def complain(self, what, model, options):
        self.wrong.append(f"solve {options} of {model!r}: {what}")


def compare_known(cases, place, row):
    model, options, status, text = row
    for more in ["", SMALL] if status == 0 and not options else [""]:
        words = f"{options} {more}".strip()
        said, code = cases.solve(f"known{place}", model, words)
        whole = text.endswith("\n") and not text.startswith("0\n")
        if code != status or (said != text if whole else not said.startswith(text)):
            cases.complain(f"status {code}, printed {said[:300]!r}, not {status} and {text!r}", model, words)
        elif status == 0 and cases.verdict(f"known{place}", model, said) is None:
            cases.complain(f"its answer {said[:300]!r} is not accepted", model, words)


def counts(text):
    """What each worker of a report has spent: conflicts and steps."""
    return [(int(c), int(s)) for c, s in re.findall(r"^c worker \d+ conflicts (\d+) of \d+ steps (\d+) of", text, re.M)]


def is_report(text, workers, limits, lassos, fewest):
    """Whether a report has its form, and each worker has spent its conflicts or its steps, the last ones, which are lasso
    workers, their conflicts or their depth, or the list is full; and there is no lasso of as many positions as these have
    done (`fewest` is how many the shortest has)."""
    conflicts, entries, lines = limits["conflicts"], limits["skeletons"], text.split("\n")
    head = re.fullmatch(r"c entries (\d+) of (\d+)", lines[2]) if len(lines) == workers + 5 else None
    if lines[:2] != ["2", "j0"] or lines[-2:] != [".", ""] or not head or int(head[2]) != entries:
        return False
    spent = []
    for w in range(workers):
        kind = "steps" if w < workers - lassos else "depth"
        said = re.fullmatch(rf"c worker {w} conflicts (\d+) of {conflicts} {kind} (\d+) of {limits[kind]}", lines[3 + w])
        if not said or int(said[1]) > conflicts or int(said[2]) > limits[kind]:
            return False
        if kind == "depth" and fewest is not None and int(said[2]) >= fewest:
            return False
        spent.append(int(said[1]) == conflicts or int(said[2]) == limits[kind])
    return int(head[1]) <= entries and (all(spent) or int(head[1]) == entries)


def budgets():
    """0, 1, 2, .., and from 16 on each the double of the one before."""
    budget = 0
    while budget <= MOST:
        yield budget
        budget += 1 if budget < 16 else budget


def is_spent(cases, name, model, workers, limits, is_broken, lassos=0, fewest=None):
    """Whether a run under these limits ends with a report; what it prints must be right."""
    options = f"--workers {workers} " + " ".join(f"--{kind} {limit}" for kind, limit in limits.items())
    options += f" --lassos {lassos}" if lassos else ""
    said, code = cases.solve(name, model, options)
    if code == 2:
        cases.reports += 1
        spent = counts(said)
        cases.unlike += len(set(spent)) > 1
        cases.full += f"\nc entries {limits['skeletons']} of " in said and any(0 < steps < limits["steps"] for _, steps in spent)
        cases.raced += any(int(done) > 0 for done in re.findall(r" depth (\d+) of", said))
        if not is_report(said, workers, limits, lassos, fewest):
            cases.complain(f"the report {said!r}", model, options)
        return True
    verdict = cases.verdict(name, model, said) if code == 0 else None
    if verdict is None or verdict.startswith("accepted lasso j0 ") != is_broken:
        cases.complain(f"status {code}, printed {said[:300]!r}, and a fair lasso is there: {is_broken}", model, options)
    return False


def compare_raced(cases, name, model, workers, is_broken):
    """Each answer and report with one lasso worker, and with all but one, under a few limits; none of the last is spent."""
    fewest = shortest.fewest_positions(judge.read_circuit(model.encode("latin1")), 0)
    for lassos in {1, workers - 1}:
        for budget in (0, 1, 2, 4, 16, MOST):
            limits = {**{kind: budget for kind in KINDS}, "depth": 2 if budget == 2 else DEPTH}
            came = is_spent(cases, name, model, workers, limits, is_broken, lassos, fewest)
        if came:
            cases.complain(f"a report with {MOST} of each", model, f"--workers {workers} --lassos {lassos}")


def is_right_sheet(cases, name, model, options, broken):
    """Whether the sheet of all properties is right, and its status; `broken` tells which have a fair lasso."""
    said, code = cases.solve(name, model, options)
    blocks = [(word, int(j)) for word, j in re.findall(r"^(open|holds|lasso) j(\d+)$", said, re.M)]
    opened = any(word == "open" for word, _ in blocks)
    right = all(word == "open" or (word == "lasso") == broken[j] for word, j in blocks) and len(blocks) == len(broken)
    if not right or code != (2 if opened else 0) or cases.verdict(name, model, said) is None:
        cases.complain(f"status {code}, printed {said[:300]!r}, and fair lassos are there: {broken}", model, options)
        return False
    cases.sheets += 1
    return True


def compare_all(cases, name, model, workers):
    """The sheets of all properties under a few limits, and one that goes on from the last, without limits."""
    circuit = judge.read_circuit(model.encode("latin1"))
    states = maker.States(circuit)
    broken = [states.has_fair_lasso(j) for j in range(len(circuit.justice))]
    for budget in (0, 1, 4, 16):
        limits = " ".join(f"--{kind} {budget}" for kind in KINDS)
        if not is_right_sheet(cases, name, model, f"--all --workers {workers} {limits}", broken):
            return
    options = f"--all --workers {workers} --resume {os.path.join(cases.folder, name + '.answer')}"
    if is_right_sheet(cases, name, model, options, broken) and cases.solve(name, model, options)[1] != 0:
        cases.complain("a block is open without limits", model, options)


def compare_drawn(cases, seed, number, deadline):
    """Each answer and report of a drawn circuit, with each kind of budget, and with all of them, from none up until none
    is spent."""
    if time.monotonic() > deadline:
        return 0
    chance = random.Random(f"{seed} {number}")
    model = maker.draw_model(chance)
    is_broken = maker.States(judge.read_circuit(model.encode("latin1"))).has_fair_lasso(0)
    workers = CREWS[number % len(CREWS)]
    for small in [[kind] for kind in KINDS] + [KINDS]:
        for budget in budgets():
            limits = {kind: budget if kind in small else MOST for kind in KINDS}
            if not is_spent(cases, f"drawn{number}", model, workers, limits, is_broken):
                break
        else:
            cases.complain(f"a report with {MOST} of each", model, f"--workers {workers}")
    compare_raced(cases, f"raced{number}", model, max(workers, 2), is_broken)
    compare_all(cases, f"all{number}", model, workers)
    return 1


def main(words):
    seed, circuits = [int(word) for word in words] + [1, CIRCUITS][len(words) :]
    # a first run without words, which builds the program where it is not built
    subprocess.run([os.path.join(TOP, "fairlive")], stdout=subprocess.DEVNULL)
    deadline = time.monotonic() + SECONDS
    with tempfile.TemporaryDirectory() as folder:
        cases = Cases(folder)
        with concurrent.futures.ThreadPoolExecutor(WORKERS) as pool:
            for run in [pool.submit(compare_known, cases, place, row) for place, row in enumerate(KNOWN)]:
                run.result()
            runs = [pool.submit(compare_drawn, cases, seed, number, deadline) for number in range(circuits)]
            done = sum(run.result() for run in runs)
    if cases.reports and not (cases.unlike and cases.full and cases.raced):
        told = f"{cases.unlike} have unlike counts, {cases.full} a full list and steps, {cases.raced} a lasso worker that searched"
        cases.wrong.append(f"of the reports {told}")
    for wrong in cases.wrong[:10]:
        print(wrong)
    if cases.wrong or done < min(circuits, FEWEST):
        print(f"solved: {len(cases.wrong)} wrong, {done} of {circuits} drawn circuits in {SECONDS} seconds")
        return 1
    found = f"{cases.answers} answers, {cases.reports} reports, {cases.sheets} sheets"
    print(f"solved: {len(KNOWN)} models by hand, {done} drawn circuits: {found}")
    return 0


if __name__ == "__main__":
    sys.exit(main(sys.argv[1:]))
