#!/usr/bin/env python3
"""What two workers on threads print where memory is refused to one of them: all growths of its thread, or all from its
second, third and so on. The other one goes on, so each verdict must come, be the right one, and be an answer that `check`
accepts.

    refused.py [SEED [CIRCUITS]]     models worked out by hand and drawn ones, as many as 60 seconds allow"""
import os
import random
import subprocess
import sys
import tempfile
import time

sys.dont_write_bytecode = True
import judge  # noqa: E402
import maker  # noqa: E402

TOP = os.path.dirname(os.path.dirname(os.path.abspath(__file__)))
PROGRAM = os.path.join(TOP, "crates", "fair_main", "out", "fair_main")
CIRCUITS, SECONDS, FEWEST, MOST = 40, 60, 4, 1 << 20
ONE = "aag 1 0 1 0 0 0 0 1 0\n"
COUNTER = "aag 6 0 2 0 4 0 0 1 0\n2 3\n4 11\n1\n12\n6 5 2\n8 4 3\n10 9 7\n12 4 2\n"
# each with whether it has a fair lasso
KNOWN = [(ONE + "2 3\n1\n2\n", True), (ONE + "2 2\n1\n2\n", False), (ONE + "2 1\n1\n3\n", False), (COUNTER, True)]


def build(folder):
    """What refuses memory, built; None where it cannot be."""
    made = os.path.join(folder, "refused.so")
    words = ["-O1", "-shared", "-fPIC", "-o", made, os.path.join(TOP, "bench", "refused.c"), "-ldl"]
    for compiler in ("cc", "clang", "gcc"):
        try:
            if subprocess.run([compiler, *words], stderr=subprocess.DEVNULL).returncode == 0:
                return made
        except OSError:
            pass
    return None


class Runs:
    """Runs in a folder over a built library, and what was wrong."""

    def __init__(self, folder, library):
        self.folder, self.library, self.wrong, self.runs, self.refusals = folder, library, [], 0, 0

    def path(self, name):
        return os.path.join(self.folder, name)

    def is_right(self, model, text, has_lasso):
        with open(self.path("answer"), "w") as file:
            file.write(text)
        accepted, code = judge.judge(judge.read_circuit(model.encode()), text.encode())
        checked = subprocess.run([PROGRAM, "check", self.path("m.aag"), self.path("answer")], stdout=subprocess.PIPE)
        return code == 0 and checked.stdout.decode() == accepted and accepted.startswith("accepted lasso") == has_lasso

    def refuse(self, model, has_lasso, first):
        """Whether growths were refused: those of the thread that is made, from this one on."""
        count = self.path("count")
        more = {"LD_PRELOAD": self.library, "REFUSED_THREAD": "1", "REFUSED_GROWTH": str(first), "REFUSED_COUNT": count}
        words = [PROGRAM, "solve", self.path("m.aag"), "--workers", "2"]
        done = subprocess.run(words, stdout=subprocess.PIPE, env={**os.environ, **more}, timeout=120)
        self.runs += 1
        if done.returncode != 0 or not self.is_right(model, done.stdout.decode("latin1"), has_lasso):
            self.wrong.append(f"from growth {first} on: status {done.returncode}, printed {done.stdout[:200]!r}, of {model!r}")
        with open(count) as file:
            refused = max(int(file.read()) - first + 1, 0)
        self.refusals += refused
        return refused > 0

    def go_over(self, model, has_lasso):
        with open(self.path("m.aag"), "w") as file:
            file.write(model)
        first = 1
        while first < MOST and self.refuse(model, has_lasso, first) and len(self.wrong) < 10:
            first += 1 + first // 8


def drawn(seed, number):
    model = maker.draw_model(random.Random(f"{seed} {number}"))
    return model, maker.States(judge.read_circuit(model.encode())).has_fair_lasso(0)


def main(words):
    seed, circuits = [int(word) for word in words] + [1, CIRCUITS][len(words) :]
    # a first run without words, which builds the program where it is not built
    subprocess.run([os.path.join(TOP, "fairlive")], stdout=subprocess.DEVNULL)
    deadline = time.monotonic() + SECONDS
    with tempfile.TemporaryDirectory() as folder:
        library = build(folder)
        if library is None:
            print("refused: skipped, since there is no C compiler")
            return 0
        runs, done = Runs(folder, library), 0
        for model, has_lasso in KNOWN:
            runs.go_over(model, has_lasso)
        while done < circuits and (done < FEWEST or time.monotonic() < deadline):
            runs.go_over(*drawn(seed, done))
            done += 1
    if not runs.refusals:
        runs.wrong.append("nothing was refused")
    for wrong in runs.wrong[:10]:
        print(wrong)
    if not runs.wrong:
        print(f"refused: {len(KNOWN)} models by hand, {done} drawn circuits: {runs.runs} runs of two workers, {runs.refusals} refusals")
    return 1 if runs.wrong else 0


if __name__ == "__main__":
    sys.exit(main(sys.argv[1:]))
