#!/usr/bin/env python3
"""What becomes of the answers that `solve` prints of small drawn circuits: each is converted and trimmed, both twice, and the
judge beside this file and `check` must accept what comes, for the same property, the second time without a change. A search
that begins with a trimmed certificate must come to its verdict with no entry more, of its own property, and to a right one of
every other; a stimulus must be refused there.

    remade.py [SEED [CIRCUITS]]     as many as 60 seconds allow, and 40 at least"""
import concurrent.futures
import os
import random
import subprocess
import sys
import tempfile
import time

sys.dont_write_bytecode = True
import judge  # noqa: E402
import maker  # noqa: E402

TOP = os.path.dirname(os.path.dirname(os.path.abspath(__file__)))
# the program itself, without the script before it that looks for sources that are newer
PROGRAM = [os.path.join(TOP, "crates", "fair_main", "out", "fair_main")]
CIRCUITS, SECONDS, AT_ONCE, FEWEST = 100, 60, 4, 40


def ran(*words):
    done = subprocess.run([*PROGRAM, *words], stdout=subprocess.PIPE, stderr=subprocess.STDOUT, timeout=120)
    return done.stdout.decode("latin1"), done.returncode


class Case:
    """A drawn model in a folder, and what was wrong with what was printed of it."""

    def __init__(self, folder, number, model):
        self.folder, self.number, self.model = folder, number, model
        self.circuit = judge.read_circuit(model.encode("latin1"))
        self.name, self.wrong, self.texts, self.resumed = self.write("aag", model), [], 0, 0

    def write(self, end, text):
        path = os.path.join(self.folder, f"{self.number}.{end}")
        with open(path, "w", encoding="latin1") as file:
            file.write(text)
        return path

    def complain(self, what):
        self.wrong.append(f"of {self.model!r}: {what}")

    def verdict(self, text, path):
        """What `check` and the judge say of an answer, where both accept it."""
        said, wanted = ran("check", self.name, path), judge.judge(self.circuit, text.encode("latin1"))
        self.texts += 1
        if said != wanted or wanted[1] != 0:
            self.complain(f"check says {said} of {text[:300]!r}, the judge {wanted}")
        return wanted[0]

    def remake(self, command, path, said):
        """The text that the command makes of the answer of which `said` was said, and its path."""
        text, status = ran(command, self.name, path)
        made = self.write(command, text)
        if status != 0 or ran(command, self.name, made) != (text, 0):
            self.complain(f"{command} printed {text[:300]!r} with status {status}, and not the same of it")
        now = self.verdict(text, made)
        if (now if command == "convert" else now.split(" entries")[0]) != (said if command == "convert" else said.split(" entries")[0]):
            self.complain(f"{command} made of an answer that is {said!r} one that is {now!r}")
        return text, made

    def resume(self, j, made, states):
        """Searches that begin with a trimmed certificate of property j: of it, with no entry more, and of each other one."""
        for other in range(len(self.circuit.justice)):
            more = ["--skeletons", "0"] if other == j else []
            text, status = ran("solve", self.name, "--property", str(other), *more, "--resume", made)
            said = self.verdict(text, self.write("resumed", text)) if status == 0 else f"status {status}"
            wanted = "accepted lasso" if states.has_fair_lasso(other) else "accepted certificate"
            self.resumed += 1
            if not said.startswith(f"{wanted} j{other} "):
                self.complain(f"solve of property {other} that goes on from one of {j}: {said!r}, {text[:300]!r}")

    def go_through(self):
        states = maker.States(self.circuit)
        for j in range(len(self.circuit.justice)):
            text, status = ran("solve", self.name, "--property", str(j))
            if status != 0:
                self.complain(f"solve ends with status {status}")
                continue
            path = self.write("answer", text)
            said = self.verdict(text, path)
            self.remake("convert", path, said)
            trimmed, made = self.remake("trim", path, said)
            if trimmed.startswith("0"):
                self.resume(j, made, states)
            elif ran("solve", self.name, "--resume", made) != ("refused unknown status\n", 1):
                self.complain(f"a stimulus is not refused where a search is to begin with it: {trimmed[:300]!r}")


def compare(folder, seed, number, deadline):
    if time.monotonic() > deadline:
        return None
    case = Case(folder, number, maker.draw_model(random.Random(f"{seed} remade {number}")))
    case.go_through()
    return case


def main(words):
    seed, circuits = [int(word) for word in words] + [1, CIRCUITS][len(words) :]
    # a first run without words, which builds the program where it is not built
    subprocess.run([os.path.join(TOP, "fairlive")], stdout=subprocess.DEVNULL)
    deadline = time.monotonic() + SECONDS
    with tempfile.TemporaryDirectory() as folder, concurrent.futures.ThreadPoolExecutor(AT_ONCE) as pool:
        told = [case for case in pool.map(lambda number: compare(folder, seed, number, deadline), range(circuits)) if case]
    wrong, texts, resumed = [it for case in told for it in case.wrong], sum(case.texts for case in told), sum(case.resumed for case in told)
    for it in wrong[:10]:
        print(it)
    if wrong or len(told) < min(circuits, FEWEST) or not resumed:
        print(f"remade: {len(wrong)} wrong, {len(told)} of {circuits} drawn circuits in {SECONDS} seconds, {resumed} searches")
        return 1
    print(f"remade: {len(told)} drawn circuits, {texts} answers accepted, {resumed} searches that began with a certificate")
    return 0


if __name__ == "__main__":
    sys.exit(main(sys.argv[1:]))
