#!/usr/bin/env python3
"""Certificates of small drawn circuits, made from their explicit states, and thousands of texts and models that differ
from one of them in one place: the program must print of each what the judge beside this file says, with its status.

    certificates.py [SEED [CIRCUITS [CHANGES]]]     CHANGES of each certificate; as many as 240 seconds allow, and 20 at least"""
import concurrent.futures
import os
import random
import re
import subprocess
import sys
import tempfile
import time

sys.dont_write_bytecode = True
import judge  # noqa: E402
import maker  # noqa: E402
from maker import below, pick  # noqa: E402

TOP = os.path.dirname(os.path.dirname(os.path.abspath(__file__)))
# the program itself, without the script before it that looks for sources that are newer
PROGRAM = os.path.join(TOP, "crates", "fair_main", "out", "fair_main")
CIRCUITS, CHANGES, SECONDS, WORKERS = 50, 80, 240, 4
# of the drawn circuits, so many have to be done in time
FEWEST = 20

# ---- what was worked out by hand, so that a mistake of the judge is told from one of the program

HEADER = "aag 1 0 1 0 0 0 0 1 0\n"
# a latch that stays 0, one that goes to 1, one that changes at each step with a property that is never true
STUCK, RISING, NEVER = HEADER + "2 2\n1\n2\n", HEADER + "2 1\n1\n3\n", HEADER + "2 3\n1\n0\n"
CHANGING = HEADER + "2 3\n1\n2\n"
# any first value, with the constraint that the latch is 0; and an input, a latch and a gate
FREE = "aag 1 0 1 0 0 0 1 1 0\n2 2 2\n3\n1\n2\n"
GATED = "aig 3 1 1 0 1 0 0 1 0\n6\n1\n4\n\x02\x02l0 t\nc\nany"
TITLE = "0\nj0\nversion 1\n"
WALL = TITLE + "wall 1 0\n\n2 0\nproof 1\n6 0 1 3 5 0\n"
END = "refute 1 1\n0\n11 0 1 3 4 9 10 5 0\nend\n"
OUTSIDE = "0-\n3 0\nproof 1\n13 0 1 3 10 9 8 0\n"
SIDED = WALL.replace("version 1", "version 2") + "wall 1 1\n" + OUTSIDE
SHORT = TITLE + "refute 0 1\n\n{}\nend\n"
MOST = TITLE + "wall 0 0\n\n" * 65536
ONE = "accepted certificate j0 entries 1"
# two properties of a latch that goes to 1: that it is 0 again and again, and that it is 1
TWO = "aag 1 0 1 0 0 0 0 2 0\n2 1\n1\n1\n3\n2\n"
SHEET = "all 2\nversion 2\n" + WALL[len(TITLE) :] + "holds j0\n" + END[:-4] + "lasso j1\n0\n\n\n\n.\nend\n"
KNOWN = [
    (STUCK, TITLE + "reach 1 0\n\n3 0\nproof 1\n6 0 4 2 5 0\nrefute 1 1\n0\n7 0 4 5 0\nend\n", ONE),
    (RISING, WALL + END, ONE),
    (RISING, WALL.replace("\n2 0\n", "\n3 0\n") + END, "refused entry 0 clause 0 proof line 0 no conflict"),
    (RISING, WALL.replace("\n2 0\n", "\n9 0\n") + END, "refused entry 0 literal 9"),
    (RISING, WALL + "reach 1 1\n0\n2 0\nproof 0\n" + END, "refused entry 1 use 0"),
    (FREE, SHORT.format("6 0 2 5 0"), "accepted certificate j0 entries 0"),
    (GATED, TITLE + "reach 1 0\n\n5 0\nproof 1\n9 0 8 5 2 7 0\nrefute 1 1\n0\n10 0 7 8 0\nend\n", ONE),
    (NEVER, SHORT.format("5 0 1 4 0"), "accepted certificate j0 entries 0"),
    (NEVER, TITLE + "refute 0 0\n\nend\n", "refused refutation line 0 unfinished"),
    (NEVER, SHORT.format("5 0 -1 4 0"), "refused refutation line 0 rat"),
    (NEVER, SHORT.format("4 0 1 4 0"), "refused refutation line 0 id order"),
    (NEVER, SHORT.format("5 0 2 1 4 0"), "refused refutation line 0 not unit 2"),
    (NEVER, SHORT.format("5 0 1 9 0"), "refused refutation line 0 no clause 9"),
    (NEVER, SHORT.format("5 0 1 0"), "refused refutation line 0 no conflict"),
    (NEVER, SHORT.format("5 x 0"), "refused refutation line 0 bad line"),
    (NEVER, SHORT.format("9223372036854775808 0 1 4 0"), "refused refutation line 0 bad line"),
    (RISING, TITLE + "wall 9000000000000000000 0\n\n", "refused shape line 6"),
    (RISING, TITLE + "wall 9223372036854775808 0\n\n", "refused shape line 4"),
    (NEVER, MOST + "wall 0 0\n\n", "refused too long"),
    (NEVER, MOST + "refute 0 1\n\n5 0 1 4 0\nend\n", "accepted certificate j0 entries 65536"),
    (RISING, SIDED + END, "accepted certificate j0 entries 2"),
    (RISING, SIDED.replace(OUTSIDE, "0+\n2 0\nproof 1\n13 0 1 3 12 0\n") + END, "accepted certificate j0 entries 2"),
    (RISING, SIDED.replace("0-", "0") + END, "refused entry 1 clause 0 proof line 0 not unit 9"),
    (RISING, SIDED.replace("version 2", "version 1") + END, "refused shape line 10"),
    (RISING, SIDED + END.replace("\n0\n", "\n1\n"), "refused refutation use 1"),
    (RISING, "round 1\n", "refused shape line 1"),
    *[(RISING, "".join((WALL + END).splitlines(True)[:n]), f"refused shape line {n + 1}") for n in range(12)],
    (CHANGING, "1\nj0\nc hello\nx\n\n\n\n.\n", "accepted lasso j0 positions 2 loop 0"),
    (TWO, SHEET, "accepted sheet lassos 1 holds 1 unknown 0 entries 1"),
    (TWO, SHEET.replace("lasso j1\n0\n\n\n\n.\n", "open j1\n"), "accepted sheet lassos 0 holds 1 unknown 1 entries 1"),
    (TWO, SHEET.replace("\n0\n\n\n\n.\n", "\n0\n\n.\n"), "refused block 1 no fair loop"),
    (TWO, SHEET.replace("lasso j1\n0\n", "lasso j1\n1\n"), "refused block 1 initial latch 0"),
    (TWO, SHEET.replace("refute 1 1\n0\n", "refute 1 1\n1\n"), "refused block 0 use 1"),
    (TWO, SHEET.replace("11 0 1 3 4 9 10 5 0", "11 0 1 3 4 9 10 0"), "refused block 0 line 0 no conflict"),
    (TWO, SHEET.replace("all 2", "all 3"), "refused property 3"),
    (TWO, SHEET.replace("all 2", "all"), "refused shape line 1"),
    (TWO, SHEET.replace("lasso j1", "lasso j0"), "refused shape line 12"),
    (TWO, SHEET.replace("version 2", "version 1"), "refused shape line 2"),
    ("aag 0 0 0 0 0\n", "all 0\nversion 2\nend\n", "accepted sheet lassos 0 holds 0 unknown 0 entries 0"),
    (FREE, "1\nj0\n1\n\n.\n", "refused constraint position 0"),
]


def check_judge():
    for model, answer, wanted in KNOWN:
        text, _ = judge.judge(judge.read_circuit(model.encode("latin1")), answer.encode())
        assert text == wanted + "\n", f"the judge says {text!r}, not {wanted!r}, of {answer[:200]!r}"


# ---- changes in one place


def changed(chance, text):
    """The text with one literal, hint, use, number, sign or line changed, put twice or dropped."""
    lines = text.split("\n")[:-1]
    if chance.random() < 0.15:
        change_lines(chance, lines, below(chance, len(lines)))
    else:
        place = pick(chance, places_of_kind(lines, chance.random()))
        fields = lines[place].split(" ")
        # the last field is mostly a 0 that ends the line, and is left alone
        last = len(fields) - (chance.random() < 0.9 and fields[1:] != [])
        change_fields(chance, fields, below(chance, last))
        lines[place] = " ".join(fields)
    return "\n".join(lines) + pick(chance, ["\n"] * 19 + [""])


def places_of_kind(lines, drawn):
    """The places of the lines of a kind: those with words one time in ten, or those of proofs, or uses and clauses."""
    words = [k for k, line in enumerate(lines) if not line[:1].isdigit()]
    proofs = [k for k, line in enumerate(lines) if " 0 " in line or " d " in line]
    others = [k for k in range(3, len(lines)) if k not in words and k not in proofs]
    return words if drawn < 0.1 else proofs if proofs and drawn < 0.6 else others or words


def changed_model(chance, model):
    """The model with another next literal, constraint, or literal of a property or fairness."""
    lines = model.split("\n")[:-1]
    _, i, l, _, a, _, c, j, _ = map(int, lines[0].split(" ")[1:])
    gates, sizes = len(lines) - a, 1 + i + l + c
    defined = [int(line.split(" ")[0]) // 2 for line in lines[1 : 1 + i + l] + lines[gates:]]
    place = pick(chance, [k for k in range(1 + i, gates) if not sizes <= k < sizes + j])
    fields = lines[place].split(" ")
    fields[1 if place <= i + l else 0] = str(2 * pick(chance, [0, *defined]) + below(chance, 2))
    lines[place] = " ".join(fields)
    return "\n".join(lines) + "\n"


def change_lines(chance, lines, place):
    change = below(chance, 6)
    if change == 0:
        lines.insert(place, lines[place])
    elif change == 1:
        lines.insert(place, pick(chance, ["c skipped", "u", "", "end", "1 d 0", "proof 0", "wall 0 0"]))
    elif change == 2:
        other = below(chance, len(lines))
        lines[place], lines[other] = lines[other], lines[place]
    elif change == 3:
        del lines[place:]
    else:
        del lines[place]


def change_fields(chance, fields, place):
    change = below(chance, 20)
    if change < 3:
        del fields[place]
    elif change == 3:
        fields.insert(place, fields[place])
    elif change == 4:
        other = below(chance, len(fields))
        fields[place], fields[other] = fields[other], fields[place]
    elif change == 5:
        fields.insert(place, pick(chance, ["0", "1", "2", "-1", "d", ""]))
    else:
        fields[place] = other_field(chance, fields[place])


def other_field(chance, field):
    """Another number: mostly one near it."""
    unsigned = field.strip("+-")
    if not unsigned.isdigit():
        return pick(chance, ["wall", "reach", "refute", "proof", "end", "d", "j1", "0"])
    if field[-1] in "+-":
        return unsigned + pick(chance, ["", "+", "-"])
    number, change = int(field), below(chance, 24)
    if change == 0:
        return pick(chance, ["9223372036854775807", "9223372036854775808", "-0", "01", "+1", "x", "4294967296"])
    if change == 1:
        return pick(chance, [field + "+", field + "-"])
    near = [number ^ 1, number + 1, abs(number - 1), number + 2, abs(number - 2), below(chance, 40)]
    return str(-number if change == 2 else pick(chance, near))


# ---- the program beside the judge


def printed(model, answer):
    command = [PROGRAM, "check", model, answer]
    ran = subprocess.run(command, stdout=subprocess.PIPE, stderr=subprocess.STDOUT, timeout=60)
    return ran.stdout.decode("latin1"), ran.returncode


class Comparison:
    """Runs the program on texts in a folder, and counts those on which it agrees with the judge."""

    def __init__(self, folder):
        self.folder, self.agreed, self.accepted, self.differing = folder, 0, 0, 0

    def compare(self, name, model, answers):
        """Whether the program says of each answer what the judge says. The name is of this model alone."""
        model_path, answer_path = (os.path.join(self.folder, name + end) for end in (".aag", ".cert"))
        write(model_path, model)
        circuit = judge.read_circuit(model.encode("latin1"))
        for answer in answers:
            write(answer_path, answer)
            wanted = judge.judge(circuit, answer.encode("latin1"))
            assert wanted[1] or is_true(circuit, wanted[0], answer), f"the judge accepts {answer!r} on {model!r}"
            self.note(model, answer, wanted, printed(model_path, answer_path))

    def note(self, model, answer, wanted, said):
        if said == wanted:
            self.agreed += 1
            self.accepted += wanted[1] == 0
            return
        self.differing += 1
        if self.differing <= 10:
            print(f"status {said[1]}, printed {said[0]!r}, not {wanted[0]!r}, of {answer[:3000]!r} on {model!r}")


def write(path, text):
    with open(path, "wb") as file:
        file.write(text.encode("latin1"))


def is_true(circuit, text, answer):
    """Whether an accepted certificate's property has no fair lasso, by all states of the circuit; and whether each block of
    an accepted sheet says what is so."""
    words = text.split(" ")
    if words[1] == "certificate":
        return not maker.States(circuit).has_fair_lasso(int(words[2][1:]))
    blocks = re.findall(r"^(holds|lasso) j(\d+)$", answer, re.MULTILINE) if words[1] == "sheet" else []
    return all(maker.States(circuit).has_fair_lasso(int(j)) == (word == "lasso") for word, j in blocks)


def texts_of(seed, circuit, changes):
    """Models with the answers that are judged on each: the same from the same numbers."""
    chance = random.Random(f"{seed} {circuit}")
    model, text = maker.draw(chance)
    others = changes // 8
    yield model, [text, *(changed(chance, text) for _ in range(changes - others))]
    for _ in range(others):
        yield changed_model(chance, model), [text]
    model, text = maker.draw_sheet(chance)
    yield model, [text, *(changed(chance, text) for _ in range(changes // 4))]


def compare_drawn(comparison, seed, circuit, changes, deadline):
    if time.monotonic() > deadline:
        return 0
    for model, answers in texts_of(seed, circuit, changes):
        comparison.compare(f"drawn{circuit}", model, answers)
    return 1


def main(words):
    seed, circuits, changes = [int(word) for word in words] + [1, CIRCUITS, CHANGES][len(words) :]
    check_judge()
    # a first run without words, which builds the program where it is not built
    subprocess.run([os.path.join(TOP, "fairlive")], stdout=subprocess.DEVNULL)
    deadline = time.monotonic() + SECONDS
    with tempfile.TemporaryDirectory() as folder:
        comparison = Comparison(folder)
        for place, (model, answer, _) in enumerate(KNOWN):
            comparison.compare(f"known{place}", model, [answer])
        with concurrent.futures.ThreadPoolExecutor(WORKERS) as pool:
            runs = [pool.submit(compare_drawn, comparison, seed, k, changes, deadline) for k in range(circuits)]
            done = sum(run.result() for run in runs)
    if comparison.differing:
        print(f"certificates: {comparison.differing} answers that the judge does not give")
        return 1
    if done < min(circuits, FEWEST):
        print(f"certificates: only {done} of {circuits} drawn circuits in {SECONDS} seconds")
        return 1
    accepted = f"{comparison.accepted} accepted"
    print(f"certificates: {comparison.agreed} texts, on {done} drawn circuits, as the judge says, {accepted}")
    return 0


if __name__ == "__main__":
    sys.exit(main(sys.argv[1:]))
