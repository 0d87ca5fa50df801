#!/usr/bin/env python3
"""Models, certificates, texts about rounds and sheets that are cut off anywhere, and such that would make a careless reader crash,
recurse deeply, wait or take memory: the program must answer each as stated, within 60 seconds and 1 GB of address space; the
longest texts and the most inputs that there may be, within 4 GB. A short text must be answered within 20 MB, which is less than
the latches or gates take that its header may announce, and than what a certificate announces; but for inputs, which
have no bytes in the binary form."""
import itertools
import os
import subprocess
import sys
import tempfile
import threading

sys.dont_write_bytecode = True
import judge  # noqa: E402

TOP = os.path.dirname(os.path.dirname(os.path.abspath(__file__)))
# the program itself, without the script before it that looks for sources that are newer
PROGRAM = os.path.join(TOP, "crates", "fair_main", "out", "fair_main")
GATES = 1_000_000
GREATEST = 4_294_967_295
GREATEST_ID = 2**63 - 1
# the greatest variable that a model may have, and the most bytes
VARIABLES = 16_777_216
LENGTH = 1_073_741_824
# address space, in units of 1,024 bytes
MUCH, MEMORY, LITTLE = 4_000_000, 1_000_000, 20_000
# less than the texts and lines that are 100 MB long
SOME = 60_000
READ = "refused unknown status\n"


def gates(lines):
    return f"aag {GATES + 1} 1 0 0 {GATES} 0 0 1 0\n2\n1\n2\n" + "".join(lines)


def chain():
    """Each gate reads the one of the next line, so that the first line needs all others."""
    top = GATES + 1
    return gates(f"{2 * v} {2 * v - 2} {2 * v - 1}\n" for v in range(top, 1, -1))


def cycle():
    """Each gate reads the one before it, and the first one reads the last."""
    return gates(f"{2 * v} {2 * v - 2 if v > 2 else 2 * GATES + 2} 2\n" for v in range(2, GATES + 2))


# the name, the model's text, and the beginning of what must be printed
ASCII = [
    ("a chain of gates", chain(), READ),
    ("a cycle of gates", cycle(), "model refused cycle "),
    ("many short lines", f"aag {VARIABLES} 0 0 {GREATEST} 0\n" + "0\n" * 20_000_000, "model refused truncated 40000030\n"),
    ("many symbols", "aag 1 1 0 0 0\n2\n" + "i0 a\n" * 1_000_000, READ),
]


def delta(number):
    """In groups of seven bits, the low one first, each but the last with its top bit set."""
    groups = []
    while number > 127:
        groups.append(number % 128 + 128)
        number //= 128
    return bytes([*groups, number])


def binary_gates():
    """Each gate reads the one before it, and the one input: a gate's second delta grows with it."""
    header = b"aig %d 1 0 0 %d 0 0 1 0\n1\n2\n" % (GATES + 1, GATES)
    return header + b"".join(delta(2) + delta(2 * v - 4) for v in range(2, GATES + 2))


# one gate, whose first delta begins at 14
ONE_GATE = b"aig 1 0 0 0 1\n"
LONG = 60_000_000

BINARY = [
    ("a million binary gates", binary_gates(), READ),
    ("a long delta that is cut off", ONE_GATE + b"\x80" * LONG, f"model refused truncated {14 + LONG}\n"),
    ("a long delta that ends in 0", ONE_GATE + b"\x80" * LONG + b"\0", "model refused number 14\n"),
    ("a long delta that is too great", ONE_GATE + b"\x80" * LONG + b"\1", "model refused number 14\n"),
    ("many binary symbols", "aig 1 1 0 0 0\n" + "i0 a\n" * 1_000_000, READ),
]

# at their limits and past them; the last number is how long the text is made, by bytes of 0 at its end
GREAT = [
    ("as many inputs as there may be", f"aig {VARIABLES} {VARIABLES} 0 0 0\n", READ, 0),
    ("a text as long as it may be", "aag 0 0 0 0 0\nc\n", READ, LENGTH),
    ("a text that is too long", "aag 0 0 0 0 0\nc\n", f"model refused limit {LENGTH}\n", LENGTH + 1),
    ("a binary text that is too long", "aig 0 0 0 0 0\nc\n", f"model refused limit {LENGTH}\n", LENGTH + 1),
]


def cut(word, numbers):
    """A header whose sections are not there."""
    text = f"{word} {numbers}\n"
    return text[:-1], text, f"model refused truncated {len(text)}\n"


def header(word, numbers, wanted):
    return f"{word} {numbers}", f"{word} {numbers}\n", f"model refused {wanted} 0\n"


# headers of both forms: each count at its greatest
ANNOUNCED = [
    f"{VARIABLES} 0 {VARIABLES} 0 0",
    f"{VARIABLES} 0 0 0 {VARIABLES}",
    f"0 0 0 {GREATEST} 0",
    f"0 0 0 0 0 {GREATEST}",
    f"0 0 0 0 0 0 {GREATEST}",
    f"0 0 0 0 0 0 0 {GREATEST}",
    f"0 0 0 0 0 0 0 0 {GREATEST}",
    f"{VARIABLES} 0 {VARIABLES} {GREATEST} 0 {GREATEST} {GREATEST} {GREATEST} {GREATEST}",
]
REFUSED = [
    (f"{VARIABLES + 1} {VARIABLES + 1} 0 0 0", "limit"),
    (f"{GREATEST} {GREATEST} 0 0 0", "limit"),
    (f"{GREATEST} 0 {GREATEST} 0 0", "limit"),
    (f"{GREATEST} 0 0 0 {GREATEST}", "limit"),
    (f"{GREATEST} {GREATEST} {GREATEST} 0 {GREATEST}", "header"),
    # sums that are in their place modulo 2^32
    (f"0 {GREATEST} 1 0 0", "header"),
    (f"{GREATEST} {GREATEST} {GREATEST} 0 1", "header"),
]

# an input, a latch and a gate, whose first delta begins at 28
SMALL = b"aig 3 1 1 0 1 0 0 1 0\n6\n1\n4\n"

SHORT = [
    *[cut(word, numbers) for numbers in ANNOUNCED for word in ("aag", "aig")],
    *[header(word, numbers, wanted) for numbers, wanted in REFUSED for word in ("aag", "aig")],
    cut("aag", f"{VARIABLES} {VARIABLES} 0 0 0"),
    header("aig", f"{GREATEST} 0 0 0 0", "header"),
    ("properties that are not there", f"aag 1 1 0 0 0 0 0 {GREATEST} 0\n2\n", "model refused truncated 33\n"),
    ("a property past its limit", "aag 1 1 0 0 0 0 0 1 0\n2\n257\n", "model refused limit 24\n"),
    ("a property at its limit", "aag 1 1 0 0 0 0 0 1 0\n2\n256\n", "model refused truncated 28\n"),
    ("a binary property past its limit", "aig 0 0 0 0 0 0 0 1 0\n257\n", "model refused limit 22\n"),
    ("a binary property at its limit", "aig 0 0 0 0 0 0 0 1 0\n256\n", "model refused truncated 26\n"),
    ("a property past its limit by fairness", "aig 0 0 0 0 0 0 0 1 1\n256\n", "model refused limit 22\n"),
    ("a delta that is cut off", SMALL + b"\x82", "model refused truncated 29\n"),
    ("a delta of ten groups", SMALL + b"\xff" * 10, "model refused number 28\n"),
    ("a delta whose last group is 0", SMALL + b"\x82\0", "model refused number 28\n"),
    ("a first delta of 0", SMALL + b"\0\2", "model refused range 28\n"),
]

# Models with an element in each section; where their gates end, and where their symbol ends.
SECTIONS = [
    (b"aag 4 1 1 1 1 1 1 1 1\n2\n4 2 1\n6\n7\n1\n2\n2\n4\n0\n6 4 3\ni0 x\nc\nany", 50, 55),
    (b"aig 3 1 1 1 1 1 1 1 1\n2 1\n6\n7\n1\n2\n2\n4\n0\n\x02\x01i0 x\nc\nany", 42, 47),
    (b"aag 1 0 1 0 0 0 0 1 0\n2 3\n1\n2\n", 30, 30),
]


def prefixes(text, gates_end, symbol_end):
    """The text cut off behind each of its bytes: no line feed is missing that is not missed."""
    for length in range(len(text)):
        name = f"the first {length} bytes of {text[:3].decode()}"
        if length < gates_end:
            yield name, text[:length], f"model refused truncated {length}\n"
        elif gates_end < length < symbol_end:
            yield name, text[:length], f"model refused symbol {gates_end}\n"
        else:
            yield name, text[:length], READ


# ---- certificates

# one latch that goes to 1 and stays, and the property that it is 0
RISING = "aag 1 0 1 0 0 0 0 1 0\n2 1\n1\n3\n"
TITLE = "0\nj0\nversion 1\n"
WALL = "wall 1 0\n\n2 0\nproof 1\n6 0 1 3 5 0\n"
END = "refute 1 1\n0\n11 0 1 3 4 9 10 5 0\nend\n"
EMPTY = "wall 0 0\n\n"
PROOF = TITLE + "refute 0 1\n\n"
LENGTHY = 100_000_000
ACCEPTED = "accepted certificate j0 entries 1\n"

# both kinds, entries with no clause and with some, sides, literals twice, deletions, skipped lines
FEATURES = """0
j0
version 2
wall 3 0

2 0
2 2 0
3 2 0
proof 3
8 4 0 1 3 0
9 d 4 2 0
9 0 8 7 0
c skipped
proof 3
9 4 0 1 3 0
10 d 0
10 0 9 8 0
proof 3
9 -4 0 8 0
u
10 d 1 2 3 0
10 0 7 8 0
reach 2 0

3 2 0
2 3 3 0
proof 1
8 0 6 7 0
proof 2
10 4 0 7 0
12 0 10 6 0
wall 0 2
0+ 1
reach 0 1
1
wall 1 4
0- 1 2 3
3 0
proof 3
32 4 0 1 3 0
40 d 2 28 0
33 0 32 30 29 14 16 20 21 0
refute 3 3
0 1 4
60 4 0 1 3 0
61 d 2 7 0
61 0 60 4 15 17 21 22 5 0
end
c behind the end
"""

# the greatest numbers, and those that are too great; what is wanted
NUMBERS = [
    ("0\nj9223372036854775807\n", "property 9223372036854775807"),
    ("0\nj9223372036854775808\n", "shape line 2"),
    (TITLE + "wall 9223372036854775807 0\n\n", "shape line 6"),
    (TITLE + "wall 9223372036854775807 9223372036854775807\n", "shape line 5"),
    (TITLE + "wall 9223372036854775808 0\n\n", "shape line 4"),
    (TITLE + "reach 0 9223372036854775807\n\n", "shape line 5"),
    (TITLE + "wall 0 1\n9223372036854775807\n", "entry 0 use 9223372036854775807"),
    (TITLE + "wall 0 1\n9223372036854775808\n", "shape line 5"),
    (TITLE + "wall 1 0\n\n9223372036854775807 0\n", "entry 0 literal 9223372036854775807"),
    (TITLE + "wall 1 0\n\n18446744073709551618 0\n", "shape line 6"),
    (TITLE + "wall 1 0\n\n2 0\nproof 9223372036854775807\n", "shape line 8"),
    (TITLE + "refute 0 9223372036854775807\n\n", "shape line 6"),
    (TITLE + "refute 9223372036854775807 0\n\n", "shape line 5"),
    (PROOF + "9223372036854775807 9223372036854775807 0 1 4 5 0\n", "refutation line 0 no clause 5"),
    (PROOF + f"{GREATEST_ID} 0 {GREATEST_ID} 0\n", f"refutation line 0 no clause {GREATEST_ID}"),
    (PROOF + f"{GREATEST_ID} d {GREATEST_ID} 0\n", f"refutation line 0 no clause {GREATEST_ID}"),
    (PROOF + "9223372036854775808 d 0\n", "refutation line 0 bad line"),
    (PROOF + "18446744073709551621 0 1 4 0\n", "refutation line 0 bad line"),
    (PROOF + "5 -9223372036854775808 0 1 4 0\n", "refutation line 0 bad line"),
]


def wide(count):
    """A wall of one clause with the same literal so many times, and its use."""
    wall = f"wall 1 0\n\n{'2 ' * count}0\nproof 1\n{count + 5} 0 4 1 3 5 0\n"
    return TITLE + wall + f"refute 1 1\n0\n{2 * count + 9} 0 1 3 4 {count + 8} {2 * count + 8} 5 0\nend\n"


def crowded(count):
    """Walls that each name the inside of all that stand before."""
    uses = [" ".join(f"{n}+" for n in range(k)) for k in range(count)]
    walls = "".join(f"wall 0 {k}\n{line}\n" for k, line in enumerate(uses))
    return TITLE.replace("1", "2") + walls + "refute 0 0\n\nend\n"


def long_certificates():
    """Each with its name, memory and what is wanted; they are made one after another, since they are long."""
    yield "100 MB of entries", SOME, TITLE + EMPTY * (LENGTHY // len(EMPTY)), "refused too long\n"
    yield "a first line of 100 MB", MEMORY, "0" * LENGTHY, "refused shape line 1\n"
    yield "an opening line of 100 MB", MEMORY, TITLE + "wall " + "1" * LENGTHY, "refused shape line 4\n"
    yield "a line of uses of 20 MB", MUCH, TITLE + "wall 0 0\n" + "0 " * (LENGTHY // 10), "refused shape line 5\n"
    yield "a proof line of 100 MB", MEMORY, PROOF + "9" * LENGTHY, "refused refutation line 0 bad line\n"
    yield "a skipped line of 100 MB", MEMORY, "c" * LENGTHY + "\n" + TITLE + WALL + END, ACCEPTED
    yield "many hints", MUCH, TITLE + WALL.replace("6 0 ", "6 0 " + "1 " * 5_000_000) + END, ACCEPTED
    yield "a wide clause", MEMORY, wide(1_000_000), ACCEPTED
    yield "walls that name all before them", MEMORY, crowded(200), "refused refutation line 0 unfinished\n"


# the name, how the text begins, what stands behind it again and again, the memory, and what is wanted
ENDLESS = [
    ("endless lines in no form", "", "zz\n", LITTLE, "refused shape line 1\n"),
    ("endless entries", TITLE, EMPTY, SOME, "refused too long\n"),
    ("endless lines of a proof", PROOF, "5 0 1 4 5 0\n", LITTLE, "refused refutation line 0 no clause 5\n"),
    ("endless lines behind the end", TITLE + WALL + END, "\n", LITTLE, "refused trailing line 13\n"),
]


def cut_certificates():
    """The certificate with all features, cut off behind each byte, judged beside the program."""
    circuit = judge.read_circuit(RISING.encode())
    for length in range(len(FEATURES) + 1):
        text = FEATURES[:length]
        yield f"the first {length} bytes of a certificate", LITTLE, text, judge.judge(circuit, text.encode())[0]


# ---- texts about rounds

# latches that stay 0, that change at each step, and that begin with either value and have to be 0; and an input
STUCK, CHANGING = (f"aag 1 0 1 0 0 0 0 1 0\n2 {step}\n1\n2\n" for step in (2, 3))
FREE = "aag 1 0 1 0 0 0 1 1 0\n2 2 2\n3\n1\n2\n"
GIVEN = "aag 1 1 0 0 0 0 0 1 0\n2\n1\n2\n"
# as many variables as there may be, so that there is no room for those that count
LARGE = f"aag {VARIABLES} 0 1 0 0 0 0 1 0\n2 2\n1\n2\n"
ABOUT = "rounds 1\nj0\n"
LIST = ABOUT + "version 2\n"
COUNTED = """reach 3 0

3 0
5 0
7 0
proof 1
21 0 17 11 20 0
proof 1
21 0 20 13 5 6 0
proof 1
21 0 20 15 18 17 4 19 10 0
"""
NEVER = "refute 1 1\n0\n5 0 3 4 0\nend\n"
FEWER = LIST + COUNTED + NEVER
REACHED = "rounds 2\nj0\nrun\n0\n\n\n\n\n.\n"
RUN = ABOUT + "run\n"
IS_FEWER, IS_REACHED = "accepted rounds 1 j0 fewer\n", "accepted rounds 2 j0 reached\n"
MANY = 1_000_000


def cut_rounds(name, text, accepted):
    """The text, whose numbers have one digit where they end a line of another kind than a proof's, cut off behind each byte."""
    lines = text.split("\n")[:-1]
    proofs = places_of_proofs(lines)
    for length in range(len(text)):
        whole, part = text[:length].count("\n"), text[:length].rpartition("\n")[2]
        wanted = f"refused shape line {whole + 1}\n"
        if part and part == lines[whole]:
            wanted = f"refused shape line {whole + 2}\n" if whole + 1 < len(lines) else accepted
        elif part and whole in proofs:
            wanted = f"refused {proofs[whole]} bad line\n"
        yield f"the first {length} bytes of {name}", LITTLE, text[:length], wanted


def places_of_proofs(lines):
    """How a fault in each line of a proof is told, by the places of these lines; there is one entry, and each proof has one line."""
    behind = [place + 1 for place, line in enumerate(lines) if line.startswith("proof ")]
    refuting = [place + 2 for place, line in enumerate(lines) if line.startswith("refute ")]
    told = {place: f"entry 0 clause {clause} proof line 0" for clause, place in enumerate(behind)}
    return told | {place: "refutation line 0" for place in refuting}


def instead(old, new):
    """The text that is accepted, with this in place of that, which stands there once."""
    assert FEWER.count(old) == 1, old
    return FEWER.replace(old, new)


# the first two lines and the one behind them; what is wanted
OPENED = [
    *[(f"rounds {k}\nj0\n", "shape line 1") for k in ("0", "65", "01", "+1", "-1", "1 ", " 1", "", "x", "1 1", "1\r", "1\0")],
    *[(f"rounds {k}\nj0\n", "shape line 1") for k in (GREATEST, 2**63 - 1, 2**63, 2**64 + 1, 2**128)],
    *[(f"{word}\nj0\nversion 2\n", "shape line 1") for word in ("rounds", "rounds1", "roundsx", "Rounds 1", " rounds 1", "round 1")],
    ("rounds 64\n", "shape line 2"),
    *[(f"rounds 1\n{line}\n", "shape line 2") for line in ("0", "j", "j00", "J0", "j-1", "jx", "j0 ", "b0", "", f"j{2**63}", f"j{2**64}")],
    *[(f"rounds 1\nj{n}\nwall\n", f"property {n}") for n in (1, GREATEST, GREATEST + 1, 2**63 - 1)],
    *[(ABOUT + f"{line}\n", "shape line 3") for line in ("version 1", "version 3", "version", "version 02", "version 2 ", "Run", "run ")],
    *[(ABOUT + f"{line}\n", "shape line 3") for line in ("", ".", "end", "0", "1", "2", "j0", "rounds 1", "holds j0", "wall 1 0")],
    (ABOUT + COUNTED + NEVER, "shape line 3"),
    (ABOUT + "refute 0 0\n\nend\n", "shape line 3"),
]

# entries and the refutation; what is wanted
LISTED = [
    (FEWER.replace("reach 3", "wall 3"), "shape line 4"),
    (LIST + "wall 0 0\n\n" + COUNTED + NEVER, "shape line 4"),
    (LIST + COUNTED + "wall 0 0\n\n", "shape line 15"),
    (LIST + EMPTY.replace("wall", "reach") * 65536 + "wall 0 0\n\n", f"shape line {4 + 2 * 65536}"),
    (LIST + EMPTY.replace("wall", "reach") * 65537, "too long"),
    (LIST + f"reach {GREATEST_ID} 0\n\n", "shape line 6"),
    (LIST + f"reach {GREATEST_ID} {GREATEST_ID}\n", "shape line 5"),
    (LIST + f"reach {GREATEST_ID + 1} 0\n\n", "shape line 4"),
    (LIST + f"reach 0 1\n{GREATEST_ID}\n", f"entry 0 use {GREATEST_ID}"),
    (LIST + f"reach 0 1\n{GREATEST_ID + 1}\n", "shape line 5"),
    (LIST + "reach 0 1\n0\n", "entry 0 use 0"),
    (LIST + "reach 0 0\n\nreach 0 1\n0+\n", "entry 1 use 0"),
    # of the monitor the latches are the variables 1 to 3, and the gates 4 to 6
    *[(LIST + f"reach 1 0\n\n{literal} 0\n", f"entry 0 literal {literal}") for literal in (0, 8, 13, 14, 15, GREATEST, GREATEST_ID)],
    (LIST + "reach 1 0\n\n18446744073709551618 0\n", "shape line 6"),
    *[(LIST + f"reach 1 0\n\n{literal} 0\n", "entry 0 base 0") for literal in (2, 4, 6)],
    (LIST + "reach 1 0\n\n0\n", "entry 0 base 0"),
    (LIST + f"reach 1 0\n\n3 0\nproof {GREATEST_ID}\n", "shape line 8"),
    (LIST + f"refute 0 {GREATEST_ID}\n\n", "shape line 6"),
    (LIST + f"refute {GREATEST_ID} 0\n\n", "shape line 5"),
    (LIST + "refute 0 0\n\nend\n", "refutation line 0 unfinished"),
    # without entries the counter alone is asked for
    (LIST + "refute 0 1\n\n2 0 1 0\nend\n", "refutation line 0 no conflict"),
    (LIST + f"refute 0 1\n\n{GREATEST_ID} 0 {GREATEST_ID} 0\n", f"refutation line 0 no clause {GREATEST_ID}"),
    (instead("20 13 5 6 0", "20 5 13 6 0"), "entry 0 clause 1 proof line 0 not unit 5"),
    (instead("21 0 17 11 20 0", "20 0 17 11 20 0"), "entry 0 clause 0 proof line 0 id order"),
    (instead("21 0 17 11 20 0", "21 0 17 11 21 0"), "entry 0 clause 0 proof line 0 no clause 21"),
    (instead("21 0 17 11 20 0", "21 0 -17 11 20 0"), "entry 0 clause 0 proof line 0 rat"),
    (instead("21 0 17 11 20 0", "22 9 0 17 11 20 0"), "entry 0 clause 0 proof line 1 unfinished"),
    (instead("refute 1 1\n0\n", "refute 1 1\n1\n"), "refutation use 1"),
    (instead("refute 1 1\n0\n", "refute 1 1\n0+\n"), "refutation use 0"),
    (instead("5 0 3 4 0", "5 0 2 4 0"), "refutation line 0 no conflict"),
    (instead("5 0 3 4 0", "4 0 3 4 0"), "refutation line 0 id order"),
    (instead("5 0 3 4 0", "5 0 3 5 0"), "refutation line 0 no clause 5"),
    (FEWER + FEWER, "trailing line 19"),
    (FEWER + TITLE + WALL + END, "trailing line 19"),
    (FEWER + "\n", "trailing line 19"),
    (FEWER + "c said\n" + REACHED, "trailing line 20"),
]

# the model, a run, and what is wanted
RUNS = [
    *[(CHANGING, RUN + "0\n\n" + line + "\n", "shape line 6") for line in ("2", "0 0", "01\r", "X", "-", "run", "version 2", "\0")],
    *[(CHANGING, RUN + line + "\n", "shape line 4") for line in (".", "2", "0 ", "j0")],
    *[(CHANGING, RUN + line + "\n\n\n.\n", "width item 0") for line in ("", "00", "x0")],
    *[(CHANGING, RUN + "0\n\n\n" + line + "\n.\n", "width item 3") for line in ("0", "x", "0101")],
    (GIVEN, RUN + "\n1\n\n.\n", "width item 2"),
    (GIVEN, RUN + "1\n1\n11\n.\n", "width item 0"),
    (CHANGING, RUN + "1\n\n.\n", "initial latch 0"),
    (CHANGING, RUN + "1\n0\n.\n", "width item 1"),
    (FREE, RUN + "1\n\n.\n", "constraint position 0"),
    (FREE, RUN + "0\n\n.\n", "rounds 0"),
    (CHANGING, RUN + "0\n.\n", "rounds 0"),
    (STUCK, RUN + "0\n\n\n\n.\n", "rounds 0"),
    (CHANGING, REACHED.replace("rounds 2", "rounds 3"), "rounds 2"),
    (CHANGING, REACHED.replace("rounds 2", "rounds 64"), "rounds 2"),
    (CHANGING, REACHED.replace("0\n\n", "0\n"), "rounds 1"),
    (CHANGING, REACHED.replace("j0", "j1"), "property 1"),
    # a line behind the end comes before what is wrong in the run
    *[(CHANGING, RUN + line + "\n\n.\n\n", "trailing line 7") for line in ("1", "00")],
    (CHANGING, REACHED + REACHED, "trailing line 10"),
    (CHANGING, REACHED + FEWER, "trailing line 10"),
    (RISING, TITLE + WALL + END + FEWER, "trailing line 13"),
    (LARGE, "rounds 1\nj1\n", "property 1"),
]


def long_rounds():
    """Each with its model, name, memory and what is wanted; they are made one after another, since they are long."""
    yield STUCK, "a first line of 100 MB about rounds", MEMORY, "rounds " + "1" * LENGTHY, "refused shape line 1\n"
    yield STUCK, "a word of 100 MB in the third line", MEMORY, ABOUT + "r" * LENGTHY, "refused shape line 3\n"
    yield STUCK, "a property of 100 MB", MEMORY, "rounds 1\nj" + "1" * LENGTHY, "refused shape line 2\n"
    yield STUCK, "skipped lines of 100 MB", MEMORY, "u" * LENGTHY + "\n" + FEWER, IS_FEWER
    yield STUCK, "a proof line of 100 MB about rounds", MEMORY, instead("5 0 3", "5" * LENGTHY), "refused refutation line 0 bad line\n"
    wide = instead("5 0\n7", "5 " * MANY + "0\n7").replace("21 0 20 13", f"{MANY + 20} 0 20 13")
    yield STUCK, "a clause of a million literals", MEMORY, wide, IS_FEWER
    yield CHANGING, "values of 100 MB", MEMORY, RUN + "0" * LENGTHY + "\n.\n", "refused width item 0\n"
    yield CHANGING, "a million positions", MEMORY, REACHED.replace(".", "\n" * MANY + "."), IS_REACHED
    yield STUCK, "a million positions without a round", MEMORY, RUN + "0\n" + "\n" * MANY + ".\n", "refused rounds 0\n"
    for name, beginning, piece, memory, wanted in LONG_ROUNDS:
        yield STUCK, name, memory, beginning + piece * (LENGTHY // len(piece)), wanted


# as ENDLESS, but each is 100 MB long: such a text is read again behind its first line, which no pipe allows
LONG_ROUNDS = [
    ("many words about rounds", "", "rounds\n", LITTLE, "refused shape line 1\n"),
    ("many lines behind the property", ABOUT, "rounds 1\n", LITTLE, "refused shape line 3\n"),
    ("many walls", LIST, EMPTY, LITTLE, "refused shape line 4\n"),
    ("many reach entries", LIST, "reach 0 0\n\n", SOME, "refused too long\n"),
    ("many proof lines about rounds", LIST + "refute 0 9\n\n", "2 0 1 0\n", LITTLE, "refused refutation line 0 no conflict\n"),
    ("many lines behind the end of entries", FEWER, "\n", LITTLE, "refused trailing line 19\n"),
    ("many lines behind the dot", REACHED, ".\n", LITTLE, "refused trailing line 10\n"),
    ("many words in a run", RUN + "0\n", "run\n", LITTLE, "refused shape line 5\n"),
    # what takes all memory: status 6, and nothing is printed
    ("many positions", RUN + "0\n", "\n", SOME, ""),
    ("a long number of rounds", "rounds ", "1", SOME, ""),
    ("many values", RUN, "0", SOME, ""),
]


def rounds_cases():
    """The model, the name, the memory, the text, and what is wanted."""
    good = [
        (STUCK, FEWER, IS_FEWER),
        (CHANGING, REACHED, IS_REACHED),
        (CHANGING, REACHED.replace("\n0\n", "\nx\n"), IS_REACHED),
        (STUCK, "c\nu 0\n" + FEWER.replace("\n", "\nc\n") + "u\nc", IS_FEWER),
        (GIVEN, RUN + "\n1\n.\n", "accepted rounds 1 j0 reached\n"),
        # the last of the variables that count is M + 5
        *[(LARGE, ABOUT + text, f"too large {VARIABLES + 5}\n") for text in ("", "wall\n", "run\n.\n")],
    ]
    refused = [(STUCK, text, wanted) for text, wanted in OPENED + LISTED] + RUNS
    for model, text, wanted in good + [(model, text, f"refused {wanted}\n") for model, text, wanted in refused]:
        # (as many entries as there may be take more than a short text may, and the largest model more than these)
        memory = MUCH if model == LARGE else LITTLE if len(text) < 100_000 else SOME
        yield model, f"{text[:60]!r} about rounds", memory, text, wanted
    yield from ((STUCK, *case) for case in cut_rounds("entries of a monitor", FEWER, IS_FEWER))
    yield from ((CHANGING, *case) for case in cut_rounds("a run", REACHED, IS_REACHED))
    yield from ((STUCK, *junk(byte)) for byte in range(256))
    yield from long_rounds()


# ---- sheets

# a latch that goes to 1: that it is 0 again and again, and that it is 1
BOTH = "aag 1 0 1 0 0 0 0 2 0\n2 1\n1\n1\n3\n2\n"
SHEET_HEAD = "all 2\nversion 2\n"
HELD = SHEET_HEAD + WALL + "holds j0\n" + END[:-4]
SHEET = HELD + "lasso j1\n0\n\n\n\n.\nend\n"
# the greatest numbers, and those that are too great
SHEETS = [
    "all 9223372036854775807\n",
    "all 9223372036854775808\n",
    "all 18446744073709551618\n",
    SHEET_HEAD + "open j4294967296\n",
    SHEET_HEAD + "lasso j18446744073709551616\n",
    SHEET_HEAD + "holds j0\nrefute 9223372036854775807 0\n\n",
    SHEET_HEAD + "holds j0\nrefute 0 9223372036854775807\n\n",
    SHEET_HEAD + "holds j0\nrefute 0 9223372036854775808\n\n",
    SHEET_HEAD + "wall 0 1\n9223372036854775807\n",
    HELD.replace("refute 1 1\n0", "refute 1 1\n9223372036854775807"),
    HELD.replace("11 0 1 3 4 9 10 5 0", "9223372036854775807 0 9223372036854775807 0"),
    SHEET + "\nx\n",
]


def sheets_cases():
    """The sheet cut off behind each byte, and the numbers, judged beside the program; and a first line of 100 MB."""
    circuit = judge.read_circuit(BOTH.encode())
    cut_sheets = [(f"the first {length} bytes of a sheet", SHEET[:length]) for length in range(len(SHEET) + 1)]
    for name, text in cut_sheets + [("the greatest numbers in a sheet", text) for text in SHEETS]:
        yield name, LITTLE, text, judge.judge(circuit, text.encode())[0]
    yield "a first line of a sheet of 100 MB", MEMORY, "all " + "1" * LENGTHY, "refused shape line 1\n"


def junk(byte):
    """A text with this byte where the word behind the property stands: a line that begins with c or u is skipped."""
    text = ABOUT.encode() + bytes([byte]) * 9 + b"\nversion 2\n"
    return f"byte {byte} in a text about rounds", LITTLE, text, f"refused shape line {5 if byte in b'cu' else 3}\n"


# ---- runs

# the other commands that take an answer, each with the words behind it
OTHERS = [("convert",), ("wave",), ("trim",), ("export", "0", "0"), ("export", "0", "0", "--lrat")]


def check(name, model, answer, memory, wanted, status=None, words=("check",)):
    """Whether the program prints what begins so; or, where a status is given, just that, and ends with the status."""
    limited = ["bash", "-c", 'ulimit -v "$0" && exec "$@"', str(memory)]
    command = [*limited, PROGRAM, words[0], model, answer, *words[1:]]
    try:
        ran = subprocess.run(command, stdout=subprocess.PIPE, timeout=60, text=True)
    except subprocess.TimeoutExpired:
        print(f"{name}: no answer within 60 seconds")
        return False
    good = ran.stdout.startswith(wanted) if status is None else (ran.stdout, ran.returncode) == (wanted, status)
    if not good:
        print(f"{name}: {' '.join(words)}: status {ran.returncode}, printed {ran.stdout[:300]!r}")
    return good


def pour(pipe, beginning, piece):
    """Writes a text that never ends, until nobody reads it."""
    try:
        with open(pipe, "wb", buffering=0) as file:
            file.write(beginning)
            while True:
                file.write(piece * (65536 // len(piece)))
    except BrokenPipeError:
        pass


def endless(folder, name, beginning, piece):
    """The path of a text that never ends."""
    pipe = os.path.join(folder, name.replace(" ", "_"))
    os.mkfifo(pipe)
    threading.Thread(target=pour, args=(pipe, beginning.encode(), piece.encode()), daemon=True).start()
    return pipe


def write(path, text, length=0):
    with open(path, "wb") as file:
        file.write(text if isinstance(text, bytes) else text.encode())
        file.truncate(max(length, file.tell()))


def check_models(folder):
    """Whether each model is answered as it must be, and how many they are."""
    model, answer = os.path.join(folder, "model"), os.path.join(folder, "answer")
    write(answer, "2\n")
    short = SHORT + [case for sections in SECTIONS for case in prefixes(*sections)]
    cases = [(LITTLE, (*case, 0)) for case in short] + [(MEMORY, (*case, 0)) for case in ASCII + BINARY]
    cases += [(MUCH, case) for case in GREAT]
    good = True
    for memory, (name, text, wanted, length) in cases:
        write(model, text, length)
        good = check(name, model, answer, memory, wanted) and good
    wanted = f"model refused limit {LENGTH}\n"
    pipe = endless(folder, "an endless binary model", "aig 1 1 0 0 0\nc", "\0")
    good = check("an endless binary model", pipe, answer, MUCH, wanted) and good
    # one of zeros alone is no binary text
    return check("an endless model", "/dev/zero", answer, MUCH, wanted) and good, len(cases) + 2


def check_made(folder, model):
    """Whether it is as it must be what is made of a good certificate, which has a clause of a million literals."""
    answer = os.path.join(folder, "wide")
    write(answer, wide(MANY))
    made = [
        (("trim",), "0\nj0\nversion 2\nwall 1 0\n\n2 2 "),
        (("export", "0", "0"), f"p cnf 4 {MANY + 4}\n-1 0\n-4 -1 0\n4 1 0\n2 2 "),
        (("export", "1", "0"), f"p cnf 7 {2 * MANY + 8}\n-1 0\n-4 -1 0\n4 1 0\n-2 0\n-5 2 2 "),
        (("export", "0", "0", "--lrat"), f"{MANY + 5} 0 4 1 3 5 0\n"),
        (("export", str(GREATEST), str(GREATEST)), f"no item {GREATEST} {GREATEST}\n"),
    ]
    return all([check("a wide clause", model, answer, MEMORY, wanted, None, words) for words, wanted in made])


def check_certificates(folder):
    """Whether each certificate is answered as it must be, and how many they are."""
    model, answer = os.path.join(folder, "rising"), os.path.join(folder, "certificate")
    write(model, RISING)
    good, count = True, 0
    numbers = [("the greatest numbers", LITTLE, text, f"refused {wanted}\n") for text, wanted in NUMBERS]
    for name, memory, text, wanted in itertools.chain(cut_certificates(), numbers, long_certificates()):
        write(answer, text)
        refused = wanted.startswith("refused")
        good = check(name, model, answer, memory, wanted, int(refused)) and good
        count += 1
        # what is refused is so by each command; of the long ones, which these keep, by check alone
        if refused and memory == LITTLE:
            good = check(name, model, answer, memory, wanted, 1, OTHERS[count % len(OTHERS)]) and good
    good = check_made(folder, model) and good
    for name, beginning, piece, memory, wanted in ENDLESS:
        good = check(name, model, endless(folder, name, beginning, piece), memory, wanted, 1) and good
    # a line that never ends takes all memory: status 6, and nothing is printed
    good = check("an endless line", model, "/dev/zero", SOME, "", 6) and good
    inner = endless(folder, "an endless line of a proof", PROOF, "5")
    return check("an endless line of a proof", model, inner, SOME, "", 6) and good, count + len(ENDLESS) + 2


# the status by the first word that is printed, where it is not 0
STATUSES = {"refused": 1, "too": 9, "": 6}


def check_rounds(folder):
    """Whether each text about rounds is answered as it must be, and how many they are."""
    model, answer = os.path.join(folder, "counted"), os.path.join(folder, "rounds")
    good, count = True, 0
    for text_of_model, name, memory, text, wanted in rounds_cases():
        write(model, text_of_model)
        write(answer, text)
        good = check(name, model, answer, memory, wanted, STATUSES.get(wanted.split(" ")[0], 0)) and good
        count += 1
    write(model, CHANGING)
    pipe = endless(folder, "a pipe with a text about rounds", REACHED, "c\n")
    good = check("a pipe with a text about rounds", model, pipe, LITTLE, "", 4) and good
    # other commands work with answers alone
    write(answer, REACHED)
    for words in OTHERS:
        good = check("a run about rounds", model, answer, LITTLE, "refused unknown status\n", 1, words) and good
    return good, count + 2


def check_sheets(folder):
    """Whether each sheet is answered as it must be, and how many they are."""
    model, answer = os.path.join(folder, "both"), os.path.join(folder, "sheet")
    write(model, BOTH)
    good, count = True, 0
    for name, memory, text, wanted in sheets_cases():
        write(answer, text)
        good = check(name, model, answer, memory, wanted, int(wanted.startswith("refused"))) and good
        count += 1
    pipe = endless(folder, "a pipe with a sheet", SHEET, "c\n")
    good = check("a pipe with a sheet", model, pipe, LITTLE, "", 4) and good
    write(answer, SHEET)
    for words in OTHERS:
        # (the first block has no stimulus for `wave` to show)
        good = check("a sheet", model, answer, LITTLE, READ, 1, words) and good
    return good, count + 2


def main():
    # a first run without limits, which builds the program where it is not built
    subprocess.run([os.path.join(TOP, "fairlive")], stdout=subprocess.DEVNULL)
    with tempfile.TemporaryDirectory() as folder:
        models, models_count = check_models(folder)
        certificates, certificates_count = check_certificates(folder)
        rounds, rounds_count = check_rounds(folder)
        sheets, sheets_count = check_sheets(folder)
    good = models and certificates and rounds and sheets
    if good:
        answers = f"{certificates_count} certificates, {rounds_count} texts about rounds and {sheets_count} sheets"
        print(f"hostile texts: {models_count} models, {answers} answered as they must be")
    return 0 if good else 1


if __name__ == "__main__":
    sys.exit(main())
