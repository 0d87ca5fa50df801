#!/usr/bin/env python3
"""What `wave` prints, read by another reader: each name with its indices, and each value at each time, must be the one that
the model's text and the simulation of the judge beside this file give. So of generated models with the stimuli that `solve` prints; of each
of these once more with outputs, bad states, constraints, properties, fairness and symbols that are drawn, for each of its
properties; and of the examples with a stimulus. Where `vcd2fst`, of the package gtkwave, is there, it must take each dump.

    waves.py [MODELS]     so many generated models that have a lasso, 50 if not told"""
import itertools
import os
import random
import re
import shutil
import subprocess
import sys
import tempfile

sys.dont_write_bytecode = True
import judge  # noqa: E402
from maker import below, pick, shuffled  # noqa: E402

TOP = os.path.dirname(os.path.dirname(os.path.abspath(__file__)))
FAIRLIVE = os.path.join(TOP, "fairlive")
# the program itself, without the script before it that looks for sources that are newer
PROGRAM = os.path.join(TOP, "crates", "fair_main", "out", "fair_main")
EXAMPLES = ("toggle", "counter", "arbiter_starves", "bus_priority")

TOGGLE = b"aag 1 0 1 0 0 0 0 1\n2 3\n1\n2\n"
TOGGLE_ANSWER = b"1\nj0\n0\n\n\n.\n"
TOGGLE_DUMP = (
    b"$timescale 1ns $end\n$comment fairlive j0 $end\n$scope module fairlive $end\n$var wire 1 ! l0 $end\n"
    b'$var wire 1 " j0.0 $end\n$var wire 1 # loop $end\n$upscope $end\n$enddefinitions $end\n'
    b'#0\n0!\n0"\n1#\n#10\n1!\n1"\n1#\n#20\n0!\n0"\n1#\n#30\n1!\n1"\n1#\n#40\n'
)
# names by hand: symbols behind the gates of a model, wires by label and literal, and the variables that they are
NAMED = (
    b"l0 earlier\nl0 a b%\nl1 i0\ni1 loop\nj2 i0.l1\nf0 \xff\ncx\ni0 not a symbol\n",
    [("i0", 2), ("i1", 4), ("l0", 6), ("l1", 8), ("j2.0", 2), ("j2.1", 3), ("f0", 9), ("loop", None)],
    [("i0", ""), ("loop", ""), ("a%20b%25", ""), ("i0.l1", ""), ("i0.l1.j2.0", ""), ("i0.l1.j2.1", ""), ("%FF", ""), ("loop.loop", "")],
)
# a bus of the same name in two sections, whose bits are not in order, and a latch that is an output too
BUSES = (
    b"i0 w[1]\ni1 w[0]\nl0 w[1]\nl1 x\nl2 w[2]\nl3 w[3]\no0 x\no1 x\n",
    [("i0", 2), ("i1", 4), ("l0", 6), ("l1", 8), ("l2", 10), ("l3", 12), ("o0", 8), ("o1", 9), ("loop", None)],
    [("w", "[1:0]"), ("w.l3", "[3:1]"), ("x", ""), ("x.o1", ""), ("loop", "")],
)
# a gap, a bit alone, an index twice, one with a leading zero, none, no base, and one of 33 bits
BITS = (
    b"i0 w[3]\ni1 w[1]\ni2 v[0]\nl0 u[0]\nl1 u[1]\nl2 u[0]\nl3 t[01]\nl4 t[0]\nl5 t[]\nl6 [1]\nl7 [0]\nl8 s[4294967296]\nl9 s[4294967295]\n",
    [(f"i{k}", 2 * k + 2) for k in range(3)] + [(f"l{k}", 2 * k + 8) for k in range(10)],
    [(name, "") for name in ("w[3] w[1] v[0] u[0] u[1] u[0].l2 t[01] t[0] t[] [1] [0] s[4294967296] s[4294967295]").split()],
)


# ---- a dump, read word by word


def read_dump(text):
    """The property of a dump, its variables as name and indices in their order, and for each time their digits there."""
    words = iter(text.split())
    heads = []
    while not heads or heads[-1] != [b"$enddefinitions"]:
        heads.append(list(itertools.takewhile(lambda word: word != b"$end", words)))
    unit, comment, scope, *variables, upscope, _ = heads
    assert unit == [b"$timescale", b"1ns"] and scope == [b"$scope", b"module", b"fairlive"] and upscope == [b"$upscope"]
    assert comment[:2] == [b"$comment", b"fairlive"] and len(comment) == 3, comment
    names = {}
    for kind, wire, width, code, name, *indices in variables:
        assert (kind, wire) == (b"$var", b"wire") and code not in names and len(indices) == (width != b"1"), code
        if indices:
            high, low = map(int, re.fullmatch(rb"\[([0-9]+):([0-9]+)\]", indices[0]).groups())
            assert high - low + 1 == int(width) > 1, width
        names[code] = (name.decode(), b"".join(indices).decode(), int(width))
    assert len({name for name, _, _ in names.values()}) == len(names), "a name stands twice"
    times = []
    for word in words:
        if word[:1] == b"#":
            times.append((int(word[1:]), {}))
            continue
        digits, code = (word[1:], next(words)) if word[:1] == b"b" else (word[:1], word[1:])
        now, (name, _, width) = times[-1][1], names[code]
        assert not digits.strip(b"01") and len(digits) == width and name not in now, word
        now[name] = digits.decode()
    return comment[2].decode(), [(name, indices) for name, indices, _ in names.values()], times


# ---- what a dump must say


def symbols(text):
    """The last symbol of each element that has one, in what stands behind the gates of a model."""
    found = {}
    for line in text.split(b"\n"):
        if re.match(rb"c(?![0-9])", line):
            break
        element, _, name = line.partition(b" ")
        found[element.decode()] = name
    return found


def plain(label, symbol_of):
    """The name of a wire, where a literal of a property has the property's symbol."""
    symbol = symbol_of.get(label.split(".")[0], label.encode())
    return "".join(chr(byte) if 32 < byte < 127 and byte != 37 else f"%{byte:02X}" for byte in symbol)


def shown(wires, symbol_of):
    """The wires by label and literal, each with its name, without those that are an input or a latch under its own name."""
    named = [(label, literal, plain(label, symbol_of)) for label, literal in wires]
    sources = {(literal, name) for label, literal, name in named if re.fullmatch("[il][0-9]+", label)}
    return [(label, name) for label, literal, name in named if re.fullmatch("[il][0-9]+", label) or (literal, name) not in sources]


def grouped(wires):
    """The wires put together that are bits of one name and section, in the order of their first ones: as name, the lowest
    index, and the labels, the highest index first; or each alone."""
    groups = {}
    for label, name in wires:
        bit = re.fullmatch(r"(.+)\[(0|[1-9][0-9]*)\]", name) if re.fullmatch("[ilobcf][0-9]+", label) else None
        is_bit = bit and int(bit[2]) < 2**32
        key = (label[0], bit[1]) if is_bit else label
        groups.setdefault(key, []).append((int(bit[2]) if is_bit else 0, label, name))
    for key, bits in groups.items():
        indices = sorted(index for index, _, _ in bits)
        if len(bits) > 1 and indices == list(range(indices[0], indices[0] + len(bits))):
            yield key[1], indices[0], [label for _, label, _ in sorted(bits, reverse=True)]
        else:
            yield from ((name, 0, [label]) for _, label, name in bits)


def variables_of(wires, symbol_of):
    """The variables of a dump: a name that is set apart, the indices, and the labels."""
    variables = []
    for name, low, labels in grouped(shown(wires, symbol_of)):
        while name in [other for other, _, _ in variables]:
            name += "." + labels[0]
        variables.append((name, f"[{low + len(labels) - 1}:{low}]" if len(labels) > 1 else "", labels))
    return variables


def rows(answer):
    """The latches and the inputs of an answer's stimulus."""
    lines = [line for line in answer.decode().split("\n") if line[:1] not in ("c", "u")]
    return [[character == "1" for character in line] for line in lines[2 : lines.index(".")]]


def run_of(circuit, answer, count):
    """The values at so many first positions of a stimulus."""
    state, *inputs = rows(answer)
    values = []
    for now in inputs[:count]:
        values.append(circuit.values(state, now))
        state = circuit.successor(values[-1])
    return values


def lasso_of(circuit, answer):
    """The property of an answer's lasso, how many positions it has, and the place of its loop; None where it is refused."""
    said, _ = judge.judge(circuit, answer)
    found = re.fullmatch(r"accepted lasso j(\d+) positions (\d+) loop (\d+)\n", said)
    return found and tuple(map(int, found.groups()))


def wanted(model, answer):
    """What `read_dump` must find in the waves of an answer that is good."""
    circuit = judge.read_circuit(model)
    j, count, place = lasso_of(circuit, answer)
    sections = [("i", [2 * v for v in circuit.inputs]), ("l", [2 * v for v, _, _ in circuit.latches]), ("o", circuit.outputs)]
    sections += [("b", circuit.bad), ("c", circuit.constraints), (f"j{j}.", circuit.justice[j]), ("f", circuit.fairness)]
    wires = [(f"{label}{k}", literal) for label, literals in sections for k, literal in enumerate(literals)]
    literal_of = dict(wires)
    variables = variables_of([*wires, ("loop", None)], symbols(circuit.names))
    values = run_of(circuit, answer, count)
    times = []
    for t, value in enumerate(values + values[place:]):
        is_true = {label: judge.is_true(value, literal) for label, literal in literal_of.items()}
        is_true["loop"] = t >= place
        times.append((10 * t, {name: "".join("01"[is_true[label]] for label in labels) for name, _, labels in variables}))
    times.append((10 * len(times), {}))
    return f"j{j}", [(name, indices) for name, indices, _ in variables], times


# ---- models with all sections, drawn around a generated one and its lasso


def few(chance, values, most):
    return [pick(chance, values) for _ in range(below(chance, most + 1))]


def dressed(chance, model, answer):
    """The model with drawn sections and symbols. The lasso of the answer keeps its constraints, and makes the fairness
    literals and the literals of property 1 true."""
    circuit = judge.read_circuit(model)
    _, count, place = lasso_of(circuit, answer)
    values = run_of(circuit, answer, count)
    literals = range(2 * circuit.most + 2)
    held = [literal for literal in literals if all(judge.is_true(value, literal) for value in values)]
    recurring = [literal for literal in literals if any(judge.is_true(value, literal) for value in values[place:])]
    justice = [few(chance, pick(chance, [literals, recurring]), 3), few(chance, recurring, 3)]
    justice += [few(chance, recurring, 2) for _ in range(below(chance, 3))]
    sections = {"o": few(chance, literals, 4), "b": few(chance, literals, 3), "c": few(chance, held, 4), "j": justice}
    sections["f"] = shuffled(chance, circuit.fairness + few(chance, recurring, 2))
    numbers = [*sections["o"], *sections["b"], *sections["c"], *map(len, justice), *itertools.chain(*justice), *sections["f"]]

    # the generated model's lines in front of its sections, and all behind these
    word = model[:3].decode()
    kept = len(circuit.latches) + (0 if word == "aig" else len(circuit.inputs))
    cut = len(circuit.justice) + sum(map(len, circuit.justice)) + len(circuit.fairness)
    _, *lines = model.split(b"\n", 1 + kept + cut)
    counts = [circuit.most, len(circuit.inputs), len(circuit.latches), len(sections["o"]), len(circuit.gates)]
    header = [word, *counts, *(len(sections[letter]) for letter in "bcjf")]
    front = [" ".join(map(str, header)).encode(), *lines[:kept], *(str(number).encode() for number in numbers)]
    sections = {"i": circuit.inputs, "l": circuit.latches, **sections}
    elements = [f"{letter}{k}" for letter, section in sections.items() for k in range(len(section))]
    return b"\n".join(front) + b"\n" + lines[-1] + symbol_lines(chance, elements, doubles(circuit, sections))


def doubles(circuit, sections):
    """The elements of later sections that have the literal of an input or a latch, with that one."""
    sources = {2 * v: f"i{k}" for k, v in enumerate(circuit.inputs)}
    sources.update({2 * latch[0]: f"l{k}" for k, latch in enumerate(circuit.latches)})
    return [(f"{letter}{k}", sources[literal]) for letter in "obcf" for k, literal in enumerate(sections[letter]) if literal in sources]


def symbol_lines(chance, elements, pairs):
    """Symbols of these elements, some of them with several and some with none, some of a later section as the input or the
    latch that they are, and some of one section as bits of one name; and in half of the models a comment."""
    text = b""
    for _ in range(below(chance, 2 * len(elements) + 1)):
        text += pick(chance, elements).encode() + b" " + draw_name(chance, elements) + b"\n"
    for element, source in few(chance, pairs, 3) if pairs else []:
        name = draw_name(chance, elements)
        text += element.encode() + b" " + name + b"\n" + source.encode() + b" " + name + b"\n"
    for letter in few(chance, "iloobf", 3):
        bits = shuffled(chance, [element for element in elements if element[0] == letter])[: below(chance, 6)]
        indices = shuffled(chance, range(below(chance, 12), 20))[: len(bits)] if below(chance, 4) == 0 else shuffled(chance, range(len(bits)))
        base, low = pick(chance, ["w", "w", "x", "m[1]", "%", "[", "loop"]), pick(chance, [0, 0, 1, 9, 4294967290])
        for bit, index in zip(bits, indices):
            text += f"{bit} {base}[{low + index}]\n".encode()
    return text + pick(chance, [b"", b"c\ni0 not a symbol\n"])


def draw_name(chance, elements):
    """A name that others may have too, or that is like the label of a wire or a name that was set apart, or any bytes."""
    label = pick(chance, elements).encode()
    known = [b"x", b"x.", b"loop", b"loop.loop", b"request high", b" ", b"100%", b"%25", b"\xc3\xa4", b"$var", b"#10", b"c", b"w[0]", b"w[1]", b"w[01]", b"[0]"]
    names = [pick(chance, known), pick(chance, known), label, b"x." + label, label + b".0", b"loop." + label]
    names.append(bytes(pick(chance, [*range(10), *range(11, 256)]) for _ in range(1 + below(chance, 5))))
    return pick(chance, names)


def asked(chance, answer, j):
    """The stimulus of an answer for property j, with up to three more rows."""
    lines = [line for line in answer.decode().split("\n") if line[:1] not in ("c", "u")]
    end = lines.index(".")
    more = ["".join(pick(chance, "01x") for _ in lines[end - 1]) for _ in range(below(chance, 4))]
    return "\n".join(["1", f"j{j}", *lines[2:end], *more, ".", ""]).encode()


# ---- the program


def run(words):
    ran = subprocess.run([PROGRAM, *words], stdout=subprocess.PIPE, timeout=60)
    return ran.returncode, ran.stdout


class Waves:
    """A folder for texts, how many dumps were as they must be, and whether all were."""

    def __init__(self, folder):
        self.folder, self.count, self.good = folder, 0, True

    def path(self, name, text):
        path = os.path.join(self.folder, name)
        with open(path, "wb") as file:
            file.write(text)
        return path

    def is_taken(self, dump):
        """Whether the tool of a viewer takes the dump, or is not there."""
        if not shutil.which("vcd2fst"):
            return True
        path = self.path("waves.vcd", dump)
        return subprocess.run(["vcd2fst", path, path + ".fst"], stdout=subprocess.DEVNULL, stderr=subprocess.DEVNULL).returncode == 0

    def check(self, model, answer, what):
        """Looks whether the waves are those of the answer, or are refused as the judge refuses it."""
        status, dump = run(["wave", self.path("model", model), self.path("answer", answer)])
        circuit = judge.read_circuit(model)
        if lasso_of(circuit, answer) is None:
            is_right = (dump.decode(), status) == judge.judge(circuit, answer)
        else:
            is_right = status == 0 and read_dump(dump) == wanted(model, answer) and self.is_taken(dump)
            self.count += is_right
        if not is_right:
            print(f"wave of {what}: status {status}, and other names or values than those of model and stimulus")
            self.good = False

    def check_generated(self, seed):
        """Whether the model of this seed has a lasso; its waves are looked at, plain and with drawn sections."""
        chance = random.Random(seed)
        words = ["scramble", str(seed), str(2 + seed % 40)]
        model = run(["gen", *words, *pick(chance, [[], ["--binary"]])])[1]
        status, answer = run(["solve", self.path("drawn", model), "--steps", "1000"])
        if status != 0 or answer[:1] != b"1":
            return False
        self.check(model, answer, " ".join(words))
        model = dressed(chance, model, answer)
        for j in range(len(judge.read_circuit(model).justice)):
            self.check(model, asked(chance, answer, j), " ".join([*words, "with drawn sections, property", str(j)]))
        return True


def main():
    assert read_dump(TOGGLE_DUMP) == wanted(TOGGLE, TOGGLE_ANSWER)
    for behind_gates, wires, variables in (NAMED, BUSES, BITS):
        assert [variable[:2] for variable in variables_of(wires, symbols(behind_gates))] == variables, variables
    most = int(sys.argv[1]) if len(sys.argv) > 1 else 50
    subprocess.run([FAIRLIVE], stdout=subprocess.DEVNULL)  # builds the program, where it is not
    if not shutil.which("vcd2fst"):
        print("waves: vcd2fst is not there, and is skipped")
    found, seed = 0, 0
    with tempfile.TemporaryDirectory() as folder:
        waves = Waves(folder)
        for name in EXAMPLES:
            texts = [open(os.path.join(TOP, "examples", name + end), "rb").read() for end in (".aag", ".stim")]
            waves.check(*texts, name)
        while found < most and seed < 40 * most:
            found += waves.check_generated(seed)
            seed += 1
    if found < most:
        print(f"waves: only {found} models with a lasso")
        waves.good = False
    if waves.good:
        print(f"waves: {waves.count} dumps as the simulation says, of {found} generated models with and without drawn sections")
    return 0 if waves.good else 1


if __name__ == "__main__":
    sys.exit(main())
