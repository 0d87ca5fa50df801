#!/usr/bin/env python3
"""The models of safety that `safety` prints, decided by berkeley-abc: of each property of bench/models with at most 40 latches,
as bench/models/index.tsv says. What ABC does not decide in its time is listed, and is no fault.

    safety.py"""
import concurrent.futures
import csv
import os
import subprocess
import sys
import tempfile

TOP = os.path.dirname(os.path.dirname(os.path.abspath(__file__)))
PROGRAM = os.path.join(TOP, "crates", "fair_main", "out", "fair_main")
MODELS = os.path.join(TOP, "bench", "models")
IN_BINARY = os.path.join(TOP, "bench", "safety.py")
ABC = "berkeley-abc"
# The most latches of a model that is tried, the seconds for each way of ABC's, and how many run at once.
LATCHES, SECONDS, AT_ONCE = 40, 10, 4
# A way of ABC's, and what it says where the bad state is not reached, or is.
WAYS = ("pdr", "bmc3")
HOLDS, FAILS = "Property proved", "was asserted in frame"
# Of the properties at least so many have to be decided, so that a check in which ABC decides nothing is seen.
FEWEST = 40


def known_properties():
    with open(os.path.join(MODELS, "index.tsv"), encoding="ascii", newline="") as file:
        return [row for row in csv.DictReader(file, delimiter="\t") if int(row["latches"]) <= LATCHES]


def decided(binary):
    """What ABC says of the model in the binary form: holds, fails, or nothing."""
    for way in WAYS:
        # (ABC takes latches that the reset leaves open as 0, unless each becomes an input first)
        words = [ABC, "-q", f"read {binary}; logic; undc; strash; zero; fold; {way} -T {SECONDS}"]
        said = subprocess.run(words, stdout=subprocess.PIPE, stderr=subprocess.STDOUT, check=False).stdout.decode("latin1")
        if HOLDS in said:
            return "holds"
        if FAILS in said:
            return "fails"
    return ""


def compare(folder, row):
    """What is wrong with the model of safety of a property, if something is, and whether ABC decided it."""
    name = f"{row['name']} {row['property']}"
    text, binary = (os.path.join(folder, f"{row['name']}.{row['property']}.{end}") for end in ("aag", "aig"))
    model = os.path.join(MODELS, row["name"] + ".aag")
    with open(text, "wb") as out:
        if subprocess.run([PROGRAM, "safety", model, "--property", row["property"]], stdout=out, check=False).returncode:
            return f"{name}: safety ends with a fault", False
    subprocess.run([sys.executable, IN_BINARY, text, binary], check=True)
    said = decided(binary)
    if said and row["verdict"] != "open" and said != row["verdict"].rstrip("?"):
        return f"{name}: ABC says of its model of safety that it {said}, and the index that it {row['verdict']}", True
    return "" if said else f"open: {name}", bool(said)


def main():
    subprocess.run([os.path.join(TOP, "fairlive")], stdout=subprocess.DEVNULL, check=False)
    properties = known_properties()
    with tempfile.TemporaryDirectory() as folder, concurrent.futures.ThreadPoolExecutor(AT_ONCE) as pool:
        told = list(pool.map(lambda row: compare(folder, row), properties))
    count = sum(is_decided for _, is_decided in told)
    wrong = [what for what, _ in told if what and not what.startswith("open: ")]
    for what in wrong[:10]:
        print(what)
    if wrong or count < min(FEWEST, len(properties)):
        print(f"safety: {len(wrong)} wrong, {count} of {len(properties)} properties decided by ABC")
        return 1
    left = ", ".join(what[len("open: ") :] for what, is_decided in told if not is_decided)
    print(f"safety: ABC decides {count} of {len(properties)} properties as models of safety, as is known" + (f"; not {left}" if left else ""))
    return 0


if __name__ == "__main__":
    sys.exit(main())
