"""Programs, built where they are older than their sources, and how one run of them is measured; for bench/run and its parts."""
import csv
import os
import re
import statistics
import subprocess
import sys
import tempfile

BENCH = os.path.dirname(os.path.abspath(__file__))
TOP = os.path.dirname(BENCH)
RUNS = 3
ABC = "berkeley-abc"


# ---- programs: built where they are older than their sources, which proves them and the crates below them


# Programs that are named in place of those that are built, by their crates.
GIVEN = {}


def program(crate):
    """The program of a crate: the one that is named, or one that is built where it is older than its sources."""
    if crate in GIVEN:
        return GIVEN[crate]
    path = os.path.join(TOP, "crates", crate, "out", crate)
    if is_stale(crate, path):
        build(crate, path)
    if is_stale(crate, path):
        sys.exit("the build failed")
    return path


def is_stale(crate, path):
    if not os.access(path, os.X_OK):
        return True
    built = os.path.getmtime(path)
    if os.path.getmtime(os.path.join(TOP, "crates.txt")) > built:
        return True
    return any(os.path.getmtime(source) > built for source in sources(crate))


def sources(crate):
    """The sources, definitions and proofs of a crate and of the crates below it."""
    for below in crates_below(crate):
        for part in ("src", "specs", "proofs"):
            for folder, _, names in os.walk(os.path.join(TOP, "crates", below, part)):
                yield from (os.path.join(folder, name) for name in names)


def crates_below(crate):
    """The crate and those of the repository that it stands on, lowest first."""
    with open(os.path.join(TOP, "crates.txt")) as lines:
        pairs = [line.split(":") for line in lines if ":" in line and not line.startswith("#")]
    below = {name.split()[0]: words.split() for name, words in pairs}
    found = []

    def visit(name):
        if name in below and name not in found:
            for other in below[name]:
                visit(other)
            found.append(name)

    visit(crate)
    return found


def build(crate, path):
    """Proves the crates, lowest first, and builds the program by running it without words, which is status 64."""
    for below in crates_below(crate):
        subprocess.run(["rt", "check"], cwd=os.path.join(TOP, "crates", below), stdout=sys.stderr, check=True)
    # A program that is up to date but for the times of its sources would not be written again.
    if os.path.exists(path):
        os.remove(path)
    subprocess.run(["rt", "run"], cwd=os.path.join(TOP, "crates", crate), stdout=sys.stderr)


# ---- measurements


def make(script, *words):
    subprocess.run([sys.executable, os.path.join(BENCH, script), *map(str, words)], check=True)


def measure(command):
    """One run: its output, its errors, its user seconds and its peak memory in MB."""
    out, err, usage = run_once(command)
    return out, err, usage.ru_utime, usage.ru_maxrss * 1024 / 1e6


def run_once(command):
    """One run: its output, its errors and what it used."""
    with tempfile.TemporaryFile("w+") as out, tempfile.TemporaryFile("w+") as err:
        child = subprocess.Popen(command, stdout=out, stderr=err)
        _, status, usage = os.wait4(child.pid, 0)
        child.returncode = os.waitstatus_to_exitcode(status)
        out.seek(0)
        err.seek(0)
        return out.read(), err.read(), usage


def limited(seconds, command):
    """The command, ended after so many processor seconds."""
    return ["bash", "-c", f'ulimit -t {seconds}; exec "$@"', "bash", *command]


def heap_of(folder, command):
    """The most bytes that one run holds of the heap at once, by a library that is loaded before it."""
    library, most = compiled(folder, "heap.c", "cc", "-O1", "-shared", "-fPIC"), os.path.join(folder, "most")
    env = {**os.environ, "LD_PRELOAD": library, "HEAP_MOST": most}
    subprocess.run(command, env=env, stdout=subprocess.DEVNULL, stderr=subprocess.DEVNULL, check=True)
    with open(most) as file:
        return int(file.read())


def compiled(folder, source, *words, libraries=()):
    """What a compiler makes of a source beside this file."""
    path = os.path.join(folder, source.partition(".")[0])
    if not os.path.exists(path):
        subprocess.run([*words, "-o", path, os.path.join(BENCH, source), *libraries], check=True)
    return path


def median_of(command, wanted):
    """The median user seconds and peak memory of some runs, each of which must print this."""
    runs = [measure(command) for _ in range(RUNS)]
    for out, err, _, _ in runs:
        if out != wanted:
            sys.exit(f"{' '.join(command)} printed: {out}{err}")
    return statistics.median(run[2] for run in runs), statistics.median(run[3] for run in runs)


def megabytes(path):
    return os.path.getsize(path) / 1e6


def number_after(words, text):
    return int(re.search(rf"^{words} (\d+)$", text, re.MULTILINE).group(1))


def time_after(words, text):
    """The nanoseconds behind these words in milliseconds, or None where they are not there."""
    return number_after(words, text) / 1e6 if f"{words} " in text else None


# The names of the models that alone are measured; all where there are none.
ONLY = set()


def is_asked(name):
    return not ONLY or name in ONLY


def known_of(place):
    """The lines of an index of models, of those that are asked for."""
    with open(os.path.join(BENCH, place, "index.tsv")) as file:
        return [row for row in csv.DictReader(file, delimiter="\t") if is_asked(row["name"])]
