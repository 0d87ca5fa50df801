#!/usr/bin/env python3
"""Who uses which clause of a public contract, read off the proofs that a check keeps.

  .ci/consumers.py [FOLDER..]   writes .ci/consumed.tsv anew, over the out/ of this checkout, in which each crate is checked
                                (rt all check), and over those of other checkouts; what was written by hand in the last
                                column stays

A line has, between tabs: the file, the function, the clause as it stands (blanks aside), and who would notice that it is
gone: 'used by CRATE ..', the crates with a proof that names it (the crate's own proofs count where no other does); 'edit
NAME', a must-fail edit of the crate that was written for it; or the reason why it stands: 'a law', 'a worked example', 'a
clause of the trait NAME', which its implementations owe, 'a promise to who uses the crate as a library', or what was
written by hand. Crates of tests, and those that serve them, promise nothing and are left out.

The prover keeps of each function the clauses that its proof cites, also where it found the proof by search:
`G.Reads.ensures-NAME-read` in the files Answers and Proof of a function cites the clause NAME of G.
"""
import collections
import glob
import os
import re
import subprocess
import sys

TOP = os.path.dirname(os.path.dirname(os.path.abspath(__file__)))
LIST = f"{TOP}/.ci/consumed.tsv"
CITED = re.compile(rb"Rattle-([a-z0-9_]+)-proofs\.([A-Za-z0-9_.+]+?)\.Reads\.(?:ensures-([a-z0-9_]+?)-read|post_read)")


# What serves tests and measurements.
SERVES = re.compile(r"^crates/(\w+_tests|proved_entries|drawn_circuits|fair_bench)/")


def traits_met():
    """Of each function that implements a trait's: (file, function) to the trait's name."""
    met = {}
    for file in glob.glob(f"{TOP}/crates/*/src/**/*.rt", recursive=True):
        trait = of = ""
        for line in open(file, encoding="utf-8"):
            head = re.match(r"impl(?:<.*>)? ([A-Za-z]+)(?:<.*>)? for (?:&)?([A-Za-z]+)", line)
            if head:
                trait, of = head.groups()
            elif line.startswith("}"):
                trait = ""
            name = re.match(r"    fn ([a-z_0-9]+)", line)
            if name and trait:
                met[os.path.relpath(file, TOP), f"{of}::{name[1]}"] = trait
    return met


def reason(file, function, met):
    """What stands by its kind."""
    if (file, function) in met:
        return f"a clause of the trait {met[file, function]}"
    if file.endswith("/worked_rows.rt"):
        return "a worked example"
    if file.endswith("laws.rt"):
        return "a law"
    return ""


# Crates that are offered as libraries: what judges or reads. `wall_ledger` is to be the list of workers on threads.
LIBRARIES = set("text_grammar cnf edge circuit aiger_ascii aiger_binary aiger_names lrat cnf_unroll entry answer_lines stimulus certificate_texts certificate wall_ledger".split())
PROMISE = "a promise to who uses the crate as a library"


def contracts():
    """Each `ensures` of a public function: file, function, its name or '', and the clause on one line."""
    files = sorted(glob.glob(f"{TOP}/crates/*/src/**/*.rt", recursive=True))
    said = subprocess.run(["awk", "-f", f"{TOP}/.ci/contracts.awk", *[os.path.relpath(it, TOP) for it in files]], cwd=TOP, stdout=subprocess.PIPE, text=True, check=True, env={**os.environ, "LC_ALL": "C.UTF-8"}).stdout
    for line in said.splitlines():
        file, function, is_public, kind, name, clause = line.split("\t")
        if is_public == "1" and kind == "ensures" and not SERVES.match(file):
            yield file, function, name, re.sub(r"[\001 ]+", " ", clause).strip()


def citations():
    """(crate, path of the function, clause) to the crates whose proofs cite it."""
    found = collections.defaultdict(set)
    folders = [TOP, *sys.argv[1:]]
    for file in (it for folder in folders for it in glob.glob(f"{folder}/crates/*/out/incremental/*/*.oantt")):
        name = os.path.basename(file)
        if ".below." in name or not re.search(r"\.(Answers|Proof)\.oantt$|^Rattle-[a-z0-9_]+[.-]proofs\.[A-Z][A-Za-z0-9]*\.oantt$", name):
            continue
        crate = file.split("/crates/")[1].split("/")[0]
        own = re.sub(r"^Rattle-[a-z0-9_]+-proofs\.|\.(Answers|Proof)\.oantt$", "", name)
        with open(file, "rb") as it:
            for of, path, clause in set(CITED.findall(it.read())):
                of, path, clause = of.decode(), path.decode(), clause.decode()
                # (a function's own proof names its own clauses)
                if (of, path) != (crate, own):
                    found[of, path, clause].add(crate)
    return found


def path_of(file, function):
    crate, module = file.split("/")[1], file.split("/src/")[1][: -len(".rt")].replace("/", ".")
    return crate, ".".join(([] if module == "lib" else [module]) + function.split("::"))


def main():
    by_hand = {}
    if os.path.exists(LIST):
        for line in open(LIST, encoding="utf-8"):
            if not line.startswith("#"):
                file, function, clause, why = line.rstrip("\n").split("\t")
                if not why.startswith("used by "):
                    by_hand[file, function, clause] = why
    found, met = citations(), traits_met()
    open_ones = 0
    with open(f"{LIST}.new", "w", encoding="utf-8") as out:
        out.write("# who would notice that a clause of a public contract is gone; .ci/consumers.py writes it\n")
        for file, function, name, clause in contracts():
            crate, path = path_of(file, function)
            users = found.get((crate, path, name), set())
            others = sorted(users - {crate}) or sorted(users)
            why = f"used by {' '.join(others)}" if others else reason(file, function, met) or by_hand.get((file, function, clause)) or (PROMISE if file.split("/")[1] in LIBRARIES else "")
            open_ones += not why
            out.write(f"{file}\t{function}\t{clause}\t{why}\n")
    os.replace(f"{LIST}.new", LIST)
    print(f"{open_ones} clauses without a reason")
    return 0


if __name__ == "__main__":
    sys.exit(main())
