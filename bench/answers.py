"""The tables of what is made of answers, and of answers of another kind: certificates that are trimmed, and rounds."""
import os
import re
import shutil
import statistics
import sys

from deciding import ABC_SAYS, NO_LIMITS, check_answer, solve_words, verdict_of
from measuring import ABC, BENCH, RUNS, known_of, limited, make, measure, program, run_once

# ---- trim


def measure_trimming(folder, seconds):
    """Trimming the certificates of bench/models that one worker finds within so many processor seconds."""
    made = [trimmed_row(folder, seconds, known) for known in known_of("models") if known["verdict"] != "fails"]
    rows = [row for row in made if row]
    print(f"{len(rows)} certificates")
    for before, after in (("entries", "kept"), ("proof lines", "lines kept"), ("bytes", "bytes kept"), ("check, s", "check after, s")):
        print(f"{before}: {told_sums(rows, before, after)}")
    print()
    return rows


def told_sums(rows, before, after):
    """What all certificates have before and after, the share that is not needed, and the median of the shares of each."""
    pairs = [(float(row[before].replace(",", "")), float(row[after].replace(",", ""))) for row in rows]
    if not pairs:
        return "none"
    first, last = (sum(column) for column in zip(*pairs))
    shares = [1 - kept / whole for whole, kept in pairs if whole]
    return f"{first:,.10g} before, {last:,.10g} after, {1 - last / first:.1%} less; in the median {statistics.median(shares):.1%}"


def trimmed_row(folder, seconds, known):
    """One certificate before and after, or nothing where there is none in time."""
    model, paths = os.path.join(BENCH, "models", known["name"] + ".aag"), [os.path.join(folder, name) for name in ("before", "after")]
    text, _, _ = run_once(limited(seconds, solve_words(model, known, 1)))
    if verdict_of(text, model, known) != "holds":
        return None
    write(paths[0], text)
    trimmed, err, spent, _ = measure([program("fair_main"), "trim", model, paths[0]])
    write(paths[1], trimmed)
    counts, checks = [counts_of(text), counts_of(trimmed)], [checking(model, path) for path in paths]
    if [entries for entries, _, _ in counts] != [entries for entries, _ in checks]:
        sys.exit(f"{model} {known['property']}: trim printed {trimmed[:200]}{err}, and check accepts {checks}")
    (entries, lines, size), (kept, lines_kept, size_kept) = counts
    return {
        "model": known["name"],
        "property": known["property"],
        "entries": f"{entries:,}",
        "kept": f"{kept:,}",
        "not needed": f"{1 - kept / entries:.0%}" if entries else "",
        "proof lines": f"{lines:,}",
        "lines kept": f"{lines_kept:,}",
        "bytes": f"{size:,}",
        "bytes kept": f"{size_kept:,}",
        "trim, s": f"{spent:.3f}",
        "check, s": f"{checks[0][1]:.3f}",
        "check after, s": f"{checks[1][1]:.3f}",
    }


def write(path, text):
    with open(path, "w") as file:
        file.write(text)


def counts_of(certificate):
    """The entries, proof lines and bytes of a certificate."""
    entries = len(re.findall(r"^(?:reach|wall) ", certificate, re.MULTILINE))
    lines = re.findall(r"^(?:proof|refute \d+) (\d+)$", certificate, re.MULTILINE)
    return entries, sum(map(int, lines)), len(certificate)


def checking(model, answer):
    """The entries of a certificate that check accepts, or none where it doesn't; and its median processor seconds."""
    runs = [measure([program("fair_main"), "check", model, answer]) for _ in range(RUNS)]
    said = re.fullmatch(r"accepted certificate j\d+ entries (\d+)\n", runs[0][0])
    return int(said[1]) if said else None, statistics.median(run[2] for run in runs)


# ---- rounds

# What is said where some initial run has so many rounds, and where none has: by the word that ends what check says, and by what
# ABC says of the bad state.
REACHED, FEWER = "reached", "fewer"
ABC_COUNTS = {"fails": REACHED, "holds": FEWER}


def measure_rounds(folder, count, seconds):
    """Whether some initial run has so many rounds, of each property of bench/models, within so many processor seconds."""
    found = [counted(folder, count, seconds, known) for known in known_of("models")]
    ours, theirs = [said for _, said, _, _, _ in found], [said for _, _, _, said, _ in found]
    left = [name for name, said, _, other, _ in found if other and not said]
    more = [name for name, said, _, other, _ in found if said and not other]
    print(f"K {count}: ABC alone: {', '.join(left) or 'none'}; here alone: {', '.join(more) or 'none'}\n")
    both = [(spent, other_spent) for _, said, spent, other, other_spent in found if said and other]
    return {
        "K": str(count),
        "properties": str(len(found)),
        "fewer": str(ours.count(FEWER)),
        "reached": str(ours.count(REACHED)),
        "ended": str(sum(map(bool, ours))),
        "ABC: fewer": str(theirs.count(FEWER)),
        "reached there": str(theirs.count(REACHED)),
        "ended there": str(sum(map(bool, theirs))),
        "both": str(len(both)),
        "median, s": median_told([spent for _, said, spent, _, _ in found if said]),
        "ABC's, s": median_told([spent for _, _, _, said, spent in found if said]),
    }


def median_told(times):
    return f"{statistics.median(times):.3f}" if times else ""


def counted(folder, count, seconds, known):
    """The property, what is said of it here and by ABC, each nothing where the time ends before, and the processor seconds."""
    model, name = os.path.join(BENCH, "models", known["name"] + ".aag"), f"{known['name']} {known['property']}"
    words = ["rounds", model, str(count), "--property", known["property"], *NO_LIMITS[:4]]
    text, _, usage = run_once(limited(seconds, [program("fair_main"), *words]))
    said = check_answer(folder, model, known, text)[0].split()[-1] if text.startswith("rounds ") else ""
    other, spent = counted_by_abc(folder, count, seconds, model, known)
    if said and other and said != other:
        sys.exit(f"{name}: {said} {count} rounds, and ABC says {other}")
    return name, said, usage.ru_utime, other, spent


def counted_by_abc(folder, count, seconds, model, known):
    """The same by ABC's PDR of a model of safety (rounds.py), where ABC is there."""
    if not shutil.which(ABC):
        return "", 0
    monitor = os.path.join(folder, "monitor.aig")
    make("rounds.py", model, known["property"], count, monitor)
    out, _, usage = run_once(limited(seconds, [ABC, "-q", f"read {monitor}; pdr"]))
    said = next((verdict for words, verdict in ABC_SAYS.items() if words in out), "")
    return ABC_COUNTS.get(said, ""), usage.ru_utime
