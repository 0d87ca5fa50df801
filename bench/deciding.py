"""The tables of models that are decided: those of bench/models and bench/big, beside ABC, by several workers, and all properties of
a model over one list."""
import os
import shutil
import statistics
import sys
import time

from measuring import ABC, BENCH, known_of, limited, make, program, run_once

NO_LIMITS = ("--conflicts", "4294967295", "--steps", "4294967295", "--skeletons", "65536")


def measure_solving_models(folder, seconds):
    """Deciding each property of bench/models within so many processor seconds, one worker, no other limit."""
    return solved_rows(folder, seconds, "models", beside_abc)


def measure_solving_designs(folder, seconds):
    """The same of bench/big, beside two methods of ABC that are not told what is known."""
    rows = solved_rows(folder, seconds, "big", beside_both)
    for name, _ in BOTH:
        found = [row for row in rows if row.get(f"{name}: answer") in VERDICTS.values()]
        alone = [row for row in found if row["answer"] not in VERDICTS.values()]
        if shutil.which(ABC):
            print(f"ABC, {name}: {len(found)} of {len(rows)} decided, {len(alone)} of them not by solve\n")
    return rows


def solved_rows(folder, seconds, place, beside):
    rows = [solved_row(folder, seconds, place, row, beside) for row in known_of(place)]
    times = sorted(float(row["solve, s"]) for row in rows if row["answer"] in VERDICTS.values())
    if times:
        within = sum(time <= 2 for time in times)
        said = f"{len(times)} of {len(rows)} decided, {within} within two seconds"
        print(f"{said}; median {statistics.median(times):.2f} s, 90 % {nine_tenths_of(times):.2f} s\n")
    return rows


def nine_tenths_of(times):
    return times[len(times) * 9 // 10]


VERDICTS = {"1": "fails", "0": "holds"}


def verdict_of(text, model, known):
    """The verdict that an answer gives, or nothing; the bench ends where it is another one than is known."""
    said = VERDICTS.get(text[:1], "")
    if said and known["verdict"] not in (said, said + "?", "open"):
        sys.exit(f"{model} {known['property']}: {said}, and it is known that it {known['verdict']}")
    return said


def solve_words(model, known, workers, lassos=0):
    crew = ("--workers", str(workers), "--lassos", str(lassos))
    return [program("fair_main"), "solve", model, "--property", known["property"], *crew, *NO_LIMITS]


def check_answer(folder, model, known, text):
    """What check says of an answer, and its processor seconds; the bench ends where it is not accepted."""
    answer = os.path.join(folder, "answer")
    with open(answer, "w") as file:
        file.write(text)
    judged, _, checked = run_once([program("fair_main"), "check", model, answer])
    if not judged.startswith("accepted"):
        sys.exit(f"{model} {known['property']}: check printed {judged}")
    return judged, checked.ru_utime


def solved_row(folder, seconds, place, known, beside):
    model = os.path.join(BENCH, place, known["name"] + ".aag")
    out, _, usage = run_once(limited(seconds, solve_words(model, known, 1)))
    said = verdict_of(out, model, known)
    row = {
        "model": known["name"],
        "property": known["property"],
        "latches": known["latches"],
        "gates": known["gates"],
        "known": known["verdict"],
        "answer": said or "none in time",
        "solve, s": f"{usage.ru_utime:.2f}",
        "memory, MB": f"{usage.ru_maxrss * 1024 / 1e6:.0f}",
        "entries": "",
        "check, s": "",
        **beside(folder, seconds, model, known),
        "prototype, s": known["prototype_s"],
    }
    if said:
        judged, spent = check_answer(folder, model, known, out)
        row["entries"] = judged.split()[-1] if said == "holds" else ""
        row["check, s"] = f"{spent:.2f}"
    return row


# The crews of the table of workers, by column: how many workers, and how many of them are lasso workers.
ALONE = (1, 0)
CREWS = (ALONE, (2, 0), (4, 0), (2, 1), (4, 1), (4, 3))


def crew_name(crew):
    workers, lassos = crew
    return f"{workers}, {lassos} for lassos" if lassos else str(workers)


def measure_workers(folder, seconds):
    """Deciding each property of bench/models within so many seconds of wall time, by each crew."""
    rows, walls = [], {crew: {} for crew in CREWS}
    for known in known_of("models"):
        rows.append(workers_row(folder, seconds, known, walls))
    for crew in CREWS:
        times = sorted(walls[crew].values())
        if times:
            said = f"workers {crew_name(crew)}: {len(times)} of {len(rows)} decided"
            print(f"{said}; median {statistics.median(times):.3f} s, 90 % {nine_tenths_of(times):.3f} s of wall time")
    with_lassos = [crew for crew in CREWS if crew == ALONE or crew[1]]
    decided = set().union(*(walls[crew] for crew in with_lassos))
    print(f"by one worker, or by several with lasso workers among them: {len(decided)} of {len(rows)} decided")
    for crew in CREWS[1:]:
        ratios = [walls[crew][key] / walls[ALONE][key] for key in walls[crew] if walls[ALONE].get(key, 0) > 0.1]
        if ratios:
            slower = sum(ratio > 1.2 for ratio in ratios)
            mean = statistics.geometric_mean(ratios)
            print(f"workers {crew_name(crew)}: {mean:.2f} of one worker's time over {len(ratios)} above 0.1 s; {slower} above 1.2")
    print()
    return rows


def workers_row(folder, seconds, known, walls):
    model = os.path.join(BENCH, "models", known["name"] + ".aag")
    row = {"model": known["name"], "property": known["property"], "latches": known["latches"]}
    for crew in CREWS:
        begun = time.monotonic()
        out, _, usage = run_once(["timeout", str(seconds), *solve_words(model, known, *crew)])
        spent = time.monotonic() - begun
        said = verdict_of(out, model, known)
        entries = ""
        if said:
            walls[crew][model, known["property"]] = spent
            judged, _ = check_answer(folder, model, known, out)
            entries = judged.split()[-1] if said == "holds" else ""
        name = crew_name(crew)
        row[f"{name}: answer"] = said or "none in time"
        row[f"{name}: s"] = f"{spent:.3f}"
        row[f"{name}: entries"] = entries
        row[f"{name}: MB"] = f"{usage.ru_maxrss * 1024 / 1e6:.0f}"
    return row


# ---- all properties over one list

# How many conflicts and steps a worker may count for one property alone; for all P of a model it may count P times as many.
SINGLE = 2_000
# The arbiters of bench/arbiter.py: which one, of how many requesters, and what a worker may count for each of its properties.
# (With some more the last one takes minutes.)
ARBITERS = (("fixed", 200, SINGLE), ("robin", 8, SINGLE), ("robin", 32, 60))


def measure_all(folder, crew):
    """All properties of the models of bench/models that have two or more, by `solve --all` and each by itself; and of two
    arbiters by `solve --all` alone."""
    known = {}
    for row in known_of("models"):
        known.setdefault(row["name"], []).append(row)
    rows = [all_row(folder, crew, name, lines) for name, lines in known.items() if len(lines) > 1]
    alone, together = (sum(float(row[name]) for row in rows) for name in ("each, s", "all, s"))
    lost = sum(int(row["lost"]) for row in rows)
    if rows:
        print(f"workers {crew}: all {together:.2f} s, each {alone:.2f} s, {together / alone:.2f} of it; {lost} properties lost\n")
    return rows + [arbiter_row(folder, crew, *arbiter) for arbiter in ARBITERS]


def all_words(model, crew, count, single):
    budget = str(count * single)
    return [program("fair_main"), "solve", model, "--all", "--workers", str(crew), "--conflicts", budget, "--steps", budget]


def sheet_of(folder, crew, model, count, single=SINGLE):
    """What `solve --all` prints of a model, wall and processor seconds, memory in MB, and what check says of it."""
    begun = time.monotonic()
    out, _, usage = run_once(all_words(model, crew, count, single))
    wall = time.monotonic() - begun
    sheet = os.path.join(folder, "sheet")
    with open(sheet, "w") as file:
        file.write(out)
    judged, _, _ = run_once([program("fair_main"), "check", model, sheet])
    if not judged.startswith("accepted sheet"):
        sys.exit(f"{model}: check printed {judged}")
    return out, wall, usage.ru_utime, usage.ru_maxrss * 1024 / 1e6, judged.split()


def blocks_in(sheet):
    """What the sheet says of each property: fails, holds, or nothing."""
    words = {"lasso": "fails", "holds": "holds", "open": ""}
    return [words[line.split()[0]] for line in sheet.splitlines() if line.split()[:1] and line.split()[0] in words]


def all_row(folder, crew, name, lines):
    model = os.path.join(BENCH, "models", name + ".aag")
    spent, wall, entries, found = 0.0, 0.0, 0, []
    for known in lines:
        budget = ["--conflicts", str(SINGLE), "--steps", str(SINGLE)]
        words = [program("fair_main"), "solve", model, "--property", known["property"], "--workers", str(crew), *budget]
        begun = time.monotonic()
        out, _, usage = run_once(words)
        spent, wall = spent + usage.ru_utime, wall + time.monotonic() - begun
        found.append(verdict_of(out, model, known))
        if found[-1] == "holds":
            entries += int(check_answer(folder, model, known, out)[0].split()[-1])
    sheet, together, user, peak, judged = sheet_of(folder, crew, model, len(lines))
    said = blocks_in(sheet)
    for known, one in zip(lines, said):
        verdict_of({"fails": "1", "holds": "0"}.get(one, ""), model, known)
    return {
        "model": name,
        "properties": str(len(lines)),
        "each: decided": str(sum(map(bool, found))),
        "each, s": f"{wall:.3f}",
        "each: entries": str(entries),
        "all: decided": str(sum(map(bool, said))),
        "lost": str(sum(bool(one) and not other for one, other in zip(found, said))),
        "all, s": f"{together:.3f}",
        "all: processor s": f"{user:.3f}",
        "all: entries": judged[-1],
        "memory, MB": f"{peak:.0f}",
    }


def arbiter_row(folder, crew, kind, count, single):
    model = os.path.join(folder, f"{kind}_{count}.aag")
    make("arbiter.py", kind, count, model)
    sheet, together, user, peak, judged = sheet_of(folder, crew, model, count, single)
    return {
        "model": f"{kind} arbiter",
        "properties": str(count),
        "each: decided": "",
        "each, s": "",
        "each: entries": "",
        "all: decided": str(sum(map(bool, blocks_in(sheet)))),
        "lost": "",
        "all, s": f"{together:.3f}",
        "all: processor s": f"{user:.3f}",
        "all: entries": judged[-1],
        "memory, MB": f"{peak:.0f}",
    }


# What ABC is asked of a safety model, by the method of the index; of the others by what is known of the property.
ABC_WORDS = {"l2s+bmc3": "bmc3", "l2s+pdr": "pdr", "l2s+sc+pdr": "scorr; pdr"}
ABC_BY_VERDICT = {"fails": "bmc3", "holds": "scorr; pdr", "open": "pdr"}
ABC_SAYS = {"was asserted in frame": "fails", "Property proved": "holds"}
# What it is asked of a larger design, whatever is known of the property.
BOTH = (("bmc3", "scorr; bmc3"), ("pdr", "scorr; pdr"))


def beside_abc(folder, seconds, model, known):
    """What ABC takes for the property, made a safety model (bench/l2s.py), where it is there; and by the index, whose best
    method may be another."""
    row = {"ABC, s": "", "index: ABC, s": known.get("abc_cpu_s", "")}
    if shutil.which(ABC):
        words = ABC_WORDS.get(known.get("abc_method"), ABC_BY_VERDICT[known["verdict"].rstrip("?")])
        said, usage = said_by_abc(seconds, safety_of(folder, model, known), model, known, words)
        row["ABC, s"] = f"{usage.ru_utime:.2f}" if said else "none in time"
    return row


def beside_both(folder, seconds, model, known):
    """What ABC says of it by both methods, what they take, and the most memory."""
    row = {f"{name}: {what}": "" for name, _ in BOTH for what in ("answer", "s", "MB")}
    if shutil.which(ABC):
        safety = safety_of(folder, model, known)
        for name, words in BOTH:
            said, usage = said_by_abc(seconds, safety, model, known, words)
            row[f"{name}: answer"] = said or "none in time"
            row[f"{name}: s"] = f"{usage.ru_utime:.2f}"
            row[f"{name}: MB"] = f"{usage.ru_maxrss * 1024 / 1e6:.0f}"
    return row


def safety_of(folder, model, known):
    safety = os.path.join(folder, "safety.aig")
    make("l2s.py", model, known["property"], safety)
    return safety


def said_by_abc(seconds, safety, model, known, words):
    """The verdict of ABC, or nothing, and what it used; the bench ends where it is another one than is known."""
    out, _, usage = run_once(limited(seconds, [ABC, "-q", f"read {safety}; {words}"]))
    said = next((verdict for words, verdict in ABC_SAYS.items() if words in out), "")
    if said and known["verdict"] not in (said, said + "?", "open"):
        sys.exit(f"{model} {known['property']}: ABC says {said}, and it is known that it {known['verdict']}")
    return said, usage
