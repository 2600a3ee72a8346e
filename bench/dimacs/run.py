#!/usr/bin/env python3
"""Runs `cnf` of the built program, and `dimacs_bench`, which counts in the same search, beside other solvers of clauses, those that are
installed, each with a proof where it writes one, and prints tables: seconds, and the time for a conflict and for a propagation.

usage: run.py [--quick] [PROGRAM [BENCH]] [TIMES]    (default: the programs that `rt run` leaves in crates/smt_tool/out and in
crates/dimacs_bench/out, and each once; --quick: a short list with each family, and less time for each run)
"""
import math
import pathlib
import re
import shutil
import sys
import tempfile

HERE = pathlib.Path(__file__).resolve().parent
PROGRAM = HERE.parents[1] / "crates/smt_tool/out/smt_tool"
BENCH = HERE.parents[1] / "crates/dimacs_bench/out/dimacs_bench"
sys.path.insert(0, str(HERE.parent))
import families
import measuring

INSTANCES = [
    ("random3", 200, 852, 1),
    ("random3", 200, 852, 2),
    ("pigeons", 8),
    ("pigeons", 9),
    ("parity", 42, 1),
    ("colours", 500, 1150, 3, 1),
    ("commutes", 7),
    ("distributes", 5),
    ("factors", 14, 119745811),
    ("factors", 14, 122976017),
    ("machine", 14, 16, 9000),
    ("divides", 9),
    ("sorts", 20),
    ("hashes", 12, 4, 2),
    ("random3", 300, 1230, 1),
    ("parity", 46, 2),
    ("commutes", 8),
    ("random3", 250, 1065, 1),
    ("random3", 250, 1065, 2),
    ("divides", 10),
    ("sorts", 24),
    ("hashes", 16, 3, 1),
]
# A few, of each family, which take half a second to some seconds.
QUICK = [
    ("random3", 225, 958, 21),
    ("pigeons", 9),
    ("parity", 54, 1),
    ("colours", 500, 1150, 3, 1),
    ("commutes", 8),
    ("distributes", 6),
    ("factors", 14, 122976017),
    ("machine", 14, 16, 9000),
    ("divides", 9),
    ("sorts", 20),
    ("hashes", 12, 4, 2),
]
# Seconds of the processor, and those of a run of the short list.
LIMIT = 120
QUICK_LIMIT = 10


class Solver:
    """A program: its words for the clauses and a file for the proof, how it tells its conflicts and its propagations, and whether the
    file holds a proof."""

    def __init__(self, name, words, conflicts, propagations, writes=True):
        self.name, self.words, self.writes = name, words, writes
        self.counts = conflicts, propagations

    def is_there(self):
        return all(shutil.which(str(w)) for w in self.words[:1] + [w for w in self.words if isinstance(w, pathlib.Path)])

    def run(self, cnf, proof, limit, folder):
        words = [cnf if w == "CNF" else proof if w == "PROOF" else w for w in self.words]
        output, status, seconds, megabytes = measuring.run(words, limit, folder)
        conflicts, propagations = [number(found.group(1)) if found else None for found in
                                   (c and re.search(c, output, re.M) for c in self.counts)]
        return Outcome(answer(output), seconds, megabytes, conflicts, propagations, proof if self.writes and proof.exists() else None)


class Outcome:
    def __init__(self, answer, seconds, megabytes, conflicts, propagations, proof):
        self.answer, self.seconds, self.megabytes = answer, seconds, megabytes
        self.conflicts, self.propagations = conflicts, propagations
        self.size = proof.stat().st_size if proof else None

    def conflict_time(self):
        """Microseconds for a conflict."""
        return self.seconds * 1e6 / self.conflicts if self.conflicts else None

    def propagation_time(self):
        """Nanoseconds for a propagation."""
        return self.seconds * 1e9 / self.propagations if self.propagations else None


def number(word):
    """A count, which may be told in thousands or millions."""
    return int(word.rstrip("KM")) * {"K": 10**3, "M": 10**6}.get(word[-1], 1)


def answer(output):
    if re.search(r"^(s )?(UNSATISFIABLE|unsat)", output, re.M):
        return "unsat"
    return "sat" if re.search(r"^(s )?(SATISFIABLE|sat)", output, re.M) else "-"


def solvers(program, bench):
    return [
        Solver("cnf", [program, "cnf", "PROOF", "CNF"], None, None),
        Solver("dimacs_bench", ["sh", "-c", 'exec "$0" < "$1"', bench, "CNF"], r"^conflicts (\d+)", r"^propagations (\d+)", False),
        Solver("minisat", ["minisat", "-verb=1", "CNF"], r"conflicts\s*:\s*(\d+)", r"propagations\s*:\s*(\d+)", False),
        Solver("cadical", ["cadical", "CNF", "PROOF"], r"c conflicts:\s*(\d+)", r"c propagations:\s*(\d+)"),
        Solver("picosat", ["picosat", "-v", "-n", "-R", "PROOF", "CNF"], r"c (\d+) conflicts", r"c (\d+) propagations"),
        Solver("cryptominisat5", ["cryptominisat5", "CNF", "PROOF"], r"c conflicts\s*:\s*(\d+)", r"c propagations\s*:\s*(\d+[KM]?)"),
    ]


def lines_of(path):
    with open(path, "rb") as text:
        return sum(block.count(b"\n") for block in iter(lambda: text.read(1 << 20), b""))


def shown(value, form):
    return "" if value is None else form % value


def best_of(solver, cnf, proof, times, limit, folder):
    """The run that took the least seconds."""
    runs = []
    for _ in range(times):
        proof.unlink(missing_ok=True)
        runs.append(solver.run(cnf, proof, limit, folder))
    return min(runs, key=lambda end: end.seconds)


def check(name, program, cnf, proof, best, limit, folder):
    """Has `lrat` judge the refutation of `cnf`: it has a line for each conflict, for each literal that was forced at level 0, and one more."""
    output, _, seconds, _ = measuring.run([program, "lrat", proof, cnf], limit, folder)
    if output != "accepted\n":
        sys.exit("%s: lrat says %r" % (name, output))
    best["lrat"] = Outcome("unsat", seconds, 0, None, None, None)
    lines = lines_of(proof)
    if best["cnf"].conflicts is None:
        best["cnf"].conflicts = lines - 1
    if best["cnf"].conflicts > lines - 1:
        sys.exit("%s: %d lines of a refutation, %d conflicts" % (name, lines, best["cnf"].conflicts))


def row(name, solver, end, lrat):
    print("| %s | %s | %s | %s | %s | %.2f | %s | %s | %.1f | %s | %s |" % (
        name, solver, end.answer, shown(end.conflicts, "%d"), shown(end.propagations, "%d"), end.seconds,
        shown(end.conflict_time(), "%.1f"), shown(end.propagation_time(), "%.0f"), end.megabytes,
        shown(end.size and end.size / 1e6, "%.2f"), shown(lrat, "%.2f")), flush=True)


def measure(name, cnf, program, there, times, limit, folder):
    """The least seconds of each solver and of `lrat`, where it refuted; a row is printed for each. `cnf` has the counts of
    `dimacs_bench`, which makes the same search."""
    best, answers, proof = {}, set(), folder / "proof"
    for solver in sorted(there, key=lambda s: s.name != "dimacs_bench"):
        end = best[solver.name] = best_of(solver, cnf, proof, times, limit, folder)
        if solver.name == "cnf":
            if "dimacs_bench" in best and best["dimacs_bench"].answer == end.answer:
                end.conflicts, end.propagations = best["dimacs_bench"].conflicts, best["dimacs_bench"].propagations
            if end.answer == "unsat":
                check(name, program, cnf, proof, best, limit, folder)
        answers.add(end.answer)
        row(name, solver.name, end, best["lrat"].seconds if solver.name == "cnf" and "lrat" in best else None)
    if len(answers - {"-"}) > 1:
        sys.exit("%s: answers differ" % name)
    return best


def told(title, ratios):
    if ratios:
        mean = math.exp(sum(map(math.log, ratios)) / len(ratios))
        print("%s: %.2f (%d instances, %.2f to %.2f)" % (title, mean, len(ratios), min(ratios), max(ratios)))


def summaries(found, names):
    # what takes less than a hundredth of a second says nothing
    floor = lambda seconds: max(seconds, 0.01)
    for name in names:
        both = [b for b in found if "-" not in (b["cnf"].answer, b[name].answer)]
        for answer_, word in (("unsat", "refuted"), ("sat", "satisfied")):
            told("seconds of cnf to those of %s, geometric mean, %s" % (name, word),
                 [floor(b["cnf"].seconds) / floor(b[name].seconds) for b in both if b["cnf"].answer == answer_])
        for time, word in ((Outcome.conflict_time, "conflict"), (Outcome.propagation_time, "propagation")):
            told("time of cnf for a %s to that of %s, geometric mean" % (word, name),
                 [time(b["cnf"]) / time(b[name]) for b in both if b[name].seconds >= 0.05 and time(b["cnf"]) and time(b[name])])
    told("seconds of lrat to those of cnf", [floor(b["lrat"].seconds) / floor(b["cnf"].seconds) for b in found if "lrat" in b])


def main():
    words = sys.argv[1:]
    quick = "--quick" in words
    words = [w for w in words if w != "--quick"]
    times = int(words.pop()) if words and words[-1].isdigit() else 1
    program, bench = (words + [PROGRAM, BENCH][len(words):])[:2]
    instances, limit = (QUICK, QUICK_LIMIT) if quick else (INSTANCES, LIMIT)
    there = [s for s in solvers(program, pathlib.Path(bench)) if s.is_there()]
    for solver in solvers(program, pathlib.Path(bench)):
        if not solver.is_there():
            print("not there: %s" % solver.name)
    print("| instance | solver | answer | conflicts | propagations | seconds | microseconds a conflict | nanoseconds a propagation | MB "
          "| MB of proof | `lrat` |\n|---|---|---|---|---|---|---|---|---|---|---|")
    found = []
    with tempfile.TemporaryDirectory() as place:
        folder = pathlib.Path(place)
        for family, *numbers in instances:
            name = "%s %s" % (family, " ".join(map(str, numbers)))
            (folder / "cnf").write_text(getattr(families, family)(*numbers).text())
            found.append(measure(name, folder / "cnf", program, there, times, limit, folder))
    print()
    summaries(found, [s.name for s in there if s.name not in ("cnf", "dimacs_bench")])


if __name__ == "__main__":
    main()
