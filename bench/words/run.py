#!/usr/bin/env python3
"""Runs the built program, its check, z3 and cvc5 on every script of the bench, and prints tables.

usage: run.py [PROGRAM] [--families A,B] [--only TEXT] [--seed N] [--limit SECONDS] [--times N] [--budget N]
       (default: the program that `rt run` leaves in crates/smt_tool/out, all families, seed 1, 60 seconds, 3 times, and the
       greatest budget; --budget 0 leaves the option out)

Each script is solved N times by each solver, in turn, and the least seconds count. Every verdict is compared with the one
that is known; each proof is handed to `check`, which has to accept it with these verdicts. Where a solver does not end
within the limit, the limit counts for it. A solver that is not there is left out.
"""
import argparse
import collections
import math
import os
import pathlib
import platform
import shutil
import subprocess
import sys
import tempfile

HERE = pathlib.Path(__file__).resolve().parent
sys.path.insert(0, str(HERE.parent))
import make  # noqa: E402
from measuring import run  # noqa: E402

PROGRAM = HERE.parents[1] / "crates/smt_tool/out/smt_tool"
OTHERS = {"z3": ["z3"], "cvc5": ["cvc5", "--incremental"]}
VERDICTS = ("sat", "unsat", "unknown")
# what `time` ends with where the system stopped the run
KILLED = 128 + 9

# Processor seconds, megabytes at most, and what is wrong (None where nothing is).
Measured = collections.namedtuple("Measured", "seconds megabytes fault")
# One script: how each solver did, how the check did, and the bytes of script and proof.
Row = collections.namedtuple("Row", "family name checks solvers checking script_bytes proof_bytes")


def measured(command, limit, folder, wanted):
    """One run, whose lines have to be those that are wanted."""
    text, status, seconds, megabytes = run(command, limit, folder)
    # the system stops a run a little before its seconds are told to be so many
    if seconds >= 0.95 * limit or status == KILLED:
        return Measured(limit, megabytes, "limit")
    lines = text.split("\n")[:-1]
    if status != 0 or lines != wanted:
        return Measured(seconds, megabytes, "status %d, %s" % (status, " ".join(lines[:4])))
    return Measured(seconds, megabytes, None)


def least(one, other):
    """The faster of two runs, and one with a wrong answer before any."""
    if one is None or other.fault not in (None, "limit"):
        return other
    return one if one.fault not in (None, "limit") or one.seconds <= other.seconds else other


class Bench:
    def __init__(self, options, folder, others=OTHERS):
        self.folder, self.options = folder, options
        self.proof = folder / "proof"
        budget = ["--budget", str(options.budget)] if options.budget else []
        self.solve = lambda script: [options.program, "solve", str(self.proof), script, *budget]
        self.solvers = {"smt_tool": self.solve}
        for name, command in others.items():
            if shutil.which(name):
                self.solvers[name] = lambda script, command=command: [*command, script]

    def row(self, made):
        script = self.folder / "script.smt2"
        script.write_text(made.text)
        best, checking = dict.fromkeys(self.solvers), None
        for _ in range(self.options.times):
            for name, command in self.solvers.items():
                best[name] = least(best[name], measured(command(str(script)), self.options.limit, self.folder, made.verdicts))
            if best["smt_tool"].fault is None:
                wanted = made.verdicts + ["accepted %d" % len(made.verdicts)]
                command = [self.options.program, "check", str(self.proof), str(script)]
                checking = least(checking, measured(command, self.options.limit, self.folder, wanted))
        size = self.proof.stat().st_size if self.proof.exists() else 0
        return Row(made.family, made.name, len(made.verdicts), best, checking, len(made.text), size)


def ratio(row, other):
    """How many times the seconds of another solver ours are, each of at least a millisecond."""
    return max(row.solvers["smt_tool"].seconds, 0.001) / max(row.solvers[other].seconds, 0.001)


def mean(values):
    """The geometric mean."""
    return math.exp(sum(map(math.log, values)) / len(values)) if values else float("nan")


def shown(one):
    return "-" if one is None else ">%g" % one.seconds if one.fault == "limit" else "%.3f" % one.seconds


def columns(others):
    heads = ["script", "checks", "solving", *others, "checking", "MB", *("MB of " + o for o in others), "MB checking", "kB of script", "MB of proof"]
    return heads + ["to " + o for o in others]


def line_of(row, others):
    ours = row.solvers["smt_tool"]
    cells = [row.name, str(row.checks), shown(ours), *(shown(row.solvers[o]) for o in others), shown(row.checking)]
    cells += ["%.1f" % ours.megabytes, *("%.1f" % row.solvers[o].megabytes for o in others)]
    cells += ["%.1f" % row.checking.megabytes if row.checking else "-", "%.1f" % (row.script_bytes / 1e3), "%.2f" % (row.proof_bytes / 1e6)]
    return cells + ["%.2f" % ratio(row, o) for o in others]


def line_of_all(title, rows, others):
    """Sums of checks, seconds and bytes, the greatest memory, and the geometric means of the ratios."""
    solvers = ["smt_tool", *others]
    checks = [r.checking for r in rows if r.checking]
    sums = ["%.3f" % sum(r.solvers[s].seconds for r in rows) for s in solvers] + ["%.3f" % sum(c.seconds for c in checks)]
    most = ["%.1f" % max(r.solvers[s].megabytes for r in rows) for s in solvers] + ["%.1f" % max((c.megabytes for c in checks), default=0)]
    sizes = ["%.1f" % (sum(r.script_bytes for r in rows) / 1e3), "%.2f" % (sum(r.proof_bytes for r in rows) / 1e6)]
    return [title, str(sum(r.checks for r in rows)), *sums, *most, *sizes, *("%.2f" % mean([ratio(r, o) for r in rows]) for o in others)]


def printed(cells):
    print("| %s |" % " | ".join(cells), flush=True)


def heads(others):
    printed(columns(others))
    printed(["---"] * len(columns(others)))


def faults_of(row):
    for name, one in [*row.solvers.items(), ("check", row.checking)]:
        if one is not None and one.fault is not None:
            yield name, one.fault


def table(bench, family, others):
    """The table of a family, row by row as they are measured; what was wrong stands behind it."""
    print("\n## %s\n" % family)
    heads(others)
    rows = []
    for made in make.scripts(bench.options.seed, {family: make.FAMILIES[family]}):
        if bench.options.only in made.name:
            rows.append(bench.row(made))
            printed(line_of(rows[-1], others))
    if rows:
        printed(line_of_all("all", rows, others))
    for row in rows:
        for name, fault in faults_of(row):
            print("\n%s of %s: %s" % (name, row.name, fault))
    return rows


def machine(solvers):
    model = [line.split(":")[1].strip() for line in open("/proc/cpuinfo") if line.startswith("model name")]
    memory = os.sysconf("SC_PAGE_SIZE") * os.sysconf("SC_PHYS_PAGES") / 2 ** 30
    print("%d processors (%s), %.0f GB of memory, %s; load %.1f at the begin" % (len(model), model[0], memory, platform.system(), os.getloadavg()[0]))
    for name in solvers:
        if name != "smt_tool":
            told = subprocess.run([name, "--version"], capture_output=True, text=True).stdout.split("\n")[0]
            print("%s: %s" % (name, told))


def read_options(text=__doc__, families=make.FAMILIES, limit=60, times=3):
    parser = argparse.ArgumentParser(description=text.split("\n")[0])
    parser.add_argument("program", nargs="?", default=str(PROGRAM))
    parser.add_argument("--families", default=",".join(families))
    parser.add_argument("--only", default="", help="scripts whose name has this text")
    for name, default in ("seed", 1), ("limit", limit), ("times", times), ("budget", 1000000000):
        parser.add_argument("--" + name, type=int, default=default)
    return parser.parse_args()


def main():
    options = read_options()
    with tempfile.TemporaryDirectory() as folder:
        bench = Bench(options, pathlib.Path(folder))
        others = [name for name in bench.solvers if name != "smt_tool"]
        machine(bench.solvers)
        families = {family: table(bench, family, others) for family in options.families.split(",")}
    print("\n## all families\n")
    heads(others)
    families = {family: rows for family, rows in families.items() if rows}
    for family, rows in families.items():
        printed(line_of_all(family, rows, others))
    rows = [row for rows in families.values() for row in rows]
    if rows:
        printed(line_of_all("all", rows, others))
    wrong = [fault for row in rows for name, fault in faults_of(row) if fault != "limit"]
    print("\n%d scripts, %d checks, %d wrong" % (len(rows), sum(row.checks for row in rows), len(wrong)))
    return 1 if wrong or not rows else 0


if __name__ == "__main__":
    sys.exit(main())
