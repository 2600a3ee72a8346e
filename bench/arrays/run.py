#!/usr/bin/env python3
"""Runs the built program, its check, boolector, z3 and cvc5 on every script over functions and arrays, and prints tables.

usage: run.py [PROGRAM] [--families A,B] [--only TEXT] [--seed N] [--limit SECONDS] [--times N] [--budget N]
       (default: the program that `rt run` leaves in crates/smt_tool/out, all families, seed 1, 20 seconds, once, and the
       greatest budget; --budget 0 leaves the option out)

Every verdict is compared with the one that is known, and `check` has to accept each proof with these verdicts. Where a solver does
not end within the limit, the limit counts for it. A solver that is not there is left out; one that can't read a script, as boolector
those with functions or with several checks, has a dash there.
"""
import collections
import pathlib
import sys
import tempfile

HERE = pathlib.Path(__file__).resolve().parent
sys.path[:0] = [str(HERE), str(HERE.parent / "words")]
import families  # noqa: E402
import make  # noqa: E402
sys.path.remove(str(HERE))
import run as words  # noqa: E402

# boolector tells more than its answer, and has another status for each
BOOLECTOR = ["sh", "-c", 'boolector --smt2 "$0" 2>/dev/null | grep -x -e sat -e unsat']
OTHERS = {"boolector": BOOLECTOR, "z3": ["z3"], "cvc5": ["cvc5", "--incremental"]}

Row = collections.namedtuple("Row", "of lemmas")


def unread(one):
    return one.fault is not None and one.fault.strip() == "status 1,"


def seconds(one):
    return max(one.seconds, 0.01)


def ratio(row, names):
    """How many times the seconds of the fastest of these solvers ours are; None where none of them reads the script."""
    others = [seconds(row.of.solvers[name]) for name in names if not unread(row.of.solvers[name])]
    return seconds(row.of.solvers["smt_tool"]) / min(others) if others else None


def mean(rows, names):
    ratios = [ratio(row, names) for row in rows]
    return "%.2f" % words.mean([r for r in ratios if r]) if any(ratios) else "-"


def shown(one):
    return "-" if one is None or unread(one) else words.shown(one)


def measured(bench, made):
    if bench.proof.exists():
        bench.proof.unlink()
    row = bench.row(made)
    proof = bench.proof.read_text() if bench.proof.exists() else ""
    return Row(row, sum(line.startswith("l ") for line in proof.split("\n")))


def line_of(row, others):
    ours, check = row.of.solvers["smt_tool"], row.of.checking
    cells = [row.of.name, str(row.of.checks), shown(ours), *(shown(row.of.solvers[o]) for o in others), shown(check), str(row.lemmas)]
    cells += ["%.2f" % (row.of.proof_bytes / 1e6), "%.0f" % ours.megabytes]
    cells += ["-" if unread(row.of.solvers[o]) else "%.0f" % row.of.solvers[o].megabytes for o in others]
    return cells + ["%.0f" % check.megabytes if check else "-", mean([row], others)]


def heads(others):
    columns = ["script", "checks", "solving", *others, "checking", "lemmas", "MB of proof", "MB", *("MB of " + o for o in others)]
    columns += ["MB checking", "to the best"]
    words.printed(columns)
    words.printed(["---"] * len(columns))


def faults_of(row):
    for name, fault in words.faults_of(row.of):
        if name not in OTHERS or not unread(row.of.solvers[name]):
            yield name, fault


def table(bench, family, others):
    """The table of a family, row by row as they are measured; what was wrong stands behind it."""
    print("\n## %s\n" % family)
    heads(others)
    rows = []
    for made in make.scripts(bench.options.seed, {family: families.FAMILIES[family]}):
        if bench.options.only in made.name:
            rows.append(measured(bench, made))
            words.printed(line_of(rows[-1], others))
    for row in rows:
        for name, fault in faults_of(row):
            print("\n%s of %s: %s" % (name, row.of.name, fault))
    return rows


def line_of_all(title, rows, others):
    """How many scripts each solver answered, sums of ours, and the geometric means of solving to the others and to the best of them."""
    solvers = ["smt_tool", *others]
    cells = [title, str(len(rows)), *(str(sum(row.of.solvers[s].fault is None for row in rows)) for s in solvers)]
    cells += ["%.1f" % sum(row.of.solvers["smt_tool"].seconds for row in rows)]
    cells += ["%.1f" % sum(row.of.checking.seconds for row in rows if row.of.checking)]
    cells += [str(sum(row.lemmas for row in rows)), "%.1f" % (sum(row.of.proof_bytes for row in rows) / 1e6)]
    cells += ["%.0f" % max(row.of.solvers["smt_tool"].megabytes for row in rows)]
    return cells + [mean(rows, [name]) for name in others] + [mean(rows, others)]


def summary(by_family, others):
    columns = ["family", "scripts", "answered", *("by " + o for o in others), "solving", "checking", "lemmas", "MB of proof", "MB"]
    columns += [*("to " + o for o in others), "to the best"]
    words.printed(columns)
    words.printed(["---"] * len(columns))
    rows = [row for family in by_family.values() for row in family]
    for title, some in [*by_family.items(), ("all", rows)]:
        if some:
            words.printed(line_of_all(title, some, others))
    wrong = [fault for row in rows for _, fault in faults_of(row) if fault != "limit"]
    print("\n%d scripts, %d checks, %d wrong" % (len(rows), sum(row.of.checks for row in rows), len(wrong)))
    return 1 if wrong or not rows else 0


def main():
    options = words.read_options(__doc__, families.FAMILIES, limit=20, times=1)
    with tempfile.TemporaryDirectory() as folder:
        bench = words.Bench(options, pathlib.Path(folder), OTHERS)
        others = [name for name in bench.solvers if name != "smt_tool"]
        words.machine(bench.solvers)
        by_family = {family: table(bench, family, others) for family in options.families.split(",")}
    print("\n## all families\n")
    return summary(by_family, others)


if __name__ == "__main__":
    sys.exit(main())
