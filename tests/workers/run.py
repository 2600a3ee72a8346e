#!/usr/bin/env python3
"""Answers scripts with the built program by one worker and by several, and compares the verdicts.

usage: run.py [PROGRAM] [COUNT] [SEED]    (default: the program that `rt run` leaves in crates/smt_tool/out, 100, 1)

The scripts are those of tests/rows that are solved, so many random ones of tests/random/words.py, and a quarter as many random
sessions of tests/random/sessions.py, and of tests/random/arrays.py. Each is solved by 1, 2, 3 and 8 workers, with 0 to 4 variables that split each check. The
verdicts must be those of one worker without a split, and with the same verdicts the status; where the random script has a budget,
either verdict may be `unknown`.
The program's own `check` must accept each proof file with these verdicts. A run that takes more than TIME seconds is a fault.
"""
import pathlib
import random
import subprocess
import sys
import tempfile

HERE = pathlib.Path(__file__).resolve().parent
ROOT = HERE.parents[1]
PROGRAM = ROOT / "crates/smt_tool/out/smt_tool"
sys.path[:0] = [str(ROOT / "tests/rows"), str(ROOT / "tests/random")]
import arrays  # noqa: E402
import run as rows  # noqa: E402
import sessions  # noqa: E402
import words  # noqa: E402

VERDICTS = ("sat", "unsat", "unknown")
WORKERS = (1, 2, 3, 8)
CUBES = range(5)
TIME = 60


def of_rows():
    """The name and the script of each row that is solved to its end."""
    for path in sorted(rows.HERE.glob("*.row")):
        row = rows.sections(path)
        if row["words"].startswith("solve PROOF") and row["status"].strip() in ("0", "1"):
            yield path.stem, row.get("script", "").encode("latin-1"), []


def at_random(source, count):
    """The name and the script of random cases, and their budget, which some have."""
    for k in range(count):
        case = words.Case(source)
        yield "case %d" % k, ("\n".join(case.lines()) + "\n").encode(), case.limits[:2]
    for k in range(count // 4):
        session = sessions.Session(source)
        yield "session %d" % k, ("\n".join(session.lines) + "\n").encode(), session.limits[:2]
    for k in range(count // 4):
        session = arrays.Session(source)
        budget = session.limits[:2] if session.limits[:1] == ["--budget"] else []
        yield "session over arrays %d" % k, ("\n".join(session.lines) + "\n").encode(), budget


def solved(program, script, folder, options):
    """The status and the verdicts of a run, and what is wrong with its proof."""
    proof = folder / "proof"
    proof.unlink(missing_ok=True)
    ran = subprocess.run([program, "solve", str(proof), *options], input=script, capture_output=True, timeout=TIME)
    verdicts = [line for line in ran.stdout.decode("latin-1").split("\n") if line in VERDICTS]
    told = subprocess.run([program, "check", str(proof)], input=script, capture_output=True, timeout=TIME).stdout.decode("latin-1")
    wanted = "".join(v + "\n" for v in verdicts) + "accepted %d\n" % len(verdicts)
    return ran.returncode, verdicts, None if told == wanted else "check told %r" % told


def agree(one, other, budget):
    """Whether verdicts are the same; where there is a budget, an `unknown` is in the place of any."""
    return len(one) == len(other) and all(v == w or budget and "unknown" in (v, w) for v, w in zip(one, other))


def faults(program, script, budget, folder):
    status, verdicts, fault = solved(program, script, folder, budget)
    if fault:
        yield "without words: %s" % fault
    for workers in WORKERS:
        for cubes in CUBES:
            options = ["--workers", str(workers), "--cubes", str(cubes), *budget]
            try:
                found = solved(program, script, folder, options)
            except subprocess.TimeoutExpired:
                yield "%s: no end" % " ".join(options)
                continue
            if found[0] != status and found[1] == verdicts or not agree(verdicts, found[1], budget):
                yield "%s: status %d, %r for %r" % (" ".join(options), found[0], found[1], verdicts)
            if found[2]:
                yield "%s: %s" % (" ".join(options), found[2])


def main():
    program = sys.argv[1] if len(sys.argv) > 1 else PROGRAM
    count = int(sys.argv[2]) if len(sys.argv) > 2 else 100
    source = random.Random(int(sys.argv[3]) if len(sys.argv) > 3 else 1)
    scripts, bad = [*of_rows(), *at_random(source, count)], 0
    with tempfile.TemporaryDirectory() as folder:
        for name, script, budget in scripts:
            found = list(faults(program, script, budget, pathlib.Path(folder)))
            for fault in found:
                print("%s: %s\n%s" % (name, fault, script.decode("latin-1")))
            bad += bool(found)
    print("%d scripts in %d ways, %d different" % (len(scripts), len(WORKERS) * len(CUBES), bad))
    return 1 if bad or not scripts else 0


if __name__ == "__main__":
    sys.exit(main())
