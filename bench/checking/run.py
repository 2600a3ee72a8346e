#!/usr/bin/env python3
"""Times `check` of the built program on long proofs that are made by hand, each at a size and at twice that size.

usage: run.py [PROGRAM]    (default: the program that `rt run` leaves in crates/smt_tool/out)
"""
import pathlib
import resource
import subprocess
import sys
import tempfile

PROGRAM = pathlib.Path(__file__).resolve().parents[2] / "crates/smt_tool/out/smt_tool"
HEADER = "smt_proof 1 cubes 0 budget %d\n"
FRONT = HEADER % 100000 + "e 0\ns 0\n"


def false_once(n):
    return "(assert false) (check-sat)"


def of_the_encoding(n):
    """Each chain from the clauses of the term and of the selector."""
    return FRONT + "c -2 0 0.0 2.0\n" * n + "unsat %d\n" % (n + 2)


def of_the_last(n):
    """Each chain from the clause of the one before, the first from the encoding."""
    return FRONT + "c -2 0 0.0 2.0\n" + "".join("c -2 0 %d.0\n" % (k + 3) for k in range(n - 1)) + "unsat %d\n" % (n + 2)


def own_terms(n):
    """Checks that each bring a name and three terms of their own, and leave them behind."""
    return "".join("(push 1) (declare-const x%d Bool) (assert (not (not x%d))) (check-sat) (pop 1)\n" % (k, k) for k in range(n))


def models(n):
    """Of each of these checks the steps and a model."""
    return HEADER % 100000 + "".join("f %d\ne %d\ne %d\nsat 1\nv %d true\n" % (3 * k, 3 * k + 1, 3 * k + 2, k) for k in range(n))


def groups(n):
    """One check of no assertion, and before it terms that share one name."""
    names = "".join("(declare-const x%d Bool) (declare-const y%d Bool)\n" % (k, k) for k in range(n))
    terms = "".join("(assert (or (or a x%d) y%d))\n" % (k, k) for k in range(n))
    return "(declare-const a Bool)\n" + names + "(push 1)\n" + terms + "(pop 1)\n(check-sat)\n"


def diary(n, clause):
    """A diary of n puts: of each group the clause of its two gates, which has the shared literal 2."""
    text = [HEADER % (n - 1), "f 0\n"]
    for k in range(0, 4 * n, 4):
        text.append("f %d\ne %d\nf %d\ne %d\n" % (k + 1, k + 2, k + 3, k + 4))
    for k in range(0, 4 * n, 4):
        text.append("c %s 0 %d.2 %d.2\n" % (clause % (k + 6, k + 5, k + 3), k + 5, k + 3))
    start = 4 * n + 2
    text.append("unknown 0 %d %d\n" % (start, n))
    text.extend("+ %d\n" % (start + k) for k in range(n))
    return "".join(text)


def shared_first(n):
    return diary(n, "2 %d %d %d")


def shared_last(n):
    return diary(n, "%d %d %d 2")


# each proof's name, its script, its text, its size, and the verdict of its records
PROOFS = [
    ("chains of two hints", false_once, of_the_encoding, 200000, b"unsat"),
    ("chains of the chain before", false_once, of_the_last, 200000, b"unsat"),
    ("checks of terms of their own", own_terms, models, 4000, b"sat"),
    ("puts, the shared literal first", groups, shared_first, 16000, b"unknown"),
    ("puts, the shared literal last", groups, shared_last, 16000, b"unknown"),
]


def seconds(program, script, text, verdict):
    """The least processor time of three runs, and the greatest memory of all children so far in MB."""
    best = None
    with tempfile.TemporaryDirectory() as folder:
        proof = pathlib.Path(folder) / "proof"
        proof.write_text(text)
        records = script.count("(check-sat)")
        for _ in range(3):
            before = resource.getrusage(resource.RUSAGE_CHILDREN)
            run = subprocess.run([program, "check", str(proof)], input=script.encode(), capture_output=True)
            after = resource.getrusage(resource.RUSAGE_CHILDREN)
            assert run.stdout == (verdict + b"\n") * records + b"accepted %d\n" % records, run.stdout[-100:]
            took = after.ru_utime + after.ru_stime - before.ru_utime - before.ru_stime
            best = took if best is None else min(best, took)
    return best, after.ru_maxrss // 1024


def main():
    program = sys.argv[1] if len(sys.argv) > 1 else PROGRAM
    print("| proof | size | MB of text | seconds | seconds at twice the size | ratio | MB so far |\n|---|---|---|---|---|---|---|")
    for name, script, make, size, verdict in PROOFS:
        text = make(size)
        one, _ = seconds(program, script(size), text, verdict)
        two, memory = seconds(program, script(2 * size), make(2 * size), verdict)
        print("| %s | %d | %.1f | %.3f | %.3f | %.2f | %d |" % (name, size, len(text) / 1e6, one, two, two / one, memory), flush=True)


if __name__ == "__main__":
    main()
