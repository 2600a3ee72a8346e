#!/usr/bin/env python3
"""Times the built program on deep and wide scripts without a check, each at a size and at twice that size.

usage: run.py [PROGRAM]    (default: the program that `rt run` leaves in crates/smt_tool/out)
"""
import pathlib
import resource
import subprocess
import sys
import tempfile

PROGRAM = pathlib.Path(__file__).resolve().parents[2] / "crates/smt_tool/out/smt_tool"
WORD = "(declare-const x (_ BitVec 32))\n"


def names(n):
    return "".join("(declare-const name%d (_ BitVec 32))\n" % k for k in range(n))


def sum_of(n):
    return WORD + "(assert (= x (bvadd%s)))\n" % (" x" * n)


def nested(n):
    return WORD + "(assert (= x %sx%s))\n" % ("(bvnot " * n, ")" * n)


def chained(n):
    return WORD + "(assert (=%s))\n" % (" x #x00000001" * (n // 2))


def opened(n):
    return "(assert " + "(" * n


def lets(n):
    names = ["x"] + ["v%d" % k for k in range(n)]
    return WORD + "(assert (= x %s%s%s))\n" % ("".join("(let ((%s %s)) " % (names[k + 1], names[k]) for k in range(n)), names[n], ")" * n)


def hiding(n):
    return WORD + "(assert (= x %sx%s))\n" % ("(let ((x (bvnot x))) " * n, ")" * n)


def uses(n):
    """A function whose body reaches the first of so many constants, which is used as often."""
    constants = ["p%d" % k for k in range(n)]
    declared = "".join("(declare-const %s Bool)\n" % name for name in constants)
    defined = "(assert (and %s))\n(define-fun f ((u Bool) (v Bool)) Bool (or (and u v) p0))\n" % " ".join(constants)
    return declared + defined + "".join("(assert (f p%d p%d))\n" % (k, (k + 1) % n) for k in range(n))


def distinct(n):
    return WORD + "(assert (distinct%s))\n" % "".join(" (_ bv%d 32)" % k for k in range(n))


SCRIPTS = [
    ("constants declared", names, 100000),
    ("arguments of one bvadd", sum_of, 100000),
    ("bvnot in bvnot", nested, 100000),
    ("arguments of one =", chained, 100000),
    ("let in let, each of a name of its own", lets, 100000),
    ("let in let, each hiding the last", hiding, 100000),
    ("open parentheses", opened, 500000),
    ("uses of a function whose body reaches an early constant", uses, 10000),
    ("arguments of one distinct (quadratic by its definition)", distinct, 500),
]


def seconds(program, text):
    """The least processor time of three runs, and the greatest memory of all children so far in MB."""
    best = None
    with tempfile.TemporaryDirectory() as folder:
        for _ in range(3):
            before = resource.getrusage(resource.RUSAGE_CHILDREN)
            subprocess.run([program, "solve", str(pathlib.Path(folder) / "proof")], input=text.encode(), capture_output=True)
            after = resource.getrusage(resource.RUSAGE_CHILDREN)
            took = after.ru_utime + after.ru_stime - before.ru_utime - before.ru_stime
            best = took if best is None else min(best, took)
    return best, after.ru_maxrss // 1024


def main():
    program = sys.argv[1] if len(sys.argv) > 1 else PROGRAM
    print("| script | size | seconds | seconds at twice the size | ratio | MB so far |\n|---|---|---|---|---|---|")
    for name, make, size in SCRIPTS:
        one, _ = seconds(program, make(size))
        two, memory = seconds(program, make(2 * size))
        print("| %s | %d | %.3f | %.3f | %.2f | %d |" % (name, size, one, two, two / one, memory), flush=True)


if __name__ == "__main__":
    main()
