#!/usr/bin/env python3
"""Asks for an equality of arrays where there is just room for the terms that its check makes, and where there is room for one less.

usage: limit.py [PROGRAM]    (default: the program that `rt run` leaves in crates/smt_tool/out)

A check makes three terms for an equality of arrays: its witness, and what both sides have there. With them there may be as many terms
as are held at most; where there would be one more, the check is refused, nothing is changed, and a check that does not reach the
equality is answered. The terms before come from calls of a defined function. It takes a few seconds and 3.4 GB, so it is no row.
"""
import pathlib
import subprocess
import sys
import tempfile

from run import PROGRAM

MOST = 1 << 24
MADE = 3
WORD = "(_ BitVec 32)"
ARRAY = "(Array (_ BitVec 4) (_ BitVec 4))"
# how many lines of sums the body of the function has
DEEP = 512
TAIL = ["(push 1)", "(assert (= a b))", "(check-sat)", "(check-sat)", "(pop 1)", "(check-sat)"]
ALLOWED = "sat\nsat\nsat\n"
REFUSED = '(error "line %d: too many terms")\n(error "line %d: too many terms")\nsat\n'


def script(calls, more, one):
    """So many calls of the function, so many terms of two terms each, and one term if that is said."""
    body = "(let ((p (bvadd p (bvneg p)))) " * DEEP + "p" + ")" * DEEP
    yield "(declare-const x %s) (declare-const a %s) (declare-const b %s)" % (WORD, ARRAY, ARRAY)
    yield "(define-fun f ((p %s)) %s %s)" % (WORD, WORD, body)
    for k in range(calls):
        yield "(define-fun c%d () %s (f (bvadd x (_ bv%d 32))))" % (k, WORD, k + 1)
    for k in range(more):
        yield "(define-fun m%d () %s (bvmul x (_ bv%d 32)))" % (k, WORD, MOST + k)
    if one:
        yield "(define-fun o () %s (bvnot x))" % WORD
    yield from TAIL


def solved(program, folder, *sizes):
    """The answers, the number of lines, and the number of the witness, which is that of the terms before the check."""
    lines, proof = list(script(*sizes)), pathlib.Path(folder) / "proof"
    ran = subprocess.run([program, "solve", proof], input="\n".join(lines) + "\n", capture_output=True, text=True)
    with open(proof) as text:
        witness = next((int(line.split()[-1]) for line in text if line.startswith("t select")), None)
    return ran.stdout, len(lines), witness


def main():
    program = sys.argv[1] if len(sys.argv) > 1 else PROGRAM
    with tempfile.TemporaryDirectory() as folder:
        few, call, more = (solved(program, folder, *sizes, False)[2] for sizes in ((3, 0), (4, 0), (3, 1)))
        calls, left = divmod(MOST - MADE - few, call - few)
        several, one = divmod(left, more - few)
        fits, _, witness = solved(program, folder, 3 + calls, several, one)
        several, one = divmod(left + 1, more - few)
        refused, count, none = solved(program, folder, 3 + calls, several, one)
    found = [] if (fits, witness) == (ALLOWED, MOST - MADE) else ["with room for all: %r" % fits]
    if (refused, none) != (REFUSED % (count - 3, count - 2), None):
        found.append("with room for one less: %r" % refused)
    print("\n".join(found + ["2 scripts, %d failed" % len(found)]))
    return 1 if found else 0


if __name__ == "__main__":
    sys.exit(main())
