#!/usr/bin/env python3
"""Times the built program on questions to a model of many declarations, each at a size and at twice that size.

usage: run.py [PROGRAM]    (default: the program that `rt run` leaves in crates/smt_tool/out)

The seconds are those of a whole script: its declarations, the check, and the question.
"""
import pathlib
import resource
import subprocess
import sys
import tempfile

PROGRAM = pathlib.Path(__file__).resolve().parents[2] / "crates/smt_tool/out/smt_tool"
FRONT = "(set-option :produce-models true)\n"


def declared(n):
    """The names of as many words and truth values by turns, one word of them asserted about, and a check."""
    names = ("(declare-const x%d %s)\n" % (k, "Bool" if k % 2 else "(_ BitVec 8)") for k in range(n))
    return FRONT + "".join(names) + "(assert (= x0 #x07))\n(check-sat)\n"


# each question's name, the number of declarations, its commands, and how many lines their answers have to have
QUESTIONS = [
    ("none", 50000, "", lambda n: 0),
    ("get-model", 50000, "(get-model)\n", lambda n: n + 2),
    ("1,000 times get-value of one name", 50000, "(get-value (x0))\n" * 1000, lambda n: 1000),
    ("get-value of each tenth name", 50000, None, lambda n: 1),
]


def each_tenth(n):
    return "(get-value (" + " ".join("x%d" % k for k in range(0, n, 10)) + "))\n"


def seconds(program, text, lines):
    """The least processor time of three runs."""
    best = None
    with tempfile.TemporaryDirectory() as folder:
        proof = pathlib.Path(folder) / "proof"
        for _ in range(3):
            before = resource.getrusage(resource.RUSAGE_CHILDREN)
            run = subprocess.run([program, "solve", str(proof)], input=text.encode(), capture_output=True)
            after = resource.getrusage(resource.RUSAGE_CHILDREN)
            assert run.returncode == 0 and run.stdout.startswith(b"sat\n"), run.stdout[:100]
            assert run.stdout.count(b"\n") == 1 + lines, run.stdout.count(b"\n")
            took = after.ru_utime + after.ru_stime - before.ru_utime - before.ru_stime
            best = took if best is None else min(best, took)
    return best


def asked(program, n, question, lines):
    text = each_tenth(n) if question is None else question
    return seconds(program, declared(n) + text, lines(n))


def main():
    program = sys.argv[1] if len(sys.argv) > 1 else PROGRAM
    print("| question | declarations | seconds | seconds at twice as many | ratio |\n|---|---|---|---|---|", flush=True)
    for name, size, question, lines in QUESTIONS:
        one = asked(program, size, question, lines)
        two = asked(program, 2 * size, question, lines)
        print("| %s | %d | %.3f | %.3f | %.2f |" % (name, size, one, two, two / one), flush=True)


if __name__ == "__main__":
    main()
