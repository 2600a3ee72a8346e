#!/usr/bin/env python3
"""Asks the built program query after query with assumptions, over one set of assertions about words of 32 bits.

usage: run.py [PROGRAM] [QUERIES] [SEED]    (default: the program that `rt run` leaves in crates/smt_tool/out, 1000, 1)

It is a dialogue over pipes: each query is sent when the one before is answered. A query assumes that some bits of a word
are so or so, and behind it the value of the word is asked for, or the assumptions that cannot hold. Every answer is
compared with trying every word that the assertions allow. The proof file then tells what was encoded: no term has bits
twice, and behind the query that assumes the last new bit there is no line that gives a term bits or an assertion a selector.
"""
import pathlib
import random
import resource
import subprocess
import sys
import tempfile
import time

PROGRAM = pathlib.Path(__file__).resolve().parents[2] / "crates/smt_tool/out/smt_tool"
BITS = 16
HEAD = """(declare-const x (_ BitVec 32))
(declare-const y (_ BitVec 32))
(assert (! (bvult x #x00004e20) :named below))
(assert (! (= y (bvadd (bvshl x #x00000001) x)) :named thrice))
(assert (! (bvult #x00000fff y) :named above))
"""
ALLOWED = [x for x in range(0x4E20) if 3 * x > 0xFFF]


def bit(k):
    return "(= ((_ extract %d %d) x) #b1)" % (k, k)


def assumptions(source):
    """Some bits, each with its value."""
    return [(k, source.randrange(2)) for k in source.sample(range(BITS), source.randint(4, BITS))]


def text_of(k, value):
    return bit(k) if value else "(not %s)" % bit(k)


def meets(x, assumed):
    return all(x >> k & 1 == value for k, value in assumed)


class Program:
    def __init__(self, program, proof):
        self.child = subprocess.Popen([program, "solve", str(proof)], stdin=subprocess.PIPE, stdout=subprocess.PIPE, text=True, bufsize=1)

    def ask(self, text):
        self.child.stdin.write(text + "\n")
        self.child.stdin.flush()
        return self.child.stdout.readline().rstrip("\n")


def query(other, assumed):
    """Sends a query, and tells what is wrong with its answers, with the seconds that they took."""
    began = time.monotonic()
    verdict = other.ask("(check-sat-assuming (%s))" % " ".join(text_of(k, v) for k, v in assumed))
    told = other.ask("(get-value (x y))" if verdict == "sat" else "(get-unsat-assumptions)")
    took = time.monotonic() - began
    fits = any(meets(x, assumed) for x in ALLOWED)
    if verdict != ("sat" if fits else "unsat"):
        return took, verdict, "answered %s" % verdict
    if verdict == "sat":
        x = int(told[6:38], 2)
        right = "((x #b%s) (y #b%s))" % (format(x, "032b"), format(3 * x, "032b"))
        return took, verdict, (told != right or x not in ALLOWED or not meets(x, assumed)) and "values %s" % told
    blamed = [a for a in assumed if text_of(*a) in told]
    listed = told == "(%s)" % " ".join(text_of(*a) for a in blamed)
    return took, verdict, (not listed or any(meets(x, blamed) for x in ALLOWED)) and "assumptions %s" % told


def encodings(proof):
    """Of each record the lines before it that give terms bits or assertions selectors."""
    rows, found = [[]], 0
    for line in proof.read_text().split("\n"):
        kind = line.split(" ")[0]
        if kind in ("f", "e", "s"):
            rows[-1].append(line)
        if kind in ("sat", "unsat"):
            rows.append([])
            found += 1
    return rows[:found]


def main():
    program = sys.argv[1] if len(sys.argv) > 1 else PROGRAM
    count = int(sys.argv[2]) if len(sys.argv) > 2 else 1000
    source = random.Random(int(sys.argv[3]) if len(sys.argv) > 3 else 1)
    times, verdicts, last_new, known, bad = [], [], 0, set(), 0
    with tempfile.TemporaryDirectory() as folder:
        proof = pathlib.Path(folder) / "proof"
        other = Program(program, proof)
        other.child.stdin.write(HEAD)
        for n in range(count):
            assumed = assumptions(source)
            fresh = {k for k, _ in assumed} | {(k, 0) for k, value in assumed if not value}
            if not fresh <= known:
                last_new, known = n, known | fresh
            took, verdict, wrong = query(other, assumed)
            times.append(took)
            verdicts.append(verdict)
            if wrong:
                bad += 1
                print("query %d: %s" % (n, wrong))
        other.child.stdin.close()
        status = other.child.wait()
        rows, size = encodings(proof), proof.stat().st_size
    used = resource.getrusage(resource.RUSAGE_CHILDREN)
    lines = [line for row in rows for line in row]
    twice = len(lines) - len(set(lines))
    late = sum(len(row) for row in rows[last_new + 1:])
    tenth = max(count // 10, 1)
    print("%d queries, %d sat, %d unsat, %d wrong, status %d" % (count, verdicts.count("sat"), verdicts.count("unsat"), bad, status))
    print("%d lines of encodings, %d twice, %d behind query %d, which assumes the last new term" % (len(lines), twice, late, last_new))
    print("%.2f seconds of the processor, %d MB, %.1f MB of proof" % (used.ru_utime + used.ru_stime, used.ru_maxrss // 1024, size / 1e6))
    for name, part in ("first", times[:tenth]), ("last", times[-tenth:]):
        print("the %s %d queries: %.2f milliseconds each" % (name, len(part), 1000 * sum(part) / len(part)))
    return 1 if bad or twice or late or status else 0


if __name__ == "__main__":
    sys.exit(main())
