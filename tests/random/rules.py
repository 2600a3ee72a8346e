#!/usr/bin/env python3
"""Compares, on random terms, which rule of rewriting the checker and the replayer of tests/rows let take which term to which.

usage: rules.py [PROGRAM] [COUNT] [SEED]    (default: the program that `rt run` leaves in crates/theory_rows/out, 500, 1)

Each proof makes random terms over two words of one width, two Bools, an array and literals, and ends in a use of a rule. Half of
the uses are right by tests/rows/rules.py; in the others the rule, or the term that it leads to, is another. Every term that is made
has bits, but for the one that is rewritten. The program is handed a table of all proofs, as crates/theory_rows has one, and its
output is compared with what the replayer says of each.
"""
import pathlib
import random
import subprocess
import sys

HERE = pathlib.Path(__file__).resolve().parent
PROGRAM = HERE.parents[1] / "crates/theory_rows/out/theory_rows"
sys.path.insert(0, str(HERE.parent / "rows"))
import lemmas
import reference
from circuits import CIRCUITS
from operators import NUMBERS, SORTS, Refused, is_array
from rules import RULES, Rules

WIDTH = 3
SCRIPT = """(declare-const p Bool)
(declare-const q Bool)
(declare-const a (Array (_ BitVec {0}) (_ BitVec {0})))
(declare-const x (_ BitVec {0}))
(declare-const y (_ BitVec {0}))
(assert (or p (or q (= (select a x) (bvadd x y)))))
(check-sat)""".format(WIDTH).splitlines()
RECORD = ["sat 5", "v 0 true", "v 1 false", *("v %d %s#b%s" % (d, "a " * (d == 2), "0" * WIDTH) for d in (2, 3, 4))]
OPERATORS = sorted(set(SORTS) - {"word", "const", "witness", "true", "false"})
# the rules that take most of random terms
OFTEN = {30, 31, 32, 33, 36, 39, 40}
# operators of terms that a rule takes to one with an operator
TO_MADE = set("bvxor bvsub bvadd bvmul bvudiv bvurem extract bvugt bvuge bvsgt bvsge select bvand bvor".split())


class Proof:
    """The lines of a proof, and the log behind them."""

    def __init__(self, first=()):
        self.lines = ["smt_proof 1 cubes 0 budget 100000"]
        script = reference.Script("\n".join(SCRIPT))
        next(iter(script.checks()))
        self.log = reference.Log(script)
        for line in first:
            self.add(line)

    def add(self, line):
        """One line more, where the replayer takes it."""
        kind, *words = line.split()
        reference.step(self.log, kind, words)
        self.lines.append(line)

    def made(self, line):
        """The term that the line makes, or None."""
        try:
            self.add(line)
        except Refused:
            return None
        return len(self.log.terms.nodes) - 1

    def give_bits(self, t):
        op = self.log.terms.nodes[t][0]
        if not is_array(self.log.terms.sorts[t]) and t not in self.log.bits:
            leaf = op in ("declared", "select", "apply") or op not in CIRCUITS
            of_arrays = op == "=" and is_array(self.log.terms.sorts[self.log.terms.nodes[t][2][0]])
            self.add(("f %d" if leaf or of_arrays else "e %d") % t)


def base():
    proof = Proof()
    for t in range(len(proof.log.terms.nodes)):
        proof.give_bits(t)
    for literal in ["true", "false", *("word %d %d" % (WIDTH, k) for k in range(1 << WIDTH))]:
        proof.give_bits(proof.made("t " + literal))
    return proof.lines[1:]


def random_term(rng, proof):
    """A term over those that there are, or None where its sorts do not fit or it is there."""
    op = rng.choice(OPERATORS)
    terms = range(len(proof.log.terms.nodes))
    numbers = [rng.randrange(2 * WIDTH + 1) for _ in range(NUMBERS.get(op, 0))]
    count = SORTS[op].__code__.co_argcount - len(numbers)
    args = rng.choices(terms, k=count)
    if count == 2 and rng.random() < 0.3:
        args[1] = args[0]
    return proof.made(" ".join(map(str, ["t", op, *numbers, *args])))


def partners(log, t):
    """Lines of terms that may be what the term becomes."""
    op, numbers, args = log.terms.nodes[t]
    inner = [b for a in args for b in (a, *log.terms.nodes[a][2])]
    literals = [u for u, node in enumerate(log.terms.nodes) if node[0] == "word"]
    places = [(i, j) for i in range(2 * WIDTH) for j in range(i + 1)] if op == "extract" else []
    yield from ("%s %d" % (made, a) for made in ("bvnot", "bvneg") for a in inner)
    yield from ("%s %d %d" % (made, a, b) for made in ("bvult", "bvule", "bvslt", "bvsle", "select", op) for a in inner for b in inner)
    yield from ("%s %d %d" % (made, a, b) for made in ("bvshl", "bvlshr", "bvand") for a in args for b in literals)
    yield from ("bvadd %d %d" % (args[0], u) for u, node in enumerate(log.terms.nodes) if op == "bvsub" and node[0] == "bvneg")
    yield from ("extract %d %d %d" % (i, j, a) for i, j in places for a in inner)


def uses(proof, t):
    """Each rule by which the term becomes another, which is made and gets bits where it is not there."""
    log, takes = proof.log, Rules(proof.log.terms, proof.log.images).takes
    for line in sorted(set(partners(log, t))) if log.terms.nodes[t][0] in TO_MADE else ():
        held = len(log.terms.nodes)
        op, *rest = line.split()
        numbers = NUMBERS.get(op, 0)
        try:
            u = log.terms.apply(op, [int(n) for n in rest[:numbers]], [int(a) for a in rest[numbers:]])
        except Refused:
            continue
        wanted = u == held and any(takes(rule, t, u) for rule in RULES)
        log.terms.cut(max(held, t + 1))
        if wanted and proof.made("t " + line) is not None:
            proof.give_bits(u)
    return [(rule, u) for u in sorted(log.bits) for rule in RULES if takes(rule, t, u)]


def one_proof(rng, first):
    """A proof whose last step is a use of a rule."""
    proof = Proof(first)
    for _ in range(rng.randrange(2, 30)):
        t = random_term(rng, proof)
        if t is None or is_array(proof.log.terms.sorts[t]):
            continue
        found = uses(proof, t)
        if found and rng.random() < 0.5:
            proof.add("r %d %d %d" % (found[0][0], t, found[0][1]))
        else:
            proof.give_bits(t)
    for _ in range(200):
        t = random_term(rng, proof)
        found = t is not None and not is_array(proof.log.terms.sorts[t]) and uses(proof, t)
        if found and (rng.random() < 0.02 or not {rule for rule, _ in found} <= OFTEN):
            break
        if t is not None:
            proof.give_bits(t)
    else:
        return proof.lines + RECORD
    rule, u = rng.choice(found)
    change = rng.randrange(4)
    if change == 0:
        rule = rng.randrange(42)
    elif change == 1:
        u = rng.choice(sorted(proof.log.bits))
    return [*proof.lines, "r %d %d %d" % (rule, t, u), *RECORD]


def main():
    program = sys.argv[1] if len(sys.argv) > 1 else PROGRAM
    count, seed = (int(sys.argv[k]) if len(sys.argv) > k else default for k, default in ((2, 500), (3, 1)))
    rng, first = random.Random(seed), base()
    table = ""
    for k in range(count):
        lines = one_proof(rng, first)
        table += "= %d\n" % k + "".join("> %s\n" % line for line in SCRIPT) + "".join("| %s\n" % line for line in lines)
    ran = subprocess.run([program], input=table, capture_output=True, text=True, timeout=600)
    wanted, told, failed, used = list(lemmas.report(table)), ran.stdout.splitlines(), 0, set()
    for (line, proof), other in zip(wanted, told):
        if line != other:
            failed += 1
            print("%s, where the program says %s, of\n%s" % (line, other, "\n".join(proof)))
        used |= {l.split()[1] for l in proof if l.startswith("r ") and line == "accepted 1"}
    accepted = sum(line == "accepted 1" for line, _ in wanted)
    print("%d proofs, %d accepted, %d rules, %d told otherwise" % (count, accepted, len(used), failed))
    return 1 if failed or len(told) != len(wanted) else 0


if __name__ == "__main__":
    sys.exit(main())
