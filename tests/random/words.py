#!/usr/bin/env python3
"""Answers random scripts over words with the built program, and compares each verdict with trying every value.

usage: words.py [PROGRAM] [COUNT] [SEED]    (default: the program that `rt run` leaves in crates/smt_tool/out, 500, 1)

Each script declares two words of one width from 1 to 6 and a Bool, and asserts one to three random terms over all
operators of Core, of FixedSizeBitVectors and of QF_BV (SMT-LIB 2.6), some of them under names. Then it checks them, and
checks them again with assumptions. Two of three are solved within other limits than the usual ones, so that some answers
are `unknown`. The meanings below are written from the standard and share nothing with the solver.
Where an answer is `sat` the model in the proof file must make the assertions and the assumptions true, and values that are
asked for must be those of the terms in it; where it is `unsat` the core, or the assumptions that are told, must have no
model, by trying every value; where it is `unknown` neither may be told. The replayer of tests/rows must accept each proof
file.
"""
import pathlib
import random
import subprocess
import sys
import tempfile

HERE = pathlib.Path(__file__).resolve().parent
PROGRAM = HERE.parents[1] / "crates/smt_tool/out/smt_tool"
sys.path.insert(0, str(HERE.parent / "rows"))
import reference
import trimmed


def signed(n, x):
    return x - (1 << n) if x >> (n - 1) else x


def udiv(n, x, y):
    return (1 << n) - 1 if y == 0 else x // y


def urem(n, x, y):
    return x if y == 0 else x % y


def by_sign(n, x, y, of):
    """The bvsdiv and bvsrem of the standard: of the absolute values, then negated by the signs."""
    a, b = signed(n, x), signed(n, y)
    p, q = abs(a) % (1 << n), abs(b) % (1 << n)
    if of == "div":
        r = udiv(n, p, q)
        return (-r if (a < 0) != (b < 0) else r) % (1 << n)
    r = urem(n, p, q)
    return (-r if a < 0 else r) % (1 << n)


def smod(n, x, y):
    a, b = signed(n, x), signed(n, y)
    r = urem(n, abs(a) % (1 << n), abs(b) % (1 << n))
    if r == 0:
        return 0
    if a >= 0 and b >= 0:
        return r
    if a < 0 and b >= 0:
        return (y - r) % (1 << n)
    if a >= 0 and b < 0:
        return (r + y) % (1 << n)
    return -r % (1 << n)


WORDS = {
    "bvadd": lambda n, x, y: x + y, "bvsub": lambda n, x, y: x - y, "bvmul": lambda n, x, y: x * y,
    "bvand": lambda n, x, y: x & y, "bvor": lambda n, x, y: x | y, "bvxor": lambda n, x, y: x ^ y,
    "bvnand": lambda n, x, y: ~(x & y), "bvnor": lambda n, x, y: ~(x | y), "bvxnor": lambda n, x, y: ~(x ^ y),
    "bvudiv": udiv, "bvurem": urem,
    "bvsdiv": lambda n, x, y: by_sign(n, x, y, "div"), "bvsrem": lambda n, x, y: by_sign(n, x, y, "rem"), "bvsmod": smod,
    "bvshl": lambda n, x, y: x << y if y < n else 0, "bvlshr": lambda n, x, y: x >> y if y < n else 0,
    "bvashr": lambda n, x, y: signed(n, x) >> min(y, n),
}
ORDERS = {
    "bvult": lambda n, x, y: x < y, "bvule": lambda n, x, y: x <= y,
    "bvugt": lambda n, x, y: x > y, "bvuge": lambda n, x, y: x >= y,
    "bvslt": lambda n, x, y: signed(n, x) < signed(n, y), "bvsle": lambda n, x, y: signed(n, x) <= signed(n, y),
    "bvsgt": lambda n, x, y: signed(n, x) > signed(n, y), "bvsge": lambda n, x, y: signed(n, x) >= signed(n, y),
}
LEFT = ["bvadd", "bvmul", "bvand", "bvor", "bvxor"]


class Maker:
    """Random terms; a term is its text and its value as a function of the names' values."""

    def __init__(self, source, width):
        self.source, self.width = source, width

    def truth(self, depth):
        r = self.source
        if depth == 0:
            return r.choice([("true", lambda v: True), ("false", lambda v: False), ("p", lambda v: v["p"])])
        kind = r.randrange(9)
        if kind == 0:
            a, f = self.truth(depth - 1)
            return "(not %s)" % a, lambda v: not f(v)
        if kind in (1, 2):
            return self.joined(depth, r.choice(["and", "or", "xor", "=>", "=", "distinct"]))
        if kind == 3:
            return self.choice(depth, self.truth)
        n = r.choice([self.width, r.randint(1, 6)])
        if kind in (4, 5):
            return self.related(depth, n)
        op = r.choice(list(ORDERS))
        (a, f), (b, g) = self.word(depth - 1, n), self.word(depth - 1, n)
        return "(%s %s %s)" % (op, a, b), lambda v: ORDERS[op](n, f(v), g(v))

    def joined(self, depth, op):
        parts = [self.truth(depth - 1) for _ in range(self.source.randint(2, 3))]
        fs = [f for _, f in parts]
        text = "(%s %s)" % (op, " ".join(t for t, _ in parts))
        if op == "and":
            return text, lambda v: all(f(v) for f in fs)
        if op == "or":
            return text, lambda v: any(f(v) for f in fs)
        if op == "xor":
            return text, lambda v: sum(f(v) for f in fs) % 2 == 1
        if op == "=>":
            return text, lambda v: not all(f(v) for f in fs[:-1]) or fs[-1](v)
        return text, self.alike(op, fs)

    @staticmethod
    def alike(op, fs):
        if op == "=":
            return lambda v: len({f(v) for f in fs}) == 1
        return lambda v: len({f(v) for f in fs}) == len(fs)

    def related(self, depth, n):
        op = self.source.choice(["=", "distinct"])
        parts = [self.word(depth - 1, n) for _ in range(self.source.randint(2, 3))]
        return "(%s %s)" % (op, " ".join(t for t, _ in parts)), self.alike(op, [f for _, f in parts])

    def choice(self, depth, make):
        (c, h), (a, f), (b, g) = self.truth(depth - 1), make(depth - 1), make(depth - 1)
        return "(ite %s %s %s)" % (c, a, b), lambda v: f(v) if h(v) else g(v)

    def literal(self, n):
        x = self.source.randrange(1 << n)
        forms = ["#b" + format(x, "0%db" % n), "(_ bv%d %d)" % (x, n)]
        if n % 4 == 0:
            forms.append("#x" + format(x, "0%dx" % (n // 4)))
        return self.source.choice(forms), lambda v: x

    def word(self, depth, n):
        r = self.source
        if depth == 0:
            if n == self.width and r.random() < 0.8:
                name = r.choice("xy")
                return name, lambda v: v[name]
            return self.literal(n)
        kind = r.randrange(10)
        if kind < 5:
            return self.applied(depth, n)
        if kind == 5:
            return self.choice(depth, lambda d: self.word(d, n))
        if kind == 6:
            op = r.choice(["bvnot", "bvneg"])
            a, f = self.word(depth - 1, n)
            return "(%s %s)" % (op, a), lambda v: (~f(v) if op == "bvnot" else -f(v)) % (1 << n)
        if kind == 7 and n == 1:
            m = r.randint(1, 6)
            (a, f), (b, g) = self.word(depth - 1, m), self.word(depth - 1, m)
            return "(bvcomp %s %s)" % (a, b), lambda v: int(f(v) == g(v))
        return self.shaped(depth, n)

    def applied(self, depth, n):
        op = self.source.choice(list(WORDS))
        parts = [self.word(depth - 1, n) for _ in range(self.source.randint(2, 3) if op in LEFT else 2)]
        fs = [f for _, f in parts]

        def value(v):
            x = fs[0](v)
            for f in fs[1:]:
                x = WORDS[op](n, x, f(v)) % (1 << n)
            return x
        return "(%s %s)" % (op, " ".join(t for t, _ in parts)), value

    def shaped(self, depth, n):
        """Terms whose width is another than that of their arguments, and rotations."""
        r = self.source
        kind = r.randrange(6)
        if kind == 0 and n > 1:
            m = r.randint(1, n - 1)
            (a, f), (b, g) = self.word(depth - 1, m), self.word(depth - 1, n - m)
            return "(concat %s %s)" % (a, b), lambda v: f(v) << (n - m) | g(v)
        if kind == 1:
            low, more = r.randint(0, 3), r.randint(0, 3)
            a, f = self.word(depth - 1, n + low + more)
            return "((_ extract %d %d) %s)" % (low + n - 1, low, a), lambda v: f(v) >> low & (1 << n) - 1
        if kind in (2, 3):
            i = r.randint(0, n - 1)
            a, f = self.word(depth - 1, n - i)
            op = "zero_extend" if kind == 2 else "sign_extend"
            return "((_ %s %d) %s)" % (op, i, a), lambda v: f(v) if kind == 2 else signed(n - i, f(v)) % (1 << n)
        if kind == 4:
            times = r.choice([k for k in range(1, n + 1) if n % k == 0])
            m = n // times
            a, f = self.word(depth - 1, m)
            return "((_ repeat %d) %s)" % (times, a), lambda v: sum(f(v) << m * k for k in range(times))
        i = r.randint(0, 2 * n)
        op = r.choice(["rotate_left", "rotate_right"])
        k = i % n if op == "rotate_left" else -i % n
        a, f = self.word(depth - 1, n)
        return "((_ %s %d) %s)" % (op, i, a), lambda v: (f(v) << k | f(v) >> (n - k)) % (1 << n)


def models_of(proof):
    """The values of x, y and p in each record of a proof file, None for one without a model."""
    found = []
    for line in proof.read_text().split("\n"):
        words = line.split(" ")
        if words[0] in ("sat", "unsat", "unknown"):
            found.append({} if words[0] == "sat" else None)
        if words[0] == "v":
            found[-1]["xyp"[int(words[1])]] = words[2] == "true" if words[2] in ("true", "false") else int(words[2][2:], 2)
    return found


def accepted(script, proof, verdicts):
    """Whether the replayer accepts the proof file, with these verdicts, and its records need all of it; it says why where it does not."""
    try:
        trimmed.judge(script, proof.read_text())
        return reference.check(script, proof.read_text()) == verdicts
    except reference.Refused as why:
        print(why)
        return False


class Case:
    """A random script: its assertions, with their names if they have some, the assumptions, and terms whose values are asked."""

    def __init__(self, source):
        self.width = source.randint(1, 6)
        maker = Maker(source, self.width)
        self.asserted = [maker.truth(source.randint(1, 3)) for _ in range(source.randint(1, 3))]
        self.names = ["a%d" % k if source.random() < 0.7 else None for k in range(len(self.asserted))]
        self.assumed = [maker.truth(source.randint(0, 2)) for _ in range(source.randint(1, 4))]
        self.asked = [(None, maker.truth(2))] + [(n, maker.word(2, n)) for n in [self.width, source.randint(1, 6)]]
        budget, cubes = ["--budget", str(source.randint(0, 4))], ["--cubes", str(source.randint(1, 4))]
        self.limits = source.choice([[], budget, budget + cubes])

    def models(self):
        size = 1 << self.width
        return ({"x": x, "y": y, "p": p} for x in range(size) for y in range(size) for p in (False, True))

    def has_model(self, terms):
        return any(all(f(v) for _, f in terms) for v in self.models())

    def lines(self):
        sort = "(_ BitVec %d)" % self.width
        yield "(declare-const x %s)(declare-const y %s)(declare-const p Bool)" % (sort, sort)
        for name, (t, _) in zip(self.names, self.asserted):
            yield "(assert (! %s :named %s))" % (t, name) if name else "(assert %s)" % t
        values = "(get-value (%s))" % " ".join(t for _, (t, _) in self.asked)
        yield "(check-sat)"
        yield values if self.has_model(self.asserted) else "(get-unsat-core)"
        yield "(check-sat-assuming (%s))" % " ".join(t for t, _ in self.assumed)
        yield values if self.has_model(self.asserted + self.assumed) else "(get-unsat-assumptions)"

    def values_in(self, model):
        """The answer that tells the values of the terms in the model."""
        told = []
        for n, (t, f) in self.asked:
            told.append("(%s %s)" % (t, "#b" + format(f(model), "0%db" % n) if n else str(bool(f(model))).lower()))
        return "(%s)" % " ".join(told)

    def wrong_core(self, line):
        names = line[1:-1].split()
        if names != [n for n in self.names if n in names]:
            return "a core of other names: %s" % line
        return self.has_model([t for n, t in zip(self.names, self.asserted) if n is None or n in names]) and "a core with a model: %s" % line

    def wrong_assumptions(self, line):
        """The answer has to be some of the assumptions, in order, and these have no model with the assertions."""
        texts, blamed = line[1:-1], []
        for t, f in self.assumed:
            if texts == t or texts.startswith(t + " "):
                texts = texts[len(t) + 1:]
                blamed.append((t, f))
        if texts:
            return "other assumptions: %s" % line
        return self.has_model(self.asserted + blamed) and "assumptions with a model: %s" % line

    def wrong_answer(self, verdict, line, terms, model, refuted):
        if verdict == "unknown" and self.limits:
            return not line.endswith(': no %s stands")' % ("model" if self.has_model(terms) else "refutation")) and "told: %s" % line
        if verdict != ("sat" if self.has_model(terms) else "unsat"):
            return "answered %s" % verdict
        if verdict == "unsat":
            return refuted(line)
        if not all(f(model) for _, f in terms):
            return "the model is none"
        return line != self.values_in(model) and "other values: %s" % line

    def fault(self, answers, models):
        """What is wrong with the answers, beside which the proof has these models."""
        if len(answers) != 4 or len(models) != 2:
            return "answered %r" % answers
        return (self.wrong_answer(answers[0], answers[1], self.asserted, models[0], self.wrong_core)
                or self.wrong_answer(answers[2], answers[3], self.asserted + self.assumed, models[1], self.wrong_assumptions))


def solved(program, session, folder):
    """The script of a session in the folder, the proof file beside it, and the run that solves it within its limits."""
    script, proof = folder / "script", folder / "proof"
    script.write_text("\n".join(session.lines) + "\n")
    words = [program, "solve", str(proof), str(script), *session.limits]
    return script, proof, subprocess.run(words, capture_output=True, text=True, timeout=300)


def report(found, session):
    """What was found of a session, if anything, with its limits and its script behind it."""
    return found and "%s\n%s\n%s\n" % (found, " ".join(session.limits), "\n".join(session.lines))


def wrong(program, source, folder):
    case = Case(source)
    script = "\n".join(case.lines()) + "\n"
    proof = folder / "proof"
    words = [program, "solve", str(proof), *case.limits]
    ran = subprocess.run(words, input=script, capture_output=True, text=True, timeout=300)
    answers = ran.stdout.split("\n")[:-1]
    found = case.fault(answers, models_of(proof))
    if not found and not accepted(script, proof, answers[::2]):
        found = "the proof is refused"
    return found and "%s\n%s\n%s" % (found, " ".join(case.limits), script)


def compare(wrong, kind, usual):
    """Takes the words of the command line, a program, a count and a seed, and tells how many random scripts are wrong."""
    program = sys.argv[1] if len(sys.argv) > 1 else PROGRAM
    count = int(sys.argv[2]) if len(sys.argv) > 2 else usual
    source = random.Random(int(sys.argv[3]) if len(sys.argv) > 3 else 1)
    bad = 0
    with tempfile.TemporaryDirectory() as folder:
        for _ in range(count):
            found = wrong(program, source, pathlib.Path(folder))
            if found:
                bad += 1
                print(found)
    print("%d %s, %d different" % (count, kind, bad))
    sys.exit(1 if bad else 0)


if __name__ == "__main__":
    compare(wrong, "scripts", 500)
