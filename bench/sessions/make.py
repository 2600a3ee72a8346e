#!/usr/bin/env python3
"""Sessions of thousands of small checks, each family at a size, by a seed.

usage: make.py FOLDER [SEED]    (writes the scripts into the folder)
"""
import pathlib
import random
import sys

sys.path.insert(0, str(pathlib.Path(__file__).resolve().parents[1] / "words"))
import paths as paths_of_words  # noqa: E402

W = 16


class Program:
    """Statements and branches on one input, as in the bench of words."""

    def __init__(self, source, depth):
        self.statements = [paths_of_words.Statement(source, k) for k in range(depth)]

    def head(self):
        text = "(assert (bvult i (_ bv%d %d)))\n" % (1 << paths_of_words.FREE, paths_of_words.W)
        for statement in self.statements:
            text += "(define-fun %s () (_ BitVec %d) %s)\n" % (statement.name, paths_of_words.W, statement.term())
        return text

    def taken_by(self, value):
        values = [value]
        for statement in self.statements:
            values.append(statement.value(values))
        return [s.holds(v) for s, v in zip(self.statements, values[1:])]

    def condition(self, k, side):
        condition = self.statements[k].condition()
        return condition if side else "(not %s)" % condition


class Terms:
    """Terms over some words, by chance."""

    def __init__(self, source, names, width=W):
        self.source, self.names, self.width = source, names, width

    def literal(self):
        return "(_ bv%d %d)" % (self.source.randrange(1 << self.width), self.width)

    def word(self, depth):
        if depth == 0:
            return self.source.choice(self.names) if self.source.random() < 0.8 else self.literal()
        kind = self.source.choice(["bvadd", "bvsub", "bvxor", "bvand", "bvor", "shift", "ite"])
        if kind == "shift":
            return "(bvshl %s (_ bv%d %d))" % (self.word(depth - 1), self.source.randrange(self.width), self.width)
        if kind == "ite":
            return "(ite %s %s %s)" % (self.question(0), self.word(depth - 1), self.word(depth - 1))
        return "(%s %s %s)" % (kind, self.word(depth - 1), self.word(depth - 1))

    def question(self, depth):
        order = self.source.choice(["bvult", "bvule", "bvslt", "="])
        return "(%s %s %s)" % (order, self.word(depth), self.word(depth))

    def loose(self, depth):
        """A question that most values meet."""
        kind = self.source.random()
        if kind < 0.5:
            return "(bvult %s (_ bv%d %d))" % (self.word(depth), self.source.randrange(3 << self.width - 2, 1 << self.width), self.width)
        return "(not (= %s %s))" % (self.word(depth), self.word(depth))


def declared(names, sort="(_ BitVec %d)" % W):
    return "".join("(declare-const %s %s)\n" % (name, sort) for name in names)


def levels(questions):
    return "".join("(push 1)\n(assert %s)\n(check-sat)\n(pop 1)\n" % q for q in questions)


def base(source, checks, assuming):
    """A base of 40 assertions, and questions beside it: under levels, or named and assumed."""
    names = ["x%d" % k for k in range(12)]
    terms = Terms(source, names)
    text = declared(names) + "".join("(assert %s)\n" % terms.loose(2) for _ in range(40))
    questions = [terms.question(1) for _ in range(checks)]
    if not assuming:
        return text + levels(questions)
    for k, question in enumerate(questions):
        text += "(declare-const q%d Bool)\n(assert (= q%d %s))\n(check-sat-assuming (q%d))\n" % (k, k, question, k)
    return text


def paths(source, checks):
    """Dialogues of an executor that follows a program by an input: at each branch it asks for an input that takes the other
    side, and goes on along its own."""
    programs, asked = [Program(source, 10) for _ in range(checks // 30 + 1)], 0
    text = declared(["i"], "(_ BitVec %d)" % paths_of_words.W)
    for program in programs:
        text += "(push 1)\n" + program.head()
        for _ in range(3):
            taken = program.taken_by(source.randrange(1 << paths_of_words.FREE))
            text += "(push 1)\n"
            for k, side in enumerate(taken):
                if asked < checks:
                    text += "(push 1)\n(assert %s)\n(check-sat)\n(pop 1)\n(assert %s)\n" % (program.condition(k, not side), program.condition(k, side))
                    asked += 1
            text += "(pop 1)\n"
        text += "(pop 1)\n"
    return text


def growing(source, checks):
    """Each check brings a name, and two conditions on it and those before it. All names zero and a few like it meet most."""
    text = declared(["x0", "x1"])
    for k in range(2, checks + 2):
        before = Terms(source, ["x%d" % (k - 1), "x%d" % (k - 2), "x%d" % source.randrange(k)])
        text += declared(["x%d" % k]) + "(assert (bvule x%d (bvor %s (_ bv1 %d))))\n" % (k, before.word(1), W)
        text += "(assert (not (= (bvadd x%d x%d) %s)))\n(check-sat)\n" % (k, k - 1, before.word(1))
    return text


def unrolled(source, depth):
    """A counter with a reset and an enable, a step longer at each check: can it pass its bound?"""
    text = declared(["s0"]) + "(assert (= s0 (_ bv0 %d)))\n" % W
    for k in range(depth):
        text += declared(["s%d" % (k + 1)]) + declared(["r%d" % k, "e%d" % k], "Bool")
        step = "(ite (= s%d (_ bv200 %d)) (_ bv0 %d) (bvadd s%d (_ bv1 %d)))" % (k, W, W, k, W)
        text += "(assert (= s%d (ite r%d (_ bv0 %d) (ite e%d %s s%d))))\n" % (k + 1, k, W, k, step, k)
        text += "(push 1)\n(assert (bvugt s%d (_ bv200 %d)))\n(check-sat)\n(pop 1)\n" % (k + 1, W)
        text += "(push 1)\n(assert (= s%d (_ bv%d %d)))\n(check-sat)\n(pop 1)\n" % (k + 1, source.randrange(k + 2), W)
    return text


def tiny(source, checks):
    """Checks of a word with itself and a literal, on one name."""
    text = declared(["x"], "(_ BitVec 8)")
    return text + levels("(= (bvand x #x0f) #x%02x)" % source.randrange(32) for _ in range(checks))


def popped(source, terms, checks):
    """A level with many terms is closed before the checks."""
    text = declared(["x", "y"]) + "(push 1)\n"
    text += "".join("(assert (not (= (bvadd x (_ bv%d %d)) y)))\n" % (k % (1 << W), W) for k in range(terms // 3)) + "(pop 1)\n"
    made = Terms(source, ["x", "y"])
    return text + levels(made.question(1) for _ in range(checks))


def apart(source, checks):
    """Checks that each bring their own names and terms, and leave them behind."""
    text = ""
    for k in range(checks):
        made = Terms(source, ["a%d" % k, "b%d" % k], 8)
        text += "(push 1)\n" + declared(["a%d" % k, "b%d" % k], "(_ BitVec 8)") + "(assert %s)\n(check-sat)\n(pop 1)\n" % made.question(1)
    return text


def thirties(source, checks, assuming):
    """Each check is of thirty of two hundred conditions, by chance."""
    names = ["x%d" % k for k in range(20)]
    terms = Terms(source, names)
    conditions = [terms.loose(2) for _ in range(200)]
    text = declared(names)
    if assuming:
        for k, condition in enumerate(conditions):
            text += "(declare-const c%d Bool)\n(assert (= c%d %s))\n" % (k, k, condition)
    for _ in range(checks):
        chosen = source.sample(range(200), 30)
        if assuming:
            text += "(check-sat-assuming (%s))\n" % " ".join("c%d" % k for k in chosen)
        else:
            text += "(push 1)\n" + "".join("(assert %s)\n" % conditions[k] for k in chosen) + "(check-sat)\n(pop 1)\n"
    return text


# each family's name, its size, and its script by a source of chance and a size
FAMILIES = {
    "base by levels": (1000, lambda source, n: base(source, n, False)),
    "base by assumptions": (1000, lambda source, n: base(source, n, True)),
    "paths": (300, paths),
    "growing": (400, growing),
    "unrolled": (60, unrolled),
    "tiny": (20000, tiny),
    "after popped terms": (2000, lambda source, n: popped(source, 50 * n, n)),
    "own terms": (8000, apart),
    "thirties by levels": (500, lambda source, n: thirties(source, n, False)),
    "thirties by assumptions": (500, lambda source, n: thirties(source, n, True)),
}


def script(family, seed, share=1.0):
    """The script of a family at a share of its size."""
    size, made = FAMILIES[family]
    return "(set-logic QF_BV)\n" + made(random.Random("%d %s" % (seed, family)), max(1, int(size * share)))


def main():
    folder, seed = pathlib.Path(sys.argv[1]), int(sys.argv[2]) if len(sys.argv) > 2 else 1
    for family in FAMILIES:
        (folder / (family.replace(" ", "_") + ".smt2")).write_text(script(family, seed))


if __name__ == "__main__":
    main()
