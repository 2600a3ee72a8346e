"""Dialogues of a symbolic executor: the conditions of the paths of a small program, depth first.

The program has one input of 32 bits below 2^14 and a row of statements. Each computes a word of 32 bits from those before,
and branches on it. Each verdict is known by the set of inputs that take the path: it is `sat` where that is not empty. In
`levels` a branch opens a level, asserts its condition and is closed behind its subtree; in `assuming` all conditions have
names, and each path is asked for with these as assumptions.
"""
import script

W = 32
MASK = (1 << W) - 1
FREE = 14


class Statement:
    """A word by those before it, and a condition on it."""

    def __init__(self, source, k):
        self.name = "v%d" % k
        self.left, self.right = (source.randrange(-1, k) for _ in range(2))
        self.kind = source.choice(["add", "xor", "times", "turn", "and"])
        self.word = source.randrange(1, 1 << W, 2)
        self.turn = source.randrange(1, W)
        self.order = source.choice(["bvult", "bvslt", "="])
        self.mask = source.choice([0xFF, 0xFFFF, MASK])
        self.bound = source.randrange(self.mask)
        if self.order == "=":
            self.mask, self.bound = 0x7, source.randrange(8)

    def value(self, values):
        a, b = values[self.left + 1], values[self.right + 1]
        if self.kind == "add":
            return a + b + self.word & MASK
        if self.kind == "xor":
            return a ^ b ^ self.word
        if self.kind == "times":
            return a * (self.word & 0xFF) + b & MASK
        if self.kind == "turn":
            return (a << self.turn | a >> W - self.turn) & MASK ^ b
        return (a & self.word) + b & MASK

    def term(self):
        a, b = ("v%d" % k if k >= 0 else "i" for k in (self.left, self.right))
        c = script.literal(W, self.word)
        return {
            "add": "(bvadd (bvadd %s %s) %s)" % (a, b, c),
            "xor": "(bvxor (bvxor %s %s) %s)" % (a, b, c),
            "times": "(bvadd (bvmul %s %s) %s)" % (a, script.literal(W, self.word & 0xFF), b),
            "turn": "(bvxor ((_ rotate_left %d) %s) %s)" % (self.turn, a, b),
            "and": "(bvadd (bvand %s %s) %s)" % (a, c, b),
        }[self.kind]

    def holds(self, value):
        masked = value & self.mask
        if self.order == "=":
            return masked == self.bound
        if self.order == "bvult":
            return masked < self.bound
        return masked - (masked >> 31 << W) < self.bound - (self.bound >> 31 << W)

    def condition(self):
        return "(%s (bvand %s %s) %s)" % (self.order, self.name, script.literal(W, self.mask), script.literal(W, self.bound))


class Program:
    def __init__(self, source, depth):
        self.statements = [Statement(source, k) for k in range(depth)]
        self.inputs = list(range(1 << FREE))
        rows = [self.values(i) for i in self.inputs]
        self.taken = [[s.holds(row[k + 1]) for row in rows] for k, s in enumerate(self.statements)]
        self.lines, self.verdicts = [], []

    def values(self, i):
        values = [i]
        for statement in self.statements:
            values.append(statement.value(values))
        return values

    def head(self):
        text = script.declared("i", W) + "(assert (bvult i %s))\n" % script.literal(W, 1 << FREE)
        for s in self.statements:
            text += "(define-fun %s () (_ BitVec 32) %s)\n" % (s.name, s.term())
        return text

    def ask(self, command, inputs):
        self.lines.append(command)
        self.verdicts.append("sat" if inputs else "unsat")

    def by_levels(self, k, inputs):
        if k == len(self.statements):
            return
        for side in True, False:
            condition = self.statements[k].condition()
            self.lines.append("(push 1)\n(assert %s)\n" % (condition if side else "(not %s)" % condition))
            left = [i for i in inputs if self.taken[k][i] == side]
            self.ask("(check-sat)\n", left)
            if left:
                self.by_levels(k + 1, left)
            self.lines.append("(pop 1)\n")

    def by_assumptions(self, k, path, inputs):
        if k == len(self.statements):
            return
        for side in True, False:
            longer = path + ["c%d" % k if side else "(not c%d)" % k]
            left = [i for i in inputs if self.taken[k][i] == side]
            self.ask("(check-sat-assuming (%s))\n" % " ".join(longer), left)
            if left:
                self.by_assumptions(k + 1, longer, left)


def of_kind(source, kind, depth, number):
    program = Program(source, depth)
    head = "(set-logic QF_BV)\n" + program.head()
    if kind == "levels":
        program.by_levels(0, program.inputs)
    else:
        head += "".join("(declare-const c%d Bool)\n(assert (= c%d %s))\n" % (k, k, s.condition()) for k, s in enumerate(program.statements))
        program.by_assumptions(0, [], program.inputs)
    return script.Script("paths", "%s_%d_branches_%d" % (kind, depth, number), head + "".join(program.lines), program.verdicts)


def scripts(source):
    for depth in 4, 6, 8:
        for number in 1, 2:
            for kind in "levels", "assuming":
                yield of_kind(source, kind, depth, number)
