"""The rules of rewriting: by which of them one term becomes another.

Each rule is a test of T and U, the term that is rewritten and the one that it becomes. x, y and z are any terms. The arguments of
`bvand bvor bvxor bvadd bvmul and or` are looked at in both orders, on both sides of a rule.
"""
from operators import VALUES, is_array, need

COMMUTE = set("bvand bvor bvxor bvadd bvmul and or".split())
TURNED = {"bvugt": "bvult", "bvuge": "bvule", "bvsgt": "bvslt", "bvsge": "bvsle"}


class Rules:
    """The rules over the terms of a log, and over the images that its steps gave."""

    def __init__(self, terms, images):
        self.terms, self.images = terms, images

    # ---- what a rule sees of a term

    def orders(self, op, t):
        """The arguments of a term with this operator, in each order in which they match; none of any other term."""
        name, _, args = self.terms.nodes[t]
        if name != op:
            return []
        return [args, args[::-1]] if op in COMMUTE else [args]

    def on(self, ops, t, test):
        """The term has one of these operators, and on its arguments the test holds."""
        return any(test(*args) for op in ops.split() for args in self.orders(op, t))

    def made(self, t, op, *args):
        return args in self.orders(op, t)

    def beside(self, t, op, x, number):
        """The term is the operator on x and this word."""
        return self.on(op, t, lambda y, c: y == x and self.word(c) == number)

    def numbered(self, t, op):
        """The numbers behind the operator's name and the one argument, where the term has this operator."""
        name, numbers, args = self.terms.nodes[t]
        return [(*numbers, *args)] if name == op else []

    def literal(self, t):
        """The value of a truth value or a word that is written as such."""
        op, numbers, _ = self.terms.nodes[t]
        return {"true": 1, "false": 0}.get(op) if op != "word" else numbers[1]

    def word(self, t):
        op, numbers, _ = self.terms.nodes[t]
        return numbers[1] if op == "word" else None

    def width(self, t):
        return self.terms.sorts[t]

    def ones(self, t):
        return self.word(t) == (1 << self.width(t)) - 1

    def power(self, t):
        """The k of a word 2^k, where it is from 1 to below the width."""
        return {1 << k: k for k in range(1, self.width(t))}.get(self.word(t))

    def is_(self, op, t):
        return self.terms.nodes[t][0] == op

    # ---- rules with several cases

    def is_part(self, t, u):
        """An extraction of a concatenation becomes one of the part in which all its bits stand."""
        for i, j, a in self.numbered(t, "extract"):
            for x, y in self.orders("concat", a):
                m = self.width(y)
                low = i < m and (i, j, y) in self.numbered(u, "extract")
                return low or j >= m and (i - m, j - m, x) in self.numbered(u, "extract")
        return False

    def is_idle(self, t, u):
        extended = any((0, u) in self.numbered(t, op) for op in ("zero_extend", "sign_extend"))
        moved = any(x == u and i % self.width(x) == 0 for op in ("rotate_left", "rotate_right") for i, x in self.numbered(t, op))
        return extended or moved or (1, u) in self.numbered(t, "repeat")

    def connected(self, op, neutral, deciding, t, u):
        """A truth value beside itself or beside the neutral one is left; the deciding one is the result."""
        return self.on(op, t, lambda p, q: u == p and (p == q or self.is_(neutral, q)) or self.is_(deciding, q) and self.is_(deciding, u))

    def chosen(self, t, u):
        return self.on("ite", t, lambda c, x, y: u == x and (self.is_("true", c) or x == y) or u == y and self.is_("false", c))

    def reads(self, t, u):
        """What is stored is read at its own index; at another word the array before is read."""
        for b, j in self.orders("select", t):
            for a, i, v in self.orders("store", b):
                apart = None not in (self.word(i), self.word(j)) and self.word(i) != self.word(j)
                return i == j and u == v or apart and self.made(u, "select", a, j)
        return False

    def folds(self, t, u):
        """An operator whose arguments are all literals becomes its value."""
        op, numbers, args = self.terms.nodes[t]
        given = [self.literal(a) for a in args]
        if not args or None in given or op not in VALUES:
            return False
        value = VALUES[op](self.width(args[-1]), *numbers, *given) % (1 << max(self.width(t), 1))
        return self.literal(u) == value

    def leads(self, a, b):
        """b is a, or is reached from it by images."""
        while a != b and a in self.images:
            a = self.images[a]
        return a == b

    def inner(self, t, u):
        """The same operator, on arguments to which those of the term lead."""
        (op, numbers, args), (other, others, _) = self.terms.nodes[t], self.terms.nodes[u]
        return (op, numbers) == (other, others) and any(
            len(args) == len(order) and all(map(self.leads, args, order)) for order in self.orders(op, u))

    def takes(self, rule, t, u):
        """By the rule of this number t becomes u. Both are Bools or words, of one sort."""
        sorts = self.terms.sorts
        return rule in RULES and sorts[t] == sorts[u] and not is_array(sorts[t]) and RULES[rule](self, t, u)


RULES = {
    1: lambda s, t, u: s.on("bvnot", t, lambda a: s.made(a, "bvnot", u)),
    2: lambda s, t, u: s.on("bvneg", t, lambda a: s.made(a, "bvneg", u)),
    3: lambda s, t, u: s.on("bvand", t, lambda x, y: x == y == u),
    4: lambda s, t, u: s.on("bvand", t, lambda x, c: s.word(c) == s.word(u) == 0),
    5: lambda s, t, u: s.on("bvand", t, lambda x, c: s.ones(c) and u == x),
    6: lambda s, t, u: s.on("bvor", t, lambda x, y: x == y == u),
    7: lambda s, t, u: s.on("bvor", t, lambda x, c: s.word(c) == 0 and u == x),
    8: lambda s, t, u: s.on("bvor", t, lambda x, c: s.ones(c) and s.ones(u)),
    9: lambda s, t, u: s.on("bvxor", t, lambda x, y: x == y and s.word(u) == 0),
    10: lambda s, t, u: s.on("bvxor", t, lambda x, c: s.word(c) == 0 and u == x),
    11: lambda s, t, u: s.on("bvxor", t, lambda x, c: s.ones(c) and s.made(u, "bvnot", x)),
    12: lambda s, t, u: s.on("bvadd", t, lambda x, c: s.word(c) == 0 and u == x),
    13: lambda s, t, u: s.on("bvadd", t, lambda x, y: s.made(y, "bvneg", x) and s.word(u) == 0),
    14: lambda s, t, u: s.on("bvsub", t, lambda x, y: s.on("bvadd", u, lambda z, n: z == x and s.made(n, "bvneg", y))),
    15: lambda s, t, u: s.on("bvadd", t, lambda x, y: x == y and s.beside(u, "bvshl", x, 1)),
    16: lambda s, t, u: s.on("bvmul", t, lambda x, c: s.word(c) == s.word(u) == 0),
    17: lambda s, t, u: s.on("bvmul", t, lambda x, c: s.word(c) == 1 and u == x),
    18: lambda s, t, u: s.on("bvmul", t, lambda x, c: s.power(c) is not None and s.beside(u, "bvshl", x, s.power(c))),
    19: lambda s, t, u: s.on("bvudiv", t, lambda x, c: s.word(c) == 1 and u == x),
    20: lambda s, t, u: s.on("bvudiv", t, lambda x, c: s.word(c) == 0 and s.ones(u)),
    21: lambda s, t, u: s.on("bvudiv", t, lambda x, c: s.power(c) is not None and s.beside(u, "bvlshr", x, s.power(c))),
    22: lambda s, t, u: s.on("bvurem", t, lambda x, c: s.word(c) == 0 and u == x),
    23: lambda s, t, u: s.on("bvurem", t, lambda x, c: s.word(c) == 1 and s.word(u) == 0),
    24: lambda s, t, u: s.on("bvurem", t, lambda x, c: s.power(c) is not None and s.beside(u, "bvand", x, s.word(c) - 1)),
    25: lambda s, t, u: s.on("bvshl bvlshr bvashr", t, lambda x, c: s.word(c) == 0 and u == x),
    26: lambda s, t, u: s.on("bvshl bvlshr", t, lambda x, c: s.is_("word", c) and s.word(c) >= s.width(c) and s.word(u) == 0),
    27: lambda s, t, u: (s.width(u) - 1, 0, u) in s.numbered(t, "extract"),
    28: lambda s, t, u: any((i + l, j + l, x) in s.numbered(u, "extract")
                            for i, j, a in s.numbered(t, "extract") for _, l, x in s.numbered(a, "extract")),
    29: Rules.is_part,
    30: Rules.is_idle,
    31: lambda s, t, u: s.on("bvult", t, lambda x, y: (x == y or s.word(y) == 0) and s.is_("false", u)),
    32: lambda s, t, u: s.on("bvule", t, lambda x, y: (x == y or s.word(x) == 0) and s.is_("true", u)),
    33: lambda s, t, u: any(s.on(op, t, lambda x, y, other=other: s.made(u, other, y, x)) for op, other in TURNED.items()),
    34: lambda s, t, u: s.on("=", t, lambda x, y: x == y and s.is_("true", u)),
    35: lambda s, t, u: s.on("not", t, lambda a: s.made(a, "not", u)),
    36: lambda s, t, u: s.connected("and", "true", "false", t, u) or s.connected("or", "false", "true", t, u),
    37: Rules.chosen,
    38: Rules.reads,
    39: Rules.folds,
    40: Rules.inner,
}


def rewrite(log, rule, t, u):
    """The bits of u for t, which the rule of this number takes to it."""
    for term in (t, u):
        log.node(term)
    need(t not in log.bits and u in log.bits, "r: a term that has bits, or becomes one without")
    need(Rules(log.terms, log.images).takes(rule, t, u), "r: no rule takes it there")
    log.bits[t], log.images[t] = log.bits[u], u
