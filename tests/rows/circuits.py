"""The circuit of each operator: which gates it makes, in which order, and which literals are its result.

A literal is a variable's number, or its opposite; variable 1 is true. A row of bits has the lowest first; a truth value
is a row of one bit.
"""

TRUE, FALSE = 1, -1


class Circuit:
    """Gates from a variable on, each the next variable, and their clauses."""

    def __init__(self, next_variable):
        self.next, self.clauses = next_variable, []

    def fresh(self):
        self.next += 1
        return self.next - 1

    # ---- gates

    def both(self, a, b):
        g = self.fresh()
        self.clauses += [[-g, a], [-g, b], [g, -a, -b]]
        return g

    def either(self, a, b):
        return -self.both(-a, -b)

    def differ(self, a, b):
        g = self.fresh()
        self.clauses += [[-g, a, b], [-g, -a, -b], [g, -a, b], [g, a, -b]]
        return g

    def choice(self, c, a, b):
        g = self.fresh()
        self.clauses += [[-g, -c, a], [g, -c, -a], [-g, c, b], [g, c, -b]]
        return g

    # ---- rows

    def mux(self, c, a, b):
        return [self.choice(c, x, y) for x, y in zip(a, b)]

    def equal(self, a, b):
        e = TRUE
        for x, y in zip(a, b):
            e = self.both(e, -self.differ(x, y))
        return e

    def add_with(self, a, b, carry):
        bits = []
        for x, y in zip(a, b):
            d = self.differ(x, y)
            bits.append(self.differ(d, carry))
            carry = self.choice(d, carry, x)
        return bits, carry

    def add(self, a, b, carry=FALSE):
        return self.add_with(a, b, carry)[0]

    def negation(self, a):
        return self.add(opposite(a), [FALSE] * len(a), TRUE)

    def negated_where(self, c, a):
        return self.mux(c, self.negation(a), a)

    def absolute(self, a):
        return self.negated_where(a[-1], a)

    def below(self, a, b):
        less = FALSE
        for x, y in zip(a, b):
            less = self.choice(self.differ(x, y), y, less)
        return less

    def signed_below(self, a, b):
        return self.below(a[:-1] + b[-1:], b[:-1] + a[-1:])

    # ---- shifts

    def moved(self, a, t, away):
        """The row moved by the low bits of the amount, and whether any other bit of the amount is true."""
        stages = (len(a) - 1).bit_length()
        for j in range(stages):
            a = self.mux(t[j], away(a, 2**j), a)
        over = FALSE
        for bit in t[stages:]:
            over = self.either(over, bit)
        return a, over

    def logical_shift(self, a, t, away):
        row, over = self.moved(a, t, away)
        return [self.both(bit, -over) for bit in row]

    def left_shift(self, a, t):
        return self.logical_shift(a, t, lambda row, d: [FALSE] * d + row[:-d])

    def right_shift(self, a, t):
        return self.logical_shift(a, t, lambda row, d: row[d:] + [FALSE] * d)

    def signed_right_shift(self, a, t):
        row, over = self.moved(a, t, lambda row, d: row[d:] + a[-1:] * d)
        return self.mux(over, a[-1:] * len(a), row)

    # ---- products, quotients and remainders

    def product(self, a, b):
        p = [self.both(x, b[0]) for x in a]
        for i in range(1, len(a)):
            q = [self.both(x, b[i]) for x in a[:len(a) - i]]
            p = p[:i] + self.add(p[i:], q)
        return p

    def divided(self, a, b):
        """The quotient and the remainder, from the highest bit of the first down."""
        q, r = [], [FALSE] * (len(a) + 1)
        for bit in reversed(a):
            r = [bit] + r[:-1]
            d, c = self.add_with(r, opposite(b) + [TRUE], TRUE)
            q = [c] + q
            r = self.mux(c, d, r)
        return q, r[:-1]

    def divided_absolute(self, s, t):
        a = self.absolute(s)
        return self.divided(a, self.absolute(t))

    def signed_quotient(self, s, t):
        q, _ = self.divided_absolute(s, t)
        negated = self.negation(q)
        return self.mux(self.differ(s[-1], t[-1]), negated, q)

    def signed_remainder(self, s, t):
        _, r = self.divided_absolute(s, t)
        return self.negated_where(s[-1], r)

    def modulus(self, s, t):
        _, u = self.divided_absolute(s, t)
        w = self.negated_where(s[-1], u)
        x = self.differ(s[-1], t[-1])
        z = self.equal(u, [FALSE] * len(u))
        y = self.both(x, -z)
        return self.add(w, [self.both(bit, y) for bit in t])


def opposite(row):
    return [-l for l in row]


def turned(i, a):
    k = len(a) - i % len(a)
    return a[k:] + a[:k]


def each(gate):
    return lambda c, a, b: [gate(c, x, y) for x, y in zip(a, b)]


def each_not(gate):
    return lambda c, a, b: [-gate(c, x, y) for x, y in zip(a, b)]


# from a circuit, the numbers of the name and the rows of the arguments, to the row of the result
CIRCUITS = {
    "true": lambda c: [TRUE], "false": lambda c: [FALSE],
    "word": lambda c, n, x: [TRUE if x >> k & 1 else FALSE for k in range(n)],
    "not": lambda c, a: opposite(a), "bvnot": lambda c, a: opposite(a),
    "and": each(Circuit.both), "or": each(Circuit.either), "xor": each(Circuit.differ),
    "bvand": each(Circuit.both), "bvor": each(Circuit.either), "bvxor": each(Circuit.differ),
    "bvnand": each_not(Circuit.both), "bvnor": each_not(Circuit.either), "bvxnor": each_not(Circuit.differ),
    "=>": lambda c, a, b: [c.either(-a[0], b[0])],
    "ite": lambda c, p, a, b: c.mux(p[0], a, b),
    "=": lambda c, a, b: [c.equal(a, b)], "bvcomp": lambda c, a, b: [c.equal(a, b)],
    "bvneg": Circuit.negation, "bvadd": Circuit.add, "bvsub": lambda c, a, b: c.add(a, opposite(b), TRUE),
    "bvult": lambda c, a, b: [c.below(a, b)], "bvule": lambda c, a, b: [-c.below(b, a)],
    "bvugt": lambda c, a, b: [c.below(b, a)], "bvuge": lambda c, a, b: [-c.below(a, b)],
    "bvslt": lambda c, a, b: [c.signed_below(a, b)], "bvsle": lambda c, a, b: [-c.signed_below(b, a)],
    "bvsgt": lambda c, a, b: [c.signed_below(b, a)], "bvsge": lambda c, a, b: [-c.signed_below(a, b)],
    "bvshl": Circuit.left_shift, "bvlshr": Circuit.right_shift, "bvashr": Circuit.signed_right_shift,
    "bvmul": Circuit.product,
    "bvudiv": lambda c, a, b: c.divided(a, b)[0], "bvurem": lambda c, a, b: c.divided(a, b)[1],
    "bvsdiv": Circuit.signed_quotient, "bvsrem": Circuit.signed_remainder, "bvsmod": Circuit.modulus,
    "concat": lambda c, a, b: b + a,
    "extract": lambda c, i, j, a: a[j:i + 1],
    "zero_extend": lambda c, i, a: a + [FALSE] * i, "sign_extend": lambda c, i, a: a + a[-1:] * i,
    "rotate_left": lambda c, i, a: turned(i, a), "rotate_right": lambda c, i, a: turned(-i, a),
    "repeat": lambda c, i, a: a * i,
}
