#!/usr/bin/env python3
"""Families of clauses in DIMACS, each made from numbers and seeds alone.

usage: families.py FAMILY NUMBER..    (on standard output; the families and their numbers are the functions below `# ----`)
"""
import random
import sys


class Clauses:
    """Clauses of the variables 1 to `variables`, and gates over literals."""

    def __init__(self, variables=0):
        self.variables, self.rows = variables, []
        self.true = None

    def add(self, *literals):
        """Adds a clause, each literal once, but where it holds a literal beside its opposite."""
        row = tuple(dict.fromkeys(literals))
        if not any(-l in row for l in row):
            self.rows.append(row)

    def fresh(self, count=1):
        self.variables += count
        return list(range(self.variables - count + 1, self.variables + 1))

    def constant(self, value):
        """A literal that is true, or false."""
        if self.true is None:
            (self.true,) = self.fresh()
            self.add(self.true)
        return self.true if value else -self.true

    def gate(self, rows):
        """A new variable, with a clause for each row: its own sign, then the other literals."""
        (out,) = self.fresh()
        for sign, *rest in rows:
            self.add(sign * out, *rest)
        return out

    def both(self, a, b):
        return self.gate([(-1, a), (-1, b), (1, -a, -b)])

    def differ(self, a, b):
        return self.gate([(-1, a, b), (-1, -a, -b), (1, -a, b), (1, a, -b)])

    def majority(self, a, b, c):
        return self.gate([(-1, a, b), (-1, a, c), (-1, b, c), (1, -a, -b), (1, -a, -c), (1, -b, -c)])

    def choice(self, c, a, b):
        return self.gate([(-1, -c, a), (1, -c, -a), (-1, c, b), (1, c, -b)])

    def sum(self, x, y, carry=None):
        """The sum of two words, the lowest bit first."""
        carry, bits = carry or self.constant(False), []
        for a, b in zip(x, y):
            bits.append(self.differ(self.differ(a, b), carry))
            carry = self.majority(a, b, carry)
        return bits

    def product(self, x, y):
        false = self.constant(False)
        total = [false] * len(x)
        for i, b in enumerate(y[: len(x)]):
            total = self.sum(total, [false] * i + [self.both(a, b) for a in x[: len(x) - i]])
        return total

    def difference(self, x, y):
        """The difference of two words, and whether there is no borrow."""
        carry, bits = self.constant(True), []
        for a, b in zip(x, y):
            bits.append(self.differ(self.differ(a, -b), carry))
            carry = self.majority(a, -b, carry)
        return bits, carry

    def quotient(self, x, y):
        """The quotient of two words and the remainder, by long division; the divisor is not 0."""
        rest, bits = [self.constant(False)] * (len(y) + 1), []
        for bit in reversed(x):
            rest = [bit] + rest[:-1]
            less, fits = self.difference(rest, y + [self.constant(False)])
            rest = [self.choice(fits, a, b) for a, b in zip(less, rest)]
            bits.insert(0, fits)
        return bits, rest[:-1]

    def word(self, width, value):
        return [self.constant(value >> i & 1) for i in range(width)]

    def make_differ(self, x, y):
        self.add(*[self.differ(a, b) for a, b in zip(x, y)])

    def make_equal(self, x, y):
        for a, b in zip(x, y):
            self.add(-a, b)
            self.add(a, -b)

    def text(self):
        head = "p cnf %d %d\n" % (self.variables, len(self.rows))
        return head + "".join(" ".join(map(str, row)) + " 0\n" if row else "0\n" for row in self.rows)


# ---- each is called with whole numbers


def random3(variables, clauses, seed):
    """Random clauses of three literals; about half have no model at 4.26 clauses a variable."""
    rng, made = random.Random(seed), Clauses(variables)
    for _ in range(clauses):
        made.add(*[v if rng.random() < 0.5 else -v for v in rng.sample(range(1, variables + 1), 3)])
    return made


def pigeons(holes):
    """One pigeon more than holes, no two in one: no model."""
    made = Clauses(holes * (holes + 1))
    sits = lambda pigeon, hole: pigeon * holes + hole + 1
    for p in range(holes + 1):
        made.add(*[sits(p, h) for h in range(holes)])
    for h in range(holes):
        for p in range(holes + 1):
            for q in range(p):
                made.add(-sits(p, h), -sits(q, h))
    return made


def parity(vertices, seed):
    """A random graph, three edges a vertex: an odd number of them is chosen at the first vertex, an even one at each other. The
    number of vertices is even. No model, since each edge is counted twice."""
    rng = random.Random(seed)
    while True:
        ends = [v for v in range(vertices) for _ in range(3)]
        rng.shuffle(ends)
        edges = [tuple(sorted(ends[i : i + 2])) for i in range(0, len(ends), 2)]
        if len(set(edges)) == len(edges) and all(a != b for a, b in edges):
            break
    made = Clauses(len(edges))
    for vertex in range(vertices):
        held = [i + 1 for i, edge in enumerate(edges) if vertex in edge]
        for signs in range(8):
            row = [-v if signs >> i & 1 else v for i, v in enumerate(held)]
            # the row excludes the values that make each of its literals false: those with as many true ones as it has minus signs
            if bin(signs).count("1") % 2 == (0 if vertex == 0 else 1):
                made.add(*row)
    return made


def colours(vertices, edges, count, seed):
    """A colouring of a random graph by so many colours."""
    rng, made = random.Random(seed), Clauses(vertices * count)
    has = lambda vertex, colour: vertex * count + colour + 1
    for v in range(vertices):
        made.add(*[has(v, c) for c in range(count)])
    chosen = set()
    while len(chosen) < edges:
        chosen.add(tuple(sorted(rng.sample(range(vertices), 2))))
    for a, b in sorted(chosen):
        for c in range(count):
            made.add(-has(a, c), -has(b, c))
    return made


def commutes(width):
    """Two words whose products in both orders differ: no model."""
    made = Clauses()
    a, b = made.fresh(width), made.fresh(width)
    made.make_differ(made.product(a, b), made.product(b, a))
    return made


def distributes(width):
    """Three words with a * (b + c) other than a * b + a * c: no model."""
    made = Clauses()
    a, b, c = made.fresh(width), made.fresh(width), made.fresh(width)
    made.make_differ(made.product(a, made.sum(b, c)), made.sum(made.product(a, b), made.product(a, c)))
    return made


def factors(width, number):
    """Two words, neither 1, of which the product in twice as many bits is this number."""
    made = Clauses()
    a, b = made.fresh(width), made.fresh(width)
    wide = lambda x: x + [made.constant(False)] * width
    made.make_equal(made.product(wide(a), wide(b)), made.word(2 * width, number))
    made.add(*a[1:])
    made.add(*b[1:])
    return made


def divides(width):
    """Two words, the second not 0, of which the quotient times the second and the remainder are not the first: no model."""
    made = Clauses()
    a, b = made.fresh(width), made.fresh(width)
    made.add(*b)
    quotient, rest = made.quotient(a, b)
    made.make_differ(made.sum(made.product(quotient, b), rest), a)
    return made


def sorts(count):
    """So many bits that a network of bubbles and one of odd and even transpositions sort otherwise: no model."""
    made = Clauses()
    given = made.fresh(count)

    def sorted_by(pairs):
        bits = list(given)
        for i in pairs:
            bits[i], bits[i + 1] = made.both(bits[i], bits[i + 1]), -made.both(-bits[i], -bits[i + 1])
        return bits

    bubbles = [i for end in range(count - 1, 0, -1) for i in range(end)]
    turns = [i for turn in range(count) for i in range(turn % 2, count - 1, 2)]
    made.make_differ(sorted_by(bubbles), sorted_by(turns))
    return made


def hashes(width, rounds, seed):
    """Two words that are hashed, by so many rounds of adding, turning and multiplying behind which they are added once more, to what
    two that the seed draws are hashed to."""
    rng, mask = random.Random(seed), (1 << width) - 1
    keys = [rng.getrandbits(width) for _ in range(rounds)]
    made = Clauses()
    first, second = made.fresh(width), made.fresh(width)
    drawn, other = rng.getrandbits(width), rng.getrandbits(width)
    a, b, x, y = first, second, drawn, other
    for key in keys:
        a = made.sum(made.sum(a, b), made.word(width, key))
        b = [made.differ(c, d) for c, d in zip(b[-3:] + b[:-3], a)]
        a = made.product(a, [made.constant(True)] + b[1:])
        x = x + y + key & mask
        y = (y << 3 | y >> width - 3) & mask ^ x
        x = x * (y | 1) & mask
    made.make_equal(made.sum(a, first), made.word(width, x + drawn & mask))
    made.make_equal(made.sum(b, second), made.word(width, y + other & mask))
    return made


def machine(width, steps, target):
    """A register that begins as 0, and at each step becomes three times itself and 1 or itself and 7, as an input says: it is the
    target after so many steps, and not before."""
    made = Clauses()
    at = made.word(width, 0)
    for step in range(steps):
        (given,) = made.fresh()
        tripled = made.sum(at, [made.constant(False)] + at[:-1], made.constant(True))
        raised = made.sum(at, made.word(width, 7))
        at = [made.choice(given, a, b) for a, b in zip(tripled, raised)]
        if step < steps - 1:
            made.add(*[-bit if target >> i & 1 else bit for i, bit in enumerate(at)])
    made.make_equal(at, made.word(width, target))
    return made


FAMILIES = [random3, pigeons, parity, colours, commutes, distributes, factors, divides, sorts, hashes, machine]


def main():
    named = {f.__name__: f for f in FAMILIES}
    if len(sys.argv) < 2 or sys.argv[1] not in named:
        sys.exit(__doc__ + "\n" + "\n".join("%s: %s" % (n, " ".join(f.__doc__.split())) for n, f in named.items()))
    sys.stdout.write(named[sys.argv[1]](*map(int, sys.argv[2:])).text())


if __name__ == "__main__":
    main()
