"""Functions and equalities: what follows when equal words are handed to one function.

A word that comes back after so many applications, and after so many others, comes back after as many as their greatest common
divisor. Rows of words that go by one of two ways from each to the next. Two rows that a function of two arguments makes from equal
words.
"""
import math

from memory import Text, joined, word

WIDTH = 32
LOGIC = "QF_UFBV"


class Functions(Text):
    def words(self, kind, count):
        return [self.declare("%s%d" % (kind, k), word(WIDTH)) for k in range(count)]

    def function(self, name, arguments):
        return self.declare(name, word(WIDTH), [word(WIDTH)] * arguments)


def applied(x, times):
    for _ in range(times):
        x = "(f %s)" % x
    return x


def cycle(a, b):
    text = Functions()
    text.function("f", 1)
    (x,) = text.words("x", 1)
    for times in a, b:
        text.claim("(= %s %s)" % (applied(x, times), x))
    text.claim("(not (= (f %s) %s))" % (x, x))
    return text.script("functions", "cycle_%d_%d" % (a, b), "unsat" if math.gcd(a, b) == 1 else "sat", LOGIC)


def diamonds(n):
    text = Functions()
    text.function("f", 1)
    x, y, z = text.words("x", n + 1), text.words("y", n), text.words("z", n)
    for k in range(n):
        way = "(and (= %s (f %s)) (= %s %s))"
        text.claim("(or %s %s)" % tuple(way % (w[k], x[k], w[k], "(f %s)" % x[k + 1]) for w in (y, z)))
    text.claim("(not (= (f %s) (f %s)))" % (x[0], x[n]))
    return text.script("functions", "diamonds_%d" % n, "unsat", LOGIC)


def rows(source, n):
    text = Functions()
    text.function("g", 2)
    a, b = text.words("a", n), text.words("b", n)
    ends = []
    for words in a, b:
        end = words[0]
        for w in words[1:]:
            end = "(g %s %s)" % (end, w)
        ends.append(end)
    pairs = list(zip(a, b))
    source.shuffle(pairs)
    for one, other in pairs:
        text.claim("(= %s %s)" % (one, other))
    text.claim("(not (= %s %s))" % tuple(ends))
    return text.script("functions", "rows_%d" % n, "unsat", LOGIC)


def scripts(source):
    for a, b in (5, 8), (8, 13), (13, 21), (6, 9), (20, 30):
        yield cycle(a, b)
    for n in 10, 20:
        yield diamonds(n)
    for n in 10, 20, 40:
        yield rows(source, n)
