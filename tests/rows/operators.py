"""The operators of terms: the sorts that they take and give, and their values.

A truth value is 0 or 1 and a word a number. An array has an element for each index, a function a value for each list of
arguments: both are a default and what is held beside it.
"""
import collections
import itertools


class Refused(Exception):
    pass


def need(holds, why):
    if not holds:
        raise Refused(why)


# ---- sorts

BOOL = 0  # as a sort; a word's sort is its width
MOST = 128  # the greatest width

# the widths of an array's indexes and of its elements
Indexed = collections.namedtuple("Indexed", "index element")


def is_array(sort):
    return isinstance(sort, Indexed)


BINARY = "bvadd bvsub bvmul bvand bvor bvxor bvnand bvnor bvxnor bvudiv bvurem bvsdiv bvsrem bvsmod bvshl bvlshr bvashr"
ORDERS = "bvult bvule bvugt bvuge bvslt bvsle bvsgt bvsge"

# from a name's numbers and the sorts of its arguments, none of which is an array, to the sort of its result, None where it
# does not take them
WORD_SORTS = {name: sort for names, sort in {
    "true false": lambda: BOOL,
    "not": lambda p: BOOL if p == BOOL else None,
    "and or xor =>": lambda p, q: BOOL if p == q == BOOL else None,
    "bvnot bvneg": lambda a: a or None,
    BINARY: lambda a, b: a if a == b != BOOL else None,
    ORDERS: lambda a, b: BOOL if a == b != BOOL else None,
    "bvcomp": lambda a, b: 1 if a == b != BOOL else None,
    "concat": lambda a, b: a + b if BOOL not in (a, b) else None,
    "extract": lambda i, j, a: i - j + 1 if a > i >= j else None,
    "zero_extend sign_extend": lambda i, a: a + i if a != BOOL else None,
    "rotate_left rotate_right": lambda i, a: a or None,
    "repeat": lambda i, a: a * i or None,
    "word": lambda n, x: n if 0 < n <= MOST and x < 1 << n else None,
    "const": lambda k, a: Indexed(k, a) if 0 < k <= MOST and a != BOOL else None,
}.items() for name in names.split()}

# the same of operators that take arrays
ARRAY_SORTS = {
    "ite": lambda p, a, b: a if p == BOOL and a == b else None,
    "=": lambda a, b: BOOL if a == b else None,
    "select": lambda a, i: a.element if is_array(a) and i == a.index else None,
    "store": lambda a, i, v: a if a == Indexed(i, v) else None,
    "witness": lambda a, b: a.index if is_array(a) and a == b else None,
}
SORTS = WORD_SORTS | ARRAY_SORTS
NUMBERS = {"extract": 2, "zero_extend": 1, "sign_extend": 1, "rotate_left": 1, "rotate_right": 1, "repeat": 1, "word": 2, "const": 1}


def sort_of(op, numbers, sorts):
    need(op in SORTS and len(numbers) == NUMBERS.get(op, 0), "no operator " + op)
    need(len(numbers) + len(sorts) == SORTS[op].__code__.co_argcount, "number of arguments of " + op)
    need(op in ARRAY_SORTS or not any(map(is_array, sorts)), "an array is no argument of " + op)
    sort = SORTS[op](*numbers, *sorts)
    need(sort is not None and (is_array(sort) or sort <= MOST), "sorts of arguments, or width, of " + op)
    return sort


# ---- values of arrays and functions

class Array:
    """An element for each index of a width. Arrays are equal where no index tells them apart, whatever each of them holds."""

    def __init__(self, width, default, held=()):
        self.width, self.default, self.held = width, default, dict(held)

    def at(self, index):
        return self.held.get(index, self.default)

    def with_one(self, index, element):
        return Array(self.width, self.default, self.held | {index: element})

    def gap(self, other):
        """The least index at which they differ, if there is one. Where neither holds an index, the defaults count."""
        held = self.held.keys() | other.held.keys()
        found = [i for i in held if self.at(i) != other.at(i)]
        if self.default != other.default and len(held) < 1 << self.width:
            found.append(next(i for i in itertools.count() if i not in held))
        return min(found, default=None)

    def __eq__(self, other):
        return self.gap(other) is None


class Table:
    """A value for each list of arguments."""

    def __init__(self, default, rows=()):
        self.default, self.rows = default, dict(rows)

    def at(self, args):
        return self.rows.get(args, self.default)


def zero_of(args, sort):
    """The value of a declaration that is given none."""
    if args:
        return Table(0)
    return Array(sort.index, 0) if is_array(sort) else 0


# ---- values of words

def signed(n, a):
    return a - (1 << n) if a >> n - 1 else a


def quotient(n, a, b):
    return a // b if b else (1 << n) - 1


def remainder(n, a, b):
    return a % b if b else a


def signed_quotient(n, a, b):
    q = quotient(n, abs(signed(n, a)), abs(signed(n, b)))
    return q if a >> n - 1 == b >> n - 1 else -q


def signed_remainder(n, a, b):
    u = remainder(n, abs(signed(n, a)), abs(signed(n, b)))
    return -u if a >> n - 1 else u


def modulus(n, a, b):
    """The remainder of the absolute values, moved to where the divisor's sign is."""
    u = remainder(n, abs(signed(n, a)), abs(signed(n, b)))
    if u == 0:
        return u
    return {(0, 0): u, (1, 0): -u + b, (0, 1): u + b, (1, 1): -u}[a >> n - 1, b >> n - 1]


def turned(n, i, a):
    return a << i % n | a >> n - i % n


# from the sort of the last argument, the numbers of the name and the arguments, to an array, or to a number that counts
# modulo 2 to the result's width
VALUES = {
    "true": lambda n: 1, "false": lambda n: 0, "word": lambda n, k, x: x, "not": lambda n, p: 1 - p,
    "and": lambda n, p, q: p & q, "or": lambda n, p, q: p | q, "xor": lambda n, p, q: p ^ q,
    "=>": lambda n, p, q: 1 - p | q,
    "ite": lambda n, p, a, b: a if p else b, "=": lambda n, a, b: a == b,
    "bvnot": lambda n, a: ~a, "bvneg": lambda n, a: -a,
    "bvadd": lambda n, a, b: a + b, "bvsub": lambda n, a, b: a - b, "bvmul": lambda n, a, b: a * b,
    "bvand": lambda n, a, b: a & b, "bvor": lambda n, a, b: a | b, "bvxor": lambda n, a, b: a ^ b,
    "bvnand": lambda n, a, b: ~(a & b), "bvnor": lambda n, a, b: ~(a | b), "bvxnor": lambda n, a, b: ~(a ^ b),
    "bvudiv": quotient, "bvurem": remainder,
    "bvsdiv": signed_quotient, "bvsrem": signed_remainder, "bvsmod": modulus,
    "bvshl": lambda n, a, b: a << min(b, n), "bvlshr": lambda n, a, b: a >> min(b, n),
    "bvashr": lambda n, a, b: signed(n, a) >> min(b, n),
    "bvult": lambda n, a, b: a < b, "bvule": lambda n, a, b: a <= b,
    "bvugt": lambda n, a, b: a > b, "bvuge": lambda n, a, b: a >= b,
    "bvslt": lambda n, a, b: signed(n, a) < signed(n, b), "bvsle": lambda n, a, b: signed(n, a) <= signed(n, b),
    "bvsgt": lambda n, a, b: signed(n, a) > signed(n, b), "bvsge": lambda n, a, b: signed(n, a) >= signed(n, b),
    "bvcomp": lambda n, a, b: a == b, "concat": lambda n, a, b: a << n | b,
    "extract": lambda n, i, j, a: a >> j,
    "zero_extend": lambda n, i, a: a, "sign_extend": lambda n, i, a: signed(n, a),
    "rotate_left": turned, "rotate_right": lambda n, i, a: turned(n, -i, a),
    "repeat": lambda n, i, a: sum(a << n * k for k in range(i)),
    "select": lambda n, a, i: a.at(i), "store": lambda n, a, i, v: a.with_one(i, v), "const": lambda n, k, v: Array(k, v),
    "witness": lambda n, a, b: a.gap(b) or 0,
}
