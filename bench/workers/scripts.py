"""The scripts of the bench: each takes one worker some seconds, and its verdict is known by construction.

What is asked of words alone stands here; scripts over functions and arrays, and a hash, are those of the benches beside this one,
of other sizes.
"""
import collections
import pathlib
import random
import sys

BENCH = pathlib.Path(__file__).resolve().parents[1]
sys.path[:0] = [str(BENCH / "arrays"), str(BENCH / "words")]
import copying  # noqa: E402
import functions  # noqa: E402
import hashes  # noqa: E402
import queues  # noqa: E402
import sorting  # noqa: E402
import stores  # noqa: E402

# What it is called, its text, the verdict, and whether it is over functions or arrays.
Made = collections.namedtuple("Made", "name text verdict theory")


def declared(names, width):
    return "".join("(declare-const %s (_ BitVec %d))" % (n, width) for n in names)


def law(name, width, names, one, other):
    """Two words that are one by a law of the ring are asserted to differ."""
    text = "%s(assert (distinct %s %s))(check-sat)\n" % (declared(names, width), one, other)
    return Made("%s_%d" % (name, width), text, "unsat", False)


def factors(name, width, number, verdict):
    """Two words above 1, the lower one first, whose product is the number, without a carry."""
    wide = "((_ zero_extend %d) %%s)" % width
    product = "(bvmul %s %s)" % (wide % "x", wide % "y")
    text = ("%s(assert (= %s (_ bv%d %d)))(assert (bvugt x (_ bv1 %d)))(assert (bvule x y))(check-sat)\n"
            % (declared("xy", width), product, number, 2 * width, width))
    return Made("%s_%d" % (name, width), text, verdict, False)


def prime_below(bound):
    """The greatest prime below a number above 2."""
    return next(n for n in range(bound - 1, 1, -1) if all(n % d for d in range(2, int(n ** 0.5) + 1)))



def of_bench(script, theory):
    """A script of another bench."""
    return Made(script.name, script.text, script.verdicts[0], theory)


def hashed(kind, rounds, free, found):
    return of_bench(hashes.of_size(random.Random(1), kind, rounds, free, found), False)


def scripts(smaller=0):
    """The scripts, with so much taken off each size."""
    n = smaller
    yield law("distributivity", 7 - n, "xyz", "(bvmul x (bvadd y z))", "(bvadd (bvmul x y) (bvmul x z))")
    double = "(bvshl (bvmul x y) (_ bv1 %d))" % (9 - n)
    yield law("square_of_a_sum", 9 - n, "xy", "(bvmul (bvadd x y) (bvadd x y))", "(bvadd (bvadd (bvmul x x) (bvmul y y)) %s)" % double)
    yield factors("prime", 18 - n, prime_below(1 << 2 * (18 - n) - 1), "unsat")
    yield hashed("products", 3, 16 - n, False)
    yield of_bench(functions.diamonds(30 - n), False)
    yield of_bench(queues.beside_its_model(3, 8, 9 - n), True)
    yield of_bench(sorting.same(5 - min(n, 2)), True)
    yield of_bench(copying.both_ways(6 - min(n, 4)), True)
    yield of_bench(stores.chains(random.Random(1), 6 - min(n, 4), False), True)
    yield factors("two_primes", 18 - n, prime_below(5 << 15 - n) * prime_below(1 << 18 - n), "sat")
    yield factors("two_primes", 20 - n, prime_below(5 << 17 - n) * prime_below(1 << 20 - n), "sat")
    yield hashed("products", 3, 16 - n, True)
    yield of_bench(queues.beside_its_model(3, 8, 14 - min(n, 5), careless=True), True)
