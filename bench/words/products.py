"""Products of words of 6 to 8 bits: factors of a number, and laws of the ring."""
import script


def is_prime(n):
    return n > 1 and all(n % k for k in range(2, int(n ** 0.5) + 1))


def factors(width, number, name, verdict):
    """Two words above 1 whose product, which is not cut, is the number."""
    one = script.literal(width, 1)
    wide = "(bvmul ((_ zero_extend %d) x) ((_ zero_extend %d) y))" % (width, width)
    lines = [script.declared("xy", width), "(assert (bvult %s x))\n(assert (bvult %s y))\n" % (one, one)]
    asked = "(assert (= %s %s))\n" % (wide, script.literal(2 * width, number))
    return script.checked("products", "%s_at_%d_bits" % (name, width), lines + [asked], verdict)


LAWS = [
    ("product_commutes", "xy", "(bvmul x y)", "(bvmul y x)"),
    ("product_distributes", "xyz", "(bvmul x (bvadd y z))", "(bvadd (bvmul x y) (bvmul x z))"),
    ("square_of_a_sum", "xy", "(bvmul (bvadd x y) (bvadd x y))", "(bvadd (bvadd (bvmul x x) (bvmul y y)) (bvshl (bvmul x y) %(one)s))"),
    ("difference_of_squares", "xy", "(bvmul (bvadd x y) (bvsub x y))", "(bvsub (bvmul x x) (bvmul y y))"),
]


def scripts(source):
    for width in 6, 7, 8:
        primes = [p for p in range(1 << width - 1, 1 << width) if is_prime(p)]
        large = [p for p in range(1 << 2 * width - 2, 1 << 2 * width - 1) if is_prime(p)]
        yield factors(width, source.choice(primes) * source.choice(primes), "factors_of_two_primes", "sat")
        yield factors(width, source.choice(large), "factors_of_a_prime", "unsat")
        for name, names, left, right in LAWS:
            law = "(assert (distinct %s %s))\n" % (left, right % {"one": script.literal(width, 1)} if "%" in right else right)
            yield script.checked("products", "%s_at_%d_bits" % (name, width), [script.declared(names, width), law], "unsat")
