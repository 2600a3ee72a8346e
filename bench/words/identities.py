"""Word identities at 32 bits, each unsat or sat by construction.

Most are of Henry S. Warren, Hacker's Delight (second edition, 2012), chapters 2 to 5. An identity is asserted to fail, so it
is `unsat`. Where it is `sat` the two sides agree on most words and not on all, which is said beside it.
"""
import script

W = 32
ONE = script.literal(W, 1)
ZERO = script.literal(W, 0)
ALL = script.literal(W, -1)
LEAST = script.literal(W, 1 << 31)


def ripple(operator, terms):
    whole = terms[0]
    for term in terms[1:]:
        whole = "(%s %s %s)" % (operator, whole, term)
    return whole


def bits(x):
    return ["((_ extract %d %d) %s)" % (k, k, x) for k in range(W)]


def bytes_turned(x):
    return "(concat %s)" % " ".join("((_ extract %d %d) %s)" % (k + 7, k, x) for k in (0, 8, 16, 24))


def wide(x):
    return "((_ zero_extend 1) %s)" % x


def folded(x):
    """The parity of a word by halves."""
    for k in (16, 8, 4, 2, 1):
        x = "(let ((v %s)) (bvxor v (bvlshr v %s)))" % (x, script.literal(W, k))
    return "((_ extract 0 0) %s)" % x


SUMS = [
    ("sum_of_xor_and_carries", "(bvadd x y)", "(bvadd (bvxor x y) (bvshl (bvand x y) %s))" % ONE),
    ("sum_of_or_and_and", "(bvadd x y)", "(bvadd (bvor x y) (bvand x y))"),
    ("sum_commutes", "(bvadd x y)", "(bvadd y x)"),
    ("sum_is_associative", "(bvadd (bvadd x y) z)", "(bvadd x (bvadd y z))"),
    ("xor_of_or_and_and", "(bvxor x y)", "(bvsub (bvor x y) (bvand x y))"),
    ("difference_by_complement", "(bvsub x y)", "(bvadd x (bvadd (bvnot y) %s))" % ONE),
    ("negation_by_complement", "(bvneg x)", "(bvnot (bvsub x %s))" % ONE),
    ("mean_without_carry", "(bvadd (bvand x y) (bvlshr (bvxor x y) %s))" % ONE,
     "((_ extract 32 1) (bvadd %s %s))" % (wide("x"), wide("y"))),
    ("carry_by_order", "(ite (bvult (bvadd x y) x) #b1 #b0)", "((_ extract 32 32) (bvadd %s %s))" % (wide("x"), wide("y"))),
    ("lowest_bit_and_the_rest", "x", "(bvadd (bvand x (bvneg x)) (bvand x (bvsub x %s)))" % ONE),
]
CHOICES = [
    ("least_by_mask", "(ite (bvult x y) x y)", "(bvxor y (bvand (bvxor x y) (ite (bvult x y) %s %s)))" % (ALL, ZERO)),
    ("absolute_value_by_sign", "(ite (bvslt x %s) (bvneg x) x)" % ZERO,
     "(let ((s (bvashr x %s))) (bvsub (bvxor x s) s))" % script.literal(W, 31)),
    ("signed_order_by_turned_sign", "(ite (bvslt x y) #b1 #b0)", "(ite (bvult (bvxor x %s) (bvxor y %s)) #b1 #b0)" % (LEAST, LEAST)),
    ("choice_by_mask", "(bvor (bvand x z) (bvand y (bvnot z)))", "(bvxor y (bvand (bvxor x y) z))"),
    ("sign_of_a_byte", "((_ sign_extend 24) ((_ extract 7 0) x))",
     "(bvsub (bvxor (bvand x %s) %s) %s)" % (script.literal(W, 255), script.literal(W, 128), script.literal(W, 128))),
    ("shift_there_and_back", "(ite (bvult y %s) (bvlshr (bvshl x y) y) x)" % script.literal(W, W),
     "(ite (bvult y %s) (bvand x (bvlshr %s y)) x)" % (script.literal(W, W), ALL)),
    ("bytes_turned_twice", "x", "(let ((t %s)) %s)" % (bytes_turned("x"), bytes_turned("t"))),
    ("parity_by_halves", folded("x"), ripple("bvxor", bits("x"))),
]
# The words that break these are few: both have a carry; the dividend is negative and no multiple; a bit is shifted out; the
# word is the least one.
NEARLY = [
    ("sum_is_no_or", "(bvadd x y)", "(bvor x y)"),
    ("mean_with_a_lost_carry", "(bvlshr (bvadd x y) %s)" % ONE, "(bvadd (bvand x y) (bvlshr (bvxor x y) %s))" % ONE),
    ("signed_quotient_is_no_shift", "(bvsdiv x %s)" % script.literal(W, 8), "(bvashr x %s)" % script.literal(W, 3)),
    ("shift_loses_bits", "(bvlshr (bvshl x %s) %s)" % (ONE, ONE), "x"),
    ("absolute_value_is_no_word_above", "(ite (bvslt (ite (bvslt x %s) (bvneg x) x) %s) #b1 #b0)" % (ZERO, ZERO), "#b0"),
]


def constants(source):
    """Identities with a constant that the seed chooses."""
    factor, turn, shift = source.randrange(3, 1 << 12, 2), source.randrange(1, W), source.randrange(2, 12)
    odd = source.randrange(1, 1 << W, 2)
    terms = ["(bvshl x %s)" % script.literal(W, k) for k in range(13) if factor >> k & 1]
    yield "product_by_shifts", "(bvmul x %s)" % script.literal(W, factor), ripple("bvadd", terms)
    yield "rotation_by_shifts", "((_ rotate_left %d) x)" % turn, "(bvor (bvshl x %s) (bvlshr x %s))" % (
        script.literal(W, turn), script.literal(W, W - turn))
    yield "quotient_by_shift", "(bvudiv x %s)" % script.literal(W, 1 << shift), "(bvlshr x %s)" % script.literal(W, shift)
    yield "remainder_by_mask", "(bvurem x %s)" % script.literal(W, 1 << shift), "(bvand x %s)" % script.literal(W, (1 << shift) - 1)
    inverse = pow(odd, -1, 1 << W)
    yield "odd_factor_and_its_inverse", "(bvmul (bvmul x %s) %s)" % (script.literal(W, odd), script.literal(W, inverse)), "x"


def scripts(source):
    """The scripts of the family."""
    head = script.declared("xyz", W)
    fails = "(assert (distinct %s %s))\n"
    for name, left, right in SUMS + CHOICES + list(constants(source)):
        yield script.checked("identities", name, [head, fails % (left, right)], "unsat")
    for name, left, right in NEARLY:
        yield script.checked("identities", name, [head, fails % (left, right)], "sat")
    order = "(assert (and (bvult x y) (bvult y z) (not (bvult x z))))\n"
    yield script.checked("identities", "order_is_transitive", [head, order], "unsat")
    odd = script.literal(W, source.randrange(1, 1 << W, 2))
    yield script.checked("identities", "inverse_of_an_odd_word", [head, "(assert (= (bvmul x %s) %s))\n" % (odd, ONE)], "sat")
