#!/usr/bin/env python3
"""Prints a script: two ways to count the bits of a word of 32 bits are asserted to differ. It is `unsat`, and needs a long search.

The first way is of Henry S. Warren, Hacker's Delight (second edition, 2012), chapter 5, and ends with two sums or with a
product; the second adds the bits one by one.

usage: population.py sums|product > FILE
"""
import sys

import script

W = 32


def word(value):
    return script.literal(W, value)


def shifted(k):
    return "(bvlshr v %s)" % word(k)


STEPS = [
    "(bvsub v (bvand %s %s))" % (shifted(1), word(0x55555555)),
    "(bvadd (bvand v %s) (bvand %s %s))" % (word(0x33333333), shifted(2), word(0x33333333)),
    "(bvand (bvadd v %s) %s)" % (shifted(4), word(0x0F0F0F0F)),
]
LAST = {
    "sums": ["(bvadd v %s)" % shifted(8), "(bvadd v %s)" % shifted(16), "(bvand v %s)" % word(0x3F)],
    "product": ["(bvlshr (bvmul v %s) %s)" % (word(0x01010101), word(24))],
}


def by_halves(x, last):
    for step in STEPS + LAST[last]:
        x = "(let ((v %s)) %s)" % (x, step)
    return x


def one_by_one(x):
    whole = word(0)
    for k in range(W):
        whole = "(bvadd %s ((_ zero_extend 31) ((_ extract %d %d) %s)))" % (whole, k, k, x)
    return whole


def main():
    last = sys.argv[1]
    lines = [script.declared("x", W), "(assert (distinct %s %s))\n" % (by_halves("x", last), one_by_one("x"))]
    print(script.checked("population", last, lines, "unsat").text, end="")


main()
