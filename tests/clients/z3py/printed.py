"""Prints scripts that z3py makes, one a line of names on standard output, each into a file of the folder that is named."""
import pathlib
import sys

from z3 import And, BitVec, BitVecVal, Bool, Concat, Extract, If, LShR, Not, Or, RotateLeft, Solver, UDiv, ULT, URem, Xor


def questions():
    x, y, z = (BitVec(name, 32) for name in "xyz")
    p, q = Bool("p"), Bool("q")
    yield "rotation", [RotateLeft(x, 4) == BitVecVal(0x80000001, 32), x == y]
    yield "rotation undone", [RotateLeft(RotateLeft(x, 7), 25) != x]
    yield "one argument", [And(Or(p), Not(And(q))), Xor(p, q)]
    a, b = BitVec("a", 6), BitVec("b", 6)
    yield "quotients", [ULT(0, b), a != UDiv(a, b) * b + URem(a, b)]
    yield "parts", [Concat(Extract(15, 0, x), Extract(31, 16, x)) == z, LShR(z, 16) != x & 0xFFFF]
    yield "choices", [If(p, x, y) + If(p, y, x) != x + y]
    yield "shared terms", [sum_of(x, y, 12) == 77, ULT(x, 50)]


def sum_of(x, y, depth):
    """A term that is printed by `let`, since it uses each part twice."""
    for _ in range(depth):
        x, y = y, x + y + (x & y)
    return y


def main(words):
    folder = pathlib.Path(words[0])
    for number, (name, asserted) in enumerate(questions()):
        solver = Solver()
        solver.add(*asserted)
        path = folder / ("%d.smt2" % number)
        path.write_text("; %s\n%s" % (name, solver.to_smt2()))
        print(path)


if __name__ == "__main__":
    main(sys.argv[1:])
