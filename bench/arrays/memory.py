"""Scripts over memories: what the families share.

A memory is an array from addresses of 32 bits to bytes. Constants are declared by `declare-fun`, and `let` gives names to the words
and memories between two steps: not every solver reads definitions.
"""
import pathlib
import sys

sys.path.insert(0, str(pathlib.Path(__file__).resolve().parents[1] / "words"))
import script  # noqa: E402
from script import literal  # noqa: E402

ADDRESS, BYTE = 32, 8


def word(width):
    return "(_ BitVec %d)" % width


def array(index, element):
    return "(Array %s %s)" % (word(index), word(element))


def joined(operator, terms):
    """The terms under an operator of two arguments, from the left."""
    whole = terms[0]
    for term in terms[1:]:
        whole = "(%s %s %s)" % (operator, whole, term)
    return whole


class Text:
    """Declarations, names for terms, and what is claimed of them: one assertion under as many `let`s as there are names."""

    def __init__(self):
        self.lines, self.names, self.claims = [], [], []

    def declare(self, name, sort, args=()):
        self.lines.append("(declare-fun %s (%s) %s)\n" % (name, " ".join(args), sort))
        return name

    def define(self, kind, term):
        self.names.append(("%s_%d" % (kind, len(self.names)), term))
        return self.names[-1][0]

    def claim(self, term):
        self.claims.append(term)

    def script(self, family, name, verdict, logic="QF_ABV"):
        named = "".join("(let ((%s %s))\n" % pair for pair in self.names)
        asserted = "(assert %s%s%s)\n" % (named, joined("and", self.claims), ")" * len(self.names))
        return script.checked(family, name, self.lines + [asserted], verdict, logic)


class Memories(Text):
    """The same over memories of bytes."""

    sort = array(ADDRESS, BYTE)

    def memory(self, name="m"):
        return self.declare(name, self.sort)

    def cells(self, base, count):
        """The addresses of a row of bytes."""
        return [self.define("at", "(bvadd %s %s)" % (base, literal(ADDRESS, k))) for k in range(count)]

    def read(self, memory, at):
        return self.define("read", "(select %s %s)" % (memory, at))

    def write(self, memory, at, value):
        return self.define("written", "(store %s %s %s)" % (memory, at, value))

    def chosen(self, condition, memory, other):
        return self.define("chosen", "(ite %s %s %s)" % (condition, memory, other))

    def row(self, name, count):
        """The base of a row of bytes that does not go past the last address, which is declared."""
        base = self.declare(name, word(ADDRESS))
        self.claim("(bvult %s %s)" % (base, literal(ADDRESS, -count)))
        return base

    def apart(self, one, other, count):
        """Two rows of bytes have no address in common."""
        reach = "(bvule (bvadd %%s %s) %%s)" % literal(ADDRESS, count)
        self.claim("(or %s %s)" % (reach % (one, other), reach % (other, one)))

