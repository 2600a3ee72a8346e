"""A script of the bench, and the words that several families share."""
import collections

Script = collections.namedtuple("Script", "family name text verdicts")


def literal(width, value):
    return "(_ bv%d %d)" % (value % (1 << width), width)


def declared(names, width):
    return "".join("(declare-const %s (_ BitVec %d))\n" % (name, width) for name in names)


def checked(family, name, lines, verdict, logic="QF_BV"):
    """A script of one check, whose verdict is known."""
    text = "(set-logic %s)\n(set-info :status %s)\n%s(check-sat)\n" % (logic, verdict, "".join(lines))
    return Script(family, name, text, [verdict])
