"""Lemmas on functions and arrays: clauses that hold in every interpretation.

An access says that an array has a value at an index. A `select` is an access of its array, a `store` one of itself, and a
constant array is one of itself with any index. Along a path an access becomes one of another array, each move under a
condition: that the index is not that of the `store` between the two arrays, that the `ite` between them takes this branch, or
that they are equal. The literal of a move is true where its condition fails.
"""
from operators import is_array, need


def congruence(log, t, u):
    """Applications of one function to equal arguments are equal."""
    (op, function, args), (other, of, others) = log.node(t), log.node(u)
    need(op == other == "apply" and function == of, "l: no applications of one function")
    return [-log.equality(a, b) for a, b in zip(args, others)] + [log.equality(t, u)]


def held(log, *node):
    need(node in log.terms.number, "l: no witness, or no element there")
    return log.terms.number[node]


def difference(log, t):
    """Arrays that are not equal differ at their witness."""
    op, _, sides = log.node(t)
    need(op == "=" and is_array(log.terms.sorts[sides[0]]), "l: no equality of arrays")
    at = held(log, "witness", (), sides)
    left, right = (held(log, "select", (), (a, at)) for a in sides)
    return [log.truth(t), -log.equality(left, right)]


def agreement(log, one, other):
    """Two accesses of one array with equal indexes have equal values."""
    (array, index, value, moved), (there, at, element, also_moved) = arrived(log, *one), arrived(log, *other)
    need(array == there, "l: the paths end at two arrays")
    return moved + also_moved + [-log.equality(index, at), log.equality(value, element)]


def started(log, t, *of):
    """The array, the index and the value of an access; `of` has the index of a constant array."""
    op, _, args = log.node(t)
    if of:
        (j,) = of
        log.node(j)
        need(op == "const" and log.terms.sorts[j] == log.terms.sorts[t].index, "l: no index of a constant array")
        return t, j, args[0]
    need(op in ("select", "store"), "l: no access")
    return (args[0], args[1], t) if op == "select" else (t, args[1], args[2])


def arrived(log, start, moves):
    """The array, the index and the value of an access at the end of its path, and the literals of its moves."""
    array, index, value = started(log, *start)
    literals = []
    for letter, t in moves:
        one, other, literal = between(log, letter, t, index)
        need(array in (one, other), "l: a move from another array")
        array = other if array == one else one
        literals.append(literal)
    return array, index, value, literals


def between(log, letter, t, index):
    """The two arrays between which a move leads, and its literal."""
    op, _, args = log.node(t)
    need((letter, op) in (("w", "store"), ("t", "ite"), ("e", "ite"), ("q", "=")), "l: no such move")
    match letter:
        case "w":
            return t, args[0], log.equality(index, args[1])
        case "t":
            return t, args[1], -log.truth(args[0])
        case "e":
            return t, args[2], log.truth(args[0])
        case "q":
            return args[0], args[1], -log.truth(t)
