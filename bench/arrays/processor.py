"""Two processors over one program, step by step, as yosys and its model checker write it: a constant for each register and each
memory in each state, an assertion for each step, and a check under a level of its own for each state.

A processor has a sum, a place and a memory that holds program and data. The second one writes to memory a step later, and looks for
what it reads among what it has still to write; so in no state they differ. Where it does not look there for the next command, a
program that writes its own commands tells them apart, two steps from the start at the earliest.
"""
import script
from memory import array, literal, word

LOAD, STORE, ADD, JUMP = range(4)


class Machine:
    """The constants of a processor in a state, and what they are a step later."""

    def __init__(self, name, width, late, careless=False):
        self.name, self.width, self.late, self.careless = name, width, late, careless
        self.sorts = {"sum": word(width), "place": word(width), "memory": array(width, width)}
        if late:
            self.sorts |= {"due": "Bool", "at": word(width), "value": word(width)}

    def constant(self, part, k):
        return "|%s %s#%d|" % (self.name, part, k)

    def declared(self, k):
        return "".join("(declare-fun %s () %s)\n" % (self.constant(part, k), sort) for part, sort in self.sorts.items())

    def read(self, k, at, looks=True):
        memory = "(select %s %s)" % (self.constant("memory", k), at)
        if not self.late or not looks:
            return memory
        due, where, value = (self.constant(part, k) for part in ("due", "at", "value"))
        return "(ite (and %s (= %s %s)) %s %s)" % (due, where, at, value, memory)

    def step(self, k):
        """The assertions that take state k to the next one."""
        w, held = self.width, {part: self.constant(part, k) for part in self.sorts}
        yield "command", word(w), self.read(k, held["place"], not self.careless)
        command = self.constant("command", k)
        target = "((_ zero_extend 2) ((_ extract %d 0) %s))" % (w - 3, command)
        does = lambda what: "(= ((_ extract %d %d) %s) %s)" % (w - 1, w - 2, command, literal(2, what))
        data = self.read(k, target)
        added = "(ite %s (bvadd %s %s) %s)" % (does(ADD), held["sum"], data, held["sum"])
        jumps = "(and %s (not (= %s %s)))" % (does(JUMP), held["sum"], literal(w, 0))
        following = {
            "sum": "(ite %s %s %s)" % (does(LOAD), data, added),
            "place": "(ite %s %s (bvadd %s %s))" % (jumps, target, held["place"], literal(w, 1)),
        }
        if self.late:
            following |= {"due": does(STORE), "at": target, "value": held["sum"]}
            following["memory"] = "(ite %s (store %s %s %s) %s)" % tuple(held[p] for p in ("due", "memory", "at", "value", "memory"))
        else:
            following["memory"] = "(ite %s (store %s %s %s) %s)" % (does(STORE), held["memory"], target, held["sum"], held["memory"])
        for part, term in following.items():
            yield part, None, term

    def lines(self, k):
        for part, sort, term in self.step(k):
            if sort:
                yield "(declare-fun %s () %s)\n(assert (= %s %s))\n" % (self.constant(part, k), sort, self.constant(part, k), term)
            else:
                yield "(assert (= %s %s))\n" % (self.constant(part, k + 1), term)


def start(machines, width):
    for m in machines:
        yield m.declared(0)
        for part in ("sum", "place"):
            yield "(assert (= %s %s))\n" % (m.constant(part, 0), literal(width, 0))
    one, other = machines
    yield "(assert (= %s %s))\n" % (one.constant("memory", 0), other.constant("memory", 0))
    yield "(assert (not %s))\n" % other.constant("due", 0)


def compared(width, steps, careless=False):
    machines = [Machine("one", width, False), Machine("other", width, True, careless)]
    lines, verdicts = list(start(machines, width)), []
    for k in range(steps):
        lines += [m.declared(k + 1) for m in machines] + [line for m in machines for line in m.lines(k)]
        equal = "(and %s)" % " ".join("(= %s %s)" % tuple(m.constant(part, k + 1) for m in machines) for part in ("sum", "place"))
        lines.append("(push 1)\n(assert (not %s))\n(check-sat)\n(pop 1)\n" % equal)
        verdicts.append("sat" if careless and k else "unsat")
        if verdicts[-1] == "unsat":
            lines.append("(assert %s)\n" % equal)
    name = "%s_%d_bits_%d_steps" % ("careless" if careless else "late", width, steps)
    return script.Script("processor", name, "(set-logic QF_ABV)\n" + "".join(lines), verdicts)


def scripts(source):
    for width, steps in (6, 6), (8, 6), (16, 4):
        yield compared(width, steps)
    yield compared(8, 6, careless=True)
