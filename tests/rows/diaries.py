"""Diaries of proof files: that the budget of a search was spent on a cube of a check.

A diary says which clauses a search held, line by line: `= P` holds the clauses of entry P, `+ P` puts the chain P, which is
then held, `- P` drops a held chain. What was deleted before the diary is not held at its start, and no line names it. It is spent where it has one put more than the budget, the last line being the last put.
"""
from operators import need

# Chains are dropped right behind a number of puts that is a multiple of this one.
PUTS_BETWEEN_DROPS = 2000


def reached(terms, roots):
    """The terms that these reach by arguments."""
    found, due = set(), list(roots)
    while due:
        t = due.pop()
        if t not in found:
            found.add(t)
            due += terms.nodes[t][2]
    return found


def cube(log, depth, n):
    """The literals of a cube of the check: of each split variable one, positive where its bit of the number is 0."""
    script = log.script
    roots = [script.asserted[a] for a in script.live] + script.assumed
    leaves = [t for t in log.leaves if t in reached(script.terms, roots)]
    variables = sorted(v for t in leaves for v in log.bits[t])[:depth]
    need(n < 1 << len(variables), "diary: no such cube")
    return [-v if n >> k & 1 else v for k, v in enumerate(variables)]


def given(log, depth, n):
    """The literals that the search of a cube is given: the cube's, the selectors of the live assertions, the assumptions."""
    script, by_assertion = log.script, {a: s for s, a in log.selectors.items()}
    need(all(a in by_assertion for a in script.live), "diary: an assertion has no selector")
    need(all(t in log.bits for t in script.assumed), "diary: an assumption has no bit")
    return set(cube(log, depth, n) + [by_assertion[a] for a in script.live] + [log.bits[t][0] for t in script.assumed])


class Diary:
    """The entries that are held, by position, and how many puts there were."""

    def __init__(self, log, literals, start):
        need(start <= len(log.rows), "diary: no such start")
        need(log.built < start, "diary: a step behind the start is no chain, equality or lemma")
        self.log, self.given = log, literals
        self.held = {p for p in range(start) if p not in log.chains and p not in log.deleted}
        self.puts, self.may_drop = 0, 0

    def line(self, kind, at):
        need(at < len(self.log.rows), "diary: no such entry")
        need(at not in self.log.deleted, "diary: a deleted entry")
        if kind == "-":
            need(self.may_drop > 0 and at in self.held and at in self.log.chains, "diary: no chain that may be dropped")
            self.held.remove(at)
            self.may_drop -= 1
            return
        self.may_drop = 0
        if kind == "+":
            self.need_good(at)
            self.puts += 1
        self.held.add(at)
        if kind == "+" and self.puts % PUTS_BETWEEN_DROPS == 0:
            self.may_drop = sum(p in self.log.chains for p in self.held) // 2

    def need_good(self, at):
        need(at in self.log.chains, "diary: a put of no chain")
        (clause,) = self.log.rows[at]
        hints = [self.log.clause(*h) for h in self.log.chains[at]]
        need(not any(-l in clause for l in clause), "diary: a complementary pair")
        need(all(h[0] in self.held for h in self.log.chains[at]), "diary: a hint is not held")
        need(all(any(l in h for h in hints) for l in clause), "diary: a literal of no hint")
        for k, l in enumerate(self.log.added(at)):
            need(any(-l in h for h in hints[k + 1:]), "diary: a hint of no use")
        need(not any(set(c) <= set(clause) for p in self.held for c in self.log.rows[p]), "diary: a held clause is a subset")
        need(not any(l in self.given for l in clause), "diary: a given literal")
