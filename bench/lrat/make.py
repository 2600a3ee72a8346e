#!/usr/bin/env python3
"""Writes clauses and a refutation of them of so many lines.

usage: make.py LINES SEED CNF LRAT

The clauses say that each of 1000 variables makes the next one true, that the first is true, and that the last is false. A line
adds that a random variable makes another one true, up to 60 further, by a walk over clauses that are held, of the input or added
before: 2 to 12 hints. 1000 added clauses are held; of ten lines one deletes what is older. The last line is the empty clause.
"""
import collections
import random
import sys

VARIABLES = 1000
KEPT = 1000


def clauses():
    rows = ["%d %d 0" % (-v, v + 1) for v in range(1, VARIABLES)] + ["1 0", "%d 0" % -VARIABLES]
    return "p cnf %d %d\n" % (VARIABLES, len(rows)) + "".join(row + "\n" for row in rows)


class Refutation:
    def __init__(self, rng):
        self.rng, self.highest, self.added = rng, VARIABLES + 1, collections.deque()
        self.steps = [[] for _ in range(VARIABLES + 1)]

    def walk(self):
        """A walk from a variable over held clauses: where it begins and ends, and the numbers of the clauses."""
        start = self.rng.randint(1, VARIABLES - 12)
        at, hints = start, []
        for _ in range(self.rng.randint(2, 12)):
            if at == VARIABLES or at - start > 55:
                break
            number, to = self.rng.choice(self.steps[at][-3:] + [(at, at + 1)])
            if to - start > 60:
                number, to = at, at + 1
            hints.append(number)
            at = to
        return start, at, hints

    def lines(self, count):
        old = []
        for k in range(count - 1):
            if k % 10 == 9 and old:
                yield "%d d %s 0" % (self.highest, " ".join(map(str, old)))
                old = []
                continue
            start, end, hints = self.walk()
            self.highest += 1
            self.steps[start].append((self.highest, end))
            self.added.append((start, self.highest, end))
            if len(self.added) > KEPT:
                first, number, to = self.added.popleft()
                self.steps[first].remove((number, to))
                old.append(number)
            yield "%d %d %d 0 %s 0" % (self.highest, -start, end, " ".join(map(str, hints)))
        hints = [VARIABLES] + list(range(1, VARIABLES)) + [VARIABLES + 1]
        yield "%d 0 %s 0" % (self.highest + 1, " ".join(map(str, hints)))


def main():
    if len(sys.argv) != 5:
        sys.exit(__doc__)
    with open(sys.argv[3], "w") as out:
        out.write(clauses())
    with open(sys.argv[4], "w") as out:
        out.writelines(line + "\n" for line in Refutation(random.Random(int(sys.argv[2]))).lines(int(sys.argv[1])))


if __name__ == "__main__":
    main()
