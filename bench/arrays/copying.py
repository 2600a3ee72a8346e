"""Rows of bytes that are copied, exchanged and written in two orders.

A copy has the bytes of the row that it was made of, where they do not overlap; forward and backward leave the same memory. Two rows
that are exchanged by three exclusive ors, and exchanged again, are as before. Bytes written at fixed distances from one address may
be written in any order. Where rows may overlap a copy differs, so that is `sat`.
"""
from memory import ADDRESS, Memories, literal, word


class Rows(Memories):
    """Two rows of bytes in a memory."""

    def __init__(self, n, apart=True):
        super().__init__()
        self.n, self.start = n, self.memory()
        self.one, self.other = self.row("s", n), self.row("d", n)
        if apart:
            self.apart(self.one, self.other, n)
        self.sources, self.targets = self.cells(self.one, n), self.cells(self.other, n)

    def copied(self, order):
        memory = self.start
        for k in order:
            memory = self.write(memory, self.targets[k], self.read(memory, self.sources[k]))
        return memory

    def differs_somewhere(self, memory):
        """A byte of the second row that is not that of the first at the start."""
        k = self.declare("k", word(ADDRESS))
        self.claim("(bvult k %s)" % literal(ADDRESS, self.n))
        self.claim("(not (= (select %s (bvadd d k)) (select %s (bvadd s k))))" % (memory, self.start))

    def exchanged(self, memory):
        for a, b in zip(self.sources, self.targets):
            for to, by in ((a, b), (b, a), (a, b)):
                value = self.define("mixed", "(bvxor (select %s %s) (select %s %s))" % (memory, to, memory, by))
                memory = self.write(memory, to, value)
        return memory


def copy(n, apart, verdict):
    rows = Rows(n, apart)
    rows.differs_somewhere(rows.copied(range(n)))
    return rows.script("copying", "%s_%d" % ("copy" if apart else "copy_that_overlaps", n), verdict)


def both_ways(n):
    rows = Rows(n)
    rows.claim("(not (= %s %s))" % (rows.copied(range(n)), rows.copied(reversed(range(n)))))
    return rows.script("copying", "forward_and_backward_%d" % n, "unsat")


def exchange(n):
    rows = Rows(n)
    end = rows.exchanged(rows.exchanged(rows.start))
    i = rows.declare("i", word(ADDRESS))
    rows.claim("(not (= (select %s %s) (select %s %s)))" % (end, i, rows.start, i))
    return rows.script("copying", "exchanged_twice_%d" % n, "unsat")


def orders(source, n):
    text = Memories()
    start, base = text.memory(), text.declare("b", word(ADDRESS))
    cells = text.cells(base, n)
    values = [text.declare("x%d" % k, word(8)) for k in range(n)]
    ends = []
    for _ in range(2):
        memory = start
        for k in source.sample(range(n), n):
            memory = text.write(memory, cells[k], values[k])
        ends.append(memory)
    i = text.declare("i", word(ADDRESS))
    text.claim("(not (= (select %s %s) (select %s %s)))" % (ends[0], i, ends[1], i))
    return text.script("copying", "near_writes_%d" % n, "unsat")


def scripts(source):
    for n in 4, 6:
        yield copy(n, True, "unsat")
    yield copy(8, False, "sat")
    for n in 3, 4:
        yield both_ways(n)
    for n in 2, 4:
        yield exchange(n)
    for n in 20, 32:
        yield orders(source, n)
