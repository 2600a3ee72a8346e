"""Networks that sort a row of bytes in memory, by comparing and exchanging two cells at a time.

A row is sorted afterwards; whatever stood in it stands there still; two networks leave the same memory. A network without its last
comparison leaves some rows unsorted, so that is `sat`.
"""
from memory import ADDRESS, Memories, joined, literal, word


def bubble(n):
    return [(k, k + 1) for last in range(n - 1, 0, -1) for k in range(last)]


def selection(n):
    return [(k, j) for k in range(n) for j in range(k + 1, n)]


class Row(Memories):
    """A row of bytes in a memory."""

    def __init__(self, n):
        super().__init__()
        self.base, self.start = self.declare("s", word(ADDRESS)), self.memory()
        self.at = self.cells(self.base, n)

    def exchanged(self, memory, k, j):
        """The memory with the lesser of two cells first."""
        x, y = self.read(memory, self.at[k]), self.read(memory, self.at[j])
        turned = self.write(self.write(memory, self.at[k], y), self.at[j], x)
        return self.chosen("(bvult %s %s)" % (y, x), turned, memory)

    def through(self, network):
        memory = self.start
        for k, j in network:
            memory = self.exchanged(memory, k, j)
        return memory

    def unsorted(self, memory):
        cells = [self.read(memory, a) for a in self.at]
        self.claim(joined("or", ["(bvult %s %s)" % (y, x) for x, y in zip(cells, cells[1:])]))


def sorted_by(name, network, n, verdict="unsat"):
    row = Row(n)
    row.unsorted(row.through(network))
    return row.script("sorting", "%s_%d" % (name, n), verdict)


def kept(n):
    """Some byte of the row stands nowhere in it afterwards."""
    row = Row(n)
    value = row.read(row.start, row.define("of", "(bvadd %s %s)" % (row.base, row.declare("k", word(ADDRESS)))))
    row.claim("(bvult k %s)" % literal(ADDRESS, n))
    end = row.through(bubble(n))
    for a in row.at:
        row.claim("(not (= %s %s))" % (row.read(end, a), value))
    return row.script("sorting", "bubble_keeps_%d" % n, "unsat")


def same(n):
    row = Row(n)
    row.claim("(not (= %s %s))" % (row.through(bubble(n)), row.through(selection(n))))
    return row.script("sorting", "bubble_as_selection_%d" % n, "unsat")


def scripts(source):
    for n in 3, 5, 6:
        yield sorted_by("bubble", bubble(n), n)
    for n in 4, 5:
        yield sorted_by("selection", selection(n), n)
    yield sorted_by("bubble_too_short", bubble(6)[:-1], 6, "sat")
    yield kept(4)
    for n in 3, 4:
        yield same(n)
