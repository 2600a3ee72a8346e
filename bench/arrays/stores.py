"""Chains of writes in two orders: words of four bytes each, at different addresses that are multiples of four.

The two orders leave one memory, which is asked of the whole and of one address; where two addresses may be one, they do not.
"""
from memory import ADDRESS, Memories, word


class Chains(Memories):
    def __init__(self, n):
        super().__init__()
        self.start = self.memory()
        self.at = [self.declare("a%d" % k, word(ADDRESS)) for k in range(n)]
        self.values = [self.declare("x%d" % k, word(32)) for k in range(n)]
        for a in self.at:
            self.claim("(= ((_ extract 1 0) %s) #b00)" % a)

    def apart(self, pairs):
        for k, j in pairs:
            self.claim("(not (= %s %s))" % (self.at[k], self.at[j]))

    def written(self, order):
        memory = self.start
        for k in order:
            for byte, cell in enumerate(self.cells(self.at[k], 4)):
                memory = self.write(memory, cell, "((_ extract %d %d) %s)" % (8 * byte + 7, 8 * byte, self.values[k]))
        return memory


def chains(source, n, whole, verdict="unsat"):
    text = Chains(n)
    pairs = [(k, j) for j in range(n) for k in range(j)]
    text.apart(pairs if verdict == "unsat" else pairs[1:])
    one, other = text.written(range(n)), text.written(source.sample(range(1, n), n - 1) + [0])
    if whole:
        text.claim("(not (= %s %s))" % (one, other))
    else:
        i = text.declare("i", word(ADDRESS))
        text.claim("(not (= (select %s %s) (select %s %s)))" % (one, i, other, i))
    return text.script("stores", "%s_%d%s" % ("whole" if whole else "one_address", n, "" if verdict == "unsat" else "_that_meet"), verdict)


def scripts(source):
    for n in 3, 4:
        yield chains(source, n, True)
    for n in 3, 5:
        yield chains(source, n, False)
    yield chains(source, 6, True, "sat")
