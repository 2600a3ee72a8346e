"""Inversion of a small hash: a message whose hash is the one that is asked for.

The hashes are of two kinds over words of 32 bits: one adds, rotates and takes exclusive ors, the other multiplies by an odd
word and folds. The message has so few free bits that all its hashes are computed here. So a hash that some message has is
`sat`, one that none has is `unsat`.
"""
import script

W = 32
MASK = (1 << W) - 1


class Mix:
    """A round of a hash, as a number and as a term."""

    def __init__(self, source, kind):
        self.kind = kind
        self.word = source.randrange(1, 1 << W, 2)
        self.turn = source.randrange(5, 27)

    def of(self, h):
        if self.kind == "products":
            h = h * self.word & MASK
            return h ^ h >> self.turn
        h = h + self.word & MASK
        return h ^ (h << self.turn | h >> W - self.turn) & MASK

    def term(self, h):
        if self.kind == "products":
            return "(let ((v (bvmul %s %s))) (bvxor v (bvlshr v %s)))" % (h, script.literal(W, self.word), script.literal(W, self.turn))
        return "(let ((v (bvadd %s %s))) (bvxor v ((_ rotate_left %d) v)))" % (h, script.literal(W, self.word), self.turn)


class Hash:
    """Each round takes the message in by an exclusive or or a sum, and mixes."""

    def __init__(self, source, kind, rounds):
        self.mixes = [Mix(source, kind) for _ in range(rounds)]
        self.start = source.randrange(1 << W)

    def of(self, message):
        h = self.start
        for k, mix in enumerate(self.mixes):
            h = mix.of(h ^ message if k % 2 == 0 else h + message & MASK)
        return h

    def lines(self, message):
        """The definitions of the words between the rounds, and the name of the last."""
        h = script.literal(W, self.start)
        lines = []
        for k, mix in enumerate(self.mixes):
            lines.append("(define-fun h%d () (_ BitVec 32) %s)\n" % (k, mix.term("(%s %s %s)" % ("bvxor" if k % 2 == 0 else "bvadd", h, message))))
            h = "h%d" % k
        return lines, h


def of_size(source, kind, rounds, free, found):
    """A script that asks for a message of so many free bits."""
    hashed = Hash(source, kind, rounds)
    hashes = {hashed.of(message) for message in range(1 << free)}
    wanted = hashed.of(source.randrange(1 << free))
    while not found and wanted in hashes:
        wanted = source.randrange(1 << W)
    lines, last = hashed.lines("m")
    head = [script.declared("m", W), "(assert (bvult m %s))\n" % script.literal(W, 1 << free)]
    asked = ["(assert (= %s %s))\n" % (last, script.literal(W, wanted))]
    return script.checked("hashes", "%s_%d_rounds_%d_bits_%s" % (kind, rounds, free, "found" if found else "none"), head + lines + asked, "sat" if found else "unsat")


def scripts(source):
    for kind, rounds, free in ("turns", 2, 12), ("turns", 4, 12), ("turns", 6, 14), ("products", 1, 12), ("products", 2, 10), ("products", 3, 10):
        for found in True, False:
            yield of_size(source, kind, rounds, free, found)
