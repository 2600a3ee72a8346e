"""A queue in a ring of cells beside its model, a queue that is moved up by one cell whenever a word is taken.

Both begin without a word, in memories of any content, and are handed the same words and questions; in some step what they answer
differs. Where the ring forgets that it is full they do, which needs as many steps as it has cells, and one more.
"""
from memory import Text, array, joined, literal, word


class Queue(Text):
    """Both queues, of 2^k cells, step by step."""

    def __init__(self, k, width, careless):
        super().__init__()
        self.k, self.width, self.careless = k, width, careless
        self.ring, self.model = (self.declare(name, array(k, width)) for name in ("ring", "model"))
        self.head, self.tail = literal(k, 0), literal(k, 0)
        self.count, self.held = literal(k + 1, 0), literal(k + 1, 0)

    def choice(self, kind, condition, one, other):
        return self.define(kind, "(ite %s %s %s)" % (condition, one, other))

    def put(self, asked, data):
        """A word is taken in where there is room; the careless ring counts on and takes it in all the same."""
        k, full = self.k, literal(self.k + 1, 1 << self.k)
        room = "(and %s (bvult %%s %s))" % (asked, full)
        ring = self.define("room", asked if self.careless else room % self.count)
        model = self.define("space", room % self.held)
        self.ring = self.choice("ring", ring, "(store %s %s %s)" % (self.ring, self.tail, data), self.ring)
        self.tail = self.choice("tail", ring, "(bvadd %s %s)" % (self.tail, literal(k, 1)), self.tail)
        self.count = self.choice("count", room % self.count, "(bvadd %s %s)" % (self.count, literal(k + 1, 1)), self.count)
        at = "((_ extract %d 0) %s)" % (k - 1, self.held)
        self.model = self.choice("model", model, "(store %s %s %s)" % (self.model, at, data), self.model)
        self.held = self.choice("held", model, "(bvadd %s %s)" % (self.held, literal(k + 1, 1)), self.held)

    def take(self, asked):
        """A word is given where there is one; whether the answers differ."""
        k, none = self.k, literal(self.k + 1, 0)
        given, other = (self.define("some", "(not (= %s %s))" % (count, none)) for count in (self.count, self.held))
        answers = [self.choice("answer", some, "(select %s %s)" % (memory, at), literal(self.width, 0))
                   for some, memory, at in ((given, self.ring, self.head), (other, self.model, literal(k, 0)))]
        taken, moved = (self.define("taken", "(and %s %s)" % (asked, some)) for some in (given, other))
        self.head = self.choice("head", taken, "(bvadd %s %s)" % (self.head, literal(k, 1)), self.head)
        self.count = self.choice("count", taken, "(bvsub %s %s)" % (self.count, literal(k + 1, 1)), self.count)
        up = self.model
        for cell in range((1 << k) - 1):
            up = self.define("up", "(store %s %s (select %s %s))" % (up, literal(k, cell), self.model, literal(k, cell + 1)))
        self.model = self.choice("model", moved, up, self.model)
        self.held = self.choice("held", moved, "(bvsub %s %s)" % (self.held, literal(k + 1, 1)), self.held)
        return self.define("differ", "(not (= %s %s))" % tuple(answers))


def beside_its_model(k, width, steps, careless=False):
    queue, differ = Queue(k, width, careless), []
    for n in range(steps):
        put, take = (queue.declare("%s%d" % (name, n), "Bool") for name in ("put", "take"))
        queue.put(put, queue.declare("data%d" % n, word(width)))
        differ.append(queue.take(take))
    queue.claim(joined("or", differ))
    name = "%s_of_%d_cells_%d_steps" % ("careless" if careless else "ring", 1 << k, steps)
    return queue.script("queues", name, "sat" if careless else "unsat")


def scripts(source):
    for steps in 5, 7, 9:
        yield beside_its_model(2, 8, steps)
    yield beside_its_model(3, 8, 6)
    yield beside_its_model(2, 8, 6, careless=True)
    yield beside_its_model(3, 8, 10, careless=True)
