"""Scripts as the replayer reads them: tokens, commands, the term list and the values of terms.

Read are `declare-const` and `declare-fun`, `assert`, levels, `check-sat` and `check-sat-assuming`, with all operators of Core, of
words and of arrays, constant arrays, functions with arguments, `let`, and the names that `:named` gives. Any other chunk, and any with a fault,
leaves everything as it was.
"""
import functools
import itertools
import re
import sys

from operators import BOOL, MOST, SORTS, VALUES, Indexed, Refused, is_array, need, sort_of

sys.setrecursionlimit(100000)
sys.set_int_max_str_digits(0)


# ---- chunks and tokens

OUTSIDE = re.compile(r"[ \t\r\n]+|;[^\n]*|\)|[^ \t\r\n();]+")
INSIDE = re.compile(r'[ \t\r\n]+|;[^\n]*|(\(|\)|"(?:[^"]|"")*"(?!")|\|[^|]*\||[^ \t\r\n()";|]+)')
NUMERAL = re.compile(r"0|[1-9][0-9]*")
SYMBOL = re.compile(r"(?![0-9])[a-zA-Z0-9~!@$%^&*_+=<>.?/-]+")
QUOTED = re.compile(r"\|[^|\\]*\|")
OTHER = re.compile(r'(?:0|[1-9][0-9]*)\.[0-9]+|#x[0-9a-fA-F]+|#b[01]+|:[a-zA-Z0-9~!@$%^&*_+=<>.?/-]+|"(?:[^"]|"")*"')
RESERVED = set("""
    ! _ as BINARY DECIMAL exists HEXADECIMAL forall let match NUMERAL par STRING
    set-logic set-option get-option set-info get-info declare-const declare-fun define-fun define-sort assert push pop
    check-sat check-sat-assuming get-model get-value get-unsat-core get-unsat-assumptions echo reset reset-assertions
    exit get-assertions get-assignment get-proof declare-sort define-fun-rec define-funs-rec declare-datatype
    declare-datatypes
""".split())


def token(text):
    """A token by one spelling. A quoted symbol keeps its bars where without them it would be another token."""
    need(any(form.fullmatch(text) for form in (NUMERAL, SYMBOL, QUOTED, OTHER)), "bad token")
    plain = text[1:-1]
    return plain if QUOTED.fullmatch(text) and SYMBOL.fullmatch(plain) and plain not in RESERVED else text


def chunks(text):
    """The balanced chunks, each a list of pieces; other text is passed over."""
    at = 0
    while at < len(text):
        if text[at] != "(":
            at = OUTSIDE.match(text, at).end()
            continue
        depth, pieces = 0, []
        while not pieces or depth:
            found = INSIDE.match(text, at)
            if not found:
                return
            at = found.end()
            if found[1]:
                depth += {"(": 1, ")": -1}.get(found[1], 0)
                pieces.append(found[1])
        yield pieces


def expression(pieces):
    """The nested lists that the pieces of a balanced chunk spell."""
    stack = [[]]
    for piece in pieces:
        if piece == "(":
            stack.append([])
        elif piece == ")":
            done = stack.pop()
            stack[-1].append(done)
        else:
            stack[-1].append(token(piece))
    return stack[0][0]


# ---- terms

GROUPED = set("and or xor bvand bvor bvxor bvadd bvmul concat => = distinct".split())
# operators of proofs alone: in scripts these are names like others
UNWRITTEN = {"word", "const", "witness"}
TAKEN = RESERVED | set(SORTS) - UNWRITTEN | {"distinct"}


class Terms:
    """Different nodes, each numbered by its place: (operator, numbers, arguments)."""

    def __init__(self):
        self.nodes, self.sorts, self.number = [], [], {}

    def leaf(self, op, numbers, sort):
        return self.hold((op, numbers, ()), sort)

    def apply(self, op, numbers, args):
        return self.hold((op, tuple(numbers), tuple(args)), sort_of(op, numbers, [self.sorts[a] for a in args]))

    def hold(self, node, sort):
        if node not in self.number:
            need(len(self.nodes) < 1 << 24, "too many terms")
            self.number[node] = len(self.nodes)
            self.nodes.append(node)
            self.sorts.append(sort)
        return self.number[node]

    def cut(self, held):
        for node in self.nodes[held:]:
            del self.number[node]
        del self.nodes[held:], self.sorts[held:]

    def values(self, model):
        """The value of each term, where the model gives that of each declaration."""
        held = []
        for (op, numbers, args), sort in zip(self.nodes, self.sorts):
            given = tuple(held[a] for a in args)
            if op == "declared":
                held.append(model[numbers[0]])
            elif op == "apply":
                held.append(model[numbers[0]].at(given))
            else:
                value = VALUES[op](self.sorts[args[-1]] if args else 0, *numbers, *given)
                held.append(value if is_array(sort) else value % (1 << max(sort, 1)))
        return held


# ---- scripts

def number(text):
    need(isinstance(text, str) and NUMERAL.fullmatch(text), "no numeral")
    return int(text)


def width_of(text):
    n = number(text)
    need(1 <= n <= MOST, "width")
    return n


def is_keyword(piece):
    return isinstance(piece, str) and piece.startswith(":")


def need_symbol(name):
    need(isinstance(name, str) and (SYMBOL.fullmatch(name) or QUOTED.fullmatch(name)), "no symbol")
    need(name.strip("|") not in TAKEN, "reserved")


def levels_meant(count):
    need(len(count) < 2, "no number of levels")
    return number(count[0]) if count else 1


class Script:
    """The commands, one at a time. What has a fault or is not read is skipped, as the session does."""

    def __init__(self, text):
        self.text = text
        # of each declaration the sorts of its arguments and its own
        self.terms, self.names, self.signatures, self.asserted = Terms(), {}, [], []
        self.live, self.levels = [], []
        # the terms of names that `:named` gave, whether such may be given now, and the variables of `let`
        self.defined, self.may_name, self.bound = {}, False, {}
        # the terms that the check assumes
        self.assumed = []

    def checks(self):
        """Runs the commands up to the one that ends the run, and yields at each check."""
        for pieces in chunks(self.text):
            held, defined = len(self.terms.nodes), dict(self.defined)
            self.may_name, self.bound = False, {}
            try:
                match expression(pieces):
                    case ["declare-const", name, sort]:
                        self.declare(name, [], sort)
                    case ["declare-fun", name, [*args], sort]:
                        self.declare(name, args, sort)
                    case ["assert", e]:
                        self.may_name = True
                        t = self.truth(e)
                        self.live.append(len(self.asserted))
                        self.asserted.append(t)
                    case ["push", *count]:
                        self.push(count)
                    case ["pop", *count]:
                        self.pop(count)
                    case ["reset"] | ["reset-assertions"]:
                        self.names, self.defined, self.live, self.levels = {}, {}, [], []
                    case ["check-sat"]:
                        self.assumed = []
                        yield
                    case ["check-sat-assuming", [*es]]:
                        self.assumed = [self.truth(e) for e in es]
                        yield
                    case ["exit"]:
                        return
            except Refused:
                self.terms.cut(held)
                self.defined = defined

    def push(self, count):
        n = levels_meant(count)
        need(len(self.levels) + n <= 1000000, "level out of range")
        self.levels += [(dict(self.names), dict(self.defined), len(self.live))] * n

    def pop(self, count):
        n = levels_meant(count)
        need(n <= len(self.levels), "level out of range")
        if n:
            names, defined, live = self.levels[-n]
            self.names, self.defined, self.live = dict(names), dict(defined), self.live[:live]
            del self.levels[-n:]

    def declare(self, name, args, sort):
        self.need_new(name)
        taken, given = [self.sort(a) for a in args], self.sort(sort)
        need(not any(map(is_array, taken)) and not (args and is_array(given)), "a function of arrays")
        self.names[name] = len(self.signatures)
        self.signatures.append((taken, given))

    def sort(self, e):
        match e:
            case "Bool":
                return BOOL
            case ["_", "BitVec", width]:
                return width_of(width)
            case ["Array", index, element]:
                parts = [self.sort(index), self.sort(element)]
                need(not any(p == BOOL or is_array(p) for p in parts), "an array of no words")
                return Indexed(*parts)
        raise Refused("sort")

    def need_new(self, name):
        need_symbol(name)
        need(name not in self.names and name not in self.defined, "declared before")

    def truth(self, e):
        t = self.term(e)
        need(self.terms.sorts[t] == BOOL, "no truth value")
        return t

    def term(self, e):
        match e:
            case str():
                return self.symbol(e)
            case ["let", [_, *_] as bindings, body]:
                return self.under(bindings, body)
            case ["!", inner, _, *_]:
                return self.annotated(self.term(inner), list(e[2:]))
            case ["_", str(name), width] if name.startswith("bv"):
                return self.word(width_of(width), number(name[2:]))
            case [["as", "const", sort], element]:
                return self.constant_array(self.sort(sort), self.term(element))
            case [["_", str(name), *numbers], _, *_]:
                return self.indexed(name, [number(i) for i in numbers], [self.term(a) for a in e[1:]])
            case [str(name), _, *_]:
                return self.application(name, [self.term(a) for a in e[1:]])
        raise Refused("no term")

    def symbol(self, e):
        if e.startswith(("#x", "#b")):
            n = len(e[2:]) * (4 if e[1] == "x" else 1)
            need(n <= 128, "literal too wide")
            return self.word(n, int(e[2:], 16 if e[1] == "x" else 2))
        if e in ("true", "false"):
            return self.terms.apply(e, (), ())
        if e in self.bound or e in self.defined:
            return self.bound[e] if e in self.bound else self.defined[e]
        need(e in self.names, "unknown symbol " + e)
        args, sort = self.signatures[self.names[e]]
        need(not args, "a function alone")
        return self.terms.leaf("declared", (self.names[e],), sort)

    def under(self, bindings, body):
        outer, new = self.bound, {}
        for binding in bindings:
            need(isinstance(binding, list) and len(binding) == 2, "no binding")
            need_symbol(binding[0])
            need(binding[0] not in new, "bound twice")
            new[binding[0]] = self.term(binding[1])
        self.bound = outer | new
        t = self.term(body)
        self.bound = outer
        return t

    def annotated(self, t, attributes):
        while attributes:
            keyword = attributes.pop(0)
            need(is_keyword(keyword), "no keyword")
            if keyword == ":named":
                need(self.may_name and attributes, "no name, or none may be given")
                name = attributes.pop(0)
                self.need_new(name)
                self.defined[name] = t
            elif attributes and not is_keyword(attributes[0]):
                attributes.pop(0)
        return t

    def constant_array(self, sort, t):
        need(is_array(sort) and self.terms.sorts[t] == sort.element, "a constant array of another sort")
        return self.terms.apply("const", (sort.index,), (t,))

    def word(self, n, x):
        need(x < 1 << n, "literal too wide")
        return self.terms.apply("word", (n, x), ())

    def indexed(self, name, numbers, args):
        need(numbers and name not in UNWRITTEN, "no index, or an unknown symbol")
        turned = self.terms.sorts[args[0]]
        if name.startswith("rotate_") and numbers[0] >= 1 << 64 and not is_array(turned):
            numbers = [numbers[0] % (turned or 1), *numbers[1:]]
        return self.terms.apply(name, numbers, args)

    def application(self, name, args):
        """The term of a function or an operator, which is grouped by twos where it takes any number of arguments from two on."""
        if name in self.names and name not in self.bound and name not in self.defined:
            return self.applied(self.names[name], args)
        need(name not in UNWRITTEN, "unknown symbol " + name)
        if name not in GROUPED:
            return self.terms.apply(name, (), args)
        need(len(args) > 1, "number of arguments of " + name)
        if name == "=>":
            return functools.reduce(lambda b, a: self.two(name, a, b), reversed(args))
        if name == "=":
            return self.from_the_left("and", [self.two("=", a, b) for a, b in zip(args, args[1:])])
        if name == "distinct":
            return self.from_the_left("and", [self.apart(a, b) for a, b in itertools.combinations(args, 2)])
        return self.from_the_left(name, args)

    def applied(self, d, args):
        """The term of a declared function."""
        need(d < len(self.signatures), "no declaration")
        taken, sort = self.signatures[d]
        need(taken and taken == [self.terms.sorts[a] for a in args], "a function of other arguments")
        return self.terms.hold(("apply", (d,), tuple(args)), sort)

    def two(self, name, a, b):
        return self.terms.apply(name, (), (a, b))

    def apart(self, a, b):
        return self.terms.apply("not", (), (self.two("=", a, b),))

    def from_the_left(self, name, args):
        return functools.reduce(lambda a, b: self.two(name, a, b), args)
