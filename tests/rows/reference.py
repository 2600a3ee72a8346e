#!/usr/bin/env python3
"""A slow second reader of proof files, written apart from the program.

usage: reference.py SCRIPT PROOF

Reads a script (declare-const, declare-fun, assert, push, pop, reset, check-sat, check-sat-assuming, exit, with all operators of
Core, of words and of arrays, constant arrays, functions with arguments, `let` and `:named`), and the proof file that was written for it, in either
format, and replays every line by the rules of the format. Prints the verdict of each
record and `accepted N`, or `refused line L: why`. It shares no code with the solver or its checker. terms.py reads the
script, operators.py has the sorts and values of terms, circuits.py the gates of each operator, rules.py the rules of rewriting,
accesses.py the lemmas on functions and arrays, diaries.py the diaries of searches.
"""
import re
import sys

import accesses
import rules
from circuits import CIRCUITS, TRUE, Circuit
from diaries import Diary, given
from operators import BOOL, NUMBERS, SORTS, Array, Refused, Table, is_array, need, zero_of
from terms import NUMERAL, Script

# By which rule a line of this kind is refused, but for those that are no lines.
RULES = {
    "t": "node", "f": "leaf", "e": "encode", "r": "rewrite", "s": "selector", "q": "equal", "l": "lemma", "c": "chain",
    "d": "delete", "sat": "sat", "unsat": "unsat", "unknown": "diary",
}


class BadLine(Refused):
    """The first bad line, and the rule by which it is one."""

    def __init__(self, line, rule, why):
        super().__init__("line %d: %s" % (line, why))
        self.line, self.rule = line, rule


# ---- the log

class Log:
    """The clauses of each entry, the bits and the images of terms, their equalities and the selectors of assertions."""

    def __init__(self, script, version=1):
        self.script, self.terms, self.format = script, script.terms, version
        self.next, self.bits, self.images, self.equalities, self.selectors = 2, {}, {}, {}, {}
        self.rows = [[[1]]]
        # the declared constants with `f` lines, the hints of each chain by its position, and the last position of a step that
        # is none of a search
        self.leaves, self.chains, self.built = [], {}, -1
        # the positions of lemmas, and those that were deleted
        self.lemmas, self.deleted = set(), set()

    def node(self, t):
        need(t < len(self.terms.nodes), "no such term")
        return self.terms.nodes[t]

    def new_node(self, t):
        need(t not in self.bits, "it has bits")
        return self.node(t)

    def build(self, clauses):
        """One position more, of a step that is none of a search."""
        self.built = len(self.rows)
        self.rows.append(clauses)

    # ---- terms, bits and selectors

    def term(self, op, numbers, args):
        for a in args:
            self.node(a)
        held = len(self.terms.nodes)
        t = self.script.applied(*numbers, args) if op == "apply" else self.terms.apply(op, numbers, args)
        need(t == held, "t: a term that is held")
        self.build([])

    def leaf(self, t):
        op, _, args = self.new_node(t)
        sort = self.terms.sorts[t]
        of_arrays = op == "=" and is_array(self.terms.sorts[args[0]])
        need(op in ("declared", "select", "apply", "witness") or of_arrays, "f: a term that has a circuit, or has none")
        need(not is_array(sort), "f: an array")
        width = 1 if sort == BOOL else sort
        if op == "declared":
            self.leaves.append(t)
        self.bits[t] = list(range(self.next, self.next + width))
        self.next += width
        self.build([])

    def encode(self, t):
        op, numbers, args = self.new_node(t)
        need(op in CIRCUITS and all(a in self.bits for a in args), "e: no circuit, or arguments without bits")
        circuit = Circuit(self.next)
        self.bits[t] = CIRCUITS[op](circuit, *numbers, *(self.bits[a] for a in args))
        self.next = circuit.next
        self.build(circuit.clauses)

    def rewrite(self, rule, t, u):
        rules.rewrite(self, rule, t, u)
        self.build([])

    def selector(self, a):
        need(a < len(self.script.asserted), "s: no such assertion")
        t = self.script.asserted[a]
        need(t in self.bits and a not in self.selectors.values(), "s: no bit, or a selector twice")
        self.selectors[self.next] = a
        self.build([[-self.next, self.bits[t][0]]])
        self.next += 1

    # ---- equalities and lemmas

    def equal(self, t, u):
        self.node(u)
        need(t < u and self.terms.sorts[t] == self.terms.sorts[u], "q: no lower term first, or two sorts")
        need(t in self.bits and u in self.bits, "q: a term without bits")
        need((t, u) not in self.equalities, "q: an equality twice")
        circuit = Circuit(self.next)
        self.equalities[t, u] = circuit.equal(self.bits[t], self.bits[u])
        self.next = circuit.next
        self.rows.append(circuit.clauses)

    def equality(self, t, u):
        """The literal that tells whether two terms are equal."""
        if t == u:
            return TRUE
        need((min(t, u), max(t, u)) in self.equalities, "l: no equality of %d and %d" % (t, u))
        return self.equalities[min(t, u), max(t, u)]

    def truth(self, t):
        """The literal of a Bool."""
        need(t in self.bits and self.terms.sorts[t] == BOOL, "l: %d has no truth value" % t)
        return self.bits[t][0]

    def lemma(self, clause):
        self.lemmas.add(len(self.rows))
        self.rows.append([clause])

    # ---- deletions

    def delete(self, places):
        """The places hold no clause any more. All of them are looked at first, so that none goes where one may not."""
        need(len(set(places)) == len(places), "d: a place twice")
        for p in places:
            need(p in self.lemmas or p in self.chains, "d: no lemma and no chain")
            need(p not in self.deleted, "d: a place that was deleted before")
        self.deleted.update(places)

    # ---- chains

    def clause(self, pos, part):
        need(pos < len(self.rows) and part < len(self.rows[pos]), "no such clause")
        need(pos not in self.deleted, "the clause was deleted")
        return self.rows[pos][part]

    def chain(self, clause, hints):
        need(all(abs(l) < self.next for l in clause), "c: no such variable")
        if any(-l in clause for l in clause):
            need(not hints, "c: hints beside a complementary pair")
        else:
            self.propagated(clause, hints)
        self.chains[len(self.rows)] = hints
        self.rows.append([clause])

    def propagated(self, clause, hints):
        """The literals that the hints before the last make true, one after the other, where the clause is false."""
        need(hints, "c: no hint")
        true, added = {-l for l in clause}, []
        for k, h in enumerate(hints):
            still_open = {l for l in self.clause(*h) if -l not in true}
            if k + 1 == len(hints):
                need(not still_open, "c: the last hint is not false")
            else:
                need(len(still_open) == 1, "c: a hint is not unit")
                added += still_open
                true |= still_open
        return added

    def added(self, at):
        """The literals that a chain's hints before the last make true."""
        return self.propagated(self.rows[at][0], self.chains[at])


# ---- the proof

class Lines:
    """The lines of a proof, and the number of the one that was taken last."""

    def __init__(self, text):
        *self.whole, self.rest = text.split("\n")
        self.at = 0

    def are_left(self):
        return self.at < len(self.whole) or (self.at == len(self.whole) and self.rest != "")

    def take(self):
        there = self.are_left()
        self.at += 1
        need(there, "end")
        need(self.at <= len(self.whole), "line: it is unfinished")
        return self.whole[self.at - 1]


def numbers_of(words, count, bits=64):
    need(len(words) == count and all(NUMERAL.fullmatch(w) for w in words), "line: other numbers are due")
    numbers = [int(w) for w in words]
    need(all(n < 1 << bits for n in numbers), "line: too great a number")
    return numbers


def literals_of(words):
    variables = numbers_of([w.removeprefix("-") for w in words], len(words))
    need(0 not in variables, "line: no variable")
    return [-x if w.startswith("-") else x for w, x in zip(words, variables)]


def step(log, kind, words):
    """A line that adds to the log, or deletes places of it."""
    need(kind in RULES, "line: unknown kind")
    match kind, words:
        case "t", [op, *rest]:
            new_term(log, op, rest)
        case "c", _:
            need("0" in words, "line: a clause without an end")
            end = words.index("0")
            log.chain(literals_of(words[:end]), [numbers_of(w.split("."), 2) for w in words[end + 1:]])
        case "d", _:
            need(log.format == 2 and words, "line: no deletion")
            log.delete(numbers_of(words, len(words)))
        case "r", _:
            log.rewrite(*numbers_of(words, 3))
        case "q", _:
            log.equal(*numbers_of(words, 2))
        case "l", ["c", *terms]:
            log.lemma(accesses.congruence(log, *numbers_of(terms, 2)))
        case "l", ["w", *terms]:
            log.lemma(accesses.difference(log, *numbers_of(terms, 1)))
        case "l", ["a", *both]:
            need(both.count("/") == 1, "line: not two accesses")
            end = both.index("/")
            log.lemma(accesses.agreement(log, *(access_of(path) for path in (both[:end], both[end + 1:]))))
        case "f" | "e" | "s", _:
            {"f": log.leaf, "e": log.encode, "s": log.selector}[kind](*numbers_of(words, 1))
        case _:
            raise Refused("line: other words are due")


def new_term(log, op, rest):
    need(op == "apply" or op in SORTS, "line: unknown operator")
    count = 1 if op == "apply" else NUMBERS.get(op, 0)
    numbers = numbers_of(rest[:count], count, 128 if op == "word" else 64)
    log.term(op, numbers, numbers_of(rest[count:], len(rest) - count))


def access_of(words):
    """The numbers of a start, and the moves, each a letter and a number."""
    need(words, "line: no access")
    start, *moves = words
    need(len(moves) % 2 == 0 and set(moves[::2]) <= set("wteq"), "line: no moves")
    parts = start.split("@")
    return numbers_of(parts, min(len(parts), 2)), list(zip(moves[::2], numbers_of(moves[1::2], len(moves) // 2)))


# ---- records

def record(log, limits, kind, words, lines):
    if kind == "unknown":
        return unknown_record(log, limits, *numbers_of(words, 3), lines)
    (n,) = numbers_of(words, 1)
    if kind == "sat":
        sat_record(log.script, n, lines)
    else:
        live, against = log.script.live, {-log.bits[t][0] for t in log.script.assumed if t in log.bits}
        need(all(l in against or l < 0 and log.selectors.get(-l) in live for l in log.clause(n, 0)), "unsat: another literal")


DIGITS = re.compile(r"#b[01]+")


def need_form(words):
    """The words have the form of a value."""
    kind, *rest = words
    if kind == "a":
        need(len(rest) % 2 == 1 and all(DIGITS.fullmatch(w) for w in rest), "line: no array")
    else:
        need(rest if kind == "f" else not rest, "line: no value")
        scalars = rest if kind == "f" else words
        need(all(w in ("true", "false") or DIGITS.fullmatch(w) for w in scalars), "line: no value")


def value_of(word, sort):
    if sort == BOOL:
        need(word in ("true", "false"), "sat: no truth value")
        return int(word == "true")
    need(DIGITS.fullmatch(word) and len(word) == sort + 2, "sat: no word of its width")
    return int(word[2:], 2)


def rising(rows):
    """The rows, each a key and a value, whose keys rise."""
    need(all(a < b for (a, _), (b, _) in zip(rows, rows[1:])), "sat: rows that do not rise")
    return rows


def array_of(words, sort):
    need(words[0] == "a", "sat: no array")
    default, *rest = words[1:]
    entries = [(value_of(i, sort.index), value_of(v, sort.element)) for i, v in zip(rest[::2], rest[1::2])]
    return Array(sort.index, value_of(default, sort.element), rising(entries))


def table_of(words, args, sort):
    need(words[0] == "f", "sat: no function")
    default, *rest = words[1:]
    size = len(args) + 1
    need(len(rest) % size == 0, "sat: too few values in a row")
    rows = [[value_of(*cell) for cell in zip(rest[k:k + size], [*args, sort])] for k in range(0, len(rest), size)]
    return Table(value_of(default, sort), rising([(tuple(given), v) for *given, v in rows]))


def meaning_of(words, args, sort):
    if args:
        return table_of(words, args, sort)
    if is_array(sort):
        return array_of(words, sort)
    need(len(words) == 1, "sat: no truth value and no word")
    return value_of(words[0], sort)


def sat_record(script, count, lines):
    live = sorted(script.names.values())
    need(count == len(live), "sat: not every live declaration")
    model = [zero_of(*signature) for signature in script.signatures]
    for d in live:
        kind, *words = lines.take().split(" ")
        need(kind == "v" and len(words) > 1, "line: a value is due")
        (declared,) = numbers_of(words[:1], 1)
        need_form(words[1:])
        need(declared == d, "sat: another value is due")
        model[d] = meaning_of(words[1:], *script.signatures[d])
    values = script.terms.values(model)
    need(all(values[script.asserted[a]] == 1 for a in script.live), "sat: an assertion is false")
    need(all(values[t] == 1 for t in script.assumed), "sat: an assumption is false")


def unknown_record(log, limits, n, start, count, lines):
    depth, budget = limits
    diary = Diary(log, given(log, depth, n), start)
    need(count > 0, "diary: not spent")
    for _ in range(count):
        kind, *words = lines.take().split(" ")
        need(kind in ("=", "+", "-"), "line: no line of a diary")
        diary.line(kind, *numbers_of(words, 1))
    need(kind == "+" and diary.puts == budget + 1, "diary: not spent")


# ---- whole proofs

def limits_of(header):
    """The format, the most split variables and the budget."""
    match header.split(" "):
        case ["smt_proof", "1" | "2" as version, "cubes", depth, "budget", budget]:
            depth, budget = numbers_of([depth, budget], 2)
            need(depth <= 10 and budget <= 1000000000, "header")
            return int(version), depth, budget
    raise Refused("header")


def judged(lines, rule, judge):
    """What a part of the proof gives, or its bad line. What has no form of a line is refused by another rule than the part's."""
    try:
        return judge()
    except Refused as why:
        told = str(why).partition(":")[0]
        raise BadLine(lines.at, rule if rule == "header" or told not in ("line", "end") else told, why) from why


def one_check(log, limits, lines):
    """The verdict of the next record, behind its steps."""
    while True:
        kind, *words = judged(lines, "line", lines.take).split(" ")
        rule = RULES.get(kind, "line")
        if kind in ("sat", "unsat", "unknown"):
            judged(lines, rule, lambda: record(log, limits, kind, words, lines))
            return kind
        judged(lines, rule, lambda: step(log, kind, words))


def replay(script_text, proof):
    """The verdicts of a proof's records and the log behind them, where it is accepted."""
    lines = Lines(proof)
    version, *limits = judged(lines, "header", lambda: limits_of(lines.take()))
    script = Script(script_text)
    log, verdicts = Log(script, version), []
    for _ in script.checks():
        verdicts.append(one_check(log, limits, lines))
    if lines.are_left():
        raise BadLine(lines.at + 1, "end", "text after the last record")
    return verdicts, log


def check(script_text, proof):
    """The verdicts of a proof's records, where it is accepted."""
    return replay(script_text, proof)[0]


def main():
    script, proof = (open(p, encoding="latin-1", newline="").read() for p in sys.argv[1:3])
    try:
        verdicts = check(script, proof)
    except Refused as why:
        print("refused", why)
        return 1
    for v in verdicts:
        print(v)
    print("accepted", len(verdicts))
    return 0


if __name__ == "__main__":
    sys.exit(main())
