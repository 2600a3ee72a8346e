#!/usr/bin/env python3
"""Checks random clauses and refutations with the built program, and compares each answer with another checker's.

usage: refutations.py [PROGRAM] [COUNT] [SEED]    (default: the program that `rt run` leaves in crates/smt_tool/out, 2000, 1)

Each pair is a CNF of 1 to 6 variables and an LRAT text for it, from a small search by cases whose every leaf is closed by
unit propagation. It has gaps between its numbers, comments, blank lines, needless hints, clauses that hold a literal beside
its opposite, and deletions. Four of five pairs are then changed at one to three places: a word, a line, or a byte of either
text. `judged` below is written from the definitions of both formats (docs/USING.md) over sets of literals, and shares nothing
with the program. For each pair the program must print the line, and end with the status, that it says. Where it says
`accepted`, no assignment of the variables may make all clauses true, by trying each.
"""
import itertools
import pathlib
import random
import re
import subprocess
import sys
import tempfile

HERE = pathlib.Path(__file__).resolve().parent
PROGRAM = HERE.parents[1] / "crates/smt_tool/out/smt_tool"
MOST = 1 << 30


class Fault(Exception):
    """A line and the name of what is wrong with it."""


# ---- the judge


def lines(text):
    parts = text.split("\n")
    return parts if parts[-1] else parts[:-1]


def words(line):
    return [w for w in re.split("[ \t\r]+", line) if w]


def number(word):
    """A whole number, with a minus before it where it is not 0; or None."""
    if not re.fullmatch("-?[0-9]+", word) or (word[0] == "-" and int(word) == 0):
        return None
    return int(word)


def clauses(text):
    """How many variables there are, and the clauses."""
    header, found, begun, last = None, [], [], 1
    for at, line in enumerate(lines(text), 1):
        last = at
        if line.startswith("%"):
            break
        if line.startswith("c"):
            continue
        held = words(line)
        if header is None:
            if held:
                header = head(at, held)
            continue
        for word in held:
            n = number(word)
            if n is None:
                raise Fault(at, "token")
            if n == 0:
                if len(found) == header[1]:
                    raise Fault(at, "count")
                found.append(frozenset(begun))
                begun = []
            elif abs(n) > header[0]:
                raise Fault(at, "literal")
            else:
                begun.append(n)
    if header is None:
        raise Fault(last, "header")
    if begun:
        raise Fault(last, "unfinished")
    if len(found) != header[1]:
        raise Fault(last, "count")
    return header[0], found


def head(at, held):
    if len(held) != 4 or held[:2] != ["p", "cnf"] or not all(re.fullmatch("[0-9]+", w) for w in held[2:]):
        raise Fault(at, "header")
    if max(map(int, held[2:])) > MOST:
        raise Fault(at, "large")
    return int(held[2]), int(held[3])


def step(at, held, variables):
    """What a line says: numbers to delete, or a number, a clause and hints."""
    numbers = [number(w) for w in held[2:]] if held[1:2] == ["d"] else [number(w) for w in held[1:]]
    if not re.fullmatch("[0-9]+", held[0]) or None in numbers or numbers[-1:] != [0]:
        raise Fault(at, "proof")
    if held[1] == "d":
        if 0 in numbers[:-1] or any(n < 0 for n in numbers):
            raise Fault(at, "proof")
        return numbers[:-1], None, None
    cut = numbers.index(0)
    clause, hints = numbers[:cut], numbers[cut + 1 : -1]
    if cut == len(numbers) - 1 or 0 in hints or any(abs(l) > variables for l in clause):
        raise Fault(at, "proof")
    return int(held[0]), frozenset(clause), hints


def follows(table, clause, hints):
    if any(-l in clause for l in clause):
        return True
    true = {-l for l in clause}
    for hint in hints:
        if hint not in table:
            return False
        left = {l for l in table[hint] if -l not in true}
        if not left:
            return True
        if len(left) > 1:
            return False
        true |= left
    return False


def judged(cnf, proof):
    """The line and the status of both texts."""
    try:
        variables, found = clauses(cnf)
        table, highest, empty, at = dict(enumerate(found, 1)), len(found), frozenset() in found, 0
        for at, line in enumerate(lines(proof), 1):
            held = words(line)
            if line.startswith("c") or not held:
                continue
            name, clause, hints = step(at, held, variables)
            if clause is None:
                for old in name:
                    table.pop(old, None)
                continue
            if name <= highest:
                raise Fault(at, "order")
            if any(h < 0 for h in hints):
                raise Fault(at, "rat")
            if not follows(table, clause, hints):
                raise Fault(at, "chain")
            table[name], highest, empty = clause, name, empty or not clause
        if not empty:
            raise Fault(at + 1, "empty")
    except Fault as fault:
        return "refused line %d rule %s\n" % fault.args, 1
    return "accepted\n", 0


# ---- pairs


def propagated(found, true):
    """The numbers of clauses by which literals follow, in order, and that of a clause that is false, if any."""
    true, used, more = set(true), [], True
    while more:
        more = False
        for name, clause in found.items():
            left = {l for l in clause if -l not in true}
            if not left:
                return used + [name], True
            if len(left) == 1 and not left <= true:
                true |= left
                used.append(name)
                more = True
    return used, False


class Search:
    """Refutes clauses by cases, and writes each clause that it closes; it stops where they have a model."""

    def __init__(self, rng, variables, found):
        self.rng, self.variables, self.found = rng, variables, dict(enumerate(found, 1))
        self.highest, self.text = len(found), []

    def add(self, clause, hints):
        self.highest += self.rng.choice([1, 1, 1, 3])
        for extra in self.noise():
            self.text.append(extra)
        hints = hints + ([self.rng.randint(1, self.highest)] if self.rng.random() < 0.05 else [])
        self.text.append(" ".join(map(str, [self.highest, *clause, 0, *hints, 0])))
        self.found[self.highest] = frozenset(clause)
        return self.highest

    def noise(self):
        roll = self.rng.random()
        if roll < 0.04:
            yield self.rng.choice(["", "c a comment", " \t", "\r"])
        elif roll < 0.07:
            v = self.rng.randint(1, self.variables)
            yield "%d %d %d 0 0" % (self.highest, v, -v)
            self.highest += 1
        elif roll < 0.1:
            yield "1 d %d 0" % (self.highest + 50)

    def close(self, taken):
        hints, false = propagated(self.found, taken)
        if false:
            return self.add([-l for l in taken], hints)
        open_ = [v for v in range(1, self.variables + 1) if v not in map(abs, taken)]
        if not open_:
            return None
        v = self.rng.choice(open_) * self.rng.choice([1, -1])
        left = self.close(taken + [v])
        right = left and self.close(taken + [-v])
        if not right:
            return None
        both = self.add([-l for l in taken], [left, right])
        if self.rng.random() < 0.5:
            self.text.append("%d d %d %d 0" % (both, left, right))
            self.found.pop(left), self.found.pop(right)
        return both


def pair(rng):
    variables = rng.randint(1, 6)
    found = []
    for _ in range(rng.randint(1, 7 * variables)):
        size = min(variables, rng.choice([1, 2, 2, 2, 3, 3]))
        found.append([v * rng.choice([1, -1]) for v in rng.sample(range(1, variables + 1), size)])
    search = Search(rng, variables, found)
    search.close([])
    cnf = "p cnf %d %d\n" % (variables, len(found)) + "".join(" ".join(map(str, c + [0])) + "\n" for c in found)
    return cnf, "".join(line + "\n" for line in search.text)


def changed(rng, text):
    """The text with a word, a line or a byte changed."""
    rows = text.split("\n")
    at = rng.randrange(len(rows))
    parts = rows[at].split(" ")
    where = rng.randrange(len(parts))
    kind = rng.randrange(8)
    if kind == 0:
        parts[where] = str(rng.randint(-7, 30))
    elif kind == 1:
        del parts[where]
    elif kind == 2:
        parts.insert(where, rng.choice(["0", "1", "-2", "d", "x", "c", "%", "-0", "007"]))
    elif kind == 3:
        parts[where] = parts[where][1:] if parts[where].startswith("-") else "-" + parts[where]
    elif kind == 4:
        rng.shuffle(parts)
    rows[at] = " ".join(parts)
    if kind == 5:
        del rows[at]
    elif kind == 6:
        other = rng.randrange(len(rows))
        rows[at], rows[other] = rows[other], rows[at]
    text = "\n".join(rows)
    if kind == 7 and text:
        cut = rng.randrange(len(text))
        text = text[:cut] + rng.choice(["", " ", "\n", "0", "%", "c"]) + text[cut + 1 :]
    return text


def has_model(cnf):
    variables, found = clauses(cnf)
    return any(
        all(any((l > 0) == values[abs(l) - 1] for l in clause) for clause in found)
        for values in itertools.product([False, True], repeat=variables)
    )


def main():
    program = sys.argv[1] if len(sys.argv) > 1 else PROGRAM
    count = int(sys.argv[2]) if len(sys.argv) > 2 else 2000
    rng = random.Random(int(sys.argv[3]) if len(sys.argv) > 3 else 1)
    different, told = 0, {}
    with tempfile.TemporaryDirectory() as folder:
        proof = pathlib.Path(folder) / "proof"
        for _ in range(count):
            cnf, text = pair(rng)
            for _ in range(rng.choice([0, 1, 1, 2, 3])):
                if rng.random() < 0.25:
                    cnf = changed(rng, cnf)
                else:
                    text = changed(rng, text)
            proof.write_text(text, newline="")
            ran = subprocess.run([program, "lrat", str(proof)], input=cnf.encode(), capture_output=True, timeout=60)
            wanted = judged(cnf, text)
            told[wanted[0].split()[-1]] = told.get(wanted[0].split()[-1], 0) + 1
            if (ran.stdout.decode(), ran.returncode) != wanted or (wanted[1] == 0 and has_model(cnf)):
                different += 1
                print("%r\n%r\nwanted %r, got %r %d" % (cnf, text, wanted, ran.stdout, ran.returncode))
    print("%d pairs (%s), %d different" % (count, ", ".join("%s %d" % t for t in sorted(told.items())), different))
    return 1 if different or not count else 0


if __name__ == "__main__":
    sys.exit(main())
