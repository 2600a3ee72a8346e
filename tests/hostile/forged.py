"""Proofs that are made to be slow, by their size: no solver writes them, and the checker has to read them.

Each maker gives a script, a proof, and the lines that `check` answers.
"""
import random

from made import Family, text


def header(budget=0, kind=1):
    return f"smt_proof {kind} cubes 0 budget {budget}"


def refuted(lines, last):
    """The answers to a proof whose one check is refuted by the entry at a position."""
    return text([*lines, f"unsat {last}"]), ["unsat", "accepted 1"]


WIDTH = 128


def over_false(n):
    """A script that asserts `false`, the lines of its proof up to at least n variables from 3 on, and the next position."""
    words = [f"w{i}" for i in range(max(2, -(-n // WIDTH)))]
    lines = [f"(declare-const {w} (_ BitVec {WIDTH}))" for w in words]
    script = text([*lines, "(assert false)", f"(assert (= {' '.join(words)}))", "(check-sat)"])
    return script, [header(), "e 0", "s 0", *(f"f {i + 1}" for i in range(len(words)))], len(words) + 3


def literals(start, count):
    return " ".join(map(str, range(start, start + count)))


def long_clause(n):
    """One clause of so many literals, and one that follows from it and unit clauses of all of them."""
    script, lines, at = over_false(n)
    units = [f"c -2 -{v} 0 0.0 2.0" for v in range(3, n + 3)]
    whole, last = at + n, at + n + 1
    hints = " ".join(f"{at + i}.0" for i in range(n))
    lines += [*units, f"c -2 {literals(3, n)} 0 0.0 2.0", f"c -2 0 {hints} {whole}.0"]
    return script, *refuted(lines, last)


def many_long_clauses(n):
    """Clauses of a thousand literals, each a chain from the one before."""
    script, lines, at = over_false(1000)
    lines.append(f"c -2 {literals(3, 1000)} 0 0.0 2.0")
    lines += [f"c -2 {literals(3, 1000)} 0 {at + i}.0" for i in range(n)]
    lines.append("c -2 0 0.0 2.0")
    return script, *refuted(lines, at + n + 1)


def hints_to_one_clause(n):
    """One chain with so many hints that are one clause of as many literals, of which one is not false."""
    script, lines, at = over_false(n + 1)
    lines.append(f"c -2 {literals(3, n + 1)} 0 0.0 2.0")
    lines.append(f"c -2 {literals(4, n)} 0 {f'{at}.0 ' * n}0.0 2.0")
    lines.append("c -2 0 0.0 2.0")
    return script, *refuted(lines, at + 2)


def one_literal_again(n):
    """A clause that has one literal so many times, and as many chains with a hint to it."""
    script, lines, at = over_false(2)
    lines.append(f"c -2 {'3 ' * n}0 0.0 2.0")
    lines += [f"c -2 0 {at}.0 0.0 2.0"] * n
    return script, *refuted(lines, at + n)


def long_chain(n):
    """One chain of so many hints, each with a variable of its own, in an order by chance."""
    script, lines, at = over_false(n)
    lines += [f"c -2 {v} 0 0.0 2.0" for v in range(3, n + 3)]
    order = list(range(n))
    random.Random(n).shuffle(order)
    lines.append(f"c -2 0 {' '.join(f'{at + i}.0' for i in order)} 0.0 2.0")
    return script, *refuted(lines, at + n)


def clause_again(n):
    """One clause, so many times."""
    script, lines, at = over_false(2)
    lines += ["c -2 0 0.0 2.0"] * n
    return script, *refuted(lines, at + n - 1)


def deleted_clauses(n):
    """Clauses that are deleted, each after it served the next."""
    script, lines, at = over_false(2)
    lines[0] = header(kind=2)
    lines.append("c -2 0 0.0 2.0")
    for i in range(n):
        lines += [f"c -2 0 {at + i}.0", f"d {at + i}"]
    return script, *refuted(lines, at + n)


def long_number(n):
    """A record with a number of so many digits, which no line has."""
    script, lines, at = over_false(2)
    proof = text([*lines, f"unsat {'9' * n}"])
    return script, proof, [f"refused line {at + 1} rule line"]


def long_line(n):
    """A line of so many bytes that is none."""
    script, lines, at = over_false(2)
    proof = text([*lines, f"c {'-' * n} 0"])
    return script, proof, [f"refused line {at + 1} rule line"]


def large_circuits(n):
    """Quotients of words of 128 bits, each of which takes some 260,000 clauses, under a model that needs none of them."""
    lines = ["(declare-const p Bool)", *[f"(declare-const {v}{k} (_ BitVec {WIDTH}))" for k in range(n) for v in "ab"]]
    quotients = " ".join(f"(= (bvudiv a{k} b{k}) a{k})" for k in range(n))
    proof = [header(), *(line for k in range(n) for line in (f"f {4 * k + 1}", f"f {4 * k + 2}", f"e {4 * k + 3}"))]
    zero = "0" * WIDTH
    proof += [f"sat {2 * n + 1}", "v 0 true", *(f"v {k + 1} #b{zero}" for k in range(2 * n))]
    return text([*lines, f"(assert (or p {quotients}))", "(check-sat)"]), text(proof), ["sat", "accepted 1"]


SIGNS = 17


def parities(n, drops, times=1):
    """A diary of so many puts, each a clause that a parity of 17 names gives with one of their assignments, by chance, each literal
    so many times. Half of what is held is given up where that may be, or nothing ever is."""
    names = [f"l{i}" for i in range(SIGNS)]
    script = text([*(f"(declare-const {name} Bool)" for name in names), f"(assert (xor {' '.join(names)}))", "(check-sat)"])
    lines = [header(n - 1), *(f"f {i}" for i in range(SIGNS)), *(f"e {SIGNS + i}" for i in range(SIGNS - 1)), "s 0"]
    first = 2 * SIGNS + 1
    diary, held = [], []
    for number, bits in enumerate(random.Random(n).sample(range(1 << SIGNS), n)):
        lines.append(parity_chain([bits >> i & 1 == 1 for i in range(SIGNS)], times))
        diary.append(f"+ {first + number}")
        held.append(first + number)
        if drops and (number + 1) % 2000 == 0 and number + 1 < n:
            half = len(held) // 2
            diary += [f"- {at}" for at in held[:half]]
            held = held[half:]
    proof = text([*lines, f"unknown 0 {first} {len(diary)}", *diary])
    return script, proof, ["unknown", "accepted 1"]


def parity_chain(values, times):
    """The chain of the clause that an assignment of the names gives: name i is variable 2 + i, the parity of the first k + 1 names
    is variable 18 + k, and the entry of its gate is 17 + k."""
    clause = [(-(2 + i) if value else 2 + i) for i, value in enumerate(values)]
    hints, before = [], values[0]
    for k in range(1, SIGNS):
        gate = before != values[k]
        part = {(False, False): 0, (True, True): 1, (True, False): 2, (False, True): 3}[before, values[k]]
        hints.append(f"{SIGNS + k}.{part}")
        before = gate
    whole = SIGNS + 1 + SIGNS - 1
    clause.append(whole if before else -whole)
    return f"c {' '.join(map(str, clause * times))} 0 {' '.join(hints)}"


def diary_with_drops(n):
    """A diary of so many puts that gives up half of what it holds at each 2,000."""
    return parities(n, drops=True)


def diary_without_drops(n):
    """A diary of so many puts that gives nothing up: each put is looked for among all before it."""
    return parities(n, drops=False)


def diary_with_repeats(n):
    """The same, where each clause has its literals n / 10 times over, so that the proof grows with the square."""
    return parities(n, drops=False, times=max(1, n // 10))


def diary_taken_again(n):
    """The same, but that half of what is held is given up at each 2,000, and then taken again."""
    script, proof, answers = parities(n, drops=False)
    lines = proof.decode().splitlines()
    start = next(i for i, line in enumerate(lines) if line.startswith("unknown"))
    first = int(lines[start].split()[2])
    diary = []
    for number, line in enumerate(lines[start + 1:]):
        diary.append(line)
        if (number + 1) % 2000 == 0 and number + 1 < n:
            some = range(first, first + (number + 1) // 2)
            diary += [*(f"- {at}" for at in some), *(f"= {at}" for at in some)]
    lines[start] = f"unknown 0 {first} {len(diary)}"
    return script, text([*lines[:start + 1], *diary]), answers


FAMILIES = {
    "long_clause": Family(long_clause, 50_000),
    "many_long_clauses": Family(many_long_clauses, 500),
    "hints_to_one_clause": Family(hints_to_one_clause, 5_000, forced=2.0),
    "one_literal_again": Family(one_literal_again, 5_000, forced=2.0),
    "long_chain": Family(long_chain, 50_000),
    "clause_again": Family(clause_again, 100_000),
    "deleted_clauses": Family(deleted_clauses, 50_000),
    "long_number": Family(long_number, 2_000_000),
    "long_line": Family(long_line, 2_000_000),
    "large_circuits": Family(large_circuits, 5),
    "diary_with_drops": Family(diary_with_drops, 8_000),
    "diary_without_drops": Family(diary_without_drops, 2_000, forced=2.0),
    "diary_with_repeats": Family(diary_with_repeats, 400, forced=2.0),
    "diary_taken_again": Family(diary_taken_again, 2_000, forced=2.0),
}
