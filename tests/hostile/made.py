"""Scripts and proofs that are made to be slow, by their size.

Each maker gives a script and the verdicts that are wanted.
"""
import dataclasses


@dataclasses.dataclass(frozen=True)
class Family:
    """A family of scripts: who makes one, its first size, the exponent that its meaning forces, whether the budget is the size, or
    else what the budget is."""

    make: object
    size: int
    forced: float = 1.0
    budgeted: bool = False
    budget: int | None = None

    def options(self, size):
        """The options of `solve` at a size."""
        budget = size if self.budgeted else self.budget
        return [] if budget is None else ["--budget", str(budget)]


def text(lines):
    return ("\n".join(lines) + "\n").encode()


def asserted(term, more=()):
    return [*more, f"(assert {term})", "(check-sat)"]


def nested(head, leaf, depth):
    """A term of so many applications, each the last argument of the one before."""
    return f"({head} " * depth + leaf + ")" * depth


def nots(n):
    return text(asserted(nested("not", "p", n), ["(declare-const p Bool)"])), ["sat"]


def deep_sums(n):
    return text(asserted(f"(= x {nested('bvadd y', 'x', n)})", [f"(declare-const {v} (_ BitVec 1))" for v in "xy"])), ["sat"]


def shared_lets(n):
    """Variables of `let`, each twice in the next: the tree of the term doubles with each."""
    opened = "".join(f"(let ((v{i + 1} (and v{i} v{i}))) " for i in range(n))
    return text(asserted(f"(let ((v0 p)) {opened}v{n}{')' * (n + 1)}", ["(declare-const p Bool)"])), ["sat"]


def wide_lets(n):
    """One `let` of many variables."""
    bound = " ".join(f"(v{i} (= x #x{i % 65536:04x}))" for i in range(n))
    return text(asserted(f"(let ({bound}) (or v0 v{n - 1}))", ["(declare-const x (_ BitVec 16))"])), ["sat"]


def shadowed_lets(n):
    """One name bound again and again."""
    return text(asserted("(let ((v (not v))) " * n + "v" + ")" * n, ["(declare-const v Bool)"])), ["sat"]


def doubling_definitions(n):
    """Definitions, each twice in the next: written out, the last is as long as 2 to the number of definitions."""
    lines = ["(declare-const x (_ BitVec 1))", "(define-fun d0 () (_ BitVec 1) x)"]
    lines += [f"(define-fun d{i + 1} () (_ BitVec 1) (bvand d{i} (bvnot d{i})))" for i in range(n)]
    return text([*lines, *asserted(f"(= d{n} #b1)")]), ["unsat"]


def called_definitions(n):
    """Definitions with a parameter, each called by the next: a call takes the steps of a term that is as deep as there were calls."""
    lines = ["(declare-const p Bool)", "(define-fun d0 ((a Bool)) Bool a)"]
    lines += [f"(define-fun d{i + 1} ((a Bool)) Bool (d{i} (not a)))" for i in range(n)]
    return text([*lines, *asserted(f"(d{n} p)")]), ["sat"]


def many_parameters(n):
    parameters = " ".join(f"(a{i} Bool)" for i in range(n))
    return text(["(declare-const p Bool)", f"(define-fun d ({parameters}) Bool (and a0 a{n - 1}))", *asserted(f"(d{' p' * n})")]), ["sat"]


def renamed_sorts(n):
    lines = ["(define-sort S0 () Bool)", *[f"(define-sort S{i + 1} () S{i})" for i in range(n)]]
    return text([*lines, f"(declare-const p S{n})", *asserted("p")]), ["sat"]


def different_words(n):
    """As many pairs as there are two of the words, under a condition that need not hold."""
    words = [f"w{i}" for i in range(n)]
    lines = ["(declare-const p Bool)", *[f"(declare-const {w} (_ BitVec 16))" for w in words]]
    return text(asserted(f"(or (not p) (distinct {' '.join(words)}))", lines)), ["sat"]


def different_literals(n):
    """The same of literals, each of which differs from the others at sight."""
    return text(asserted(f"(distinct x {' '.join(f'#x{i:04x}' for i in range(1, n))})", ["(declare-const x (_ BitVec 16))"])), ["sat"]


def chained_equalities(n):
    return text(asserted(f"(= {' '.join(['p', 'q'] * (n // 2))})", ["(declare-const p Bool)", "(declare-const q Bool)"])), ["sat"]


def wide_disjunction(n):
    names = [f"p{i}" for i in range(n)]
    lines = [f"(declare-const {p} Bool)" for p in names]
    return text([*lines, *[f"(assert (not {p}))" for p in names[1:]], *asserted(f"(or {' '.join(names)})")]), ["sat"]


def many_nodes(n):
    """Conjunctions of one declared name with the negation of each other."""
    names = [f"p{i}" for i in range(1000)]
    lines = [f"(declare-const {p} Bool)" for p in names]
    pairs = (f"(assert (or p{i % 1000} p{(i * 7 + i // 1000 + 1) % 1000} (not p{(i * 3 + i // 1000) % 1000})))" for i in range(n // 3))
    return text([*lines, *pairs, "(check-sat)"]), ["sat"]


def named_chain(n):
    """Implications under names, all of which the core needs."""
    lines = ["(set-option :produce-unsat-cores true)", *[f"(declare-const p{i} Bool)" for i in range(n + 1)]]
    lines += [f"(assert (! (=> p{i} p{i + 1}) :named a{i}))" for i in range(n)]
    return text([*lines, "(assert (! p0 :named b))", f"(assert (! (not p{n}) :named c))", "(check-sat)", "(get-unsat-core)"]), ["unsat"]


def many_assumptions(n):
    names = [f"p{i}" for i in range(n)]
    lines = ["(set-option :produce-unsat-assumptions true)", *[f"(declare-const {p} Bool)" for p in names]]
    lines += [f"(assert (or {' '.join(f'(not {p})' for p in names)}))"]
    return text([*lines, f"(check-sat-assuming ({' '.join(names)}))", "(get-unsat-assumptions)"]), ["unsat"]


def many_values(n):
    lines = ["(set-option :produce-models true)", *[f"(declare-const w{i} (_ BitVec 8))" for i in range(n)]]
    asked = " ".join(f"(bvadd w{i} #x01)" for i in range(n))
    return text([*lines, "(check-sat)", f"(get-value ({asked}))", "(get-model)"]), ["sat"]


def many_levels(n):
    lines = ["(declare-const p Bool)", *["(push 1)", "(assert p)"] * n, "(check-sat)", *["(pop 1)"] * n, "(check-sat)"]
    return text(lines), ["sat", "sat"]


def levels_at_once(n):
    """Levels without anything in them, made and taken by one command each, again and again."""
    return text([f"(push {n})", f"(pop {n})"] * 20 + ["(check-sat)"]), ["sat"]


def checks_over_a_base(n):
    """Checks of one assertion each, beside many that are popped before it."""
    lines = ["(declare-const x (_ BitVec 32))"]
    for i in range(n):
        lines += ["(push 1)", f"(assert (= x #x{i:08x}))", "(check-sat)", "(pop 1)"]
    return text(lines), ["sat"] * n


def declared_again(n):
    """One name, declared and checked again and again."""
    lines = ["(push 1)", "(declare-const p Bool)", "(assert p)", "(check-sat)", "(pop 1)"] * n
    return text(lines), ["sat"] * n


def long_numbers(n):
    """Numerals of so many digits, as a width, a value, and a number of levels."""
    digits = "9" * n
    lines = [f"(declare-const x (_ BitVec {digits}))", f"(assert (= (_ bv{digits} 8) #x00))", f"(push {digits})", "(check-sat)"]
    return text(lines), ["sat"]


def long_tokens(n):
    """A comment, a string, a quoted symbol and a simple one of so many bytes each."""
    lines = [f";{'c' * n}", f'(echo "{"s" * n}")', f"(declare-const |{'q' * n}| Bool)", f"(declare-const {'p' * n} Bool)"]
    return text([*lines, f"(assert (and |{'q' * n}| {'p' * n}))", "(check-sat)"]), ["sat"]


def many_faults(n):
    """Commands that are refused, each for a name that is like many others."""
    lines = ["(declare-const p Bool)", *[f"(assert (and p q{i}))" for i in range(n)], "(check-sat)"]
    return text(lines), ["sat"]


def joined_words(n):
    """Parts of a word of 128 bits, cut out and joined again and again."""
    lines = ["(declare-const x (_ BitVec 128))", "(define-fun d0 () (_ BitVec 128) x)"]
    for i in range(n):
        lines.append(f"(define-fun d{i + 1} () (_ BitVec 128) (concat ((_ extract 63 0) d{i}) ((_ extract 127 64) d{i})))")
    return text([*lines, *asserted(f"(= d{n} (bvnot x))")]), ["unsat"]


def divisions(n):
    """Quotients of words of 64 bits, each of names of its own, under a condition that need not hold."""
    lines = ["(declare-const p Bool)", *[f"(declare-const {v}{k} (_ BitVec 64))" for k in range(n) for v in "ab"]]
    quotients = " ".join(f"(= (bvudiv a{k} b{k}) a{k})" for k in range(n))
    return text(asserted(f"(or p {quotients})", lines)), ["sat"]


def many_diaries(n):
    """Checks over one refuted base that each end without an answer, with a budget of none."""
    lines = ["(declare-const p Bool)", "(declare-const q Bool)"]
    lines += ["(assert (or p q))", "(assert (or p (not q)))", "(assert (or (not p) q))", "(assert (or (not p) (not q)))"]
    for i in range(n):
        lines += ["(push 1)", f"(declare-const r{i} Bool)", f"(assert (or p r{i}))", "(check-sat)", "(pop 1)"]
    return text(lines), ["unknown"] * n


def pigeonholes(given, holes=10):
    """Pigeons in holes, one too many, each clause under what is given."""
    lines = [f"(declare-const p{p}h{h} Bool)" for p in range(holes + 1) for h in range(holes)]
    lines += [f"(assert (or {given} {' '.join(f'p{p}h{h}' for h in range(holes))}))" for p in range(holes + 1)]
    for h in range(holes):
        lines += [f"(assert (or {given} (not p{p}h{h}) (not p{q}h{h})))" for q in range(holes + 1) for p in range(q)]
    return lines


# So many holes that no budget that is tried finds the refutation.
HOLES = 13


def spent_diary(n):
    """A diary of as many puts as the budget, the size, lets be."""
    return text([*pigeonholes("false", HOLES), "(check-sat)"]), ["unknown"]


def diary_under_one_literal(n):
    """The same where each clause of the diary has one literal in common, of the lowest variable."""
    lines = ["(declare-const a Bool)", *pigeonholes("(not a)", HOLES), "(check-sat-assuming (a))"]
    return text(lines), ["unknown"]


FAMILIES = {
    "nots": Family(nots, 200_000),
    "deep_sums": Family(deep_sums, 20_000),
    "shared_lets": Family(shared_lets, 50_000),
    "wide_lets": Family(wide_lets, 10_000),
    "shadowed_lets": Family(shadowed_lets, 100_000),
    "doubling_definitions": Family(doubling_definitions, 10_000),
    "called_definitions": Family(called_definitions, 1_000, forced=2.0),
    "many_parameters": Family(many_parameters, 20_000),
    "renamed_sorts": Family(renamed_sorts, 50_000),
    "different_words": Family(different_words, 40, forced=2.0),
    "different_literals": Family(different_literals, 250, forced=2.0),
    "chained_equalities": Family(chained_equalities, 50_000),
    "wide_disjunction": Family(wide_disjunction, 10_000),
    "many_nodes": Family(many_nodes, 100_000),
    "named_chain": Family(named_chain, 20_000),
    "many_assumptions": Family(many_assumptions, 10_000),
    "many_values": Family(many_values, 10_000),
    "many_levels": Family(many_levels, 5_000),
    "levels_at_once": Family(levels_at_once, 50_000),
    "checks_over_a_base": Family(checks_over_a_base, 1_000),
    "declared_again": Family(declared_again, 5_000),
    "long_numbers": Family(long_numbers, 500_000),
    "long_tokens": Family(long_tokens, 2_000_000),
    "many_faults": Family(many_faults, 20_000),
    "joined_words": Family(joined_words, 1_000),
    "divisions": Family(divisions, 5),
    "many_diaries": Family(many_diaries, 2_000, budget=0),
    "spent_diary": Family(spent_diary, 4_000, budgeted=True),
    "diary_under_one_literal": Family(diary_under_one_literal, 4_000, budgeted=True),
}
