#!/usr/bin/env python3
"""Answers random sessions over functions and arrays with the built program, and compares each answer with trying every value and
with z3.

usage: arrays.py [PROGRAM] [COUNT] [SEED]    (default: the program that `rt run` leaves in crates/smt_tool/out, 2000, 1)

Each session declares constants of Bool, of words of 1 to 3 bits and of arrays over these, and functions of one or two arguments,
some of them under levels; then it asserts, opens and closes levels, begins anew and checks in turn, with assumptions or without, and
asks behind each check for the model, for values (of arrays too), for the core and for unsatisfiable assumptions. Of three in five the limits
or the number of workers are other than the usual ones, so that some answers are `unknown`.
The meanings of terms are written from the standard; where the names in what a check holds have few values together, each is tried.
A `sat` must have a model among them and that of its record must be one, and values must be those of the terms in it; what an
`unsat` tells as a core, or as assumptions, must have no model. z3, where it is there, must give the same verdicts, and must find
that a printed model with the values beside it makes everything true, and a printed core nothing. The replayer of tests/rows and the
program's own `check` must accept each proof file with these verdicts.
"""
import collections
import functools
import itertools
import re
import shutil
import subprocess

import words

LENGTH = 24
# Where there are more values than these, they are not tried.
MOST = 1 << 13
BOOL = 0

# A name, the sorts of its arguments and its own: BOOL, the width of a word, or a pair of an array's widths.
Declared = collections.namedtuple("Declared", "name args sort")
# The declarations and the assertions of a level; an assertion is its name or None, and a term.
Level = collections.namedtuple("Level", "declared asserted")
# What a check holds and what is asked behind it: `declared` has of each live declaration its number too.
Check = collections.namedtuple("Check", "declared asserted assumed asked questions")


# ---- sorts and values


def text_of(sort):
    if isinstance(sort, tuple):
        return "(Array %s %s)" % tuple(map(text_of, sort))
    return "(_ BitVec %d)" % sort if sort else "Bool"


@functools.lru_cache(None)
def values_of(sort):
    """All values of a sort: an array's is the row of its elements."""
    if isinstance(sort, tuple):
        return list(itertools.product(values_of(sort[1]), repeat=1 << sort[0]))
    return list(range(1 << sort)) if sort else [False, True]


def size_of(one):
    return len(values_of(one.sort)) ** len(rows_of(one.args))


@functools.lru_cache(None)
def rows_of(args):
    return list(itertools.product(*map(values_of, args)))


@functools.lru_cache(None)
def meanings_of(args, sort):
    """All meanings of a declaration; a function's is a table by its arguments."""
    if not args:
        return values_of(sort)
    return [dict(zip(rows_of(args), given)) for given in itertools.product(values_of(sort), repeat=len(rows_of(args)))]


def scalar(text):
    return text == "true" if text in ("true", "false") else int(text[2:], 2)


def meaning_in(parts, one):
    """The meaning that the words behind `v D` in a record give."""
    if one.args:
        default, size = scalar(parts[1]), len(one.args) + 1
        given = [list(map(scalar, parts[k:k + size])) for k in range(2, len(parts), size)]
        return {row: default for row in rows_of(one.args)} | {tuple(row): v for *row, v in given}
    if not isinstance(one.sort, tuple):
        return scalar(parts[0])
    held = dict(zip(map(scalar, parts[2::2]), map(scalar, parts[3::2])))
    return tuple(held.get(i, scalar(parts[1])) for i in range(1 << one.sort[0]))


def value_of(text, sort):
    """The value that an answer spells."""
    if not isinstance(sort, tuple):
        return scalar(text)
    head = "((as const %s) " % text_of(sort)
    stores = re.fullmatch(r"((?:\(store )*)%s(#b[01]+)\)((?: #b[01]+ #b[01]+\))*)" % re.escape(head), text)
    row = [scalar(stores[2])] * (1 << sort[0])
    cells = re.findall("#b[01]+", stores[3])
    for i, v in zip(cells[::2], cells[1::2]):
        row[scalar(i)] = scalar(v)
    return tuple(row)


# ---- terms


class Maker(words.Maker):
    """Random terms over declarations; a term is its text and its value as a function of the names' meanings."""

    def __init__(self, source, declared):
        self.declared = declared
        self.arrays = sorted({d.sort for d in declared if isinstance(d.sort, tuple)})
        self.widths = sorted({n for sort in self.arrays for n in sort})
        super().__init__(source, source.choice(self.widths))

    def name(self, sort):
        """A constant of the sort, or None where there is none."""
        names = [d.name for d in self.declared if d.sort == sort and not d.args]
        name = self.source.choice(names) if names else None
        return name and (name, lambda v: v[name])

    def term(self, depth, sort):
        if isinstance(sort, tuple):
            return self.array(depth, sort)
        return self.word(depth, sort) if sort else self.truth(depth)

    def application(self, depth, sort):
        """An application of a function to this sort, or None where there is none."""
        functions = [d for d in self.declared if d.sort == sort and d.args]
        return self.applied_to(depth, self.source.choice(functions)) if functions else None

    def applied_to(self, depth, one):
        args = [self.term(depth - 1, s) for s in one.args]
        return "(%s %s)" % (one.name, " ".join(t for t, _ in args)), lambda v: v[one.name][tuple(f(v) for _, f in args)]

    def compared(self, depth, make):
        op, parts = self.source.choice(["=", "distinct"]), [make(depth - 1) for _ in range(self.source.choice([2, 2, 2, 3]))]
        return "(%s %s)" % (op, " ".join(t for t, _ in parts)), self.alike(op, [f for _, f in parts])

    def read(self, depth, n):
        """An element of an array, or None where none has this width."""
        arrays = [sort for sort in self.arrays if sort[1] == n]
        if not arrays:
            return None
        sort = self.source.choice(arrays)
        (a, f), (i, g) = self.array(depth - 1, sort), self.word(depth - 1, sort[0])
        return "(select %s %s)" % (a, i), lambda v: f(v)[g(v)]

    def array(self, depth, sort):
        roll = self.source.random()
        if depth == 0 or roll < 0.2:
            return self.name(sort)
        if roll < 0.35:
            return self.choice(depth, lambda d: self.array(d, sort))
        if roll < 0.45:
            x, h = self.word(depth - 1, sort[1])
            return "((as const %s) %s)" % (text_of(sort), x), lambda v: (h(v),) * (1 << sort[0])
        (a, f), (i, g), (x, h) = self.array(depth - 1, sort), self.word(depth - 1, sort[0]), self.word(depth - 1, sort[1])
        return "(store %s %s %s)" % (a, i, x), lambda v: f(v)[:g(v)] + (h(v),) + f(v)[g(v) + 1:]

    def fact(self):
        """What is read or applied, or an array, beside a name or a literal: few facts are false alone, and many are together."""
        sort, depth = self.source.choice(self.widths + self.arrays), self.source.choice([1, 1, 2])
        made = self.source.choice([self.read, self.application])(depth, sort) if sort in self.widths else None
        (t, f), (u, g) = made or self.term(self.source.choice([0, depth]), sort), self.term(0, sort)
        op = self.source.choice(["=", "=", "distinct"])
        return "(%s %s %s)" % (op, t, u), self.alike(op, [f, g])

    def truth(self, depth):
        roll = self.source.random()
        if depth == 0:
            return roll < 0.5 and self.name(BOOL) or self.related(1, self.source.choice(self.widths))
        if roll < 0.4 and self.arrays:
            sort = self.source.choice(self.arrays)
            return self.compared(depth, lambda d: self.array(d, sort))
        functions = [d for d in self.declared if d.args]
        if roll < 0.6 and functions:
            one = self.source.choice(functions)
            return self.compared(depth, lambda d: self.applied_to(d + 1, one)) if one.sort else self.applied_to(depth, one)
        if roll < 0.75:
            return self.related(depth, self.source.choice(self.widths))
        return super().truth(depth)

    def word(self, depth, n):
        roll = self.source.random()
        if depth == 0 or roll < 0.1:
            return roll < 0.8 and self.name(n) or self.literal(n)
        if roll < 0.5:
            return self.read(depth, n) or self.word(depth - 1, n)
        if roll < 0.75:
            return self.application(depth, n) or self.word(depth - 1, n)
        return super().word(depth, n)


# ---- sessions


class Session:
    """A random session: its commands, and what each of its checks holds and is asked."""

    def __init__(self, source):
        self.source, self.levels, self.checks, self.made = source, [Level([], [])], [], 0
        n, m = source.choice([(1, 1), (1, 1), (1, 2), (1, 2), (2, 1), (2, 1), (2, 2), (1, 3), (2, 3), (3, 1)])
        self.sorts = [BOOL, n, m, (n, m)] + ([(m, n)] if source.random() < 0.2 and m < 3 else [])
        budget, cubes = ["--budget", str(source.randint(0, 8))], ["--cubes", str(source.randint(1, 3))]
        self.limits = source.choice([[], [], budget, budget + cubes, cubes + ["--workers", "2"]])
        self.lines = [*self.base(), *(self.command() for _ in range(LENGTH)), self.check()]

    def base(self):
        """Declarations of an array, an index and an element at least."""
        _, n, m, array, *_ = self.sorts
        some = [array] * self.source.randint(1, 3) + [n] * self.source.randint(1, 3) + [m]
        return [self.declare(sort, ()) for sort in some] + [self.declaration() for _ in range(self.source.randint(1, 3))]

    def live(self):
        return [d for level in self.levels for d in level.declared]

    def asserted(self):
        return [a for level in self.levels for a in level.asserted]

    def declare(self, sort, args):
        one = Declared("d%d" % len(self.live()), args, sort)
        self.levels[-1].declared.append((self.made, one))
        self.made += 1
        return "(declare-fun %s (%s) %s)" % (one.name, " ".join(map(text_of, args)), text_of(sort))

    def declaration(self):
        plain = [sort for sort in self.sorts if not isinstance(sort, tuple)]
        if self.source.random() < 0.5:
            return self.declare(self.source.choice(plain), tuple(self.source.choices(plain, k=self.source.choice([1, 1, 2]))))
        return self.declare(self.source.choice(self.sorts), ())

    def maker(self):
        return Maker(self.source, [one for _, one in self.live()])

    def claim(self, depth):
        return self.maker().fact() if self.source.random() < 0.7 else self.maker().truth(depth)

    def command(self):
        kind = self.source.randrange(20)
        if len(self.levels) == 1 and kind < 5 or kind in (10, 11):
            self.levels.append(Level([], []))
            return "(push 1)"
        if kind < 9:
            name = "n%d" % len(self.asserted()) if self.source.random() < 0.85 else None
            term = self.claim(self.source.randint(1, 3))
            self.levels[-1].asserted.append((name, term))
            return "(assert (! %s :named %s))" % (term[0], name) if name else "(assert %s)" % term[0]
        if kind == 9:
            return self.declaration()
        if kind in (12, 13, 14) and len(self.levels) > 1:
            self.levels.pop()
            return "(pop 1)"
        if kind == 15 and self.source.random() < 0.3:
            self.levels = [Level([], [])]
            return "\n".join([self.source.choice(["(reset)", "(reset-assertions)"]), *self.base()])
        return self.check()

    def check(self):
        maker = self.maker()
        assumed = [self.claim(self.source.randint(0, 2)) for _ in range(self.source.choice([0, 0, 1, 2, 3]))]
        asked = [(sort, maker.term(self.source.randint(0, 2), sort)) for sort in [BOOL, *maker.widths, *maker.arrays]]
        questions = [q for q in ("values", "model", "core", "assumptions") if self.source.random() < 0.6]
        self.source.shuffle(questions)
        self.checks.append(Check(self.live(), self.asserted(), assumed, asked, questions))
        texts = {
            "values": "(get-value (%s))" % " ".join(t for _, (t, _) in asked),
            "model": "(get-model)", "core": "(get-unsat-core)", "assumptions": "(get-unsat-assumptions)",
        }
        checked = "(check-sat-assuming (%s))" % " ".join(t for t, _ in assumed) if assumed else "(check-sat)"
        return "\n".join([checked, *(texts[q] for q in questions)])


# ---- what is wrong with answers


def has_model(check, terms):
    """Whether the terms have a model, by trying every value; None where there are too many."""
    text = " ".join(t for t, _ in terms)
    used = [one for _, one in check.declared if re.search(r"\b%s\b" % one.name, text)]
    count = 1
    for one in used:
        count *= size_of(one)
    if count > MOST:
        return None
    names, meanings = [one.name for one in used], [meanings_of(one.args, one.sort) for one in used]
    return any(all(f(v) for _, f in terms) for v in (dict(zip(names, given)) for given in itertools.product(*meanings)))


def held_by(check):
    return [t for _, t in check.asserted] + check.assumed


class Answers:
    """The answers to the questions of each check, in order."""

    def __init__(self, session, lines):
        self.lines = iter(lines)
        self.told = [(next(self.lines), {q: self.answer(q) for q in check.questions}) for check in session.checks]
        self.rest = list(self.lines)

    def answer(self, question):
        line = next(self.lines)
        if question != "model" or line != "(":
            return line
        return list(itertools.takewhile(lambda l: l != ")", self.lines))


def models_of(proof, session):
    """The meaning of each name in each record, None for a record without a model."""
    found, due = [], iter(session.checks)
    for line in proof.read_text().split("\n"):
        parts = line.split(" ")
        if parts[0] in ("sat", "unsat", "unknown"):
            declared = dict(next(due).declared)
            found.append({} if parts[0] == "sat" else None)
        if parts[0] == "v":
            one = declared[int(parts[1])]
            found[-1][one.name] = meaning_in(parts[2:], one)
    return found


def values_in(check, line):
    """What the answer tells of each asked term."""
    rest, told = line[1:-1], []
    for sort, (t, _) in check.asked:
        head = rest.index(t) + len(t) + 1
        end = next(k for k in range(head, len(rest)) if rest[k] == ")" and rest.count("(", head, k) == rest.count(")", head, k))
        told.append((t, rest[head:end], sort))
        rest = rest[end + 2:]
    return told


def blamed_in(check, line):
    """The assumptions that are told, in order, and what else stands there."""
    rest, blamed = line[1:-1], []
    for t, f in check.assumed:
        if rest == t or rest.startswith(t + " "):
            rest = rest[len(t) + 1:]
            blamed.append((t, f))
    return blamed, rest


def core_in(check, line):
    names = line[1:-1].split()
    held = [name for name, _ in check.asserted if name in names]
    return [t for name, t in check.asserted if name is None or name in names] + check.assumed, names != held


def fault_of_sat(check, answers, model):
    if not all(f(model) for _, f in held_by(check)):
        return "the model is none"
    if "values" in answers:
        for (t, text, sort), (_, (_, f)) in zip(values_in(check, answers["values"]), check.asked):
            if value_of(text, sort) != f(model):
                return "%s is told of %s" % (text, t)
    return None


def fault_of_unsat(check, answers):
    if "core" in answers:
        core, other = core_in(check, answers["core"])
        if other or has_model(check, core):
            return "a core with a model, or of other names: %s" % answers["core"]
    if "assumptions" in answers and check.assumed:
        blamed, rest = blamed_in(check, answers["assumptions"])
        if rest or has_model(check, [t for _, t in check.asserted] + blamed):
            return "assumptions with a model, or others: %s" % answers["assumptions"]
    return None


def fault_of(check, verdict, answers, model, limits):
    """What is wrong with the answers to a check."""
    stands = {"values": "model", "model": "model", "core": "refutation", "assumptions": "refutation"}
    for question, line in answers.items():
        due = {"sat": "model", "unsat": "refutation"}.get(verdict) == stands[question]
        due = due and (question != "assumptions" or bool(check.assumed))
        if due == str(line).endswith(': no %s stands")' % stands[question]):
            return "%s: %s" % (question, line)
    found = has_model(check, held_by(check))
    if verdict == "unknown" and limits:
        return None
    if verdict not in ("sat", "unsat") or found not in (None, verdict == "sat"):
        return "answered %s" % verdict
    return fault_of_sat(check, answers, model) if verdict == "sat" else fault_of_unsat(check, answers)


# ---- z3


def declarations(check):
    return ["(declare-fun %s (%s) %s)" % (one.name, " ".join(map(text_of, one.args)), text_of(one.sort)) for _, one in check.declared]


def asserting(terms):
    return ["(assert %s)" % t for t, _ in terms]


def read_back(check, verdict, answers):
    """Scripts of what is printed, each with the verdict that it must have."""
    yield declarations(check) + asserting(held_by(check)), verdict
    if verdict == "sat" and "model" in answers:
        told = values_in(check, answers["values"]) if "values" in answers else []
        yield answers["model"] + asserting(held_by(check)) + ["(assert (= %s %s))" % (t, value) for t, value, _ in told], "sat"
    if verdict == "unsat" and "core" in answers:
        yield declarations(check) + asserting(core_in(check, answers["core"])[0]), "unsat"
    if verdict == "unsat" and "assumptions" in answers and check.assumed:
        yield declarations(check) + asserting([t for _, t in check.asserted] + blamed_in(check, answers["assumptions"])[0]), "unsat"


def fault_of_z3(session, told):
    z3 = shutil.which("z3")
    pairs = [pair for check, (verdict, answers) in zip(session.checks, told) if verdict != "unknown" for pair in read_back(check, verdict, answers)]
    if z3 is None or not pairs:
        return None
    script = "\n".join("(reset)\n%s\n(check-sat)" % "\n".join(lines) for lines, _ in pairs) + "\n"
    ran = subprocess.run([z3, "-in", "-smt2", "-t:10000"], input=script, capture_output=True, text=True, timeout=600)
    verdicts = ran.stdout.split("\n")[:-1]
    if len(verdicts) != len(pairs):
        return "z3 tells %r" % ran.stdout
    for verdict, (lines, wanted) in zip(verdicts, pairs):
        if verdict not in (wanted, "unknown"):
            return "z3 answers %s to\n%s" % (verdict, "\n".join(lines))
    return None


def wrong(program, source, folder):
    session = Session(source)
    script, proof, ran = words.solved(program, session, folder)
    try:
        found = fault_of_run(program, session, ran, script, proof)
    except (StopIteration, LookupError, ValueError):
        found = "status %d, and other answers or models than were asked for: %r" % (ran.returncode, ran.stdout)
    return words.report(found, session)


def fault_of_run(program, session, ran, script, proof):
    """The first fault of a run."""
    answers = Answers(session, ran.stdout.split("\n")[:-1])
    models = models_of(proof, session)
    if answers.rest or ran.returncode not in (0, 1) or len(models) != len(session.checks):
        return "status %d, and %r" % (ran.returncode, answers.rest)
    for k, (check, (verdict, told), model) in enumerate(zip(session.checks, answers.told, models)):
        found = fault_of(check, verdict, told, model, session.limits)
        if found:
            return "check %d: %s" % (k, found)
    verdicts = [verdict for verdict, _ in answers.told]
    if not words.accepted(script.read_text(), proof, verdicts):
        return "the proof is refused by the replayer"
    said = subprocess.run([program, "check", str(proof), str(script)], capture_output=True, text=True, timeout=300).stdout
    if said.split("\n") != verdicts + ["accepted %d" % len(verdicts), ""]:
        return "check told %r" % said
    return fault_of_z3(session, answers.told)


if __name__ == "__main__":
    words.compare(wrong, "sessions", 2000)
