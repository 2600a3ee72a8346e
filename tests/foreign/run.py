#!/usr/bin/env python3
"""Has checkers that nobody here wrote judge what `cnf` writes, and `lrat` what other solvers write.

usage: run.py [PROGRAM] [PART]...    (default: the program that `rt run` leaves in crates/smt_tool/out, and every part)

The parts, of which README.md has more; each says that it is skipped where its tool is not there:
acl2        the list-based checker of ACL2's books judges the refutations of `cnf`
lrat-check  the checker of drat-trim does
cadical     `lrat` judges the LRAT texts of cadical, where it writes such
drat-trim   `lrat` judges what drat-trim makes of the DRAT texts of cadical
drat        `lrat` judges what hints.py makes of the DRAT texts of cadical
rup         ... of the texts of picosat
trace       ... of the traces of picosat, where it writes such
"""
import os
import pathlib
import shutil
import subprocess
import sys
import tempfile

import hints

HERE = pathlib.Path(__file__).resolve().parent
ROOT = HERE.parents[1]
PROGRAM = ROOT / "crates/smt_tool/out/smt_tool"
sys.path.insert(0, str(ROOT / "bench/dimacs"))
import families

BOOKS = sorted(pathlib.Path("/usr/share").glob("acl2*/books/projects/sat/lrat"))
# ACL2 takes lists, and its time grows with the clauses times the hints.
MOST_LINES = 30000
LIMIT = 900


def instances():
    """Names, and clauses."""
    rows = []
    for variables in (20, 35, 50, 65, 80, 100, 120, 150):
        rows += [("random3", variables, round(4.26 * variables), seed) for seed in range(1, 7)]
        rows += [("random3", variables, round(4.9 * variables), seed) for seed in range(7, 11)]
    rows += [("pigeons", holes) for holes in range(1, 8)]
    rows += [("parity", vertices, seed) for vertices in (6, 10, 14, 18, 22) for seed in (1, 2, 3)]
    rows += [("colours", vertices, round(2.35 * vertices), 3, seed) for vertices in (20, 40, 60, 80) for seed in range(1, 5)]
    rows += [("commutes", width) for width in (1, 2, 3, 4, 5)] + [("distributes", width) for width in (1, 2, 3, 4)]
    rows += [("factors", 6, number) for number in (3599, 3591, 3593, 2021)] + [("factors", 8, number) for number in (65521, 50621)]
    rows += [("machine", 8, steps, 200) for steps in (1, 2, 4, 6)] + [("machine", 10, 8, target) for target in (77, 600, 1000)]
    for name, *numbers in rows:
        yield "-".join(map(str, (name, *numbers))), getattr(families, name)(*numbers)


class Faults:
    """What was looked at, part by part, and what was wrong."""

    def __init__(self):
        self.found = []

    def tell(self, part, name, what):
        self.found.append((part, name, what))
        print("%s: %s: %s" % (part, name, what), flush=True)


def ran(command, **given):
    return subprocess.run([str(c) for c in command], capture_output=True, text=True, errors="replace", timeout=LIMIT, **given)


def satisfies(clauses, values):
    return len({abs(v) for v in values}) == len(values) == clauses.variables and all(any(l in values for l in row) for row in clauses.rows)


def search(program, folder, faults):
    """Has `cnf` search each instance; the names of those that it refutes, and of the others."""
    refuted, others = [], []
    for name, clauses in instances():
        cnf, lrat = folder / (name + ".cnf"), folder / (name + ".lrat")
        cnf.write_text(clauses.text())
        end = ran([program, "cnf", lrat, cnf])
        words = end.stdout.split()
        if end.returncode == 0 and words == ["unsat"]:
            refuted.append(name)
        elif end.returncode == 0 and words[:2] == ["sat", "v"] and words[-1] == "0" and satisfies(clauses, set(map(int, words[2:-1]))):
            others.append(name)
        else:
            faults.tell("cnf", name, "status %d, %.60r" % (end.returncode, end.stdout))
    print("cnf: %d refuted, %d with values that make each clause true" % (len(refuted), len(others)), flush=True)
    return refuted, others


# ---- what `cnf` writes


def as_list(cnf, lrat, name):
    _, rows = hints.read_clauses(cnf)
    lines = []
    for line in open(lrat):
        words = line.split()
        if words[1] == "d":
            lines.append("(d %s)" % " ".join(words[2:-1]))
        else:
            cut = words.index("0")
            lines.append("(%s (%s) (%s))" % (words[0], " ".join(words[1:cut]), " ".join(words[cut + 1 : -1])))
    numbered = " ".join("(%s)" % " ".join(map(str, (at, *row))) for at, row in enumerate(rows, 1))
    return '("%s" (%s) (%s))\n' % (name, numbered, " ".join(lines))


def acl2(program, folder, refuted, faults):
    if not shutil.which("acl2") or not BOOKS:
        return "skipped: no acl2 with the books projects/sat/lrat (Debian: acl2, acl2-books-source)"
    taken = [n for n in refuted if sum(1 for _ in open(folder / (n + ".lrat"))) <= MOST_LINES]
    # texts that it has to refuse: without the last line, and at last, since the checker then stops, without a hint
    cut = {"%s without its end" % name: name for name in taken[:20]}
    with open(folder / "cases", "w") as out:
        for name in taken:
            out.write(as_list(folder / (name + ".cnf"), folder / (name + ".lrat"), name))
        for wrong, name in [*cut.items(), ("without a hint", taken[-1])]:
            rows = open(folder / (name + ".lrat")).read().splitlines()
            last = [" ".join(rows[-1].split()[:-2] + ["0"])] if wrong == "without a hint" else []
            (folder / "changed").write_text("".join(row + "\n" for row in rows[:-1] + last))
            out.write(as_list(folder / (name + ".cnf"), folder / "changed", wrong))
    books = str(BOOKS[-1].parents[2])
    script = (HERE / "judge.lisp").read_text().replace("BOOKS", books).replace("CASES", str(folder / "cases"))
    end = subprocess.run(["nice", "acl2"], input=script, capture_output=True, text=True, timeout=4 * LIMIT, cwd=folder)
    told = {}
    for line in end.stdout.splitlines():
        if line.startswith("CASE "):
            name, valid, empty = line[5:].rsplit(" ", 2)
            told[name] = (valid, empty)
    if not told:
        faults.tell("acl2", "-", end.stdout[-400:])
    for name in taken:
        if told.get(name) != ("T", "T"):
            faults.tell("acl2", name, str(told.get(name)))
    for name in [*cut, "without a hint"]:
        if told.get(name) == ("T", "T") or (name in cut and name not in told):
            faults.tell("acl2", name, str(told.get(name)))
    return "%d refutations accepted, %d that were cut refused" % (sum(told.get(n) == ("T", "T") for n in taken), len(cut) + 1)


def lrat_check(program, folder, refuted, faults):
    if not shutil.which("lrat-check"):
        return "skipped: no lrat-check (of drat-trim)"
    accepted = 0
    for name in refuted:
        end = ran(["lrat-check", folder / (name + ".cnf"), folder / (name + ".lrat")])
        # it asks for a line, so a refutation of an empty clause is the same
        if "c VERIFIED" in end.stdout:
            accepted += 1
        else:
            faults.tell("lrat-check", name, end.stdout[-120:])
    return "%d refutations accepted" % accepted


# ---- what others write


def judged(program, folder, part, name, text, faults):
    end = ran([program, "lrat", text, folder / (name + ".cnf")])
    if (end.returncode, end.stdout) != (0, "accepted\n"):
        faults.tell(part, name, "status %d, %r" % (end.returncode, end.stdout))
        return 0
    return 1


def each(part, write):
    """A part that has `write` make an LRAT text of each refuted instance, and `lrat` judge it."""

    def look(program, folder, refuted, faults):
        accepted, without = 0, 0
        for name in refuted:
            text = folder / "foreign"
            try:
                write(folder / (name + ".cnf"), folder / "between", text)
            except hints.NoChain:
                without += 1
                continue
            accepted += judged(program, folder, part, name, text, faults)
        return "%d refutations accepted%s" % (accepted, ", %d that need more than unit propagation" % without if without else "")

    return look


def by_cadical(cnf, between, text):
    ran(["cadical", "-q", "--lrat", "--no-binary", cnf, text])


def by_drat_trim(cnf, between, text):
    ran(["cadical", "-q", "--no-binary", cnf, between])
    ran(["drat-trim", cnf, between, "-L", text, "-t", str(LIMIT)])


def by_drat(cnf, between, text):
    ran(["cadical", "-q", "--no-binary", cnf, between])
    text.write_text("".join(hints.of_clauses(cnf, between)))


def by_rup(cnf, between, text):
    ran(["picosat", "-n", "-R", between, cnf])
    text.write_text("".join(hints.of_clauses(cnf, between)))


def by_trace(cnf, between, text):
    ran(["picosat.trace", "-n", "-T", between, cnf])
    text.write_text("".join(hints.of_trace(cnf, between)))


def has_lrat():
    return shutil.which("cadical") and "--lrat" in ran(["cadical", "--help"]).stdout


def has_traces():
    if not shutil.which("picosat.trace"):
        return False
    with tempfile.TemporaryDirectory() as folder:
        cnf, trace = pathlib.Path(folder) / "cnf", pathlib.Path(folder) / "trace"
        cnf.write_text("p cnf 1 2\n1 0\n-1 0\n")
        ran(["picosat.trace", "-T", trace, cnf])
        return trace.exists() and trace.stat().st_size > 0


def where(there, part, why):
    return part if there else lambda *_: "skipped: " + why


def parts():
    return {
        "acl2": acl2,
        "lrat-check": lrat_check,
        "cadical": where(has_lrat(), each("cadical", by_cadical), "no cadical that writes LRAT (1.7 and later do)"),
        "drat-trim": where(shutil.which("cadical") and shutil.which("drat-trim"), each("drat-trim", by_drat_trim), "no cadical, or no drat-trim"),
        "drat": where(shutil.which("cadical"), each("drat", by_drat), "no cadical"),
        "rup": where(shutil.which("picosat"), each("rup", by_rup), "no picosat"),
        "trace": where(has_traces(), each("trace", by_trace), "no picosat.trace with traces (Debian's has none)"),
    }


def main(words):
    looked = parts()
    program = words.pop(0) if words and words[0] not in looked else PROGRAM
    if any(w not in looked for w in words) or not os.path.exists(program):
        sys.exit(__doc__)
    faults = Faults()
    with tempfile.TemporaryDirectory() as place:
        folder = pathlib.Path(place)
        refuted, _ = search(program, folder, faults)
        for part in words or looked:
            print("%s: %s" % (part, looked[part](program, folder, refuted, faults)), flush=True)
    print("%d faults" % len(faults.found))
    return 1 if faults.found or not refuted else 0


if __name__ == "__main__":
    sys.exit(main(sys.argv[1:]))
