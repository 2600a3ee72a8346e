#!/usr/bin/env python3
"""Changes the proofs of diaries, and looks at what the replayer of this folder says of each change.

usage: changes.py    (no program is run)

A row of CHANGES is the number of a line of the proof of diary_that_is_explained.row, how many lines it replaces, the lines that
stand there then, and a part of the reason for which the replayer has to refuse the proof, or `accepted`. Of dropped chains, which
a diary has behind its 2000th put alone, a longer proof is made.
"""
import pathlib
import sys

import reference
import run
from operators import Refused

HERE = pathlib.Path(__file__).resolve().parent

# what stands before the chain of the diary, in the second format
FORMAT_2 = "smt_proof 2 cubes 0 budget 0|f 0|f 1|e 2|e 3|e 4|e 5|e 6|e 7|s 0|s 1|s 2|s 3"

CHANGES = [
    # the limits of the header
    (1, 1, "smt_proof 1 cubes 0 budget 0", "accepted"),
    (1, 1, "smt_proof 1 cubes 1 budget 0", "a given literal"),
    (1, 1, "smt_proof 1 cubes 2 budget 0", "a given literal"),
    (1, 1, "smt_proof 1 cubes 0 budget 1", "not spent"),
    (1, 1, "smt_proof 1 cubes 11 budget 0", "header"),
    (1, 1, "smt_proof 1 cubes 0 budget 1000000001", "header"),
    (1, 1, "smt_proof 1 cubes 00 budget 0", "other numbers"),
    # the second format, and what is deleted
    (1, 1, "smt_proof 2 cubes 0 budget 0", "accepted"),
    (1, 1, "smt_proof 3 cubes 0 budget 0", "header"),
    (1, 16, FORMAT_2.replace("smt_proof 2", "smt_proof 1") + "|c 2 -8 -9 0 9.0 10.0 3.2 5.2|d 13", "no deletion"),
    (15, 0, "d 13", "a deleted entry"),
    (1, 16, FORMAT_2 + "|c 2 -8 -9 0 9.0 10.0 3.2 5.2|d 13|unknown 0 13 1|+ 13", "a deleted entry"),
    (1, 16, FORMAT_2 + "|c 2 -8 -9 0 9.0 10.0 3.2 5.2|d 13|c 2 -8 -9 0 9.0 10.0 3.2 5.2|unknown 0 13 1|+ 14", "accepted"),
    (1, 16, FORMAT_2 + "|c 2 -8 -9 0 9.0 10.0 3.2 5.2|d 13|unknown 0 13 2|= 13|+ 13", "a deleted entry"),
    (1, 16, FORMAT_2 + "|d 12", "no lemma and no chain"),
    (1, 16, FORMAT_2 + "|d 0", "no lemma and no chain"),
    (1, 16, FORMAT_2 + "|d 13", "no lemma and no chain"),
    (1, 16, FORMAT_2 + "|d", "no deletion"),
    (1, 16, FORMAT_2 + "|c 2 -8 -9 0 9.0 10.0 3.2 5.2|d 13 13", "a place twice"),
    (1, 16, FORMAT_2 + "|c 2 -8 -9 0 9.0 10.0 3.2 5.2|d 13|d 13", "was deleted before"),
    (1, 16, FORMAT_2 + "|c 2 -8 -9 0 9.0 10.0 3.2 5.2|d 13|c 2 -8 -9 0 13.0", "was deleted"),
    # the cube, the start and the number of lines
    (15, 1, "unknown 1 13 1", "no such cube"),
    (15, 1, "unknown 0 12 1", "is no chain"),
    (15, 1, "unknown 0 0 1", "is no chain"),
    (15, 1, "unknown 0 14 1", "accepted"),
    (15, 1, "unknown 0 15 1", "no such start"),
    (15, 2, "unknown 0 13 0", "not spent"),
    (15, 1, "unknown 0 13 2", "end"),
    (15, 1, "unknown 0 13", "other numbers"),
    (13, 1, "", "no selector"),
    # the lines of the diary
    (15, 2, "unknown 0 13 2|= 3|+ 13", "accepted"),
    (15, 2, "unknown 0 13 2|= 0|+ 13", "accepted"),
    (15, 2, "unknown 0 13 2|= 13|+ 13", "a subset"),
    (15, 2, "unknown 0 13 2|+ 13|= 13", "not spent"),
    (15, 2, "unknown 0 13 2|+ 13|- 13", "may be dropped"),
    (15, 2, "unknown 0 13 2|- 13|+ 13", "may be dropped"),
    (15, 2, "unknown 0 13 2|= 14|+ 13", "no such entry"),
    (15, 2, "unknown 0 13 2|e 0|+ 13", "no line of a diary"),
    (15, 2, "+ 13|unknown 0 13 1", "unknown kind"),
    (16, 1, "+ 12", "a put of no chain"),
    (16, 1, "+ 14", "no such entry"),
    (16, 1, "= 13", "not spent"),
    (16, 1, "- 13", "may be dropped"),
    (16, 1, "+ 13|+ 13", "text after the last record"),
    # the clause that is put
    (14, 1, "c 2 5 0 5.2 3.2", "c:"),
    (14, 1, "c 2 -2 0", "a complementary pair"),
    (14, 1, "c 2 4 5 6 0 5.2 3.2", "a literal of no hint"),
    (14, 1, "c 2 4 5 0 0.0 5.2 3.2", "a hint of no use"),
    (14, 1, "c -4 -2 0 3.0", "a subset"),
    (14, 1, "c 4 3 2 0 3.2", "a subset"),
    # a second chain, whose hint is the first
    (14, 3, "c 2 4 5 0 5.2 3.2|c 2 5 -8 0 9.0 13.0|unknown 0 13 1|+ 14", "a hint is not held"),
    (14, 3, "c 2 4 5 0 5.2 3.2|c 2 5 -8 0 9.0 13.0|unknown 0 13 2|= 13|+ 14", "accepted"),
    (14, 3, "c 2 4 5 0 5.2 3.2|c 2 5 -8 0 9.0 13.0|unknown 0 13 2|= 14|+ 13", "accepted"),
    (14, 3, "c 2 4 5 0 5.2 3.2|c 2 5 -8 0 9.0 13.0|unknown 0 14 1|+ 14", "a hint is not held"),
]

# So many first symbols, and so many last ones. A row of DROPS has the lines behind the 2000th put.
SIDE = 45
DROPS = [
    ("", "accepted"),
    ("- FIRST", "accepted"),
    ("HALF", "accepted"),
    ("HALF|- LATER", "may be dropped"),
    ("- FIRST|- FIRST", "may be dropped"),
    ("- FIRST|= FIRST|- LATER", "may be dropped"),
    ("- 1", "may be dropped"),
    ("- LAST", "may be dropped"),
    ("- FIRST|= FIRST", "accepted"),
]


def judged(script, proof):
    """`accepted`, or why the replayer refuses the proof."""
    try:
        reference.check(script, proof)
    except Refused as why:
        return str(why)
    return "accepted"


def changed(proof, number, count, lines):
    held = proof.splitlines()
    held[number - 1 : number - 1 + count] = [line for line in lines.split("|") if line]
    return "".join(line + "\n" for line in held)


def with_drops(lines):
    """A script of which 2001 clauses can be put, and a proof that puts them, with these lines behind the 2000th put.

    Each first symbol a stands with x in an assertion, and each last symbol b with the negation of x. The gate of `(or a x)` has
    the clause {g a x}, that of `(or (not x) b)` has {h -x b}, so {g a h b} follows from both.
    """
    names = ["x"] + ["a%d" % i for i in range(SIDE)] + ["b%d" % i for i in range(SIDE)]
    asserted = ["(or a%d x)" % i for i in range(SIDE)] + ["(or (not x) b%d)" % i for i in range(SIDE)]
    script = "".join("(declare-const %s Bool)\n" % n for n in names) + "".join("(assert %s)\n" % a for a in asserted) + "(check-sat)\n"
    terms = reference.Script(script)
    next(terms.checks())
    log, steps = reference.Log(terms), []
    for t, (op, _, _) in enumerate(terms.terms.nodes):
        log.leaf(t) if op == "declared" else log.encode(t)
        steps.append("%s %d" % ("f" if op == "declared" else "e", t))
    gates = [(at, row[2]) for at, row in enumerate(log.rows) if len(row) == 3]
    for a in range(len(terms.asserted)):
        log.selector(a)
        steps.append("s %d" % a)
    start = len(log.rows)
    x = log.bits[1][0]
    pairs = [(one, other) for one in gates if x in one[1] for other in gates if -x in other[1]][:2001]
    chains = []
    for (at, one), (behind, other) in pairs:
        clause = [l for l in one + other if abs(l) != x]
        chains.append("c %s 0 %d.2 %d.2" % (" ".join(map(str, clause)), at, behind))
    half = "|".join("- %d" % (start + i) for i in range(1000))
    places = {"HALF": half, "FIRST": start, "LATER": start + 1000, "LAST": start + 2000}
    for word, place in places.items():
        lines = lines.replace(word, str(place))
    puts = ["+ %d" % (start + i) for i in range(2001)]
    diary = puts[:2000] + [line for line in lines.split("|") if line] + puts[2000:]
    proof = ["smt_proof 1 cubes 0 budget 2000", *steps, *chains, "unknown 0 %d %d" % (start, len(diary)), *diary]
    return script, "".join(line + "\n" for line in proof)


def faults():
    row = run.sections(HERE / "diary_that_is_explained.row")
    for number, count, lines, why in CHANGES:
        told = judged(row["script"], changed(row["proof"], number, count, lines))
        if why not in told:
            yield "line %d, %s: %s" % (number, lines, told)
    for lines, why in DROPS:
        told = judged(*with_drops(lines))
        if why not in told:
            yield "%s: %s" % (lines, told)


def main():
    found = list(faults())
    for fault in found:
        print(fault)
    print("%d changes, %d judged otherwise" % (len(CHANGES) + len(DROPS), len(found)))
    return 1 if found else 0


if __name__ == "__main__":
    sys.exit(main())
