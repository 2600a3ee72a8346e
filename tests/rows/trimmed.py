#!/usr/bin/env python3
"""Solves every script of the examples and of the rows, and looks whether each proof has what its records need and nothing else.

usage: trimmed.py [PROGRAM]    (default: the program that `rt run` leaves in crates/smt_tool/out)

A part of a proof of the second format begins with one deletion of the chains that rest on an assertion that is gone, or with none where
there are none; then come the steps that make terms and variables, then lemmas and chains, each of which the record of the part needs, and
then the record. What a record needs is said here apart from the program; the lines themselves are replayed by reference.py.
"""
import subprocess
import sys

import checked
import reference
import run
from operators import Refused, need
from terms import Script

RECORDS = ("sat", "unsat", "unknown")


def stale(log, live):
    """The places of chains that have the negated selector of an assertion that is not live."""
    gone = lambda l: l < 0 and -l in log.selectors and log.selectors[-l] not in live
    return [p for p in sorted(log.chains) if p not in log.deleted and any(gone(l) for l in log.rows[p][0])]


def named(lines):
    """The places that the lines of a record name."""
    return [int(line.split(" ")[1]) for line in lines if line.startswith(("unsat ", "= ", "+ ", "- "))]


def needed(log, first, places):
    """Of the lemmas and chains from this place on, those that these places name or rest on."""
    found, left = set(), list(places)
    while left:
        p = left.pop()
        if p >= first and p not in found and (p in log.lemmas or p in log.chains):
            found.add(p)
            left += [place for place, _ in log.chains.get(p, [])]
    return found


def judge_part(log, first, due, part):
    """The lines of a part, whose first step has this place, and at whose beginning these places are to be deleted."""
    ends = next(k for k, line in enumerate(part) if line.split(" ")[0] in RECORDS)
    kinds = [line.split(" ")[0] for line in part[:ends]]
    need(kinds.count("d") == len(due[:1]), "%d deletions, and %d are due" % (kinds.count("d"), len(due[:1])))
    if due:
        need(part[0] == " ".join(["d", *map(str, due)]), "%s, and %s are due" % (part[0], due))
    steps = [kind in "lc" for kind in kinds[len(due[:1]):]]
    need(steps == sorted(steps), "a lemma or a chain stands before a step that makes a term or a variable")
    derived = {p for p in [*log.lemmas, *log.chains] if p >= first}
    spare = derived - needed(log, first, named(part[ends:]))
    need(not spare, "the record needs none of %s" % sorted(spare))


def judge(script_text, proof):
    lines = reference.Lines(proof)
    version, *limits = reference.limits_of(lines.take())
    need(version == 2, "a proof of the first format")
    script = Script(script_text)
    log = reference.Log(script, version)
    for _ in script.checks():
        at, first, due = lines.at, len(log.rows), stale(log, script.live)
        reference.one_check(log, limits, lines)
        judge_part(log, first, due, lines.whole[at:lines.at])


def fault(program, script, proof, limits):
    subprocess.run([program, "solve", proof, *limits], input=script, capture_output=True, timeout=120)
    try:
        judge(script.decode("latin-1"), proof.read_bytes().decode("latin-1"))
    except Refused as why:
        return str(why)
    return None


def main():
    replayed = {path.stem for path in run.HERE.glob("*.row") if "no replay" not in run.sections(path)}
    examples = {path.stem for path in (run.HERE.parents[1] / "examples").glob("*.smt2")}
    return checked.tell(fault, (one for one in checked.scripts() if one[0] in replayed | examples))


if __name__ == "__main__":
    sys.exit(main())
