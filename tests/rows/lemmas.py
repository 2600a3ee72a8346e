#!/usr/bin/env python3
"""Replays the proofs of the table on functions, arrays and rewriting, of which crates/theory_rows tells what the checker says.

usage: lemmas.py    (no program is run)

The table is the crate's standard input, and what the replayer of this folder says of each proof has to be what the crate's
standard output says. A line of the table begins with what it is:

    = NAME            a base follows
    > LINE            a line of its script
    | LINE            a line of its proof
    - FIRST COUNT     a change: so many lines of the proof, from this one on, are replaced
    + LINE            a line that stands there then

A line that begins with `#`, and one without any text, says nothing. Told are the base's name, what is said of its proof, and
what is said of each change.
"""
import pathlib
import sys

import reference

TABLE = pathlib.Path(__file__).resolve().parents[2] / "crates/theory_rows"


def bases(text):
    """The name, the script, the proof and the changes of each base; a change is its two numbers and the new lines."""
    held = []
    for line in text.splitlines():
        kind, rest = line[:1], line[2:]
        match kind:
            case "=":
                held.append((rest, [], [], []))
            case ">":
                held[-1][1].append(rest)
            case "|":
                held[-1][2].append(rest)
            case "-":
                held[-1][3].append((*map(int, rest.split(" ")), []))
            case "+":
                held[-1][3][-1][2].append(rest)
    return held


def proofs(proof, changes):
    """The proof itself, and then the proof with each change."""
    yield proof
    for first, count, lines in changes:
        yield proof[: first - 1] + lines + proof[first - 1 + count :]


def text_of(lines):
    return "".join(line + "\n" for line in lines)


def told(script, proof):
    try:
        return "accepted %d" % len(reference.check(text_of(script), text_of(proof)))
    except reference.BadLine as bad:
        return "refused line %d rule %s" % (bad.line, bad.rule)


def report(text):
    """What is told of the table, and of each line the proof that it is told of."""
    for name, script, proof, changes in bases(text):
        yield "= " + name, []
        for changed in proofs(proof, changes):
            yield told(script, changed), changed


def main():
    rows = list(report((TABLE / "stdin").read_text()))
    wanted = (TABLE / "stdout").read_text().splitlines()
    failed = abs(len(rows) - len(wanted))
    for number, ((line, proof), other) in enumerate(zip(rows, wanted), 1):
        if line != other:
            failed += 1
            print("line %d: %s, where the crate says %s, of\n%s" % (number, line, other, text_of(proof)))
    print("%d proofs, %d told otherwise" % (sum(not line.startswith("=") for line, _ in rows), failed))
    return 1 if failed or not rows else 0


if __name__ == "__main__":
    sys.exit(main())
