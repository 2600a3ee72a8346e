#!/usr/bin/env python3
"""Measures the memory of `check` of the built program on the proofs of long sessions, with chains that are deleted.

usage: rounds.py [PROGRAM [PROGRAM BEFORE]]    (default: the program that `rt run` leaves in crates/smt_tool/out)

A session is rounds, of a number and of four times as many: a level, words of which two have to be equal and may not, a check, and
the level is taken back. `solve` writes its proof. From this one is made that deletes each chain behind the part in which a line names
it last, as a solver could that keeps no more than it needs.
"""
import pathlib
import random
import sys
import tempfile

sys.path.insert(0, str(pathlib.Path(__file__).resolve().parents[1]))
import measuring

PROGRAM = pathlib.Path(__file__).resolve().parents[2] / "crates/smt_tool/out/smt_tool"
ROUNDS = (25, 100)
HOLES = 6
WIDTH = 8


def session(rounds):
    """In each round words that differ, as many as there are numbers below HOLES and one more, where each and a number of the round
    give a sum below HOLES."""
    numbers = random.Random(1).sample(range(2 ** WIDTH), rounds)
    words = ["p%d" % k for k in range(HOLES + 1)]
    text = ["(declare-const %s (_ BitVec %d))" % (word, WIDTH) for word in words]
    for number in numbers:
        sums = ["(assert (bvult (bvadd %s (_ bv%d %d)) (_ bv%d %d)))" % (word, number, WIDTH, HOLES, WIDTH) for word in words]
        text.append("(push 1) %s (assert (distinct %s)) (check-sat) (pop 1)" % (" ".join(sums), " ".join(words)))
    return "\n".join(text) + "\n"


def named(words):
    """The positions that a line names."""
    if words[0] == "c":
        hints = words[words.index("0") + 1:]
        return [int(hint.split(".")[0]) for hint in hints]
    if words[0] in ("unsat", "=", "+", "-"):
        return [int(words[1])]
    return []


def steps(words):
    return words[0] in ("f", "e", "r", "s", "t", "q", "l", "c")


def without_deletions(lines):
    return [line for line in lines if not line.startswith("d ")]


def with_deletions(lines):
    """The same lines, and behind each record those chains deleted that no line behind it names."""
    last, chains, position = {}, set(), 0
    for at, line in enumerate(lines):
        words = line.split()
        for place in named(words):
            last[place] = at
        if steps(words):
            position += 1
            last[position] = at
            if words[0] == "c":
                chains.add(position)
    told, due, position = [], set(), 0
    ends = {}
    for place in chains:
        ends.setdefault(last[place], []).append(place)
    for at, line in enumerate(lines):
        words = line.split()
        if due and steps(words) and lines[at - 1].split()[0] == "unsat":
            told.append("d " + " ".join(map(str, sorted(due))))
            due = set()
        told.append(line)
        due.update(ends.get(at, []))
    return told


def main():
    programs = sys.argv[1:] or [PROGRAM]
    print("| proof | rounds | chains | deleted | MB of text |" + " MB checking |" + " MB checking, before |" * (len(programs) - 1))
    print("|---|---|---|---|---|" + "---|" * len(programs))
    grew = {}
    with tempfile.TemporaryDirectory() as name:
        folder = pathlib.Path(name)
        script, proof = folder / "script.smt2", folder / "proof"
        for rounds in ROUNDS:
            script.write_text(session(rounds))
            measuring.run([programs[0], "solve", proof, script, "--budget", "1000000000"], 600, folder)
            lines = without_deletions(proof.read_text().splitlines())
            for kind, told in (("nothing is deleted", lines), ("what no line names", with_deletions(lines))):
                proof.write_text("\n".join(told) + "\n")
                chains = sum(line.startswith("c ") for line in told)
                deleted = sum(len(line.split()) - 1 for line in told if line.startswith("d "))
                cells = []
                for program in programs:
                    output, status, _, megabytes = measuring.run([program, "check", proof, script], 600, folder)
                    assert status == 0 and output.endswith("accepted %d\n" % rounds), output[-100:]
                    grew.setdefault((kind, program), []).append(megabytes)
                    cells.append("%.1f" % megabytes)
                print("| %s | %d | %d | %d | %.1f | %s |" % (kind, rounds, chains, deleted, proof.stat().st_size / 1e6, " | ".join(cells)), flush=True)
    for (kind, program), (less, more) in grew.items():
        print("%s, %s: %.1f MB more" % (kind, program, more - less))


if __name__ == "__main__":
    main()
