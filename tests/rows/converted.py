#!/usr/bin/env python3
"""Solves every script of the examples and of the rows, takes the deletions out of each proof, so that it is of the first format, converts it
to the second, and looks at what was written.

usage: converted.py [PROGRAM]    (default: the program that `rt run` leaves in crates/smt_tool/out)

What `convert` writes has to be what the converter of this file writes, byte by byte, and `check` has to say of it what it said of
the proof. The proofs that the rows give to `check` are converted too.
"""
import pathlib
import subprocess
import sys
import tempfile

import checked
import run

COUNTED = {"sat": 1, "unknown": 3}


def parts_of(lines):
    """The lines behind the header in parts, each ended by its record."""
    parts, part, at = [], [], 0
    while at < len(lines):
        words = lines[at].split(" ")
        part.append(lines[at])
        at += 1
        if words[0] in ("sat", "unsat", "unknown"):
            more = int(words[COUNTED[words[0]]]) if words[0] in COUNTED else 0
            part += lines[at:at + more]
            at += more
            parts, part = parts + [part], []
    assert not part
    return parts


def hints_of(line):
    words = line.split(" ")
    return [int(w.split(".")[0]) for w in words[words.index("0") + 1:]] if words[0] == "c" else []


def converted(text):
    header, *lines = text.split("\n")[:-1]
    parts = parts_of(lines)
    steps, made, last = [None], {}, {}
    for number, part in enumerate(parts):
        for line in part:
            word = line.split(" ")[0]
            if word in ("t", "f", "e", "r", "s", "q", "l", "c"):
                steps.append(line)
                made[len(steps) - 1] = last[len(steps) - 1] = number
            needed = hints_of(line)
            if word in ("unsat", "=", "+", "-"):
                needed.append(int(line.split(" ")[1]))
            if word == "+":
                needed += hints_of(steps[needed[-1]]) if needed[-1] < len(steps) and needed[-1] else []
            last.update((p, number) for p in needed if p in made)
    out = [header.replace("smt_proof 1", "smt_proof 2")]
    for number, part in enumerate(parts):
        due = [str(p) for p in sorted(made) if last[p] == number - 1 and steps[p][0] in "lc"]
        out += [" ".join(["d", *due])] * bool(due) + part
    return "".join(line + "\n" for line in out), len(parts)


def said(program, script, proof):
    ran = subprocess.run([program, "check", proof], input=script, capture_output=True, timeout=120)
    return ran.stdout, ran.returncode


def fault(program, script, proof, out):
    text = proof.read_bytes().decode("latin-1")
    wanted, records = converted(text)
    ran = subprocess.run([program, "convert", proof, out], input=b"", capture_output=True, timeout=120)
    if (ran.stdout, ran.returncode) != (b"converted %d\n" % records, 0):
        return "convert: status %d, %r" % (ran.returncode, ran.stdout)
    if out.read_bytes().decode("latin-1") != wanted:
        return "convert: %r" % out.read_bytes()[:400]
    before, behind = said(program, script, proof), said(program, script, out)
    if before[1] == 0 and before != behind:
        return "check: %r, and then %r" % (before, behind)
    return None


def first_format(proof):
    """The proof without its deletions. Its steps stand at their places, so each line says what it said."""
    header, *lines = proof.split(b"\n")
    return b"\n".join([header.replace(b"smt_proof 2 ", b"smt_proof 1 "), *(line for line in lines if not line.startswith(b"d "))])


def proofs(program, folder):
    """A name, a script, and a file with a proof of the first format."""
    proof = folder / "proof"
    for name, script, limits in checked.scripts():
        subprocess.run([program, "solve", proof, *limits], input=script, capture_output=True, timeout=120)
        if proof.read_bytes().startswith(b"smt_proof "):
            proof.write_bytes(first_format(proof.read_bytes()))
            yield name, script, proof
    for path in sorted(run.HERE.glob("*.row")):
        row = run.sections(path)
        accepted = "\naccepted " in "\n" + row.get("answers", "")
        if row["words"].startswith("check ") and row.get("given", "").startswith("smt_proof 1 ") and accepted:
            proof.write_bytes(row["given"].encode("latin-1"))
            yield path.stem, row.get("script", "").encode("latin-1"), proof


def main():
    program = sys.argv[1] if len(sys.argv) > 1 else run.PROGRAM
    with tempfile.TemporaryDirectory() as folder:
        place = pathlib.Path(folder)
        judged = ((name, fault(program, script, proof, place / "out")) for name, script, proof in proofs(program, place))
        return run.tell("proofs", judged)


if __name__ == "__main__":
    sys.exit(main())
