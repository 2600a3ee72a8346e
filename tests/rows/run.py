#!/usr/bin/env python3
"""Runs the built program on every row of this folder, and compares answers, status and proof byte by byte.

usage: run.py [PROGRAM]    (default: the program that `rt run` leaves in crates/smt_tool/out)

A row is a file NAME.row with the sections `== words`, `== script`, `== answers`, `== status` and, where the proof file
is fixed to the byte, `== proof`, or `== puts`, how many lines of it put a clause in a diary, or `== later lemmas`, how many
lines behind its first record are lemmas on functions and arrays, or `== later chains`, how many of them are chains. The word PROOF stands for a new file, which has the text of
`== given` where the row has that section, the word SCRIPT for a file that has the script, which standard input has not then, and the word OUT for a file
that is not there before: it has the text of `== out` afterwards, and without that section it was not made. A section's text ends
before the next line that begins with `==`; a last line `\\` takes away the line feed before it. Whatever a `solve` or
a `drill` wrote is replayed by reference.py too, unless the row says `== no replay`.
"""
import pathlib
import re
import subprocess
import sys
import tempfile

HERE = pathlib.Path(__file__).resolve().parent
PROGRAM = HERE.parents[1] / "crates/smt_tool/out/smt_tool"


def sections(path):
    parts = re.split(r"^== (.*)\n", path.read_bytes().decode("latin-1"), flags=re.M)
    held = {}
    for name, text in zip(parts[1::2], parts[2::2]):
        held[name.strip()] = text[:-3] if text.endswith("\n\\\n") else text
    return held


def faults(program, row, folder):
    proof = folder / "proof"
    named = folder / "named"
    out = folder / "out"
    words = [{"PROOF": str(proof), "SCRIPT": str(named), "OUT": str(out)}.get(w, w) for w in row["words"].split()]
    script = row.get("script", "").encode("latin-1")
    named.write_bytes(script)
    if "given" in row:
        proof.write_bytes(row["given"].encode("latin-1"))
    ran = subprocess.run([program, *words], input=b"" if str(named) in words else script, capture_output=True, timeout=120)
    if ran.stdout.decode("latin-1") != row.get("answers", ""):
        yield "answers: %r" % ran.stdout
    if ran.returncode != int(row["status"]):
        yield "status: %d" % ran.returncode
    written = proof.read_bytes().decode("latin-1") if proof.exists() else None
    if "proof" in row and written != row["proof"]:
        yield "proof: %r" % written
    made = out.read_bytes().decode("latin-1") if out.exists() else None
    if made != row.get("out"):
        yield "out: %r" % made
    if "puts" in row and (written or "").count("\n+ ") != int(row["puts"]):
        yield "proof: %r" % written
    for kind, letter in (("later lemmas", "l"), ("later chains", "c")):
        if kind in row and later(written or "", letter) != int(row[kind]):
            yield "proof: %r" % written
    if int(row["status"]) in (0, 1) and "no replay" not in row:
        if words[:1] == ["solve"]:
            verdicts = [a for a in row.get("answers", "").split("\n") if a in ("sat", "unsat", "unknown")]
            yield from replayed(script, proof, verdicts, folder)
        if words[:1] == ["drill"]:
            yield from replayed(drawn(int(words[1]), int(words[2])), proof, ["sat", "unsat"] * int(words[2]), folder)


def later(proof, letter):
    """How many lines of this letter stand behind the first record; -1 where there is no record."""
    lines = iter(proof.split("\n"))
    if not any(line.startswith(("sat ", "unsat ", "unknown ")) for line in lines):
        return -1
    return sum(line.startswith(letter + " ") for line in lines)


def drawn(seed, size):
    """The script that `drill` draws: each word is a number that is drawn, and its successor is another."""
    lines = ["(set-logic QF_AUFBV)", "(declare-const a (Array (_ BitVec 16) (_ BitVec 32)))"]
    for k in range(size):
        seed = (seed * 6364136223846793005 + 1442695040888963407) % 2**64
        word = "#x%08x" % (seed >> 32)
        lines += ["(declare-const x%d (_ BitVec 32))" % k, "(assert (= (bvxor x%d %s) #x00000000))" % (k, word)]
        lines += ["(assert (= (select a #x%04x) x%d))" % (k, k), "(check-sat)", "(push 1)"]
        lines += ["(assert (= (bvadd x%d #x00000001) %s))" % (k, word), "(check-sat)", "(pop 1)"]
    return "".join(line + "\n" for line in lines).encode()


def replayed(script, proof, verdicts, folder):
    text = folder / "script"
    text.write_bytes(script)
    ran = subprocess.run([sys.executable, HERE / "reference.py", text, proof], capture_output=True, text=True)
    wanted = "".join(v + "\n" for v in verdicts) + "accepted %d\n" % len(verdicts)
    if ran.stdout != wanted:
        yield "replay: %s%s" % (ran.stdout, ran.stderr)


def tell(kind, judged):
    """Prints each fault of these pairs of a name and what was found wrong, and how many pairs there were; gives the status to end with."""
    count, failed = 0, 0
    for name, found in judged:
        if found:
            print("%s: %s" % (name, found))
        count, failed = count + 1, failed + bool(found)
    print("%d %s, %d failed" % (count, kind, failed))
    return 1 if failed or not count else 0


def main():
    program = sys.argv[1] if len(sys.argv) > 1 else PROGRAM
    rows, failed = sorted(HERE.glob("*.row")), 0
    for path in rows:
        with tempfile.TemporaryDirectory() as folder:
            found = list(faults(program, sections(path), pathlib.Path(folder)))
        for fault in found:
            print("%s: %s" % (path.stem, fault))
        failed += bool(found)
    print("%d rows, %d failed" % (len(rows), failed))
    return 1 if failed or not rows else 0


if __name__ == "__main__":
    sys.exit(main())
