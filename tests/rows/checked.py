#!/usr/bin/env python3
"""Solves every script of the examples and of the rows, and checks each proof with the program itself.

usage: checked.py [PROGRAM]    (default: the program that `rt run` leaves in crates/smt_tool/out)

`check` has to accept what `solve` wrote, with the verdicts that it answered. A row is solved within the limits of its words.
"""
import pathlib
import subprocess
import sys
import tempfile

import run


def scripts():
    for path in sorted((run.HERE.parents[1] / "examples").glob("*.smt2")):
        yield path.stem, path.read_bytes(), []
    for path in sorted(run.HERE.glob("*.row")):
        row = run.sections(path)
        command, *words = row["words"].split()
        if command == "solve":
            limits = [w for w in words if w not in ("PROOF", "SCRIPT")] if int(row["status"]) in (0, 1) else []
            yield path.stem, row.get("script", "").encode("latin-1"), limits


def fault(program, script, proof, limits):
    solved = subprocess.run([program, "solve", proof, *limits], input=script, capture_output=True, timeout=120)
    if solved.returncode not in (0, 1):
        return "solve: status %d" % solved.returncode
    verdicts = [line for line in solved.stdout.split(b"\n") if line in (b"sat", b"unsat", b"unknown")]
    wanted = b"".join(v + b"\n" for v in verdicts) + b"accepted %d\n" % len(verdicts)
    checked = subprocess.run([program, "check", proof], input=script, capture_output=True, timeout=120)
    if (checked.stdout, checked.returncode) != (wanted, 0):
        return "check: status %d, %r" % (checked.returncode, checked.stdout)
    return None


def tell(fault, chosen):
    """Tells what is wrong with each of these scripts, where the program of the command line solves it."""
    program = sys.argv[1] if len(sys.argv) > 1 else run.PROGRAM
    with tempfile.TemporaryDirectory() as folder:
        proof = pathlib.Path(folder) / "proof"
        return run.tell("scripts", ((name, fault(program, script, proof, limits)) for name, script, limits in chosen))


def main():
    return tell(fault, scripts())


if __name__ == "__main__":
    sys.exit(main())
