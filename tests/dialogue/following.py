#!/usr/bin/env python3
"""Follows `check` over a pipe: hands the proof over record by record, and waits for each verdict before more is sent.

usage: following.py [PROGRAM]    (default: the program that `rt run` leaves in crates/smt_tool/out)

The last part of the proof is cut off in its record, so that the verdicts before it stand beside a refusal.
"""
import os
import pathlib
import select
import subprocess
import sys
import tempfile

PROGRAM = pathlib.Path(__file__).resolve().parents[2] / "crates/smt_tool/out/smt_tool"
LIMIT = 10.0
SCRIPT = "(declare-const p Bool) (check-sat) (assert p) (check-sat) (assert (not p)) (check-sat)"
# parts of the proof, each with what has to be told before the next part is sent
PARTS = [
    (b"smt_proof 1 cubes 0 budget 100000\nsat 1\nv 0 false\n", b"sat\n"),
    (b"f 0\ns 0\nsat 1\nv 0 tr", b""),
    (b"ue\n", b"sat\n"),
    (b"e 1\ns 1\nunsat 9\n", b"refused line 10 rule unsat\n"),
]


def told(source, size):
    """So many bytes of what the program tells, or what came within the time limit."""
    text = b""
    while len(text) < size and select.select([source], [], [], LIMIT)[0]:
        piece = os.read(source.fileno(), size - len(text))
        if not piece:
            break
        text += piece
    return text


def main():
    program = sys.argv[1] if len(sys.argv) > 1 else PROGRAM
    with tempfile.TemporaryDirectory() as folder:
        script, proof = pathlib.Path(folder, "script"), pathlib.Path(folder, "proof")
        script.write_text(SCRIPT)
        os.mkfifo(proof)
        run = subprocess.Popen([program, "check", str(proof), str(script)], stdin=subprocess.DEVNULL, stdout=subprocess.PIPE)
        with open(proof, "wb", buffering=0) as pipe:
            for text, wanted in PARTS:
                pipe.write(text)
                came = told(run.stdout, len(wanted))
                if came != wanted:
                    run.kill()
                    sys.exit("behind %r came %r, not %r" % (text, came, wanted))
        rest, status = run.stdout.read(), run.wait(LIMIT)
    if rest or status != 1:
        sys.exit("at the end came %r with status %d" % (rest, status))
    print("%d parts, each told of in time" % len(PARTS))


main()
