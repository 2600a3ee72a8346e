#!/usr/bin/env python3
"""Times the built program on rounds of push, assert, check-sat and pop over words of 32 bits, at three sizes each.

usage: run.py [PROGRAM]    (default: the program that `rt run` leaves in crates/smt_tool/out)
       run.py --one KIND ROUNDS PROGRAM

The kinds of round: in `again` all rounds assert the same; in `apart` each asserts what no other asserts, so that each check
has new terms; in `deep` each check stands two levels below the first, and the round closes both.
"""
import pathlib
import resource
import subprocess
import sys
import tempfile

PROGRAM = pathlib.Path(__file__).resolve().parents[2] / "crates/smt_tool/out/smt_tool"
HEAD = "(declare-const x (_ BitVec 32))\n(declare-const y (_ BitVec 32))\n(assert (bvult x y))\n"


def apart(k):
    return "(push 1)\n(assert (= x (_ bv%d 32)))\n(check-sat)\n(pop 1)\n" % k


def again(k):
    return "(push 1)\n(assert (= (bvadd x y) #x00000007))\n(check-sat)\n(pop 1)\n"


def deep(k):
    return "(push 1)\n(assert (bvult x #x00000400))\n(push 1)\n(assert (= (bvand x y) (_ bv%d 32)))\n(check-sat)\n(pop 2)\n" % (k % 1024)


SIZES = [1250, 2500, 5000]
KINDS = {"again": again, "apart": apart, "deep": deep}


def measured(program, text):
    """Processor seconds, megabytes at most, and bytes of the proof of one run; it runs in a process of its own, since the
    memory that is told is the greatest of all that were waited for."""
    with tempfile.TemporaryDirectory() as folder:
        proof = pathlib.Path(folder) / "proof"
        ran = subprocess.run([program, "solve", str(proof)], input=text.encode(), capture_output=True)
        used = resource.getrusage(resource.RUSAGE_CHILDREN)
        verdicts = len([line for line in ran.stdout.split(b"\n") if line in (b"sat", b"unsat")])
        if ran.returncode != 0:
            raise SystemExit("status %d" % ran.returncode)
        return used.ru_utime + used.ru_stime, used.ru_maxrss // 1024, proof.stat().st_size, verdicts


def one(program, kind, size):
    text = HEAD + "".join(KINDS[kind](k) for k in range(size))
    seconds, megabytes, proof, verdicts = measured(program, text)
    if verdicts != size:
        raise SystemExit("%d verdicts" % verdicts)
    print("| %s | %d | %.2f | %.3f | %d | %.1f |" % (kind, size, seconds, 1000 * seconds / size, megabytes, proof / 1e6), flush=True)


def main():
    words = sys.argv[1:]
    if words[:1] == ["--one"]:
        return one(words[3], words[1], int(words[2]))
    program = words[0] if words else str(PROGRAM)
    print("| rounds | number | seconds | milliseconds a round | MB | MB of proof |\n|---|---|---|---|---|---|", flush=True)
    for kind in KINDS:
        for size in SIZES:
            ran = subprocess.run([sys.executable, __file__, "--one", kind, str(size), program])
            if ran.returncode != 0:
                return ran.returncode


if __name__ == "__main__":
    sys.exit(main())
