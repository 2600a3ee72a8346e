#!/usr/bin/env python3
"""Times `lrat` of the built program on refutations of 10^5 and 10^6 lines that make.py writes.

usage: run.py [PROGRAM]    (default: the program that `rt run` leaves in crates/smt_tool/out)
"""
import math
import pathlib
import subprocess
import sys
import tempfile

HERE = pathlib.Path(__file__).resolve().parent
PROGRAM = HERE.parents[1] / "crates/smt_tool/out/smt_tool"
SIZES = (100000, 1000000)
SEED = 1
sys.path.insert(0, str(HERE.parent))
import measuring


def best(program, folder, size):
    """The bytes of the refutation, and the least seconds and the most megabytes of three runs."""
    cnf, lrat = folder / "cnf", folder / "lrat"
    subprocess.run([sys.executable, HERE / "make.py", str(size), str(SEED), cnf, lrat], check=True)
    seconds, megabytes = [], []
    for _ in range(3):
        output, status, used, most = measuring.run([program, "lrat", lrat, cnf], 600, folder)
        if (output, status) != ("accepted\n", 0):
            sys.exit("%d lines: %r, status %d" % (size, output, status))
        seconds.append(used)
        megabytes.append(most)
    return lrat.stat().st_size, min(seconds), max(megabytes)


def main():
    program = sys.argv[1] if len(sys.argv) > 1 else PROGRAM
    print("| lines | MB of text | seconds | MB so far |\n|---|---|---|---|")
    found = []
    with tempfile.TemporaryDirectory() as folder:
        for size in SIZES:
            found.append(best(program, pathlib.Path(folder), size))
            print("| %d | %.1f | %.3f | %d |" % (size, found[-1][0] / 1e6, found[-1][1], found[-1][2]))
    (text, time, _), (more, later, _) = found
    print("\nexponent in the bytes: %.2f" % (math.log(later / time) / math.log(more / text)))


if __name__ == "__main__":
    main()
