#!/usr/bin/env python3
"""Measures walks by the program walk_bench, and prints a table (argument: the program, as `rt run` built it).

The time of a walk is that of the processor, in which other work on the machine does not count: what a run with so many walks takes
more than one with a single walk, the least of five such differences. The exponent is that of the time in the rows, from one
network to the next of the same shape.
"""
import math
import os
import re
import subprocess
import sys

HERE = os.path.dirname(os.path.abspath(__file__))
PROGRAM = os.path.abspath(sys.argv[1] if len(sys.argv) > 1 else os.path.join(HERE, "../../crates/walk_bench/out/walk_bench"))
# Shape, stores or applications, and walks.
NETWORKS = [
    ("chain", 10, 20000),
    ("chain", 100, 500),
    ("chain", 1000, 8),
    ("shared", 1000, 5000),
    ("shared", 10000, 100),
    ("shared", 100000, 20),
    ("calls", 100, 20000),
    ("calls", 1000, 1000),
    ("calls", 10000, 1000),
]
RUNS = 5


def run(shape, count, times):
    """The rows of a walk, the seconds of the processor, and the megabytes at most."""
    child = subprocess.Popen([PROGRAM, shape, str(count), str(times)], stdout=subprocess.PIPE, text=True)
    told = child.stdout.read()
    _, status, used = os.wait4(child.pid, 0)
    if status != 0:
        sys.exit("%s %d: status %d" % (shape, count, status))
    return int(re.match(r"(\d+) rows", told).group(1)), used.ru_utime + used.ru_stime, used.ru_maxrss / 1024


def measure(shape, count, times):
    """The rows, the least seconds of a walk, and the megabytes at most."""
    rows, megabytes, seconds = 0, 0, math.inf
    for _ in range(RUNS):
        _, once, _ = run(shape, count, 1)
        rows, often, megabytes = run(shape, count, 1 + times)
        seconds = min(seconds, (often - once) / times)
    return rows, seconds, megabytes


def main():
    print("| network | rows | a walk | a row | exponent | memory |")
    print("|---|---|---|---|---|---|")
    before = {}
    for shape, count, times in NETWORKS:
        rows, seconds, megabytes = measure(shape, count, times)
        exponent = ""
        if shape in before:
            exponent = "%.2f" % (math.log(seconds / before[shape][1]) / math.log(rows / before[shape][0]))
        before[shape] = rows, seconds
        print("| %s %d | %d | %.3f ms | %.3f µs | %s | %.0f MB |"
              % (shape, count, rows, seconds * 1e3, seconds * 1e6 / rows, exponent, megabytes), flush=True)


if __name__ == "__main__":
    main()
