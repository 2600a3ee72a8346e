#!/usr/bin/env python3
"""Runs the built program on scripts that take one worker some seconds, with 1, 2 and 4 workers, and prints a table.

usage: run.py [PROGRAM] [--only TEXT] [--workers 1,2,4] [--cubes 4] [--split-only] [--limit SECONDS] [--times N] [--smaller N]
       (default: the program that `rt run` leaves in crates/smt_tool/out, 4 variables that split a check, 120 seconds, once)

The first column of seconds is one worker without a split, which `--split-only` leaves out; the others are so many workers over the
cubes. Seconds are of the clock, and behind them those of all processors, each the least of N runs. Every verdict is compared with
the one that is known, and `check` has to accept each proof. `--smaller 3` takes 3 off each size, for a run of some seconds. Behind
the scripts stand the geometric means of what each column takes of the first one, where the limit counts for a run that reached it.
"""
import argparse
import math
import os
import pathlib
import resource
import subprocess
import sys
import tempfile
import time

import scripts

PROGRAM = pathlib.Path(__file__).resolve().parents[2] / "crates/smt_tool/out/smt_tool"


class Bench:
    def __init__(self, options, folder):
        self.options, self.folder, self.proof = options, folder, folder / "proof"

    def fault(self, script, verdict, output, status):
        """What is wrong with a run, or with its proof."""
        if status != 0 or output != verdict + "\n":
            return "status %d, %s" % (status, output.strip())
        told = subprocess.run([self.options.program, "check", str(self.proof), script], capture_output=True, text=True).stdout
        return None if told == "%s\naccepted 1\n" % verdict else "check told %r" % told

    def timed(self, command):
        """The output and the status of a run, and the seconds of the clock and of all processors that it took."""
        start, before = time.monotonic(), resource.getrusage(resource.RUSAGE_CHILDREN)
        ran = subprocess.run(["timeout", str(self.options.limit), *command], stdin=subprocess.DEVNULL, capture_output=True, text=True)
        after = resource.getrusage(resource.RUSAGE_CHILDREN)
        used = after.ru_utime + after.ru_stime - before.ru_utime - before.ru_stime
        return ran.stdout, ran.returncode, (time.monotonic() - start, used)

    def measured(self, script, verdict, workers, cubes):
        """The least seconds of the clock and of all processors (None where the limit was reached), and what was wrong."""
        words = ["--workers", str(workers), "--cubes", str(cubes), "--budget", "1000000000"]
        seconds, wrong = [], None
        for _ in range(self.options.times):
            output, status, took = self.timed([self.options.program, "solve", str(self.proof), script, *words])
            if status == 124:
                return None, wrong
            seconds.append(took)
            wrong = wrong or self.fault(script, verdict, output, status)
        return [min(column) for column in zip(*seconds)], wrong

    def shown(self, seconds):
        return "%.2f (%.2f)" % tuple(seconds) if seconds else ">%d" % self.options.limit

    def clock(self, seconds):
        return max(seconds[0], 0.001) if seconds else self.options.limit


def mean(values):
    """The geometric mean."""
    return math.exp(sum(map(math.log, values)) / len(values))


def print_means(bench, rows):
    """What each column takes of the first one, by the clock."""
    kinds = [("unsat, words alone", lambda made: made.verdict == "unsat" and not made.theory),
             ("unsat, functions and arrays", lambda made: made.verdict == "unsat" and made.theory),
             ("unsat, all", lambda made: made.verdict == "unsat"), ("sat", lambda made: made.verdict == "sat")]
    for name, belongs in kinds:
        clocks = [[bench.clock(s) for s in found] for made, found in rows if belongs(made)]
        if clocks:
            shares = [mean([row[k] / row[0] for row in clocks]) for k in range(len(clocks[0]))]
            print("| %s | %d scripts | %s |" % (name, len(clocks), " | ".join("%.2f" % s for s in shares)))


def read_options():
    parser = argparse.ArgumentParser(description=__doc__.split("\n")[0])
    parser.add_argument("program", nargs="?", default=str(PROGRAM))
    parser.add_argument("--only", default="", help="scripts whose name has this text")
    parser.add_argument("--workers", default="1,2,4")
    parser.add_argument("--split-only", action="store_true")
    for name, default in ("cubes", 4), ("limit", 120), ("times", 1), ("smaller", 0):
        parser.add_argument("--" + name, type=int, default=default)
    return parser.parse_args()


def heading(ways):
    heads = ["%d%s" % (workers, "" if cubes else ", no split") for workers, cubes in ways]
    print("| script | verdict | %s |" % " | ".join(heads))
    print("|%s" % ("---|" * (2 + len(ways))), flush=True)


def main():
    options = read_options()
    ways = [] if options.split_only else [(1, 0)]
    ways += [(int(n), options.cubes) for n in options.workers.split(",")]
    rows, wrong, start = [], 0, time.monotonic()
    print("%d processors, load %.1f at the begin" % (os.cpu_count(), os.getloadavg()[0]))
    heading(ways)
    with tempfile.TemporaryDirectory() as folder:
        bench = Bench(options, pathlib.Path(folder))
        script = pathlib.Path(folder) / "script.smt2"
        for made in scripts.scripts(options.smaller):
            if options.only not in made.name:
                continue
            script.write_text(made.text)
            found = [bench.measured(str(script), made.verdict, *way) for way in ways]
            rows.append((made, [seconds for seconds, _ in found]))
            print("| %s | %s | %s |" % (made.name, made.verdict, " | ".join(map(bench.shown, rows[-1][1]))), flush=True)
            for fault in {f for _, f in found if f}:
                print("\n%s: %s\n" % (made.name, fault))
                wrong += 1
    print_means(bench, rows)
    print("\n%d scripts, %d wrong, %.0f seconds in all" % (len(rows), wrong, time.monotonic() - start))
    return 1 if wrong or not rows else 0


if __name__ == "__main__":
    sys.exit(main())
