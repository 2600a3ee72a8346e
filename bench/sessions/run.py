#!/usr/bin/env python3
"""Runs the built program, its check, z3 and cvc5 on sessions of many small checks, and prints a table.

usage: run.py [PROGRAM] [--families TEXT] [--seed N] [--limit SECONDS] [--share S]
       (default: the program that `rt run` leaves in crates/smt_tool/out, all families, seed 1, 60 seconds, whole sizes)

Verdicts are compared with z3's, and the proof is handed to `check`. A solver that does not end within the limit counts with it.
The exponent is that of the seconds between half of a size and the whole. The last table is of a dialogue over pipes.
"""
import argparse
import collections
import math
import pathlib
import shutil
import subprocess
import sys
import tempfile
import time

HERE = pathlib.Path(__file__).resolve().parent
sys.path.insert(0, str(HERE.parent))
import make  # noqa: E402
from measuring import run  # noqa: E402

PROGRAM = HERE.parents[1] / "crates/smt_tool/out/smt_tool"
OTHERS = {"z3": ["z3"], "cvc5": ["cvc5", "--incremental"]}
VERDICTS = ("sat", "unsat", "unknown")

# Verdicts (None where there are not all), processor seconds, and megabytes at most.
Measured = collections.namedtuple("Measured", "verdicts seconds megabytes")


def measured(command, limit, folder):
    text, status, seconds, megabytes = run(command, limit, folder)
    ended = status == 0 and seconds < 0.98 * limit
    verdicts = [line for line in text.split("\n") if line in VERDICTS] if ended else None
    return Measured(verdicts, seconds if ended else limit, megabytes)


class Bench:
    def __init__(self, options, folder):
        self.options, self.folder, self.proof = options, folder, folder / "proof"
        self.others = {name: command for name, command in OTHERS.items() if shutil.which(command[0])}
        self.wrong = 0

    def solved(self, family, share):
        """What the program and its check came to on a family at a share of its size, and where the script is."""
        script = self.folder / "script.smt2"
        script.write_text(make.script(family, self.options.seed, share))
        budget = ["--budget", "1000000000"]
        ours = measured([self.options.program, "solve", str(self.proof), str(script), *budget], self.options.limit, self.folder)
        return script, ours

    def row(self, family):
        _, half = self.solved(family, self.options.share / 2)
        script, ours = self.solved(family, self.options.share)
        check = measured([self.options.program, "check", str(self.proof), str(script)], self.options.limit, self.folder)
        others = {name: measured([*command, str(script)], self.options.limit, self.folder) for name, command in self.others.items()}
        told = [one.verdicts for one in [ours, check, *others.values()] if one.verdicts is not None]
        if any(verdicts != told[0] for verdicts in told):
            self.wrong += 1
        exponent = math.log2(max(ours.seconds, 0.01) / max(half.seconds, 0.01))
        cells = [family, str(len(told[0]) if told else 0), shown(ours), *(shown(o) for o in others.values()), shown(check), "%.2f" % exponent]
        cells += ["%.0f" % one.megabytes for one in [ours, *others.values(), check]] + ["%.2f" % (self.proof.stat().st_size / 1e6)]
        print("| %s |" % " | ".join(cells), flush=True)
        return {name: max(ours.seconds, 0.01) / max(other.seconds, 0.01) for name, other in others.items()}


def shown(one):
    return "%.3f" % one.seconds if one.verdicts is not None else ">%g" % one.seconds


def dialogue(command, text):
    """The median of the milliseconds from a question to its answer over pipes."""
    child = subprocess.Popen(command, stdin=subprocess.PIPE, stdout=subprocess.PIPE, stderr=subprocess.DEVNULL)
    waits = []
    for part in text.split("(check-sat)\n")[:-1]:
        child.stdin.write(part.encode() + b"(check-sat)\n")
        child.stdin.flush()
        began = time.perf_counter()
        assert child.stdout.readline().decode().strip() in VERDICTS
        waits.append(time.perf_counter() - began)
    child.kill()
    child.wait()
    return 1000 * sorted(waits)[len(waits) // 2]


def read_options():
    parser = argparse.ArgumentParser(description=__doc__.split("\n")[0])
    parser.add_argument("program", nargs="?", default=str(PROGRAM))
    parser.add_argument("--families", default="", help="those whose name has this text")
    parser.add_argument("--seed", type=int, default=1)
    parser.add_argument("--limit", type=int, default=60)
    parser.add_argument("--share", type=float, default=1.0)
    return parser.parse_args()


def main():
    options = read_options()
    with tempfile.TemporaryDirectory() as folder:
        bench = Bench(options, pathlib.Path(folder))
        names = list(bench.others)
        heads = ["family", "checks", "solving", *names, "checking", "exponent", "MB", *("MB of " + n for n in names), "MB checking", "MB of proof"]
        print("| %s |\n| %s |" % (" | ".join(heads), " | ".join(["---"] * len(heads))), flush=True)
        rows = [bench.row(family) for family in make.FAMILIES if options.families in family]
        for name in names:
            print("\ngeometric mean of solving to %s: %.2f" % (name, math.exp(sum(math.log(row[name]) for row in rows) / len(rows))))
        print("%d families, %d wrong" % (len(rows), bench.wrong))
        text = make.script("base by levels", options.seed, options.share)
        print("\nmedian milliseconds of an answer in a dialogue of the base by levels:")
        for name, command in {"smt_tool": [options.program, "solve", str(bench.proof)], "z3": ["z3", "-in"], "cvc5": ["cvc5", "--incremental"]}.items():
            if shutil.which(command[0]):
                print("%s %.2f" % (name, dialogue(command, text)), flush=True)
    return 1 if bench.wrong else 0


if __name__ == "__main__":
    sys.exit(main())
