#!/usr/bin/env python3
"""Runs `solve` and `check` over scripts and proofs that are made to be slow, each at two sizes, and tells how their times grow.

usage: run.py [NAME ..] [--program FILE] [--times N] [--factor F] [--sizes S ..]   (default: the program that `rt run` leaves in
crates/smt_tool/out)

For each family of made.py and of theories.py, at its size and at F times that (4 when nothing else is said): the processor seconds of `solve` and of
`check`, the least of N runs (3), without those of an empty script; the exponent with which each grew; the megabytes of the larger
run. It looks at the verdicts and has `check` accept the proof. For each family of forged.py it runs `check` alone, and looks at its
answers. An exponent of more than 0.3 above what the family's meaning forces, where the larger run takes more than a fifth of a second,
is a fault. With --sizes it tells the seconds at these sizes, and judges nothing. It is no part of the gate.
"""
import argparse
import math
import pathlib
import sys
import tempfile

ROOT = pathlib.Path(__file__).resolve().parents[2]
sys.path.insert(0, str(ROOT / "bench"))
import forged
import made
import measuring
import theories

SECONDS = 600
VERDICTS = ("sat", "unsat", "unknown")
SCRIPTS = {**made.FAMILIES, **theories.FAMILIES}
# Times below this one say nothing about growth.
TELLS = 0.2
MOST = 0.3


class Runs:
    """Runs of one program in one folder."""

    def __init__(self, program, folder, times):
        self.program, self.folder, self.times = program, folder, times
        self.floor = [0.0, 0.0]
        self.floor = self.measured(b"", [], [])[0]

    def least(self, words):
        """The output, the processor seconds and the megabytes of the fastest of some runs."""
        found = [measuring.run([self.program, *words], SECONDS, self.folder) for _ in range(self.times)]
        output, status, seconds, megabytes = min(found, key=lambda it: it[2])
        return output, status, seconds, megabytes

    def measured(self, script, options, wanted):
        """The seconds of both commands, the greatest megabytes and the bytes of the proof; stops where an answer is wrong."""
        place, proof = self.folder / "script", self.folder / "proof"
        place.write_bytes(script)
        answers, status, solving, held = self.least(["solve", str(proof), str(place), *options])
        said = [line for line in answers.splitlines() if line in VERDICTS]
        if said != wanted or status not in (0, 1):
            sys.exit(f"{said[:3]} and status {status}, not {wanted[:3]}")
        judged, status, checking, more = self.least(["check", str(proof), str(place)])
        if status != 0 or judged.splitlines() != [*wanted, f"accepted {len(wanted)}"]:
            sys.exit(f"check ends with status {status}: {judged.splitlines()[-1:]}")
        seconds = [max(0.0, s - f) for s, f in zip((solving, checking), self.floor)]
        return seconds, max(held, more), proof.stat().st_size

    def judged(self, script, proof, wanted):
        """The seconds of `check` over a proof that no solver wrote, its megabytes, and the bytes of the proof."""
        place, given = self.folder / "script", self.folder / "proof"
        place.write_bytes(script)
        given.write_bytes(proof)
        said, status, checking, held = self.least(["check", str(given), str(place)])
        if said.splitlines() != wanted or status != (0 if wanted[-1].startswith("accepted") else 1):
            sys.exit(f"check ends with status {status}: {said.splitlines()[-1:]}")
        return [0.0, max(0.0, checking - self.floor[1])], held, len(proof)

    def of(self, name, size):
        """What a family costs at a size."""
        if name in forged.FAMILIES:
            return self.judged(*forged.FAMILIES[name].make(size))
        family = SCRIPTS[name]
        script, wanted = family.make(size)
        return self.measured(script, family.options(size), wanted)


def exponent(small, large, factor):
    return math.log(max(large, 1e-3) / max(small, 1e-3)) / math.log(factor)


def told(runs, name, family, factor):
    """The row of a family, and whether it grows too fast."""
    (small, _, _), (large, megabytes, proof) = (runs.of(name, size) for size in (family.size, family.size * factor))
    grown = [exponent(s, l, factor) for s, l in zip(small, large)]
    fast = any(l > TELLS and g > family.forced + MOST for l, g in zip(large, grown))
    columns = [f"{s:.2f} | {l:.2f} | {g:.2f}" if l else "| |" for s, l, g in zip(small, large, grown)]
    row = f"| {name} | {family.size:,} | {columns[0]} | {columns[1]} | {proof / 1e6:.1f} | {megabytes:.0f} |{' too fast' if fast else ''}"
    return row, fast


def sized(runs, name, sizes):
    """A line for each of these sizes of a family."""
    for size in sizes:
        (solving, checking), megabytes, proof = runs.of(name, size)
        yield f"{name} of {size:,}: solve {solving:.2f}, check {checking:.2f} seconds, {megabytes:.0f} MB, a proof of {proof / 1e6:.1f} MB"


def table(runs, families, factor):
    """Prints the rows of these families; the status is 1 where one grows too fast."""
    faults = 0
    print("| family | size | solve | larger | exponent | check | larger | exponent | proof, MB | memory, MB |")
    print("|---|---|---|---|---|---|---|---|---|---|")
    for name, family in families.items():
        row, fast = told(runs, name, family, factor)
        print(row, flush=True)
        faults += fast
    print(f"{faults} families grow too fast")
    return 1 if faults else 0


def main():
    parser = argparse.ArgumentParser()
    parser.add_argument("--program", default=str(ROOT / "crates/smt_tool/out/smt_tool"))
    parser.add_argument("--times", type=int, default=3)
    parser.add_argument("--factor", type=int, default=4)
    parser.add_argument("--sizes", type=int, nargs="*", default=[])
    parser.add_argument("names", nargs="*")
    words = parser.parse_args()
    families = {name: family for name, family in {**SCRIPTS, **forged.FAMILIES}.items() if not words.names or name in words.names}
    with tempfile.TemporaryDirectory() as folder:
        runs = Runs(str(pathlib.Path(words.program).resolve()), pathlib.Path(folder), words.times)
        if words.sizes:
            for name in families:
                for line in sized(runs, name, words.sizes):
                    print(line, flush=True)
            return 0
        return table(runs, families, words.factor)


if __name__ == "__main__":
    sys.exit(main())
