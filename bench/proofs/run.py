#!/usr/bin/env python3
"""Has one or two programs solve the scripts of three benches and check what they wrote, and prints how large the proofs are and what they cost.

usage: run.py [PROGRAM] [BEFORE] [--limit SECONDS] [--share X] [--times N]
       (default: the program that `rt run` leaves in crates/smt_tool/out, none, 20 seconds, a quarter, and once)

BEFORE is a program of an earlier text: its figures stand beside those of PROGRAM. The scripts are those of bench/words, of bench/arrays,
and the sessions of bench/sessions at a share of their sizes. Seconds are those of the processor, and the least of so many runs. A row has
the sums of its scripts, of those that each program solved within the limit, and the last rows the geometric means over scripts.
"""
import argparse
import collections
import math
import pathlib
import sys
import tempfile

HERE = pathlib.Path(__file__).resolve().parent
BENCH = HERE.parent
sys.path.insert(0, str(BENCH))
from measuring import run  # noqa: E402

PROGRAM = BENCH.parent / "crates/smt_tool/out/smt_tool"

# What a script cost: seconds of `solve` and of `check`, bytes of the proof, megabytes of `check` at most.
Cost = collections.namedtuple("Cost", "solving checking bytes megabytes")


def taken_from(folder, call):
    """What a call gives with the modules of a bench, whose names other benches have too."""
    kept = dict(sys.modules)
    sys.path[:0] = [str(folder), str(BENCH / "words")]
    try:
        return call()
    finally:
        del sys.path[:2]
        for name in set(sys.modules) - set(kept):
            del sys.modules[name]


def of_words():
    import make
    return [("words: " + s.family, s.name, s.text, "unsat" in s.verdicts) for s in make.scripts(1)]


def of_arrays():
    import families
    import make
    return [("arrays: " + s.family, s.name, s.text, "unsat" in s.verdicts) for s in make.scripts(1, families.FAMILIES)]


def of_sessions(share):
    import make
    return [("sessions: " + family, family, make.script(family, 1, share), True) for family in make.FAMILIES]


def scripts(share):
    yield from taken_from(BENCH / "words", of_words)
    yield from taken_from(BENCH / "arrays", of_arrays)
    yield from taken_from(BENCH / "sessions", lambda: of_sessions(share))


def cost(program, script, folder, limit):
    """What one run costs, or None where it does not end within the limit."""
    proof = folder / "proof"
    told, status, solving, _ = run([program, "solve", proof, script, "--budget", "1000000000"], limit, folder)
    if status != 0:
        return None
    verdicts = [line for line in told.split("\n") if line in ("sat", "unsat", "unknown")]
    said, status, checking, megabytes = run([program, "check", proof, script], 10 * limit, folder)
    assert (status, said) == (0, "".join(v + "\n" for v in verdicts) + "accepted %d\n" % len(verdicts)), said[-200:]
    return Cost(solving, checking, proof.stat().st_size, megabytes)


def least(costs):
    return None if None in costs else Cost(*(min(values) for values in zip(*costs)))


def mean(values):
    return math.exp(sum(map(math.log, values)) / len(values)) if values else 1.0


def total(costs):
    return Cost(*(sum(values) for values in list(zip(*costs))[:3]), max(c.megabytes for c in costs))


def cells(costs):
    """The columns of one program: seconds, megabytes of proof, checking to solving, megabytes of `check`."""
    of = total(costs)
    share = mean([max(c.checking, 0.01) / max(c.solving, 0.01) for c in costs])
    return ["%.2f" % of.solving, "%.2f" % of.checking, "%.2f" % share, "%.2f" % (of.bytes / 1e6), "%.0f" % of.megabytes]


def sizes(rows):
    """The bytes of PROGRAM's proofs to those of BEFORE's."""
    return ["%.2f" % mean([costs[0].bytes / costs[1].bytes for costs in rows])] if len(rows[0]) > 1 else []


def line(title, rows):
    of_each = [cell for costs in zip(*rows) for cell in cells(costs)]
    print("| %s | %d | %s |" % (title, len(rows), " | ".join(of_each + sizes(rows))), flush=True)


def read_options():
    options = argparse.ArgumentParser(usage=__doc__)
    options.add_argument("program", nargs="?", default=str(PROGRAM))
    options.add_argument("before", nargs="?")
    options.add_argument("--limit", type=int, default=20)
    options.add_argument("--share", type=float, default=0.25)
    options.add_argument("--times", type=int, default=1)
    return options.parse_args()


def main():
    options = read_options()
    programs = [options.program] + ([options.before] if options.before else [])
    heads = ["solving", "checking", "checking to solving", "MB of proof", "MB checking"]
    named = heads + ["%s, before" % head for head in heads] + ["proof to proof before"] if options.before else heads
    print("| family | scripts | %s |\n|%s" % (" | ".join(named), "---|" * (2 + len(named))), flush=True)
    families, refuted = {}, []
    with tempfile.TemporaryDirectory() as place:
        folder = pathlib.Path(place)
        for family, name, text, has_refutation in scripts(options.share):
            (folder / "script").write_text(text)
            costs = [least([cost(p, folder / "script", folder, options.limit) for _ in range(options.times)]) for p in programs]
            if None not in costs:
                families.setdefault(family, []).append(costs)
                refuted += [costs] * has_refutation
    for family, rows in families.items():
        line(family, rows)
    line("all", [costs for rows in families.values() for costs in rows])
    line("with a refutation", refuted)
    hard = [costs for costs in refuted if costs[-1].solving >= 1.0]
    if hard:
        line("with a refutation, a second and more", hard)


if __name__ == "__main__":
    main()
