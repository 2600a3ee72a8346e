#!/usr/bin/env python3
"""Answers random sessions with the built program, and compares each verdict with trying every value.

usage: sessions.py [PROGRAM] [COUNT] [SEED]    (default: the program that `rt run` leaves in crates/smt_tool/out, 100, 1)

Each session declares two words of one width from 1 to 4 and a Bool, and opens and closes levels, asserts and checks in turn, with
assumptions or without, some forty commands long: so a search goes over from one check to the next, holds again what it held before
and keeps what it learnt. Two of three are solved within other limits than the usual ones, so that some answers are `unknown`.
A `sat` must have a model among the values, and that of its record must be one; an `unsat` must have none. The replayer of
tests/rows and the program's own `check` must accept each proof file with these verdicts. Terms and meanings are those of words.py.
"""
import subprocess

import words

LENGTH = 40


class Session:
    """A random session: its commands, and what is asserted and assumed at each of its checks."""

    def __init__(self, source):
        self.width = source.randint(1, 4)
        self.maker, self.source = words.Maker(source, self.width), source
        self.levels, self.checks = [[]], []
        budget, cubes = ["--budget", str(source.randint(0, 6))], ["--cubes", str(source.randint(1, 3))]
        self.limits = source.choice([[], budget, budget + cubes])
        self.lines = ["(declare-const x (_ BitVec %d))(declare-const y (_ BitVec %d))(declare-const p Bool)" % (self.width, self.width)]
        self.lines += [self.command() for _ in range(LENGTH)]

    def command(self):
        kind = self.source.randrange(10)
        if kind < 3:
            self.levels[-1].append(self.maker.truth(self.source.randint(1, 3)))
            return "(assert %s)" % self.levels[-1][-1][0]
        if kind == 3:
            self.levels.append([])
            return "(push 1)"
        if kind in (4, 5) and len(self.levels) > 1:
            self.levels.pop()
            return "(pop 1)"
        assumed = [self.maker.truth(self.source.randint(0, 2)) for _ in range(self.source.randint(1, 2) if kind > 7 else 0)]
        self.checks.append([f for level in self.levels for _, f in level] + [f for _, f in assumed])
        return "(check-sat-assuming (%s))" % " ".join(t for t, _ in assumed) if assumed else "(check-sat)"

    def values(self):
        size = range(1 << self.width)
        return ({"x": x, "y": y, "p": p} for x in size for y in size for p in (False, True))

    def fault(self, verdicts, models):
        if len(verdicts) != len(self.checks) or len(models) != len(self.checks):
            return "answered %r" % verdicts
        for k, (verdict, model, fs) in enumerate(zip(verdicts, models, self.checks)):
            if verdict == "unknown" and self.limits:
                continue
            if verdict != ("sat" if any(all(f(v) for f in fs) for v in self.values()) else "unsat"):
                return "check %d answered %s" % (k, verdict)
            if verdict == "sat" and not all(f(model) for f in fs):
                return "the model of check %d is none" % k
        return None


def wrong(program, source, folder):
    session = Session(source)
    script, proof, ran = words.solved(program, session, folder)
    verdicts = ran.stdout.split("\n")[:-1]
    found = session.fault(verdicts, words.models_of(proof))
    if not found and not words.accepted(script.read_text(), proof, verdicts):
        found = "the proof is refused by the replayer"
    told = subprocess.run([program, "check", str(proof), str(script)], capture_output=True, text=True, timeout=300).stdout
    if not found and told.split("\n") != verdicts + ["accepted %d" % len(verdicts), ""]:
        found = "check told %r" % told
    return words.report(found, session)


if __name__ == "__main__":
    words.compare(wrong, "sessions", 100)
