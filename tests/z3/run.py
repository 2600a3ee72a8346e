#!/usr/bin/env python3
"""Hands what the built program prints to z3: a printed model has to make the script `sat`, a printed core `unsat`.

usage: run.py [PROGRAM] [COUNT] [SEED]    (default: the program that `rt run` leaves in crates/smt_tool/out, 200, 1)

The scripts are random ones over two words of one width from 1 to 8 and a Bool, each assertion under a name. The model, as
it is printed, stands before the assertions in place of the declarations; of a core the named assertions alone are asserted;
of assumptions that cannot hold all assertions and these. Where no z3 is to be found, nothing is run. It is no part of the
gate: z3 is another solver, and shows that what is printed reads back.
"""
import pathlib
import random
import shutil
import subprocess
import sys
import tempfile

HERE = pathlib.Path(__file__).resolve().parent
PROGRAM = HERE.parents[1] / "crates/smt_tool/out/smt_tool"
sys.path.insert(0, str(HERE.parent / "random"))
import words


def verdict_of_z3(z3, lines):
    ran = subprocess.run([z3, "-in", "-smt2"], input="\n".join(lines) + "\n(check-sat)\n", capture_output=True, text=True, timeout=120)
    return ran.stdout.strip()


def solved(program, lines, folder):
    ran = subprocess.run([program, "solve", str(folder / "proof")], input="\n".join(lines) + "\n", capture_output=True, text=True, timeout=120)
    return ran.stdout.split("\n")[:-1]


def declared(width):
    return ["(declare-const %s (_ BitVec %d))" % (name, width) for name in "xy"] + ["(declare-const p Bool)"]


def plain(terms):
    return ["(assert %s)" % t for t in terms]


class Asked:
    """The answers to a random script, and what z3 says of what is printed."""

    def __init__(self, program, source, folder):
        self.width = source.randint(1, 8)
        maker = words.Maker(source, self.width)
        self.terms = [maker.truth(source.randint(1, 3))[0] for _ in range(source.randint(1, 5))]
        self.assumed = [maker.truth(source.randint(0, 2))[0] for _ in range(source.randint(1, 4))]
        self.program, self.folder = program, folder

    def script(self, asking):
        named = ["(assert (! %s :named a%d))" % (t, k) for k, t in enumerate(self.terms)]
        return declared(self.width) + named + asking

    def fault(self, z3, asked, on_sat, on_unsat, reads_back):
        verdict = solved(self.program, self.script([asked]), self.folder)
        if verdict not in (["sat"], ["unsat"]):
            return "answered %r" % verdict
        printed = solved(self.program, self.script([asked, on_sat if verdict == ["sat"] else on_unsat]), self.folder)[1:]
        lines, assumed = reads_back(verdict[0], printed)
        told = verdict_of_z3(z3, lines + plain(assumed))
        return told != verdict[0] and "z3 answers %s to\n%s" % (told, "\n".join(lines + plain(assumed)))

    def of_check(self, verdict, printed):
        if verdict == "sat":
            return printed[1:-1] + plain(self.terms), []
        names = printed[0][1:-1].split()
        return declared(self.width) + plain(self.terms[int(name[1:])] for name in names), []

    def of_assumptions(self, verdict, printed):
        if verdict == "sat":
            return printed[1:-1] + plain(self.terms), self.assumed
        listed, blamed = printed[0][1:-1], []
        for t in self.assumed:
            if listed == t or listed.startswith(t + " "):
                listed = listed[len(t) + 1:]
                blamed.append(t)
        return declared(self.width) + plain(self.terms), blamed

    def faults(self, z3):
        yield self.fault(z3, "(check-sat)", "(get-model)", "(get-unsat-core)", self.of_check)
        assuming = "(check-sat-assuming (%s))" % " ".join(self.assumed)
        yield self.fault(z3, assuming, "(get-model)", "(get-unsat-assumptions)", self.of_assumptions)


def main():
    z3 = shutil.which("z3")
    if z3 is None:
        print("there is no z3 here: nothing was run")
        return 0
    program = sys.argv[1] if len(sys.argv) > 1 else PROGRAM
    count = int(sys.argv[2]) if len(sys.argv) > 2 else 200
    source = random.Random(int(sys.argv[3]) if len(sys.argv) > 3 else 1)
    bad = 0
    with tempfile.TemporaryDirectory() as folder:
        for _ in range(count):
            for found in Asked(program, source, pathlib.Path(folder)).faults(z3):
                if found:
                    bad += 1
                    print(found)
    print("%d scripts, %d different" % (count, bad))
    return 1 if bad else 0


if __name__ == "__main__":
    sys.exit(main())
