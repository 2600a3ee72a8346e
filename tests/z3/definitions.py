#!/usr/bin/env python3
"""Hands the definitions that the tests of accepted_proof expect to z3: they have to read back as the values that were printed.

usage: definitions.py

The definitions are taken out of crates/accepted_proof/src/printing_tests.rt; what each has at its indexes or arguments is told
here. Where no z3 is to be found, nothing is run. It is no part of the gate.
"""
import pathlib
import re
import shutil
import subprocess
import sys

ROOT = pathlib.Path(__file__).resolve().parents[2]
TESTS = ROOT / "crates/accepted_proof/src/printing_tests.rt"
FACTS = {
    "f": ["(= (f #b0) #b1)", "(= (f #b1) #b0)"],
    "g": ["(= (g #b01 true) #b10)", "(= (g #b01 false) #b11)", "(= (g #b01 false) (bvadd (g #b01 true) #b01))"]
    + ["(= (g #b%s %s) #b00)" % (word, truth) for word in ("00", "10", "11") for truth in ("true", "false")],
    "a": ["(= (select a #b%s) #b%d)" % (index, element) for index, element in (("00", 1), ("01", 0), ("10", 1), ("11", 0))],
}


def definitions():
    text = re.sub(r"\\\n\s*", "", TESTS.read_text())
    return re.findall(r'b"(\(define-fun (\w+) .*)\\n";', text)


def verdict(z3, lines):
    ran = subprocess.run([z3, "-in", "-smt2"], input="\n".join(lines + ["(check-sat)"]), capture_output=True, text=True, timeout=60)
    return ran.stdout.strip()


def main():
    z3 = shutil.which("z3")
    if not z3:
        print("no z3: nothing is run")
        return 0
    found = definitions()
    faults = [] if sorted(name for _, name in found) == sorted(FACTS) else ["definitions of %s" % [name for _, name in found]]
    for line, name in found:
        wrong = "(assert (not (and %s)))" % " ".join(FACTS.get(name, []))
        for lines, wanted in (([line], "sat"), ([line, wrong], "unsat")):
            told = verdict(z3, lines)
            if told != wanted:
                faults.append("%s: %s for %s" % (name, told, wanted))
    print("\n".join(faults + ["%d definitions, %d faults" % (len(found), len(faults))]))
    return 1 if faults else 0


if __name__ == "__main__":
    sys.exit(main())
