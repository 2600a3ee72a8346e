#!/usr/bin/env python3
"""Measures `cnf` and `lrat` of the built program on texts of many clauses, of which the search is easy.

usage: large.py [PROGRAM] [CLAUSES]...    (default: the program that `rt run` leaves in crates/smt_tool/out, 10^6 and 10^7)

The clauses have three literals each, over half as many variables. `cnf` reads them, watches them and decides every variable;
`lrat` reads them and refuses an empty refutation. The texts are removed: that of 10^7 clauses has 240 MB.
"""
import pathlib
import sys
import tempfile

HERE = pathlib.Path(__file__).resolve().parent
PROGRAM = HERE.parents[1] / "crates/smt_tool/out/smt_tool"
sys.path.insert(0, str(HERE.parent))
import measuring

LIMIT = 1200


def write(path, clauses):
    variables = clauses // 2
    with open(path, "w") as out:
        out.write("p cnf %d %d\n" % (variables, clauses))
        for start in range(0, clauses, 100000):
            out.writelines(
                "%d -%d %d 0\n" % (i % variables + 1, (i * 7919 + 13) % variables + 1, (i * 104729 + 7) % variables + 1)
                for i in range(start, min(clauses, start + 100000)))


def main():
    words = sys.argv[1:]
    program = words.pop(0) if words and not words[0].isdigit() else PROGRAM
    print("| clauses | MB of text | word | seconds | MB | microseconds a clause | bytes a clause |\n|---|---|---|---|---|---|---|")
    with tempfile.TemporaryDirectory() as place:
        folder = pathlib.Path(place)
        cnf, proof = folder / "cnf", folder / "proof"
        for clauses in [int(w) for w in words] or [10**6, 10**7]:
            write(cnf, clauses)
            for word, wanted in (("lrat", "refused line 1 rule empty\n"), ("cnf", "sat\n")):
                proof.write_text("")
                output, _, seconds, megabytes = measuring.run([program, word, proof, cnf], LIMIT, folder)
                if not output.startswith(wanted):
                    sys.exit("%s says %.60r" % (word, output))
                print("| %d | %.0f | `%s` | %.2f | %.0f | %.2f | %.0f |" % (
                    clauses, cnf.stat().st_size / 1e6, word, seconds, megabytes, seconds * 1e6 / clauses, megabytes * 1024 * 1024 / clauses), flush=True)


if __name__ == "__main__":
    main()
