#!/usr/bin/env python3
"""Tries the wrong bodies of this folder, which the gate does not: the prover has to refuse each.

usage: run.py [CRATE]...    (default: each crate that has a folder here)

A folder is named as its crate, and an edit in it is written as one in the crate's must-fail/. The gate tries those that tell
most of each crate; these turn the same functions in other ways, and would take a gate longer than it may last. The sources are
copied to a new folder, where these edits stand in place of the gate's, and `rt must-fail` tries them.
"""
import pathlib
import shutil
import subprocess
import sys
import tempfile

HERE = pathlib.Path(__file__).resolve().parent
ROOT = HERE.parents[1]


def copied(folder, crates):
    """Copies what `rt` reads, with these edits in place of those of the gate."""
    for name in ("crates.txt", "HANDLES"):
        shutil.copy(ROOT / name, folder / name)
    shutil.copytree(ROOT / "crates", folder / "crates", ignore=shutil.ignore_patterns("out"))
    for crate in crates:
        edits = folder / "crates" / crate / "must-fail"
        shutil.rmtree(edits, ignore_errors=True)
        shutil.copytree(HERE / crate, edits)


def main(names):
    known = sorted(path.name for path in HERE.iterdir() if path.is_dir())
    strange = [name for name in names if name not in known]
    if strange:
        print("no folder here: %s" % " ".join(strange))
        return 2
    crates = names or known
    with tempfile.TemporaryDirectory() as place:
        folder = pathlib.Path(place)
        copied(folder, crates)
        subprocess.run(["git", "init", "--quiet", str(folder)], check=True)
        failed = [crate for crate in crates if subprocess.run(["rt", "must-fail", crate], cwd=folder).returncode]
    print("%d crates, %d failed%s" % (len(crates), len(failed), "".join(": " + crate for crate in failed)))
    return 1 if failed else 0


if __name__ == "__main__":
    sys.exit(main(sys.argv[1:]))
