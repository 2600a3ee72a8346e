#!/usr/bin/env python3
"""Has what people connect to a solver talk with the built program, and with z3, and compares what they say.

usage: run.py [--only CLIENT] [PROGRAM]    (default: the program that `rt run` leaves in crates/smt_tool/out)

Each client is run twice: with bridge.py and the program behind it, and with z3. What it says of its questions has to be the
same, and `check` has to accept the proof of each script that the program was given. A client that is not installed is passed
over, which is told, as is everything where there is no z3. docs/CLIENTS.md says how each is connected. It is no part of the gate.
"""
import pathlib
import re
import shutil
import subprocess
import sys
import tempfile

HERE = pathlib.Path(__file__).resolve().parent
PROGRAM = HERE.parents[1] / "crates/smt_tool/out/smt_tool"
LIMIT = 600


class Missing(Exception):
    """What has to be installed is not."""


class Place:
    """A folder with a solver under the names by which clients call one."""

    def __init__(self, folder, line):
        self.folder, self.names = folder, folder / "names"
        self.names.mkdir(parents=True)
        for name in ("solver", "z3", "boolector"):
            path = self.names / name
            path.write_text("#!/bin/sh\n%s\n" % line)
            path.chmod(0o755)
        self.solver = str(self.names / "solver")

    def run(self, words, **more):
        """What a program of the client says, with this solver first in its way."""
        way = {"PATH": "%s:/usr/local/bin:/usr/bin:/bin" % self.names, "HOME": str(self.folder), "LANG": "C.UTF-8"}
        ran = subprocess.run(words, capture_output=True, text=True, timeout=LIMIT, env=way, cwd=self.folder, **more)
        return ran.stdout + ran.stderr


def ours(folder, program):
    """The program behind the bridge. Each start of it has a script and a proof by its number."""
    line = "exec %s %s --keep %s/$$.smt2 %s solve %s/$$.proof"
    return Place(folder, line % (sys.executable, HERE / "bridge.py", folder, program, folder))


def needed(*names):
    """Where these programs are not all there, nothing is run."""
    for name in names:
        if shutil.which(name) is None:
            raise Missing(name)


def haskell(source, package):
    """Runs a program of Haskell with the solver's name as its argument."""
    needed("runghc", "ghc-pkg")
    if package not in subprocess.run(["ghc-pkg", "list", "--simple-output", package], capture_output=True, text=True).stdout:
        raise Missing(package)
    return lambda place: place.run(["runghc", str(source), place.solver])


# ---- clients: each gives what it says of its questions, a line each


def simple_smt():
    said = haskell(HERE / "simple_smt/Session.hs", "simple-smt")
    return lambda place: said(place).splitlines()


def sbv():
    said = haskell(HERE / "sbv/Questions.hs", "sbv")
    return lambda place: said(place).splitlines()


# what is asked of a design: its file, what yosys defines and does to it, and what smtbmc is asked
DESIGNS = [
    ("counter.v", "", "", ["-t", "20"]),
    ("counter.v", "-DFIXED", "", ["-t", "20"]),
    ("counter.v", "-DFIXED", "", ["-i", "-t", "20"]),
    ("counter.v", "", "", ["-c", "-t", "20"]),
    ("mixer.v", "", "", ["-t", "8"]),
    ("mixer.v", "", "", ["-i", "-t", "4"]),
    ("mixer.v", "", "techmap; splitnets -ports;", ["-s", "boolector", "-t", "4"]),
]


def yosys():
    needed("yosys", "yosys-smtbmc")
    return lambda place: [line for number, design in enumerate(DESIGNS) for line in designed(place, number, design)]


def designed(place, number, design):
    """What smtbmc says of a design: the steps at which something fails or is reached, the verdict, and whether a trace is there."""
    file, defines, steps, words = design
    text, trace = place.folder / ("%d.smt2" % number), place.folder / ("%d.vcd" % number)
    way = "read_verilog -formal %s %s; prep; async2sync; dffunmap; %s write_smt2 -stbv -wires %s"
    place.run(["yosys", "-q", "-p", way % (defines, HERE / "yosys" / file, steps, text)])
    solver = [] if "-s" in words else ["-s", "z3"]
    said = place.run(["yosys-smtbmc", *solver, *words, "--dump-vcd", str(trace), str(text)])
    text.unlink()
    for line in said.splitlines():
        found = re.search(r"(BMC failed|Assert failed|Reached cover statement|Status: .*|Temporal induction (?:successful|failed))", line)
        if found:
            step = re.search(r"in step (\d+)", line)
            yield "%d: %s%s" % (number, found.group(1), " in step " + step.group(1) if step else "")
    yield "%d: %s" % (number, "trace" if trace.exists() else "no trace")


def rumur():
    needed("rumur")
    options = ["--smt-simplification", "on", "--smt-bitvectors", "on", "--output", "/dev/stdout"]
    return lambda place: place.run(["rumur", "--smt-path", place.solver, *options, str(HERE / "rumur/lock.m")]).splitlines()


def z3py():
    python = next((name for name in ("/usr/bin/python3", sys.executable) if has_z3(name)), None)
    if python is None:
        raise Missing("z3 for Python")
    return lambda place: printed(place, python)


def has_z3(python):
    return pathlib.Path(python).exists() and subprocess.run([python, "-c", "import z3"], capture_output=True).returncode == 0


def printed(place, python):
    scripts = place.folder / "scripts"
    scripts.mkdir()
    for path in place.run([python, str(HERE / "z3py/printed.py"), str(scripts)]).splitlines():
        with open(path) as script:
            yield "%s: %s" % (pathlib.Path(path).name, place.run([place.solver], stdin=script).strip())


CLIENTS = [simple_smt, sbv, yosys, rumur, z3py]


# ---- what is compared


def refused(program, folder):
    """The scripts that the program was given whose proof is not accepted, and their number."""
    kept = sorted(path for path in folder.glob("*.smt2") if path.with_suffix(".proof").exists())
    judged = [subprocess.run([program, "check", path.with_suffix(".proof"), path], capture_output=True) for path in kept]
    return ["the proof of %s is refused" % path.name for path, ran in zip(kept, judged) if ran.returncode != 0], len(kept)


def compared(client, program, folder):
    """What is wrong with a client's run, and how much it said and asked."""
    said = client()
    here, there = ours(folder / "ours", program), Place(folder / "theirs", "exec %s -in -smt2" % shutil.which("z3"))
    mine, theirs = list(said(here)), list(said(there))
    faults = ["%r, and with z3 %r" % pair for pair in zip(mine, theirs) if pair[0] != pair[1]]
    if len(mine) != len(theirs) or not mine:
        faults.append("%d lines, and with z3 %d: %r" % (len(mine), len(theirs), mine[-3:]))
    bad, scripts = refused(program, here.folder)
    if scripts == 0:
        faults.append("no script came")
    return faults + bad, len(mine), scripts


def main(words):
    only = words[1] if words[:1] == ["--only"] else None
    rest = words[2:] if only else words
    program = str(pathlib.Path(rest[0]).resolve() if rest else PROGRAM)
    if shutil.which("z3") is None:
        print("passed over: there is no z3")
        return 0
    failed = 0
    for client in CLIENTS:
        if only not in (None, client.__name__):
            continue
        with tempfile.TemporaryDirectory() as name:
            try:
                faults, lines, scripts = compared(client, program, pathlib.Path(name))
            except Missing as missing:
                print("%s: passed over, since %s is not installed" % (client.__name__, missing))
                continue
        print("%s: %d lines, %d scripts, %d faults" % (client.__name__, lines, scripts, len(faults)))
        print("".join("  %s\n" % fault for fault in faults), end="")
        failed += len(faults)
    return 1 if failed else 0


if __name__ == "__main__":
    sys.exit(main(sys.argv[1:]))
