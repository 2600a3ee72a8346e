#!/usr/bin/env python3
"""Counts what several workers put to the pool and take from it, in the built program as it is, and prints tables.

usage: sharing.py [PROGRAM] [--only TEXT] [--workers 2,4] [--cubes 4] [--limit SECONDS] [--times N] [--smaller N]
       (default: the program that `rt run` leaves in crates/smt_tool/out, 4 variables that split a check, 120 seconds, once)

The kernel tells each call of four functions of the program, by probes that root alone may set, and perf writes them down:

- put: a worker puts a clause to the pool, one that it learnt or the one that closes its cube, with the clauses that it rests on;
- hold: it holds in its own search what it learnt and put;
- take: it takes a clause into its search that it read from the pool;
- drop: it drops a clause, its own or a taken one.

Each comes with the thread and the position of the clause. /sys/kernel/tracing has to be mounted (`mount -t tracefs none
/sys/kernel/tracing`). N times there is a line for each run, since it is chance which worker searches which cube. The status is 1 where
a verdict is wrong, a call was not told, or the calls do not fit together.
"""
import argparse
import collections
import os
import pathlib
import re
import shutil
import signal
import subprocess
import sys
import tempfile

import scripts

PROGRAM = pathlib.Path(__file__).resolve().parents[2] / "crates/smt_tool/out/smt_tool"
PROBES = pathlib.Path("/sys/kernel/tracing/uprobe_events")
GROUP = "workers_%d" % os.getpid()
# So many hints of a clause are read at most, as many as a probe tells; what stands behind them is not counted as used.
HINTS = 120
# The functions by the beginning of their symbols, and where they are handed the position and the length of a clause, or its hints,
# each a position and a part of 32 bits.
FUNCTIONS = {
    "put": ("cube_workers::moving::MovingBoard::put",
            " ".join(["hints=+0x30(%si):u64"] + ["h%d=+%d(+0x28(%%si)):u32" % (k, 8 * k) for k in range(HINTS)])),
    "more": ("cube_workers::moving::MovingBoard::put",
             " ".join(["hints=+0x30(%si):u64"] + ["h%d=+%d(+0x28(%%si)):u32" % (k, 8 * k) for k in range(HINTS, 2 * HINTS)])),
    "hold": ("cube_search::search::Search::keep", "at=%cx:u64 size=+8(%si):u64"),
    "take": ("cube_search::search::Search::admit", "at=%si:u64 size=+8(%dx):u64"),
    "drop": ("cube_search::keeper::Keeper::drop_chain", "at=%si:u64"),
}
LINE = re.compile(r"\s*(\d+) +%s:(\w+): +\([0-9a-f]+\)(?: at=(\d+))?(?: size=(\d+))?(?: hints=(\d+)(.*))?" % GROUP)


def read_hints(count, told):
    """The positions of so many hints; behind them the kernel tells whatever stands there."""
    return {int(word.split("=")[1]) for word in told.split()[:max(count, 0)]}


class Worker:
    """What a thread did: the clauses that it put and kept, those that it took, used as hints, and dropped, by position."""

    def __init__(self):
        self.puts, self.kept, self.taken, self.used, self.dropped = 0, {}, {}, set(), set()
        self.has_put, self.alone = False, False

    def note(self, event, at, size, hints):
        self.used |= hints
        if event == "more":
            return
        # a search with lemmas, which goes on alone, holds clauses that it did not put to the pool
        self.alone = event == "hold" and not self.has_put or event != "put" and self.alone
        self.has_put = event == "put"
        if event == "put":
            self.puts += 1
        elif self.alone:
            return
        elif event == "hold":
            self.kept[at] = size
        elif event == "take":
            self.taken[at] = size
        elif event == "drop":
            self.dropped.add(at)


def offset(program, symbol):
    """Where in its file the function begins whose symbol begins so and is followed by nothing or by its types."""
    table = subprocess.run(["nm", program], capture_output=True, text=True, check=True).stdout
    found = [int(line.split()[0], 16) for line in table.splitlines() if re.search(r" [tT] %s($|::<)" % re.escape(symbol), line)]
    if len(found) != 1:
        sys.exit("%s has %d functions %s" % (program, len(found), symbol))
    for line in subprocess.run(["readelf", "-lW", program], capture_output=True, text=True, check=True).stdout.splitlines():
        words = line.split()
        if words[:1] == ["LOAD"]:
            start, address, size = (int(words[k], 16) for k in (1, 2, 4))
            if address <= found[0] < address + size:
                return found[0] - address + start
    sys.exit("%s is not in the file" % symbol)


def add_probe(line):
    file = os.open(PROBES, os.O_WRONLY | os.O_APPEND)
    os.write(file, line.encode())
    os.close(file)


def set_probes(program):
    for name, (symbol, told) in FUNCTIONS.items():
        add_probe("p:%s/%s %s:0x%x %s\n" % (GROUP, name, program, offset(program, symbol), told))


def clear_probes():
    for line in PROBES.read_text().splitlines():
        if line.startswith("p:%s/" % GROUP):
            add_probe("-:%s\n" % line.split()[0][2:])


def watched(options, program, folder, script, workers):
    """The threads of a run, and whether the kernel told every call."""
    data, proof = folder / "events", folder / "proof"
    events = [word for name in FUNCTIONS for word in ("-e", "%s:%s" % (GROUP, name))]
    solve = [program, "solve", str(proof), script, "--workers", str(workers), "--cubes", str(options.cubes), "--budget", "1000000000"]
    ran = subprocess.run(["perf", "record", "-m", "2048", "-o", str(data), *events, "--", "timeout", str(options.limit), *solve],
                         stdin=subprocess.DEVNULL, capture_output=True, text=True)
    told = subprocess.Popen(["perf", "script", "--show-lost-events", "-i", str(data), "-F", "tid,event,trace"],
                            stdout=subprocess.PIPE, stderr=subprocess.DEVNULL, text=True)
    threads, whole = collections.defaultdict(Worker), True
    for line in told.stdout:
        match = LINE.match(line)
        whole = whole and "PERF_RECORD_LOST" not in line
        if match:
            thread, event, at, size, count, rows = match.groups()
            first = HINTS if event == "more" else 0
            threads[thread].note(event, int(at or 0), int(size or 0), read_hints(int(count) - first, rows) if count else set())
    told.wait()
    return [w for w in threads.values() if w.puts], whole, ran.stdout.strip()


def share(part, whole):
    return "%.2f" % (part / whole) if whole else "-"


def mean(sizes):
    return "%.0f" % (sum(sizes) / len(sizes)) if sizes else "-"


# A clause of another that a worker took: its position and length, whether a clause that the worker put later rests on it, and whether
# the worker dropped it.
Taking = collections.namedtuple("Taking", "at size used dropped")


def takings_of(threads):
    """What the workers took of each other, without clauses that close a cube, and without their own, which come back to them where they
    were dropped before they were read."""
    by = {at: worker for worker in threads for at in worker.kept}
    return [Taking(at, size, at in w.used, at in w.dropped) for w in threads for at, size in w.taken.items() if by.get(at, w) is not w]


def row(workers, threads, takings):
    """The cells of a run."""
    put = sum(len(w.kept) for w in threads)
    cells = ["%d" % workers, "%d" % put, share(len({t.at for t in takings}), put), share(len(takings), put * (workers - 1))]
    cells += [share(sum(t.used for t in takings), len(takings)), share(sum(len(w.used & set(w.kept)) for w in threads), put)]
    cells += [share(sum(t.dropped for t in takings), len(takings)), share(sum(len(w.dropped & set(w.kept)) for w in threads), put)]
    cells += [mean([t.size for t in takings if t.used]), mean([t.size for t in takings if not t.used])]
    held = sum(len(w.kept) + len(w.taken) - len(w.dropped) for w in threads)
    return cells + ["%d" % (held / max(len(threads), 1))]


def fault(cubes, verdict, whole, made, threads):
    """What is wrong with a run: each clause is put by one worker, and beside those that are held at most one closes a cube."""
    if verdict != made.verdict:
        return verdict or "the limit was reached"
    puts, kept = sum(w.puts for w in threads), sum(len(w.kept) for w in threads)
    if not whole or len({at for w in threads for at in w.kept}) != kept or puts - kept > 2 ** cubes:
        return "%d clauses of %d puts, every call told: %s" % (kept, puts, whole)
    if kept > 100 and not any(at in w.kept for w in threads for at in w.used):
        return "no clause rests on another: the hints are not where they are looked for"
    return None


def print_lengths(takings):
    """What became of the clauses that were taken, by their lengths and the number of workers."""
    print("\n| workers | literals | taken | used | dropped |\n|%s" % ("---|" * 5))
    for workers, taken in takings.items():
        for low, high in (1, 2), (3, 5), (6, 10), (11, 20), (21, 40), (41, None):
            part = [t for t in taken if low <= t.size and (high is None or t.size <= high)]
            name = "%d to %d" % (low, high) if high else "%d and more" % low
            print("| %d | %s | %d | %s | %s |" % (workers, name, len(part), share(sum(t.used for t in part), len(part)),
                                                  share(sum(t.dropped for t in part), len(part))))


def read_options():
    parser = argparse.ArgumentParser(description=__doc__.split("\n")[0])
    parser.add_argument("program", nargs="?", default=str(PROGRAM))
    parser.add_argument("--only", default="", help="scripts whose name has this text")
    parser.add_argument("--workers", default="2,4")
    for name, default in ("cubes", 4), ("limit", 120), ("times", 1), ("smaller", 0):
        parser.add_argument("--" + name, type=int, default=default)
    return parser.parse_args()


def table(options, program, folder):
    """Prints the table; gives the number of runs in which something was wrong."""
    heads = ["script", "workers", "put", "taken by another", "share", "taken and used", "own and used", "taken and dropped", "own and dropped",
             "literals, used", "literals, not used", "held at the end"]
    print("| %s |\n|%s" % (" | ".join(heads), "---|" * len(heads)), flush=True)
    script, wrong, all_takings = folder / "script.smt2", 0, collections.defaultdict(list)
    for made in scripts.scripts(options.smaller):
        if options.only not in made.name:
            continue
        script.write_text(made.text)
        for workers in [int(n) for n in options.workers.split(",") for _ in range(options.times)]:
            threads, whole, verdict = watched(options, program, folder, str(script), workers)
            takings = takings_of(threads)
            all_takings[workers] += takings
            print("| %s | %s |" % (made.name, " | ".join(row(workers, threads, takings))), flush=True)
            found = fault(options.cubes, verdict, whole, made, threads)
            if found:
                print("\n%s: %s\n" % (made.name, found))
                wrong += 1
    print_lengths(all_takings)
    print("\n%d wrong" % wrong)
    return wrong


def main():
    options = read_options()
    if not PROBES.exists():
        sys.exit("/sys/kernel/tracing is not mounted")
    with tempfile.TemporaryDirectory() as room:
        folder = pathlib.Path(room)
        # probes are taken away whatever ends the run, and stand in a copy, so that no other run of the program is told of
        signal.signal(signal.SIGTERM, lambda *_: sys.exit(1))
        program = shutil.copy(options.program, folder / "program")
        try:
            set_probes(str(program))
            wrong = table(options, str(program), folder)
        finally:
            clear_probes()
    return 1 if wrong else 0


if __name__ == "__main__":
    sys.exit(main())
