#!/usr/bin/env python3
"""Takes memory away from the built program, and breaks what it reads and writes, and looks at what it says.

usage: run.py [PROGRAM]    (default: the program that `rt run` leaves in crates/smt_tool/out)

For each script of `examples/`, of this folder, which has arrays and functions, and of the rows it first runs `solve` undisturbed. Then it runs it again under less and less memory
(a limit on the address space), under limits up to a gigabyte, on a stack of 256 kilobytes, under limits of the size of a file, with a
proof or answers that cannot be written (`/dev/full`), and with a script that cannot be read (a folder). The scripts of this folder are
run so with four cubes too, by one worker and by two, whose models and proofs differ from run to run, so that verdicts alone are
compared. `check` of each proof is run under the same limits of memory and of the stack. Each time:

- the status is the one of the undisturbed run, or 5 under a limit of memory, 4 where nothing can be written, 3 where nothing
  can be read; past a limit of file size it is 4 where the signal that tells of it (SIGXFSZ) is ignored, as the parent set it, and
  the signal ends the run where it is not;
- what was answered is a front of the undisturbed answers;
- standard error has one line that says what ended the run, and none where nothing did;
- `check`, which has all the memory it wants, accepts a record for each verdict that was answered whole.

A signal (SIGINT, SIGTERM) ends a run at once; it comes after each answer of a long script, and by chance between. Where nobody
reads the answers or the proof any more, the status is 4, whether the parent set SIGPIPE to be ignored or not. What was answered is
a front of the undisturbed answers then too, and `check` finds a record for each.

Words that are not taken, bytes that are no text among them, give status 2, also where standard error cannot be written.
Where a standard stream is closed from the start, no file of the run gets its number: closed answers cannot be written, a closed
script cannot be read, and what is told on a closed standard error goes nowhere.

numbers.py makes one allocation, read or write after the other fail. Neither is a part of the gate.
"""

import os
import pathlib
import random
import re
import resource
import signal
import subprocess
import sys
import tempfile
import threading
import time

HERE = pathlib.Path(__file__).resolve().parent
ROOT = HERE.parents[1]
sys.path.insert(0, str(ROOT / "tests/hostile"))
import made  # noqa: E402
import theories  # noqa: E402

VERDICTS = (b"sat", b"unsat", b"unknown")
MEGABYTE = 1 << 20
USAGE = b"usage: smt_tool solve PROOF [SCRIPT] "
UNWRITTEN = b"smt_tool: the proof cannot be written\n"
CAUSES = {0: b"", 1: b"", 4: UNWRITTEN, 5: b"smt_tool: memory is wanting\n", -signal.SIGXFSZ: b""}


def of_theories():
    """The scripts of this folder, over arrays, functions and words whose checks are split."""
    return [path.read_bytes() for path in sorted(HERE.glob("*.smt2"))]


def scripts():
    """The scripts of the examples, of this folder, of the rows that solve, and some that take up to some hundred megabytes."""
    found = [path.read_bytes() for path in sorted((ROOT / "examples").glob("*.smt2"))] + of_theories()
    found += [make(size)[0] for make, size in ((made.deep_sums, 8_000), (made.named_chain, 10_000), (made.wide_disjunction, 5_000))]
    found += [make(size)[0] for make, size in ((theories.many_applications, 100), (theories.store_chain, 1_000), (theories.constant_arrays, 100))]
    for path in sorted((ROOT / "tests" / "rows").glob("*.row")):
        parts = re.split(rb"^== (.*)\n", path.read_bytes(), flags=re.M)
        held = dict(zip(parts[1::2], parts[2::2]))
        if held[b"words"].startswith(b"solve PROOF"):
            found.append(held.get(b"script", b""))
    return found


def run(program, words, script, limit=None, out=subprocess.PIPE):
    """The status, the answers and what standard error has of a run, under a limit of memory in bytes."""

    def limited():
        if limit is not None:
            resource.setrlimit(resource.RLIMIT_AS, (limit, limit))

    done = subprocess.run([program, *words], input=script, stdout=out, stderr=subprocess.PIPE, preexec_fn=limited)
    return done.returncode, done.stdout or b"", done.stderr


def run_under(program, words, script, limits, signals=True):
    """The same under other limits; the signal of a file that is too long is not ignored where `signals` says so."""

    def limited():
        for kind, size in limits:
            resource.setrlimit(kind, (size, size))

    done = subprocess.run(
        [program, *words], input=script, stdout=subprocess.PIPE, stderr=subprocess.PIPE, preexec_fn=limited, restore_signals=signals)
    return done.returncode, done.stdout, done.stderr


def verdicts(text):
    """The verdicts among whole lines."""
    return [line for line in text.split(b"\n")[:-1] if line in VERDICTS]


def compared(answers, exact):
    """What of the answers is compared: all, or the verdicts alone."""
    return answers if exact else b"".join(line + b"\n" for line in verdicts(answers))


def fault(program, proof, script, whole, allowed, got, exact=True):
    """What is wrong with a disturbed run, or None."""
    status, answers, told = got
    if status not in allowed:
        return f"status {status}, not one of {sorted(allowed)}"
    if told != CAUSES[status]:
        return f"status {status}, and standard error has {told!r}"
    if not compared(whole, exact).startswith(compared(answers, exact)):
        return f"answers are no front of the undisturbed ones: {answers[-60:]!r}"
    accepted = verdicts(run(program, ["check", proof], script)[1])
    said = verdicts(answers)
    if accepted[: len(said)] != said:
        return f"answered {said}, and the proof has {accepted}"
    return None


def least_that_starts(program):
    """The least limit, in megabytes, under which the program starts at all."""
    for size in range(1, 256):
        try:
            status = run(program, [], b"", size * MEGABYTE)[0]
        except (OSError, subprocess.SubprocessError):
            continue
        if status == 2:
            return size
    sys.exit("the program does not start under 256 MB")


def memory_limits(least):
    """Limits of the address space in bytes, each with whether memory may be wanting under it."""
    for extra in (0, 64, 128, 256, 512, 1024, 2048, 4096):
        yield least * MEGABYTE + extra * 1024, True
    for size in (20, 40, 64, 96, 128, 256, 512, 1024):
        yield max(size, least) * MEGABYTE, size < 512


def disturbed(program, options, script, folder, least):
    """The faults of all disturbed runs of a script, and their number, and how many of them wanted memory."""
    proof = str(folder / "proof")
    words, exact = ["solve", proof, *options], "2" not in options[2:]
    full = run(program, words, script)
    faults, runs, wanted = [], 0, 0
    for limit, may_want in memory_limits(least):
        got = run(program, words, script, limit)
        faults.append(fault(program, proof, script, full[1], {full[0], 5} if may_want else {full[0]}, got, exact))
        runs, wanted = runs + 1, wanted + (got[0] == 5)
    more = list(limited_runs(program, words, proof, script, full, exact))
    faults.extend(more)
    judged, tried, short = limited_checks(program, proof, script, least)
    faults.extend(judged)
    if options:
        return [f for f in faults if f], runs + len(more) + tried, wanted + short
    faults.extend(refused(program, proof, script, folder, full))
    return [f for f in faults if f], runs + len(more) + tried + 5, wanted + short


def limited_checks(program, proof, script, least):
    """The faults of checks of the proof under limits of memory and on a small stack, their number, and how many wanted memory."""
    words = ["check", proof]
    run(program, ["solve", proof], script)
    full = run(program, words, script)
    got = run_under(program, words, script, [(resource.RLIMIT_STACK, 1 << 18)])
    faults, wanted = [None if got == full else f"check: {got} on a small stack"], 0
    for limit, may_want in memory_limits(least):
        got = run(program, words, script, limit)
        want = got[0] == 5 and may_want and full[1].startswith(got[1]) and got[2] == CAUSES[5]
        faults.append(None if want or got == full else f"check: {got} under {limit} bytes")
        wanted += want
    return faults, len(faults), wanted


def limited_runs(program, words, proof, script, full, exact):
    """The faults of runs on a small stack, and under limits of the size of a file."""
    got = run_under(program, words, script, [(resource.RLIMIT_STACK, 1 << 18)])
    same = (got[0], compared(got[1], exact), got[2]) == (full[0], compared(full[1], exact), full[2])
    yield None if same else f"{got} on a small stack"
    whole = len(pathlib.Path(proof).read_bytes())
    for size in sorted({0, 1, 30, whole // 2, max(whole - 1, 0), whole}):
        for signals in (False, True):
            got = run_under(program, words, script, [(resource.RLIMIT_FSIZE, size)], signals)
            past = -signal.SIGXFSZ if signals else 4
            allowed = {full[0] if size >= whole else past} if exact else {full[0], past}
            yield fault(program, proof, script, full[1], allowed, got, exact)


def refused(program, proof, script, folder, full):
    """The faults of runs where one file cannot be read or written."""
    with open("/dev/full", "wb") as nowhere:
        got = run(program, ["solve", proof], script, out=nowhere)
    cannot = (4, b"", b"smt_tool: the answers cannot be written\n")
    yield None if got == (cannot if full[1] else full) else f"{got} where no answer can be written"
    accepted = verdicts(run(program, ["check", proof], script)[1])
    first = verdicts(full[1])[:1] if full[1].startswith(VERDICTS) else []
    yield None if accepted[: len(first)] == first else f"the proof has {accepted} where the first answer cannot be written"
    for words, status, cause in (
        (["solve", "/dev/full"], 4, b"the proof cannot be written"),
        (["solve", proof, str(folder)], 3, b"the script cannot be read"),
        (["check", str(folder)], 3, b"the proof cannot be read"),
    ):
        got = run(program, words, script)
        yield None if got == (status, b"", b"smt_tool: " + cause + b"\n") else f"{got} where {cause.decode()}"


def run_without(program, words, script, closed):
    """The status, the answers and what standard error has of a run that starts with a closed stream."""
    with tempfile.TemporaryFile() as source:
        source.write(script)
        source.seek(0)
        done = subprocess.run(
            [program, *words], stdin=source, stdout=subprocess.PIPE, stderr=subprocess.PIPE, preexec_fn=lambda: os.close(closed))
    return done.returncode, done.stdout, done.stderr


def closed_streams(program, script, folder):
    """The faults of runs that start with a closed stream, and their number."""
    whole, proof = str(folder / "whole"), str(folder / "closed")
    full = run(program, ["solve", whole], script)
    written = pathlib.Path(whole).read_bytes()
    unread = (3, b"", b"smt_tool: the script cannot be read\n")
    unwritten = (4, b"", b"smt_tool: the answers cannot be written\n")
    judged = run(program, ["check", whole], script)
    tried = [
        (["solve", proof], 0, unread),
        (["solve", proof], 1, unwritten if full[1] else full),
        (["solve", proof], 2, (full[0], full[1], b"")),
        (["check", whole], 0, unread),
        (["check", whole], 1, unwritten),
        (["check", whole], 2, (judged[0], judged[1], b"")),
    ]
    faults = []
    for words, closed, wanted in tried:
        got = run_without(program, words, script, closed)
        if got != wanted:
            faults.append(f"{got} of {words[0]} where stream {closed} is closed")
        held = pathlib.Path(proof).read_bytes() if pathlib.Path(proof).exists() else b""
        if not written.startswith(held):
            faults.append(f"stream {closed} is closed, and the proof is no front of the undisturbed one")
    return faults, len(tried)


def long_script():
    """Checks that are refuted after some work, one after the other."""
    lines = []
    for holes in (4, 6, 5, 7, 4, 7, 6):
        lines += ["(push 1)", *made.pigeonholes("false", holes), "(check-sat)", "(pop 1)"]
    return made.text(lines)


def long_script_of_theories():
    """The same with pigeons that are values of a function, or elements of an array."""
    lines = ["(declare-fun f ((_ BitVec 4)) (_ BitVec 4))", "(declare-const a (Array (_ BitVec 4) (_ BitVec 4)))"]
    for holes in (4, 6, 5, 6, 4, 7):
        for head in ("f", "select a"):
            pigeons = [f"({head} #x{k:x})" for k in range(holes + 1)]
            bounds = [f"(assert (bvult {pigeon} #x{holes:x}))" for pigeon in pigeons]
            lines += ["(push 1)", f"(assert (distinct {' '.join(pigeons)}))", *bounds, "(check-sat)", "(pop 1)"]
    return made.text(lines)


# The long scripts, with the options of `solve`.
LONG = ((long_script, []), (long_script_of_theories, []), (long_script_of_theories, ["--cubes", "2", "--workers", "2"]))


def ended(program, words, script, answers, ending):
    """The status, the answers and what standard error has of a run, with which something is done after so many whole answers."""
    with tempfile.TemporaryFile() as source, tempfile.TemporaryFile() as errors:
        source.write(script)
        source.seek(0)
        process = subprocess.Popen([program, *words], stdin=source, stdout=subprocess.PIPE, stderr=errors)
        said = b"".join(process.stdout.readline() for _ in range(answers))
        rest = ending(process)
        status = process.wait()
        errors.seek(0)
        return status, said + rest, errors.read()


def signals_sent(program, options, script, folder, whole, chance):
    """The faults of runs that a signal ends, and their number."""
    proof, faults, runs = str(folder / "signalled"), [], 0
    count = len(verdicts(whole[1]))
    for kind in (signal.SIGINT, signal.SIGTERM):
        for answers in range(count):
            wait = chance.random() * 0.02

            def ending(process):
                time.sleep(wait)
                process.send_signal(kind)
                return process.stdout.read()

            status, said, told = ended(program, ["solve", proof, *options], script, answers, ending)
            if status != -kind and (status, said, told) != whole:
                faults.append(f"status {status} and {told!r} after signal {kind}")
            faults.append(fault_of_answers(program, proof, script, whole[1], said))
            runs += 1
    return [f for f in faults if f], runs


def fault_of_answers(program, proof, script, whole, said):
    """What is wrong with what a run answered before it ended, or None."""
    if not whole.startswith(said):
        return f"answers are no front of the undisturbed ones: {said[-60:]!r}"
    accepted = verdicts(run(program, ["check", proof], script)[1])
    if accepted[: len(verdicts(said))] != verdicts(said):
        return f"answered {verdicts(said)}, and the proof has {accepted}"
    return None


def readers_gone(program, options, script, folder, whole):
    """The faults of runs whose answers, or whose proof, nobody reads any more, and their number."""
    proof, pipe, faults, runs = str(folder / "unread"), str(folder / "pipe"), [], 0
    pathlib.Path(pipe).unlink(missing_ok=True)
    os.mkfifo(pipe)
    for ignored in (False, True):
        for answers in range(len(verdicts(whole[1]))):
            status, said, told = gone_after(program, ["solve", proof, *options], script, answers, ignored)
            if (status, told) != (4, b"smt_tool: the answers cannot be written\n"):
                faults.append(f"status {status} and {told!r} where nobody reads the answers")
            faults.append(fault_of_answers(program, proof, script, whole[1], said))
            runs += 1
        reader = threading.Thread(target=lambda: open(pipe, "rb").close())
        reader.start()
        status, said, told = gone_after(program, ["solve", pipe, *options], script, None, ignored)
        reader.join()
        if (status, told) != (4, UNWRITTEN) or not whole[1].startswith(said) or said == whole[1]:
            faults.append(f"status {status}, {said!r} and {told!r} where nobody reads the proof")
        runs += 1
    return [f for f in faults if f], runs


def gone_after(program, words, script, answers, ignored):
    """The same as of `run`, where the answers are not read after so many, and SIGPIPE is ignored or not."""
    with tempfile.TemporaryFile() as source, tempfile.TemporaryFile() as errors:
        source.write(script)
        source.seek(0)
        process = subprocess.Popen(
            [program, *words], stdin=source, stdout=subprocess.PIPE, stderr=errors, restore_signals=not ignored)
        said = process.stdout.read() if answers is None else b"".join(process.stdout.readline() for _ in range(answers))
        process.stdout.close()
        status = process.wait()
        errors.seek(0)
        return status, said, errors.read()


def ended_runs(program, folder):
    """The faults of runs that are ended from outside, and their number."""
    all_faults, runs = [], 0
    for make, options in LONG:
        script = make()
        whole = run(program, ["solve", str(folder / "undisturbed"), *options], script)
        faults, sent = signals_sent(program, options, script, folder, whole, random.Random(1))
        more, gone = readers_gone(program, options, script, folder, whole)
        all_faults, runs = all_faults + faults + more, runs + sent + gone
    return all_faults, runs


def not_taken(program):
    """The faults of runs whose words are not taken, and their number."""
    faults, tried = [], [[], ["solve"], ["solve", b"\xff\xfe"], ["check", b"\xff\xfe"]]
    for words in tried:
        for errors in ("/dev/null", "/dev/full"):
            with open(errors, "wb") as nowhere:
                status = subprocess.run([program, *words], stdin=subprocess.DEVNULL, stderr=nowhere).returncode
            if status != 2:
                faults.append(f"status {status} for the words {words}, with standard error in {errors}")
        told = run(program, words, b"")[2]
        if not (told.startswith(USAGE) and told.endswith(b"\n") and told.count(b"\n") == 1):
            faults.append(f"standard error has {told!r} for the words {words}")
    return faults, 3 * len(tried)


def main(words):
    program = str(pathlib.Path(words[0]).resolve() if words else ROOT / "crates/smt_tool/out/smt_tool")
    least = least_that_starts(program)
    faults, runs = not_taken(program)
    all_faults, wanted = len(faults), 0
    for text in faults:
        print(text)
    with tempfile.TemporaryDirectory() as name:
        faults, count = ended_runs(program, pathlib.Path(name))
        all_faults, runs = all_faults + len(faults), runs + count
        for text in faults:
            print(text)
        tried = [([], script) for script in scripts()]
        tried += [(["--cubes", "2", "--workers", workers], script) for workers in ("1", "2") for script in of_theories()]
        for number, (options, script) in enumerate(tried):
            faults, count, short = disturbed(program, options, script, pathlib.Path(name), least)
            more, others = closed_streams(program, script, pathlib.Path(name)) if not options else ([], 0)
            faults, count = faults + more, count + others
            all_faults, runs, wanted = all_faults + len(faults), runs + count, wanted + short
            for text in faults:
                print(f"script {number} {options}: {text}")
    print(f"{runs} runs, {wanted} of them without enough memory, {all_faults} faults (the program starts with {least} MB)")
    return 1 if all_faults else 0


if __name__ == "__main__":
    sys.exit(main(sys.argv[1:]))
