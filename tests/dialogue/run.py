#!/usr/bin/env python3
"""Talks with the built program over pipes: sends one command at a time, and waits for its answer before the next.

usage: run.py [--success] [PROGRAM]    (default: the program that `rt run` leaves in crates/smt_tool/out)

A dialogue is a file NAME.dialogue. A line `> TEXT` is sent, with a line feed, and each line `< TEXT` behind it is a line of
the answer, which has to come within the time limit, before anything more is sent. A line `> TEXT` with no answer behind it
is sent and not waited for, unless `~` stands behind it: then nothing may come. At a line `.` the input is ended, and lines
`< TEXT` behind it are answered then. `= STATUS` is the exit status, and `; TEXT` a comment. Without a line `.` the input is
ended at the end of the dialogue, unless `! exit` stands there: then the program has to end by itself.

With --success the first command is `(set-option :print-success true)`, and a command that has no answer in the file has to
be answered `success`: so the program is waited for at each. A dialogue with a line `; silent` is passed over then, and one
with a line `; success` without it.

Nothing more than the answers may be written. At each fault the dialogue, the line and what came are told.
"""
import os
import pathlib
import select
import subprocess
import sys
import tempfile
import time

HERE = pathlib.Path(__file__).resolve().parent
PROGRAM = HERE.parents[1] / "crates/smt_tool/out/smt_tool"
LIMIT = 10.0
QUIET = 0.2


class Fault(Exception):
    pass


def turns(path):
    """The commands with the lines of their answers, the status, whether the program ends by itself, and the comments."""
    told, status, ends, notes = [], 0, False, set()
    for number, line in enumerate(path.read_text().splitlines(), 1):
        mark, text = line[:1], line[2:]
        if mark == ">":
            told.append((number, text, []))
        elif mark == ".":
            told.append((number, None, []))
        elif mark == "<":
            told[-1][2].append(text)
        elif mark == "~":
            told[-1] = (told[-1][0], told[-1][1], None)
        elif mark == "=":
            status = int(text)
        elif mark == "!":
            ends = True
        elif mark == ";":
            notes.add(text)
        elif line:
            raise SystemExit("%s: line %d" % (path.name, number))
    return told, status, ends, notes


class Program:
    """The program at the other end of the pipes, and what it wrote that is not yet read."""

    def __init__(self, program, proof):
        self.child = subprocess.Popen([program, "solve", proof], stdin=subprocess.PIPE, stdout=subprocess.PIPE, bufsize=0)
        self.held = b""

    def send(self, text):
        if text is None:
            self.child.stdin.close()
            return
        try:
            self.child.stdin.write(text.encode() + b"\n")
        except BrokenPipeError:
            raise Fault("the program has ended")

    def more(self, seconds):
        """Takes what is written within so many seconds; tells whether there was something."""
        ready, _, _ = select.select([self.child.stdout], [], [], max(seconds, 0))
        piece = os.read(self.child.stdout.fileno(), 65536) if ready else b""
        self.held += piece
        return bool(piece)

    def line(self):
        until = time.monotonic() + LIMIT
        while b"\n" not in self.held:
            if not self.more(until - time.monotonic()):
                raise Fault("no answer in %g seconds, but %r" % (LIMIT, self.held))
        line, self.held = self.held.split(b"\n", 1)
        return line.decode("latin-1")

    def quiet(self):
        self.more(QUIET)
        if self.held:
            raise Fault("more than the answer: %r" % self.held)

    def end(self, ends):
        if not ends and not self.child.stdin.closed:
            self.child.stdin.close()
        try:
            status = self.child.wait(LIMIT)
        except subprocess.TimeoutExpired:
            raise Fault("no end in %g seconds" % LIMIT)
        while self.more(LIMIT):
            pass
        return status

    def kill(self):
        if self.child.poll() is None:
            self.child.kill()
            self.child.wait()


def talk(program, told, status, ends, success):
    if success:
        told = [(0, "(set-option :print-success true)", [])] + told
    for number, text, answer in told:
        wanted = [] if answer is None else answer or (["success"] if success and text else [])
        program.send(text)
        for line in wanted:
            came = program.line()
            if came != line:
                raise Fault("line %d: %r in place of %r" % (number, came, line))
        if wanted or answer is None:
            program.quiet()
    came = program.end(ends)
    if program.held:
        raise Fault("more than the answers: %r" % program.held)
    if came != status:
        raise Fault("status %d in place of %d" % (came, status))


def fault(program, path, success):
    told, status, ends, _ = turns(path)
    with tempfile.TemporaryDirectory() as folder:
        other = Program(program, pathlib.Path(folder) / "proof")
        try:
            talk(other, told, status, ends, success)
        except Fault as found:
            return str(found)
        finally:
            other.kill()
    return None


def main():
    words = sys.argv[1:]
    success = "--success" in words
    words = [w for w in words if w != "--success"]
    program = words[0] if words else PROGRAM
    passed_over = "silent" if success else "success"
    count, failed = 0, 0
    for path in sorted(HERE.glob("*.dialogue")):
        if passed_over in turns(path)[3]:
            continue
        found = fault(program, path, success)
        if found:
            print("%s: %s" % (path.stem, found))
        count, failed = count + 1, failed + bool(found)
    print("%d dialogues, %d failed" % (count, failed))
    return 1 if failed or not count else 0


if __name__ == "__main__":
    sys.exit(main())
