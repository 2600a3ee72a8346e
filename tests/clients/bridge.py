#!/usr/bin/env python3
"""Stands between a client and the solver, and turns what the solver does not read into what it reads.

usage: bridge.py [--keep SCRIPT] PROGRAM WORD..        for example: bridge.py smt_tool solve /dev/null

The client's commands come on standard input, its answers go to standard output. The solver is PROGRAM with the words behind it, of
which none may name a script. What is turned:

- `:global-declarations true`: what was declared or defined within a level is declared again when that level is popped;
- declarations and definitions behind a check are kept back until the next command that is no question about it, so that its
  model stands; a value that is asked of a name so defined is asked of its definition;
- options of z3 that say how it prints, and where diagnostics go, are done with success;
- `and` and `or` of one argument are that argument; `ext_rotate_left` and `ext_rotate_right` by a literal are
  rotations by an index.

All else goes through as it came. Lines keep their numbers, so an error tells the client's own. With --keep everything that
the solver was given is written to a file, which `check` takes as the script of the proof.
"""
import os
import signal
import subprocess
import sys

from forms import Cutter, is_trivia, name_of, text_of, trees
from rewriting import SUSPECT, Definition, rewritten, symbols_in, unfolded

DECLARING = {"declare-fun", "declare-const", "define-fun", "define-const", "define-sort", "declare-sort"}
ASKING = {"get-value", "get-model", "get-unsat-core", "get-unsat-assumptions", "get-info", "get-option", "get-assertions"}
ASKING |= {"get-assignment", "get-proof", "echo", "set-info"}
CHECKING = {"check-sat", "check-sat-assuming"}
# what z3 alone is told, and changes no answer here
OPTIONS_OF_Z3 = (":smtlib2_compliant", ":diagnostic-output-channel", ":pp.", ":model.")
SUCCESS = "(set-option :print-success true)"
CODE = "latin-1"  # bytes go through as they are


class Ended(Exception):
    """The solver has ended."""


class Solver:
    """The program behind the bridge. It is told to answer each command, so that answers are those of commands, one each."""

    def __init__(self, words, kept):
        self.kept = kept
        self.process = subprocess.Popen(words, stdin=subprocess.PIPE, stdout=subprocess.PIPE)
        signal.signal(signal.SIGTERM, self.stop)
        self.ask(SUCCESS)

    def stop(self, *_):
        """Ends it where the bridge is ended."""
        self.process.kill()
        sys.exit(1)

    def tell(self, text):
        """Hands over a text."""
        if self.kept:
            self.kept.write(text)
            self.kept.flush()
        try:
            self.process.stdin.write(text.encode(CODE))
            self.process.stdin.flush()
        except BrokenPipeError:
            raise Ended from None

    def ask(self, text):
        """Hands over a command, and gives its answer without the last line feed."""
        self.tell(text)
        return self.next_answer()

    def next_answer(self):
        """The answer that comes next."""
        cutter, told = Cutter(), ""
        while line := self.process.stdout.readline().decode(CODE):
            told += line
            for _ in cutter.feed(line):
                pass
            if cutter.is_between():
                return told[:-1]
        raise Ended

    def finish(self):
        """Ends the script, hands on what is still answered, and gives the status."""
        try:
            self.process.stdin.close()
        except BrokenPipeError:
            pass
        answer(self.process.stdout.read().decode(CODE))
        return self.process.wait()


def answer(text):
    """Hands a text to the client."""
    sys.stdout.buffer.write(text.encode(CODE))
    sys.stdout.buffer.flush()


def warn(text):
    """Says what the client cannot be told as an answer."""
    print("bridge:", text, file=sys.stderr)


def levels_of(tree):
    """The number of levels of `push` or `pop`."""
    return int(tree[1]) if len(tree) > 1 and isinstance(tree[1], str) and tree[1].isdigit() else 1


class Bridge:
    def __init__(self, solver):
        self.solver = solver
        self.skipped = ""  # what stands before the next command that is handed over: line feeds of those that were not
        self.start()

    def start(self):
        """The state of a client that has said nothing, or `reset`."""
        self.tells_success, self.is_global = False, False
        self.level, self.declared = 0, []  # what was declared, as [level, text]
        self.stands, self.held = False, []  # whether a check stands, and the declarations kept back, as trees

    def say(self, text):
        """Answers the client, who is told of success where it asked to be."""
        if text != "success" or self.tells_success:
            answer(text + "\n")

    def ask(self, before, command, changed=None):
        """Hands over a command, or what stands for it, on lines of the same numbers."""
        text = self.skipped + before + (command if changed is None else changed)
        self.skipped = "" if changed is None else "\n" * (command.count("\n") - changed.count("\n"))
        return self.solver.ask(text)

    def skip(self, before, command):
        """Passes over a command that the solver is not given."""
        self.skipped += before + "\n" * command.count("\n")

    def extra(self, text):
        """Hands over a command that the client did not write here."""
        told = self.solver.ask(text)
        if told != "success":
            warn("%s is answered %s" % (text, told))
        return told == "success"

    # ---- declarations

    def declare(self, text):
        """Takes account of a declaration that was accepted."""
        self.declared.append([self.level, text])

    def popped(self, level):
        """Goes back to a level; what was declared above it stands again where declarations are global."""
        self.level = level
        lost = [entry for entry in self.declared if entry[0] > level]
        self.declared = [entry for entry in self.declared if entry[0] <= level]
        if self.is_global:
            for _, text in lost:
                if self.extra(text):
                    self.declare(text)

    def release(self):
        """Hands over the declarations that were kept back."""
        held, self.held, self.stands = self.held, [], False
        for tree in held:
            text = text_of(tree)
            if self.extra(text):
                self.declare(text)

    # ---- commands, each with what stands before it, its text and its tree

    def set_option(self, before, command, tree):
        if tree[1:] in ([":print-success", "true"], [":print-success", "false"]):
            self.tells_success = tree[2] == "true"
        elif tree[1:] in ([":global-declarations", "true"], [":global-declarations", "false"]):
            self.is_global = tree[2] == "true"
        elif not (len(tree) == 3 and isinstance(tree[1], str) and tree[1].startswith(OPTIONS_OF_Z3)):
            return self.say(self.ask(before, command))
        self.skip(before, command)
        self.say("success")

    def get_option(self, before, command, tree):
        held = {":print-success": self.tells_success, ":global-declarations": self.is_global}
        if len(tree) == 2 and isinstance(tree[1], str) and tree[1] in held:
            self.skip(before, command)
            return self.say("true" if held[tree[1]] else "false")
        self.say(self.ask(before, command))

    def levels(self, before, command, tree):
        self.release()
        told = self.ask(before, command)
        if told == "success":
            if tree[0] == "push":
                self.level += levels_of(tree)
            else:
                self.popped(self.level - levels_of(tree))
        self.say(told)

    def reset(self, before, command, tree):
        self.held = []
        told = self.ask(before, command, command + SUCCESS)  # what is reset is told of no success
        if told != "success":
            self.say(told)
            self.solver.next_answer()
        else:
            self.start()

    def reset_assertions(self, before, command, tree):
        self.release()
        told = self.ask(before, command)
        if told == "success":
            self.declared = [[1, text] for _, text in self.declared]
            self.popped(0)
        self.say(told)

    def declaring(self, before, command, tree):
        changed = self.changed(command, tree)
        if self.stands:
            self.skip(before, command)
            self.held.append(tree if changed is None else trees(changed)[0])
            return self.say("success")
        told = self.ask(before, command, changed)
        if told == "success":
            self.declare(text_of(tree) if changed is None else changed)
        self.say(told)

    def checking(self, before, command, tree):
        self.release()
        told = self.ask(before, command, self.changed(command, tree))
        self.stands = told in ("sat", "unsat", "unknown")
        self.say(told)

    def get_value(self, before, command, tree):
        if len(tree) != 2 or not isinstance(tree[1], list):
            return self.say(self.ask(before, command))
        asked = self.asked(tree[1])
        if asked is None:
            self.release()
            asked = [rewritten(term) for term in tree[1]]
        if asked == tree[1]:
            return self.say(self.ask(before, command))
        told = self.ask(before, command, text_of(["get-value", asked]))
        if not told.startswith("(error"):
            values = [pair[1] for pair in trees(told)[0]]
            told = text_of([[term, value] for term, value in zip(tree[1], values)])
        self.say(told)

    def asked(self, terms):
        """The terms that the solver is asked for, over what it was told; None where the definitions have to be told first."""
        if not self.held:
            return [rewritten(term) for term in terms]
        known = [tree for tree in self.held if tree[0] == "define-fun" and len(tree) == 5]
        unknown = {name_of(tree[1]) for tree in self.held if tree not in known}
        definitions = [Definition(tree) for tree in known]
        asked = [unfolded(rewritten(term), definitions) for term in terms]
        return None if any(term is None or symbols_in(term) & unknown for term in asked) else asked

    def asking(self, before, command, tree):
        self.say(self.ask(before, command))

    def ending(self, before, command, tree):
        self.held = []
        self.say(self.ask(before, command))
        raise Ended

    def other(self, before, command, tree):
        self.release()
        self.say(self.ask(before, command, self.changed(command, tree)))

    def changed(self, command, tree):
        """The text that stands for a command, or None where it goes through as it is."""
        if tree is None or not SUSPECT.search(command):
            return None
        made = rewritten(tree)
        return None if made == tree else text_of(made)

    # ---- the way of a command

    def takes(self, head):
        """What is done with a command of this name."""
        named = {"set-option": self.set_option, "get-option": self.get_option, "push": self.levels, "pop": self.levels}
        named |= {"reset": self.reset, "reset-assertions": self.reset_assertions, "get-value": self.get_value, "exit": self.ending}
        named |= dict.fromkeys(DECLARING, self.declaring) | dict.fromkeys(CHECKING, self.checking)
        return named.get(head) or (self.asking if head in ASKING else self.other)

    def take(self, before, command):
        """Does what a command asks for."""
        if not is_trivia(before):
            self.stray(before)
            before = ""
        head = command[1:].split(None, 1)
        name = head[0].rstrip(")") if head else ""
        done = self.takes(name)
        plain = done == self.other and not SUSPECT.search(command)
        done(before, command, None if plain else trees(command)[0])

    def stray(self, text):
        """Hands over text between commands, which is answered by errors of its own."""
        self.release()
        told = self.solver.ask(self.skipped + text + '(echo "bridge")')
        self.skipped = ""
        while told != '"bridge"':
            self.say(told)
            told = self.solver.next_answer()


def commands(file):
    """The commands that come, each with what stands before it; then what is left, with None."""
    cutter = Cutter()
    while piece := os.read(file, 1 << 16):
        yield from cutter.feed(piece.decode("latin-1"))
    yield cutter.text, None


def main(words):
    kept = None
    if words[:1] == ["--keep"]:
        kept, words = open(words[1], "w", encoding=CODE, newline=""), words[2:]
    if not words:
        sys.exit(__doc__)
    solver = Solver(words, kept)
    bridge = Bridge(solver)
    try:
        for before, command in commands(0):
            if command is None:
                bridge.release()
                solver.tell(bridge.skipped + before)
            else:
                bridge.take(before, command)
    except Ended:
        pass
    return solver.finish()


if __name__ == "__main__":
    sys.exit(main(sys.argv[1:]))
