"""Texts of SMT-LIB as commands, trees and answers. A tree is a token, or the list of the trees between two parentheses."""
import re

MARK = re.compile(r'[()"|;]')
TOKEN = re.compile(r'[()]|"(?:[^"]|"")*"|\|[^|]*\||;[^\n]*|[^\s()";|]+')
TRIVIA = re.compile(r"(?:\s|;[^\n]*(?:\n|$))*")


class Cutter:
    """Cuts a text that comes in pieces into commands, each with what stands before it."""

    def __init__(self):
        self.text, self.at, self.begin, self.depth, self.inside = "", 0, 0, 0, None

    def feed(self, piece):
        """Takes the next piece, and gives (what stands before, command) for each command that is whole."""
        self.text += piece
        while (found := self.next_mark()) is not None:
            if self.inside is None and found == ")" and self.depth == 0 and self.begin is not None:
                yield self.text[: self.begin], self.text[self.begin : self.at]
                self.text, self.at, self.begin = self.text[self.at :], 0, None

    def next_mark(self):
        """Goes behind the next character that opens or closes something, and gives it."""
        pattern = MARK if self.inside is None else re.compile(re.escape(self.inside))
        found = pattern.search(self.text, self.at)
        if found is None:
            self.at = len(self.text)
            return None
        self.at = found.end()
        self.take(found.group())
        return found.group()

    def take(self, mark):
        """Takes account of a mark: where the command began, how deep it is, and what it is inside of."""
        if self.inside is not None:
            self.inside = None
        elif mark == "(":
            if self.depth == 0:
                self.begin = self.at - 1
            self.depth += 1
        elif mark == ")":
            self.depth = max(self.depth - 1, 0)
        else:
            self.inside = "\n" if mark == ";" else mark

    def is_between(self):
        """Whether no parenthesis, string or name is open."""
        return self.depth == 0 and self.inside in (None, "\n")


def is_trivia(text):
    """Whether a text has nothing but blanks and comments."""
    return TRIVIA.fullmatch(text) is not None


def trees(text):
    """The trees of a text whose parentheses fit."""
    stack = [[]]
    for token in TOKEN.findall(text):
        if token == "(":
            stack.append([])
        elif token == ")":
            last = stack.pop()
            stack[-1].append(last)
        elif not token.startswith(";"):
            stack[-1].append(token)
    return stack[0]


def text_of(tree):
    """The text of a tree, in one line."""
    parts, waiting = [], [tree]
    while waiting:
        tree = waiting.pop()
        if isinstance(tree, list):
            waiting.append(")")
            waiting.extend(reversed(tree))
            tree = "("
        if parts and parts[-1] != "(" and tree != ")":
            parts.append(" ")
        parts.append(tree)
    return "".join(parts)


def name_of(token):
    """The name that a symbol is written for."""
    return token[1:-1] if token.startswith("|") else token
