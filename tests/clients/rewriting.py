"""What some clients write and the solver does not read, as what it reads."""
import re

from forms import name_of

# Texts without one of these need not be looked at.
SUSPECT = re.compile(r"\(\s*(?:and|or)\s|ext_rotate_(?:left|right)")
ROTATIONS = {"ext_rotate_left": "rotate_left", "ext_rotate_right": "rotate_right"}
NUMERAL = re.compile(r"(?:0|[1-9][0-9]*)\Z")


def literal_value(tree):
    """The number of a literal of a word, or None."""
    if isinstance(tree, str):
        if tree.startswith("#x"):
            return int(tree[2:], 16)
        return int(tree[2:], 2) if tree.startswith("#b") else None
    is_indexed = len(tree) == 3 and tree[0] == "_" and isinstance(tree[1], str) and tree[1].startswith("bv")
    return int(tree[1][2:]) if is_indexed and NUMERAL.match(tree[1][2:]) else None


def rewritten_here(tree):
    """A tree whose parts are rewritten: connectives of one argument are it, rotations by a literal have it as index."""
    if len(tree) == 2 and tree[0] in ("and", "or"):
        return tree[1]
    if len(tree) == 3 and isinstance(tree[0], str) and tree[0] in ROTATIONS:
        turns = literal_value(tree[2])
        if turns is not None:
            return [["_", ROTATIONS[tree[0]], str(turns)], tree[1]]
    return tree


def rewritten(tree):
    """A tree as the solver reads it. It is walked without recursion: terms may be deep."""
    done, waiting = [], [(tree, False)]
    while waiting:
        tree, is_open = waiting.pop()
        if isinstance(tree, str):
            done.append(tree)
        elif not is_open:
            waiting.append((tree, True))
            waiting.extend((part, False) for part in reversed(tree))
        else:
            at = len(done) - len(tree)
            parts = done[at:]
            del done[at:]
            done.append(rewritten_here(parts))
    return done[0]


def symbols_in(tree):
    """The names of all tokens of a tree."""
    found, waiting = set(), [tree]
    while waiting:
        tree = waiting.pop()
        if isinstance(tree, str):
            found.add(name_of(tree))
        else:
            waiting.extend(tree)
    return found


class Definition:
    """A definition that the solver was not told yet: `(define-fun NAME ((PARAMETER SORT)..) SORT BODY)`."""

    def __init__(self, tree):
        self.name, self.parameters, self.body = name_of(tree[1]), tree[2], tree[4]

    def binding(self):
        """The binding of a name without parameters."""
        return [self.name_token(), self.body]

    def name_token(self):
        return "|%s|" % self.name


def unfolded(term, definitions):
    """A term over definitions that the solver was not told: names without parameters are bound around it, the earliest outside.
    None where it uses one with parameters."""
    needed = symbols_in(term)
    for definition in reversed(definitions):
        if definition.name in needed:
            if definition.parameters:
                return None
            term = ["let", [definition.binding()], term]
            needed |= symbols_in(definition.body)
    return term
