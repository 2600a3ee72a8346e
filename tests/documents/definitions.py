#!/usr/bin/env python3
"""Counts the lines of the definitions that one leads to, and of the types of src/ that these speak of.

usage: definitions.py [CRATE MODULE NAME]    (default: accepted_proof Accepted Accepted; with the lines of each crate)

An item of a file of specs/ is a signature with its equations, or a record or a data type with its parts. It leads to each item
that it names, of its own file or of those that the file imports, and to the types of src/ among them; a type leads to those of
its parts, and to what its Model is seen as. Imports, comments and blank lines are not counted, nor are attributes of a type.
"""
import collections
import functools
import pathlib
import re
import sys

CRATES = pathlib.Path(__file__).resolve().parents[2] / "crates"
WORD = r"[^\s(){}\[\],;:λ→≡×∷⊎⊥∙]+"
HEAD = r"( *)(?:abbrev |unfoldable )?(?:pub )?(?:abbrev |unfoldable )?(record |data )?(%s)(?= .*: |.* where$)" % WORD


def imported(line, names):
    """Notes what the names of an import stand for: a place and a name there."""
    place, group, alias = re.fullmatch(r"\s*(?:pub |ghost )*use Rattle\.([\w.-]+?)(?:\.\{(.*)\})?(?: as ([\w-]+))?;?", line).groups()
    for part in group.split(", ") if group else []:
        name, _, other = part.partition(" as ")
        names[(other or name).strip("◌")] = (place, name.strip("◌"))
    if group is None:
        names[alias or place.split(".")[-1]] = (place, None)


@functools.cache
def definitions(crate, module):
    """The lines of each item of a file, and what its imports stand for; a constructor stands for its data type."""
    items, names, held, holders = collections.defaultdict(list), {}, None, []
    path = CRATES / crate / "specs" / (module + ".antt")
    for line in path.read_text().splitlines() if path.exists() else []:
        line = re.sub(r"(^|\s)--( .*|$)", "", line).rstrip()
        if re.match(r"\s*(pub )?use ", line):
            imported(line, names)
        elif line.strip():
            depth = len(line) - len(line.lstrip())
            holders = [holder for holder in holders if holder[0] < depth]
            head = re.match(HEAD, line)
            if re.match(r"\s*(module|(abbrev |unfoldable )?mutual|infix)", line):
                holders.append((depth, False))
                held = None
            elif head and not any(is_type for _, is_type in holders):
                held = head.group(3).strip("◌")
                holders.append((depth, bool(head.group(2))))
            elif head and line.split()[0] != "pub":
                names[head.group(3)] = ("%s.specs.%s" % (crate, module), held)
            if held:
                items[held].append(line)
    return items, names


@functools.cache
def types(crate, stem):
    """The lines of each type of a file of src/ with those of its Model, and what its imports stand for."""
    items, names, held = collections.defaultdict(list), {}, None
    for line in (CRATES / crate / "src" / (stem + ".rt")).read_text().splitlines():
        line = re.sub(r"\s*//.*", "", line)
        if re.match(r"\s*ghost use ", line):
            if "Rattle" in line:
                imported(line, names)
        elif re.match(r"(pub )?use ", line):
            for part, group in re.findall(r"use ([\w:]+?)(?:::\{(.*)\})?;", line):
                for name in group.split(", ") if group else [part.split("::")[-1]]:
                    names[name.split("::")[-1]] = ((part if group else part.rpartition("::")[0]).replace("crate", crate), name)
        elif re.match(r"(pub(\(crate\))? )?(struct|enum) ", line) or re.match(r"impl(<.*>)? Model for ", line):
            held = re.search(r"(?:struct|enum|for) (\w+)", line).group(1)
            items[held].append(line)
            held = None if line.endswith((";", "}")) else held
        elif held and line.strip() and not line.strip().startswith("#["):
            items[held].append(line)
            held = None if line == "}" else held
    return items, names


def place_of_type(crate, name):
    """The file of src/ that has the type."""
    for path in sorted((CRATES / crate / "src").glob("*.rt")) if (CRATES / crate).exists() else []:
        if re.search(r"^pub (?:struct|enum) %s\b" % name, path.read_text(), re.M):
            return ("type", crate, path.stem, name)
    return None


def found(place, name):
    """The item that an import names, if it is one of the repository."""
    parts = place.split(".")
    if not (CRATES / parts[0]).exists():
        return None
    if parts[1:3] == ["specs", "declared"]:
        return ("type", parts[0], parts[3], parts[4])
    if parts[1:2] == ["specs"]:
        return ("definition", parts[0], parts[2], name)
    return None


def named(item):
    """What an item names."""
    kind, crate, stem, name = item
    items, names = (definitions if kind == "definition" else types)(crate, stem)
    for word in sorted(set(re.findall(WORD, " ".join(items.get(name, []))))):
        first, _, rest = word.partition(".")
        if first in items and first != name:
            yield (kind, crate, stem, first)
        elif first in names:
            place, other = names[first]
            if "." in place:
                yield found(place, other or rest)
            else:
                yield place_of_type(place.split("::")[0], other)


def lines_by_crate(first):
    """How many lines of definitions and how many of types each crate has among those that a definition leads to."""
    counts = {"definition": collections.Counter(), "type": collections.Counter()}
    held, waiting = set(), [first]
    while waiting:
        item = waiting.pop()
        if item is None or item in held:
            continue
        held.add(item)
        kind, crate, stem, name = item
        items, names = (definitions if kind == "definition" else types)(crate, stem)
        if name in items:
            counts[kind][crate] += len(items[name])
            waiting.extend(named(item))
        elif name in names:
            waiting.append(found(*names[name]))
        else:
            raise LookupError("nothing is named %s in %s of %s" % (name, stem, crate))
    return counts


def main(words):
    crate, module, name = words or ["accepted_proof", "Accepted", "Accepted"]
    for kind, counts in lines_by_crate(("definition", crate, module, name)).items():
        for crate, count in sorted(counts.items()):
            print("%6d %s" % (count, crate))
        print("%6d lines of %ss in %d crates" % (sum(counts.values()), kind, len(counts)))


if __name__ == "__main__":
    main(sys.argv[1:])
