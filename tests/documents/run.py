#!/usr/bin/env python3
"""Checks that what the documents name is there: files, crates, definitions, and clauses of contracts.

usage: run.py    (reads README.md, docs/ and the sources; no program is run)

- A name in backticks with a slash, or with the ending of a file, is that of a file or folder, from the root, from a crate, or
  from docs/.
- Every other name in backticks is one of the sources: a crate, file, function, type, variant, definition or clause; or it is
  said not to be, in NOT_OURS.
- An option of the program that they name is one that `solve` takes.
- docs/ARCHITECTURE.md has a row for each crate of crates.txt and of crates/. The second column names crates that it stands on,
  from which the others of crates.txt follow. A row that ends in a file of specs/ names definitions of that file, and those of
  `run`'s contract all have one. The table of files has every file of src/.
- In the tables of docs/CLAIMS.md and docs/CONTRACTS.md, what follows `CALL`: is a clause of that call, by its label or by a definition that it
  names; and `Record.part` is a part of that record.
- The scripts and the proofs that docs/PROOFS.md goes through are those of examples and of rows, or of the table of
  crates/theory_rows, and the replayer of tests/rows accepts the proofs; a clause that the page names there is the one of the replayed log.
- The head of a crate's root file names crates that it stands on by crates.txt.
- README.md says how many lines of definitions and of types lead to what is accepted: those that definitions.py counts.
"""
import pathlib
import re
import sys

ROOT = pathlib.Path(__file__).resolve().parents[2]
CRATES = ROOT / "crates"
DOCUMENTS = [path.relative_to(ROOT).as_posix() for path in [ROOT / "README.md", *sorted((ROOT / "docs").glob("*.md"))]]
FILE_ENDINGS = (".md", ".py", ".smt2", ".txt", ".rt", ".row", ".antt", ".dialogue")
sys.path.insert(0, str(ROOT / "tests/rows"))
import definitions
import lemmas
import reference
import run as rows_of_answers

NAME = r"[A-Za-z_][A-Za-z0-9_']*"
# Names of the toolchain and other programs, and of what is to come; and files that a build or a run makes.
NOT_OURS = set("rt ci try rattle kit z3 equals Define PutLemma".split())
# Names of clients, and what they call things.
NOT_OURS |= set("yosys rumur boolector ext_rotate_left ext_rotate_right inNewScope getExpr SInt SInteger SReal".split())
NOT_OURS |= set("proveWith satWith allSatWith runSMTWith settings".split())
MADE = set("lib.rt main.rt proof.txt question.smt2 crates/smt_tool/out crates/smt_tool/out/smt_tool".split())
# Words that are no options of the program, of which the documents say so, or are those of the bridge and of clients.
REFUSED = ["help", "version", "keep", "smt"]


def crates_txt():
    """The crates with what each stands on, lowest first."""
    lines = (ROOT / "crates.txt").read_text().splitlines()
    rows = [line.split(":", 1) for line in lines if line.strip() and not line.startswith("#")]
    return {head.split()[0]: below.split() for head, below in rows}


class Sources:
    """The words of all sources, each function's contract, and the parts of each record of the definitions."""

    def __init__(self):
        self.words = set()
        self.contracts = {}
        self.parts = {}
        for path in sorted(CRATES.rglob("*")):
            if path.suffix in (".rt", ".antt") and path.relative_to(CRATES).parts[1] in ("src", "specs", "proofs"):
                text = re.sub(r"(?://|--) .*|//[/!].*", "", path.read_text())
                self.words.add(path.stem)
                self.words.update(re.findall(NAME, text))
                if path.suffix == ".rt":
                    self.read_code(text)
                else:
                    self.read_definitions(text)

    def read_code(self, text):
        """A contract is the words of a function's clauses, the labels among them."""
        owner, calls, within = "", [], False
        for line in text.splitlines():
            block = re.match(r"(?:pub )?(?:impl|trait)\b(?:<[^>]*>)?\s+(?:.* for )?(%s)" % NAME, line)
            owner = block.group(1) if block else "" if line.startswith("}") else owner
            call = re.match(r"\s*(?:pub(?:\([a-z]+\))? )?fn (%s)" % NAME, line)
            if call:
                names = {call.group(1), owner + "::" + call.group(1)}
                calls, within = [self.contracts.setdefault(name, set()) for name in names], False
            within = (within or bool(re.match(r"\s*(?:ensures|requires) ", line))) and line.strip() not in ("{", "{}", "}", "")
            for clauses in calls if within else []:
                clauses.update(re.findall(NAME, line))

    def read_definitions(self, text):
        record = None
        for line in text.splitlines():
            head = re.match(r"(?:pub )?record (%s)" % NAME, line)
            if head:
                record = self.parts.setdefault(head.group(1), set())
            elif not line.startswith(" "):
                record = None
            part = re.match(r"\s+(?:pub )?(%s) :" % NAME, line)
            if record is not None and part:
                record.add(part.group(1))


def codes(text):
    return re.findall(r"`([^`\n]+)`", text)


def rows(text):
    return [[cell.strip() for cell in line.split("|")[1:-1]] for line in text.splitlines() if line.startswith("|")]


def calls_of(code):
    """`A::{b, c}` is A::b and A::c."""
    group = re.fullmatch(r"(.*)::\{(.*)\}", code)
    return [group.group(1) + "::" + name.strip() for name in group.group(2).split(",")] if group else [code]


def check_paths(text):
    places = [ROOT, ROOT / "docs", ROOT / "examples", CRATES, *sorted(CRATES.iterdir())]
    for word in (word for code in codes(text) for word in code.split()):
        named = "/" in word or word.endswith(FILE_ENDINGS)
        if named and re.fullmatch(r"[A-Za-z0-9_./-]+", word) and word not in MADE:
            if not any((place / word).exists() or (place / (word + ".antt")).exists() for place in places):
                yield "no file %s" % word


def check_names(text, sources, crates):
    known = sources.words | set(crates) | NOT_OURS
    for code in codes(text):
        if re.fullmatch(r"[A-Za-z_][A-Za-z0-9_':{}<>, &.]*", code) and not code.endswith(FILE_ENDINGS):
            for name in re.findall(NAME, code):
                if name not in known and not name.isupper():
                    yield "nothing is named %s in `%s`" % (name, code)
    for record, part in re.findall(r"`([A-Z][A-Za-z]+)\.([a-z_]+)`", text):
        if part not in sources.parts.get(record, {part} if record in known else ()):
            yield "%s has no part %s" % (record, part)


def check_clauses(text, sources):
    for clause in (row[-1] for row in rows(text)):
        while re.search(r"\([^()]*\)", clause):
            clause = re.sub(r"\([^()]*\)", "", clause)
        for part in clause.split(";"):
            split = re.match(r"((?:`[^`]*`|[^`:])*):(.*)", part)
            if not split:
                continue
            calls = [call for code in codes(split.group(1)) for call in calls_of(code)]
            known = [sources.contracts[call] for call in calls if call in sources.contracts]
            for code in codes(split.group(2)):
                if known and code.split(".")[0] not in set().union(*known) and code not in sources.contracts:
                    yield "%s has no clause %s" % (", ".join(calls), code)


def check_options(text):
    taken = re.findall(r'number_option\(alloc, "([a-z]+)"', (CRATES / "tool_words/src/command_line.rt").read_text())
    for option in re.findall(r"--([a-z]+)", " ".join(codes(text))):
        if option not in taken + REFUSED:
            yield "the program has no option --%s" % option


def closure(names, crates):
    held, waiting = set(), list(names)
    while waiting:
        name = waiting.pop()
        if name not in held:
            held.add(name)
            waiting.extend(crates.get(name, []))
    return held


def check_rooms(text, crates):
    rooms = {row[0]: [name.strip(" `") for name in row[1].split(",") if name.strip()] for row in rows(text) if len(row) == 4}
    rooms = {name: below for name, below in rooms.items() if re.fullmatch(r"[a-z_]+", name) and name != "room"}
    folders = {path.name for path in CRATES.iterdir() if path.is_dir()}
    for name in sorted((set(rooms) ^ set(crates)) | (folders ^ set(crates))):
        yield "%s is missing in its table, in crates.txt or in crates/" % name
    for name, below in rooms.items():
        yield from ("%s does not stand on %s" % (name, dep) for dep in set(below) - set(crates.get(name, [])))
        yield from ("%s stands on %s too" % (name, dep) for dep in set(crates.get(name, [])) - closure(below, crates))


def check_files(text, crates):
    named = {row[0]: set(re.findall(r"[a-z_]+", row[1] + " " + row[2])) for row in rows(text) if len(row) == 3}
    for name in crates:
        stems = {path.stem for path in (CRATES / name / "src").glob("*.rt") if not path.stem.endswith("tests")}
        if name in named and (stems ^ named[name]) - {"lib"}:
            yield "the files of %s: %s" % (name, " ".join(sorted((stems ^ named[name]) - {"lib"})))


def check_definitions(text):
    placed = set()
    for row in rows(text):
        place = re.fullmatch(r"`([a-z_]+/specs/[A-Za-z]+\.antt)`", row[-1])
        if place and (CRATES / place.group(1)).exists():
            source = (CRATES / place.group(1)).read_text()
            for name in codes(row[0]):
                placed.add(name)
                if not re.search(r"^ *(?:abbrev )?pub (?:record |data )?%s\b" % name, source, re.M):
                    yield "%s is not defined in %s" % (name, place.group(1))
    running = (CRATES / "smt_run/src/running.rt").read_text()
    imports = re.findall(r"^ghost use Rattle\.(?!std)[a-z_]+\.specs\.[A-Za-z]+\.\{(.*)\};", running, re.M)
    contract = running[running.index("pub fn run<") :]
    for name in re.findall(NAME, " ".join(imports)):
        if re.search(r"\b%s\b" % name, contract) and name not in placed:
            yield "the contract of run names %s, which has no row" % name


# Each script that docs/PROOFS.md goes through, with its proof behind it: the example and the row that have it, or the base
# of the table and its verdicts.
WORKED = [("proof.smt2", "proof_that_is_explained.row"), ("unknown.smt2", "diary_that_is_explained.row")]
WORKED_BASES = [("store_that_is_read_back", ["unsat"]), ("complement_twice_is_left_out", ["unsat"])]


def worked_proofs():
    """The name, script, proof and verdicts of each proof that is gone through."""
    for example, row in WORKED:
        asked = [line for line in (ROOT / "examples" / example).read_text().splitlines() if not line.startswith(";")]
        held = rows_of_answers.sections(ROOT / "tests/rows" / row)
        script = held["script"] if held["script"].splitlines() == asked else None
        yield example, script, held["proof"], held["answers"].splitlines()
    bases = {base[0]: base for base in lemmas.bases((lemmas.TABLE / "stdin").read_text())}
    for name, verdicts in WORKED_BASES:
        _, script, proof, _ = bases[name]
        yield name, lemmas.text_of(script), lemmas.text_of(proof), verdicts


def check_worked_proofs(text):
    parts = [part for part in re.split(r"^## ", text, flags=re.M) if re.search(r"^    ", part, re.M)]
    worked = list(worked_proofs())
    if len(parts) != len(worked):
        yield "there are %d worked proofs" % len(parts)
    for part, (name, held_script, held_proof, wanted) in zip(parts, worked):
        script, proof = (re.sub(r"^    ", "", block, flags=re.M) for block in re.findall(r"(?:^    .*\n)+", part, re.M))
        if script != held_script or proof != held_proof:
            yield "the script or the proof is not that of " + name
        verdicts, log = reference.replay(script, proof)
        if verdicts != wanted:
            yield "the replayer tells other verdicts of " + name
        for pos, k, clause in re.findall(r"(\d+)\.(\d+) \{([^}]*)\}", part):
            if log.clause(int(pos), int(k)) != [int(l) for l in clause.split()]:
                yield "%s.%s is not {%s} in the proof of %s" % (pos, k, clause, name)


def check_heads(crates):
    for name, below in crates.items():
        root = CRATES / name / "src/lib.rt"
        root = root if root.exists() else CRATES / name / "src/main.rt"
        head = " ".join(line[3:].strip() for line in root.read_text().splitlines() if line.startswith("//!"))
        for other in re.findall(r"`([a-z_]+)`", " ".join(re.findall(r"[Tt]he crate stands on ([^.;]*)", head))):
            if other not in below + ["std"]:
                yield "%s: it does not stand on %s" % (root.relative_to(ROOT), other)


# The crates that say how a script is read and obeyed.
READING = ["smt_text", "smt_syntax", "smt_build", "script_state"]


def check_counts(text):
    counts = definitions.lines_by_crate(("definition", "accepted_proof", "Accepted", "Accepted"))
    by_crate, of_types = counts["definition"], sum(counts["type"].values())
    wanted = [sum(by_crate.values()), len(by_crate), by_crate["accepted_proof"], sum(by_crate[crate] for crate in READING), of_types]
    told = re.search(r"is (\d+) lines of definitions in (\d+) crates \((\d+) of them .* (\d+) in smt_text.* (\d+) lines of the types", text)
    if told is None or [int(number) for number in told.groups()] != wanted:
        yield "it does not say that there are %d lines of definitions in %d crates (%d, %d), and %d of types" % tuple(wanted)


def faults():
    crates, sources = crates_txt(), Sources()
    for document in DOCUMENTS:
        text = (ROOT / document).read_text()
        found = [*check_paths(text), *check_names(text, sources, crates), *check_options(text)]
        if document in ("docs/CLAIMS.md", "docs/CONTRACTS.md"):
            found += check_clauses(text, sources)
        if document == "docs/ARCHITECTURE.md":
            found += [*check_rooms(text, crates), *check_files(text, crates), *check_definitions(text)]
        if document == "docs/PROOFS.md":
            found += check_worked_proofs(text)
        if document == "README.md":
            found += check_counts(text)
        yield from ("%s: %s" % (document, fault) for fault in found)
    yield from check_heads(crates)


def main():
    found = list(faults())
    for fault in found:
        print(fault)
    print("%d documents, %d faults" % (len(DOCUMENTS), len(found)))
    return 1 if found else 0


if __name__ == "__main__":
    sys.exit(main())
