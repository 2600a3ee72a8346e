"""LRAT texts from what other solvers write: from a trace of resolutions with its antecedents, and from a text of clauses alone (DRAT).

Nothing here judges: what comes out is judged by `lrat`. A line that no chain can be found for is told by `NoChain`.
"""
import heapq


class NoChain(Exception):
    """What has no chain of unit propagation: a clause that is not implied in this way."""


def read_clauses(path):
    """How many variables there are, and the clauses, as tuples in their order."""
    variables, rows, begun = 0, [], []
    for line in open(path):
        if line.startswith("p"):
            variables = int(line.split()[2])
        elif not line.startswith("c"):
            for number in map(int, line.split()):
                if number:
                    begun.append(number)
                else:
                    rows.append(tuple(begun))
                    begun = []
    return variables, rows


# ---- a trace: each clause with the numbers of those that it comes from


def read_trace(path):
    """The literals and the antecedents of each number."""
    found = {}
    for line in open(path):
        numbers = list(map(int, line.split()))
        if not numbers:
            continue
        cut = numbers.index(0, 1)
        assert numbers[-1] == 0 and 0 not in numbers[cut + 1 : -1], line
        found[numbers[0]] = (numbers[1:cut], numbers[cut + 1 : -1])
    return found


def in_order(trace):
    """The numbers, each behind those that it comes from, else the lowest first."""
    users, open_ = {}, {}
    for number, (_, antecedents) in trace.items():
        open_[number] = len(antecedents)
        for old in antecedents:
            users.setdefault(old, []).append(number)
    ready = [number for number, left in open_.items() if not left]
    heapq.heapify(ready)
    while ready:
        number = heapq.heappop(ready)
        yield number
        for user in users.get(number, []):
            open_[user] -= 1
            if not open_[user]:
                heapq.heappush(ready, user)


def chain(clause, antecedents):
    """The names of the antecedents, pairs of a name and literals, in an order in which each but the last leaves one literal open,
    and the last none."""
    true, left, used = {-l for l in clause}, list(antecedents), []
    while left:
        later = []
        for name, literals in left:
            open_ = {l for l in literals if -l not in true}
            if not open_:
                return used + [name]
            if len(open_) > 1 or open_ & true:
                later.append((name, literals))
                continue
            true |= open_
            used.append(name)
        if len(later) == len(left):
            break
        left = later
    raise NoChain(clause)


def of_trace(cnf, trace):
    """The LRAT text of a trace, as a list of lines."""
    _, rows = read_clauses(cnf)
    inputs = {}
    for at, row in enumerate(rows, 1):
        inputs.setdefault(frozenset(row), at)
    found, names, lines, next_ = read_trace(trace), {}, [], len(rows) + 1
    for number in in_order(found):
        literals, antecedents = found[number]
        if not antecedents:
            names[number] = inputs[frozenset(literals)]
            continue
        hints = chain(literals, [(names[old], found[old][0]) for old in antecedents])
        lines.append(" ".join(map(str, [next_, *literals, 0, *hints, 0])) + "\n")
        names[number] = next_
        next_ += 1
    return lines


# ---- clauses alone


class Propagation:
    """Clauses by their numbers, two literals of each watched, and what follows from them alone, each literal with the number of
    the clause that it follows by."""

    def __init__(self, rows):
        self.rows, self.watched, self.names = {}, {}, {}
        self.true, self.trail, self.reasons, self.done = set(), [], {}, 0
        # the number of a clause that is false
        self.false = None
        for at, row in enumerate(rows, 1):
            self.add(at, row)

    def add(self, number, row):
        row = list(dict.fromkeys(row))
        self.names.setdefault(tuple(sorted(row)), []).append(number)
        row.sort(key=lambda l: -l in self.true)
        self.rows[number] = row
        for literal in row[:2]:
            self.watched.setdefault(literal, []).append(number)
        open_ = [l for l in row if -l not in self.true]
        if not open_:
            self.false = self.false or number
        elif len(open_) == 1 and open_[0] not in self.true:
            self.put(open_[0], number)
            self.false = self.false or self.propagate()

    def delete(self, row):
        """Deletes a clause that is there and by which nothing follows, else does nothing; its number, or None."""
        for number in self.names.get(tuple(sorted(set(row))), []):
            if number != self.false and not any(self.reasons.get(l) == number for l in self.rows[number]):
                self.names[tuple(sorted(set(row)))].remove(number)
                del self.rows[number]
                return number
        return None

    def put(self, literal, reason):
        self.true.add(literal)
        self.trail.append(literal)
        self.reasons[literal] = reason

    def propagate(self):
        """The number of a clause that is false, or None."""
        while self.done < len(self.trail):
            false = -self.trail[self.done]
            self.done += 1
            kept, visits = [], self.watched.get(false, [])
            for place, number in enumerate(visits):
                row = self.rows.get(number)
                if row is None:
                    continue
                if len(row) == 1:
                    kept.append(number)
                    continue
                if row[0] == false:
                    row[0], row[1] = row[1], row[0]
                if row[0] in self.true:
                    kept.append(number)
                    continue
                other = next((i for i in range(2, len(row)) if -row[i] not in self.true), None)
                if other is not None:
                    row[1], row[other] = row[other], row[1]
                    self.watched.setdefault(row[1], []).append(number)
                    continue
                kept.append(number)
                if -row[0] in self.true:
                    self.watched[false] = kept + visits[place + 1 :]
                    return number
                self.put(row[0], number)
            self.watched[false] = kept
        return None

    def hints(self, clause):
        """A chain for the clause."""
        if self.false:
            return self.used(self.false)
        held, done = len(self.trail), self.done
        conflict = next((self.reasons[l] for l in clause if l in self.true), None)
        if conflict is None:
            for literal in clause:
                if -literal not in self.true:
                    self.put(-literal, None)
            conflict = self.propagate()
        found = None if conflict is None else self.used(conflict)
        for literal in self.trail[held:]:
            self.true.discard(literal)
            del self.reasons[literal]
        del self.trail[held:]
        self.done = done
        if found is None:
            raise NoChain(clause)
        return found

    def used(self, conflict):
        """The numbers by which the clause of this number becomes false, itself at last."""
        needed, names = {-l for l in self.rows[conflict]}, [conflict]
        for literal in reversed(self.trail):
            reason = self.reasons[literal]
            if literal in needed and reason is not None and reason != conflict:
                names.append(reason)
                needed |= {-l for l in self.rows[reason] if l != literal}
        return names[::-1]


def of_clauses(cnf, text):
    """The LRAT text of clauses, each of which follows from those before, and deletions, to the empty clause; a list of lines."""
    _, rows = read_clauses(cnf)
    held, next_, lines = Propagation(rows), len(rows) + 1, []
    for line in open(text):
        words = line.split()
        if not words or words[0] == "c" or words[0].startswith("%"):
            continue
        if words[0] == "d":
            number = held.delete([int(w) for w in words[1:-1]])
            if number:
                lines.append("%d d %d 0\n" % (next_ - 1, number))
            continue
        clause = [int(w) for w in words[:-1]]
        hints = held.hints(clause)
        lines.append(" ".join(map(str, [next_, *clause, 0, *hints, 0])) + "\n")
        held.add(next_, clause)
        next_ += 1
        if not clause:
            break
    return lines
