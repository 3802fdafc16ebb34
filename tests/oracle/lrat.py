"""A small judge of LRAT proofs for the scripts beside it: the rules of docs/FORMATS.md, without its limits. It shares nothing with the
program, nor with texts.py, which judges as that page does, with its reasons."""
import collections


class Bad(Exception):
    """A step that isn't good, with its line."""


class Proof:
    """The live clauses of a proof over a formula. A hint list is judged on the set of the literals that are false. A proof that has to be
    strict has no idle hint: each forces a literal that wasn't decided and that a later hint has, but for the last one, which is the
    conflict. A literal that a live unit clause decides is forced by a unit clause. An addition has hints of its own or groups, and these
    name the candidates, all of them and in the order of their numbers."""

    def __init__(self, clauses, strict=False):
        self.top, self.has_empty, self.strict = len(clauses), False, strict
        self.live, self.holders, self.ever = {}, collections.defaultdict(set), []
        for number, clause in enumerate(clauses, 1):
            self.keep(number, clause)

    def keep(self, number, clause):
        self.live[number] = clause
        self.ever.append(clause)
        for literal in clause:
            self.holders[literal].add(number)

    def drop(self, number):
        for literal in self.live.pop(number, []):
            self.holders[literal].discard(number)

    def conflicts(self, false, hints):
        """Whether the hints come to a conflict. The literals that they force are added."""
        needed = []
        for at, hint in enumerate(hints, 1):
            if hint not in self.live:
                raise Bad(f"clause {hint} is not live")
            rest = {literal for literal in self.live[hint] if literal not in false}
            if self.strict and not rest and at < len(hints):
                raise Bad(f"hints behind {hint}, which is the conflict")
            if not rest:
                if self.strict:
                    self.are_needed(needed, hints)
                return True
            if len(rest) > 1:
                raise Bad(f"clause {hint} is not unit")
            literal = rest.pop()
            if self.strict and -literal in false:
                raise Bad(f"clause {hint} forces nothing new")
            if self.strict and set(self.live[hint]) != {literal} and any(set(self.live[it]) == {literal} for it in self.holders[literal]):
                raise Bad(f"clause {hint} forces {literal}, of which there is a unit clause")
            false.add(-literal)
            needed.append((hint, -literal))
        return False

    def are_needed(self, needed, hints):
        """Each of these literals stands in the clause of a later hint."""
        later = set()
        for (hint, literal), follows in zip(reversed(needed), reversed(hints)):
            later.update(self.live[follows])
            if literal not in later:
                raise Bad(f"clause {hint} forces {literal}, which no later hint needs")

    def add(self, number, clause, hints):
        if number <= self.top:
            raise Bad("its number is not greater")
        first = next((at for at, hint in enumerate(hints) if hint < 0), len(hints))
        false = set(clause)
        if not self.conflicts(false, hints[:first]):
            if not clause or self.strict and first > 0:
                raise Bad("no conflict")
            self.resolvents(clause[0], false, hints[first:])
        elif self.strict and first < len(hints):
            raise Bad("groups behind a conflict")
        self.top, self.has_empty = number, self.has_empty or not clause
        self.keep(number, clause)

    def resolvents(self, pivot, false, hints):
        """Each live clause with the negated pivot must be blocked, or have a group of hints that reach a conflict."""
        starts = [at for at, hint in enumerate(hints) if hint < 0] + [len(hints)]
        groups = [(-hints[start], hints[start + 1 : end]) for start, end in zip(starts, starts[1:])]
        if self.strict and [it for it, _ in groups] != sorted(self.holders[-pivot]):
            raise Bad(f"groups {groups} other than the candidates")
        is_blocked = {it: any(-literal in false for literal in self.live[it] if literal != -pivot) for it in self.holders[-pivot]}
        for candidate, own in groups:
            if candidate not in is_blocked:
                raise Bad(f"group {candidate} is stray")
            if self.strict and is_blocked[candidate] and own:
                raise Bad(f"candidate {candidate} is blocked and has hints")
            others = {literal for literal in self.live[candidate] if literal != -pivot}
            if not is_blocked[candidate] and not self.conflicts(false | others, own):
                raise Bad(f"candidate {candidate} is open")
        missing = {it for it, blocked in is_blocked.items() if not blocked} - {candidate for candidate, _ in groups}
        if missing:
            raise Bad(f"candidates {missing} have no group")

    def refutes(self, lines):
        """Takes the lines. Whether some line has added the empty clause. A line that isn't a good step is raised."""
        for line in lines:
            words = line.split()
            try:
                if words[1] == "d":
                    *numbers, end = map(int, words[2:])
                    if end or not words[0].isdigit() or min(numbers, default=1) < 1:
                        raise Bad("no number")
                    for number in numbers:
                        self.drop(number)
                else:
                    number, *rest, end = map(int, words)
                    cut = rest.index(0)
                    if end or 0 in rest[cut + 1 :]:
                        raise Bad("zeros elsewhere")
                    self.add(number, rest[:cut], rest[cut + 1 :])
            except (Bad, ValueError, IndexError) as why:
                raise Bad(line, why) from why
        return self.has_empty


def refutes(clauses, lines):
    return Proof(clauses).refutes(lines)


def judged(path, clauses):
    """The proof in a file over these clauses, each line of it a good step; and the lines."""
    with open(path) as text:
        proof, lines = Proof(clauses), text.readlines()
    proof.refutes(lines)
    return proof, lines
