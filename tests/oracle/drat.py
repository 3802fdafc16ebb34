"""A model of DRAT proofs, and random proofs that it judges: those of fuzz_drat and fuzz_lrat.

It knows no propagation: it goes over all sets of literals without a literal beside its negation, and asks which of them are quiet: no
clause is false under the set, and where one literal alone isn't, its negation is in the set. An addition is good where no quiet set has the
literals of its clause, or none has those of the clause and of any candidate but for its negated first literal. A deletion takes out the
first clause of the same literals in the same order, or with `--any-order` of the same set of literals.
"""
import itertools

import fuzzing
from fuzzing import drawn_clause

BAD = ["", "d", "x 0", "1", "1 0 2 0", "0 0", "-0 0", "2147483648 0", "d 1", "+1 0", "1 d 0", "D 1 0", "d d 0", "3 0 1 2 0"]


def bit(literal):
    return 1 << 2 * abs(literal) + (literal < 0)


def mask(literals):
    it = 0
    for literal in literals:
        it |= bit(literal)
    return it


def quiet_sets(variables, clauses):
    """The quiet sets over these variables, as numbers with a bit for each literal."""
    masks = [mask(clause) for clause in clauses]
    choices = [(0, bit(variable), bit(-variable)) for variable in range(1, variables + 1)]
    return [it for it in map(sum, itertools.product(*choices)) if all(is_closed(it, clause) for clause in masks)]


def is_closed(chosen, clause):
    left = clause & ~chosen
    if not left:
        return False
    if left & left - 1:
        return True
    place = left.bit_length() - 1
    return bool(chosen & 1 << (place ^ 1))


class Model:
    def __init__(self, variables, clauses, any_order):
        self.variables, self.clauses, self.any_order = variables, [list(it) for it in clauses], any_order
        self.quiet = quiet_sets(variables, clauses)

    def has_quiet(self, literals):
        wanted = mask(literals)
        return any(it & wanted == wanted for it in self.quiet)

    def fault(self, clause):
        if not self.has_quiet(clause):
            return None
        if not clause:
            return "NoConflict"
        pivot = clause[0]
        for other in self.clauses:
            if -pivot in other and self.has_quiet(clause + [it for it in other if it != -pivot]):
                return "CandidateOpen"
        return None

    def add(self, clause):
        self.clauses.append(list(clause))
        self.quiet = [it for it in self.quiet if is_closed(it, mask(clause))]

    def delete(self, clause):
        for at, other in enumerate(self.clauses):
            if clause == other or self.any_order and set(clause) == set(other):
                del self.clauses[at]
                self.quiet = quiet_sets(self.variables, self.clauses)
                return


def line_of(draw, clause, is_deleted=False):
    words = ["d"] * is_deleted + [str(it) for it in clause] + ["0"]
    return draw.choice([" ", " ", " ", "  ", "\t"]).join(words)


class Case(fuzzing.Drawn):
    """A formula, a proof, and the verdict of the model."""

    def __init__(self, draw):
        super().__init__(draw, 0.08)
        self.of_formula = draw.choice([1, 2, 2, 3, 3, 3, 4])
        self.variables = self.of_formula + draw.choice([0, 1, 1, 2])
        self.formula = self.drawn_formula()
        self.any_order = draw.random() < 0.5
        self.model = Model(self.variables, self.formula, self.any_order)
        self.end, self.has_empty = None, False
        for _ in range(draw.randint(0, 8)):
            self.step()
        if draw.random() < 0.7:
            self.addition([])

    def drawn_formula(self):
        return [drawn_clause(self.draw, self.of_formula, 3, 0.05) for _ in range(self.draw.randint(1, 3 * self.of_formula + 2))]

    def addition(self, clause):
        at = self.put(line_of(self.draw, clause))
        if self.end is None:
            why = self.model.fault(clause)
            if why:
                self.end = at, why
            else:
                self.model.add(clause)
                self.has_empty |= not clause

    def step(self):
        draw = self.draw
        kind = draw.random()
        if kind < 0.02:
            line = draw.choice(BAD)
            at = self.put(line)
            if line and self.end is None:
                self.end = at, "Syntax"
        elif kind < 0.3:
            clause = list(draw.choice(self.model.clauses or [[1]]))
            if draw.random() < (0.6 if self.any_order else 0.1):
                draw.shuffle(clause)
            if self.any_order and clause and draw.random() < 0.2:
                clause.append(draw.choice(clause))
            self.put(line_of(draw, clause, True))
            if self.end is None:
                self.model.delete(clause)
        else:
            clause = drawn_clause(draw, self.variables, 4, 0.05)
            for _ in range(draw.choice([0, 5, 5, 20])):
                if self.end is None and self.model.fault(clause):
                    clause = drawn_clause(draw, self.variables, 4, 0.05)
            self.addition(clause)

    def verdict(self, text):
        """The line of the end is that behind the last line end."""
        if self.end is None and not self.has_empty:
            self.end = text.count("\n") + 1, "NoEmptyClause"
        return self.end
