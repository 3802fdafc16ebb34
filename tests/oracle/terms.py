"""Random formulas, plans, and terms over a few variables as sets of assignments: what the scripts beside it compare answers with.

A term is the set of the assignments that make it true, a number whose bit a stands for assignment a, where the first variable is the
highest bit of a. So the lowest bit is the least assignment, the variables in their order and false before true.
"""
import functools
import operator

PUSH, AND, EXISTS = range(3)

FIXED = [
    (3, [[1, -2], [2, -3], [3]]),
    (6, [[1, -2], [2, -3], [3, -4], [4, -5], [5, -6], [6]]),
    (6, [[-1, 2], [-2, 3], [-3, 4], [-4, 5], [-5, 6], [1]]),
    (5, [[1, 2, 3, 4, 5], [1, 2, 3, 4, -5]]),
    (4, [[1, 2], [-1, -2], [2, 3], [-2, -3], [3, 4], [-3, -4]]),
    (4, [[-1, -2, 3], [1, 2, 3], [1, -2, -3], [-1, 2, -3], [4, 1], [-4, 3], [4]]),
    (3, [[1, -1], [2, 2, -3], [3, 3]]),
    (3, [[3, -3], [2, -2, 1]]),
    (2, [[1], [-1]]),
    (2, [[1, 2], [], []]),
    (10, [[10, -9], [9], [5, 5]]),
    (10, []),
    (0, [[]]),
]


def formula(draw):
    variables = draw.randint(0, 10)
    used = draw.sample(range(1, variables + 1), draw.choice([variables, variables, draw.randint(0, variables)]))
    clauses = []
    for _ in range(draw.randint(0, draw.choice([2, 4]) * variables + 2)):
        length = draw.choice([0, 1, 2, 3, 3, 3, 4, 5]) if draw.random() < 0.03 else draw.choice([1, 2, 2, 3, 3, 3, 4])
        clauses.append([draw.choice([-1, 1]) * draw.choice(used) for _ in range(length)] if used else [])
    return variables, clauses if used else clauses[: draw.randint(0, 1)]


def conjoin(clauses):
    return [move for i in range(len(clauses)) for move in ([(PUSH, i)] if i == 0 else [(PUSH, i), (AND, None)])]


def bucket(variables, clauses):
    """The bucket plan: in each bucket the clauses come first, then the results of earlier ones; the rest is conjoined at the end."""
    rest = variables + 1
    buckets = [[] for _ in range(rest + 1)]
    for i, clause in enumerate(clauses):
        held = {abs(x) for x in clause}
        buckets[min(held, default=rest)].append(([(PUSH, i)], held))

    def joined(items):
        return [move for at, (moves, _) in enumerate(items) for move in (moves if at == 0 else [*moves, (AND, None)])]

    for x in range(1, rest):
        if buckets[x]:
            held = set().union(*(held for _, held in buckets[x])) - {x}
            buckets[min(held, default=rest)].append(([*joined(buckets[x]), (EXISTS, x)], held))
    return joined(buckets[rest])


class Tables:
    """Terms over so many variables as sets of assignments."""

    def __init__(self, variables):
        self.variables, self.all = variables, (1 << (1 << variables)) - 1
        self.true = [sum(1 << a for a in range(1 << variables) if a >> self.bit(x) & 1) for x in range(1, variables + 1)]

    def bit(self, variable):
        return self.variables - variable

    def clause(self, literals):
        return functools.reduce(operator.or_, (self.true[abs(x) - 1] ^ (0 if x > 0 else self.all) for x in literals), 0)

    def exists(self, variable, term):
        high, step = self.true[variable - 1], 1 << self.bit(variable)
        return term | (term & high) >> step | (term & ~high) << step

    def conjoin(self, clauses):
        """The last term of the plan, None where there is none, and the trail."""
        return functools.reduce(operator.and_, map(self.clause, clauses)) if clauses else None, []

    def bucket(self, clauses):
        buckets, trail = [[] for _ in range(self.variables + 2)], []
        rest = self.variables + 1
        for clause in clauses:
            held = {abs(x) for x in clause}
            buckets[min(held, default=rest)].append((self.clause(clause), held))
        for variable in range(1, rest):
            if buckets[variable]:
                terms, holds = zip(*buckets[variable])
                term, held = functools.reduce(operator.and_, terms), set().union(*holds) - {variable}
                trail.append((variable, term))
                buckets[min(held, default=rest)].append((self.exists(variable, term), held))
        return functools.reduce(operator.and_, (term for term, _ in buckets[rest])) if buckets[rest] else None, trail

    def by_buckets(self, order, clauses):
        """The values that the bucket plan over this order gives, where the clauses have a solution: those of the natural order of the
        formula whose variables are numbered by their places."""
        place = {variable: at + 1 for at, variable in enumerate(order)}
        last, trail = self.bucket([[place[abs(x)] * (1 if x > 0 else -1) for x in clause] for clause in clauses])
        found = self.values(self.recovered(last, trail[::-1]))
        return sorted((order[abs(x) - 1] * (1 if x > 0 else -1) for x in found), key=abs)

    def recovered(self, last, trail):
        """The least assignment of the last term, then the values along the trail as it is given."""
        found = (last & -last).bit_length() - 1 if last else 0
        for variable, term in trail:
            value = 1 << self.bit(variable)
            found = found & ~value if term >> (found & ~value) & 1 else found | value
        return found

    def values(self, assignment):
        return [x if assignment >> self.bit(x) & 1 else -x for x in range(1, self.variables + 1)]


def parts(term, variables):
    """The functions that are left of a term by values for its first variables, and that depend on the next one."""
    found, now = set(), {term}
    for level in range(variables):
        half = 1 << variables - level - 1
        sides = {part: (part >> half, part & (1 << half) - 1) for part in now}
        found |= {(level, part) for part, (high, low) in sides.items() if high != low}
        now = {side for both in sides.values() for side in both}
    return found


def width(variables, clauses, moves):
    """The most parts in hand at a move, up to the one that makes a term false."""
    tables, stack, trail, most = Tables(variables), [], [], 0
    for move, which in moves:
        before = [*stack, *trail]
        if move == PUSH:
            result = tables.clause(clauses[which])
        elif move == AND:
            result = stack.pop() & stack.pop()
        else:
            trail.append(stack.pop())
            result = tables.exists(which, trail[-1])
        stack.append(result)
        most = max(most, len(set().union(*(parts(term, variables) for term in [*before, result]))))
        if not result:
            break
    return most
