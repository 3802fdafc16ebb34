"""Formulas of the fields that a user may bring, for the scripts of bench/: each by a name and a size, with the answer that is known of it.

adders N         a sum of two numbers of N bits by a carry from bit to bit, and by carries that are generated and passed on, is the same
comparators N    whether a number of N bits is less than another one, from the low end and from the high end, is the same
multipliers N    a product of two numbers of N bits by an array of cells is that of the numbers exchanged
factoring N      the number N is a product of two numbers above 1
parity_trees N   the parity of N inputs by a chain and by a tree over inputs that stand in another order is the same
intervals N      N meetings and five at one time have four rooms
rooms N          N meetings, five at a time at most, have five rooms
lists N          the same, each meeting in one of four rooms of its own, of six
bands N          three colours on a strip of triangles, three squares wide and N long, whose ends don't fit
counters N       at most N / 2 of N by a sequential counter (Sinz 2005), and more than that by another one in another order
cardinality N    of N blocks of four at least two each, and fewer than 2 N of all by a sequential counter
pigeons_seq N    N + 1 pigeons in N holes, at most one in each by a chain of auxiliary variables
pigeons N        the same by pairs
permutations N   a permutation of N, no two neighbours of which take certain pairs of places
bmc N            a counter from 0 to 10 and round, with an enabling input, is at 12 behind N steps
lfsr N           a shift register of 8 bits with feedback and an input, between two states in N steps
trees N          two colours on a random tree of N nodes, with an edge that closes an odd circle
rosters N        a month of N days, three shifts a day and four workers with their rests
boards N         dominoes on the board of N by N squares without two opposite corners
dominoes N       dominoes on the whole board
cliques N        a graph of N nodes has a clique of four and three colours
queens N         N queens on a board, none of which takes another
maps N           three colours on a grid of N by N nodes
random N         three literals a clause, 4.26 N clauses
grids N          odd parity in a grid of N by N nodes (Tseitin 1968)
charged N        even parity in it
ladders N        odd parity in a ladder of N rungs
regular N        odd parity in a random graph of N nodes, three edges at each
parity N         two chains of exclusive ors over N inputs (Chew, Heule 2020)
near N           the same where the second chain's order is near the first one's
systems N        1.05 N random parity equations over N variables, five in each, which are in conflict
chains N         each variable follows from the next one, and the last is true
gates N          N circuits of five inputs without a connection
"""
import itertools
import math
import random

UNSATISFIABLE, SATISFIABLE, EITHER = 20, 10, None


class Formula:
    """A formula in the making. A gate is a literal that its clauses define (Tseitin 1968)."""

    def __init__(self):
        self.variables, self.clauses = 0, []

    def new(self):
        self.variables += 1
        return self.variables

    def some(self, count):
        return [self.new() for _ in range(count)]

    def add(self, *literals):
        self.clauses.append(list(literals))

    def force(self, literals):
        for literal in literals:
            self.add(literal)

    def both(self, a, b):
        gate = self.new()
        self.add(-gate, a)
        self.add(-gate, b)
        self.add(gate, -a, -b)
        return gate

    def either(self, a, b):
        return -self.both(-a, -b)

    def parity(self, literals, bit):
        """The sum of the literals is the bit, modulo 2."""
        self.clauses += equation(literals, bit)

    def differ(self, a, b):
        gate = self.new()
        self.parity([a, b, gate], 0)
        return gate

    def most(self, a, b, c):
        """At least two of three."""
        gate = self.new()
        for x, y in ((a, b), (a, c), (b, c)):
            self.add(-x, -y, gate)
            self.add(x, y, -gate)
        return gate

    def sum(self, bits):
        """Two or three bits: their sum, and the carry."""
        if len(bits) == 2:
            return self.differ(*bits), self.both(*bits)
        return self.differ(self.differ(*bits[:2]), bits[2]), self.most(*bits)

    def unlike(self, some, others):
        """Two lists of literals differ at one place at least."""
        self.add(*(self.differ(a, b) for a, b in zip(some, others)))

    def not_two(self, literals):
        for a, b in itertools.combinations(literals, 2):
            self.add(-a, -b)

    def exactly_one(self, literals):
        self.add(*literals)
        self.not_two(literals)

    def not_two_in_turn(self, literals):
        """At most one, by a chain: has any so far been true?"""
        before = None
        for place, literal in enumerate(literals):
            if before:
                self.add(-before, -literal)
            if place + 1 < len(literals):
                so_far = self.new()
                self.add(-literal, so_far)
                if before:
                    self.add(-before, so_far)
                before = so_far

    def counted(self, literals, most):
        """For each number from 1 to `most`, whether so many of the literals are true (a sequential counter, Sinz 2005)."""
        counts = []
        for literal in literals:
            grown = []
            for number in range(min(most, len(counts) + 1)):
                one_less = counts[number - 1] if number else None
                more = literal if one_less is None else self.both(literal, one_less)
                grown.append(more if number == len(counts) else self.either(counts[number], more))
            counts = grown
        return counts


def equation(literals, bit):
    """The clauses that say that the sum of the literals is the bit, modulo 2."""
    wrong = (signs for signs in itertools.product((1, -1), repeat=len(literals)) if signs.count(-1) % 2 != bit)
    return [[sign * literal for sign, literal in zip(signs, literals)] for signs in wrong]


def adders(it, size):
    first, second = it.some(size), it.some(size)
    by_sum, carry = [], None
    for bits in zip(first, second):
        total, carry = it.sum([*bits, carry] if carry else bits)
        by_sum.append(total)
    by_sum.append(carry)
    passed_on, carry = [], None
    for a, b in zip(first, second):
        made, passed = it.both(b, a), it.either(b, a)
        half = it.both(passed, -made)
        passed_on.append(it.differ(half, carry) if carry else half)
        carry = it.either(made, it.both(passed, carry)) if carry else made
    passed_on.append(carry)
    it.unlike(by_sum, passed_on)


def comparators(it, size):
    first, second = it.some(size), it.some(size)
    low = None
    for a, b in zip(first, second):
        less = it.both(-a, b)
        low = it.either(less, it.both(-it.differ(a, b), low)) if low else less
    high = same = None
    for a, b in zip(reversed(first), reversed(second)):
        less = it.both(-a, b)
        high = it.either(high, it.both(same, less)) if same else less
        same = it.both(same, -it.differ(a, b)) if same else -it.differ(a, b)
    it.unlike([low], [high])


def product(it, first, second):
    """The bits of a product, by columns of cells that are added from the top."""
    columns = [[] for _ in range(len(first) + len(second))]
    for (i, a), (j, b) in itertools.product(enumerate(first), enumerate(second)):
        columns[i + j].append(it.both(a, b))
    for place, column in enumerate(columns):
        while len(column) > 1:
            total, carry = it.sum(column[:3])
            column[:] = [*column[3:], total]
            if place + 1 < len(columns):
                columns[place + 1].append(carry)
    return [column[0] for column in columns if column]


def multipliers(it, size):
    first, second = it.some(size), it.some(size)
    it.unlike(product(it, first, second), product(it, second, first))


def factoring(it, number):
    bits = number.bit_length()
    first, second = it.some(bits - 1), it.some(bits // 2 + 1)
    it.add(*first[1:])
    it.add(*second[1:])
    it.force(bit if number >> place & 1 else -bit for place, bit in enumerate(product(it, first, second)))


def parity_trees(it, size):
    inputs = it.some(size)
    chain = inputs[0]
    for literal in inputs[1:]:
        chain = it.differ(chain, literal)
    level = mixed(inputs, 8)
    while len(level) > 1:
        level = [it.differ(*level[i : i + 2]) if i + 1 < len(level) else level[i] for i in range(0, len(level), 2)]
    it.unlike([chain], level)


def meetings(size):
    """Begins and ends of meetings, of which five at most are at one time: each begins where a room is free."""
    free, found, draw = [0] * 5, [], random.Random(size)
    for _ in range(size):
        room = min(range(5), key=free.__getitem__)
        begin = free[room] + draw.randint(0, 1)
        free[room] = begin + draw.randint(1, 10)
        found.append((begin, free[room]))
    return found


def have_rooms(it, found, rooms, choice=lambda: ()):
    """Each meeting has a room; those that overlap have different ones. `choice` tells the rooms that a meeting may not have."""
    taken = [it.some(rooms) for _ in found]
    for row in taken:
        it.force(-row[room] for room in choice())
        it.exactly_one(row)
    going_on = []
    for one in sorted(range(len(found)), key=found.__getitem__):
        going_on = [other for other in going_on if found[one][0] < found[other][1]]
        for other in going_on:
            for a, b in zip(taken[other], taken[one]):
                it.add(-a, -b)
        going_on.append(one)


def intervals(it, size):
    have_rooms(it, meetings(size) + [(size // 2, size // 2 + 1)] * 5, 4)


def rooms(it, size):
    have_rooms(it, meetings(size), 5)


def lists(it, size):
    draw = random.Random(size)
    have_rooms(it, meetings(size), 6, lambda: draw.sample(range(6), 2))


def bands(it, length):
    squares = [[it.some(3) for _ in range(3)] for _ in range(length)]
    for row, column in itertools.product(range(length), range(3)):
        it.exactly_one(squares[row][column])
        for other in (row, column + 1), (row + 1, column), (row + 1, column + 1):
            if other[0] < length and other[1] < 3:
                for a, b in zip(squares[row][column], squares[other[0]][other[1]]):
                    it.add(-a, -b)
    # With the first two it is the colour (row + column) modulo 3 everywhere; the last one is another.
    it.force([squares[0][0][0], squares[0][1][1], squares[-1][0][length % 3]])


def counters(it, size):
    inputs, most = it.some(size), size // 2
    other = random.Random(size).sample(inputs, size)
    it.add(-it.counted(inputs, most + 1)[most])
    it.add(it.counted(other, most + 1)[most])


def cardinality(it, blocks):
    inputs = [it.some(4) for _ in range(blocks)]
    for block in inputs:
        for three in itertools.combinations(block, 3):
            it.add(*three)
    it.add(-it.counted(list(itertools.chain(*inputs)), 2 * blocks)[-1])


def holes(it, count, at_most_one):
    rows = [it.some(count) for _ in range(count + 1)]
    for row in rows:
        it.add(*row)
    for hole in zip(*rows):
        at_most_one(hole)


def permutations(it, size):
    rows = [it.some(size) for _ in range(size)]
    for line in [*rows, *zip(*rows)]:
        it.exactly_one(line)
    for place in range(size - 1):
        it.add(-rows[place][3 * place % size], -rows[place + 1][(5 * place + 1) % size])


def bmc(it, steps):
    state = it.some(4)
    it.force(-bit for bit in state)
    for _ in range(steps):
        carry, following = it.new(), []
        for bit in state:
            following.append(it.differ(bit, carry))
            carry = it.both(bit, carry)
        at_end = it.both(it.both(following[0], following[1]), it.both(-following[2], following[3]))
        state = [it.both(bit, -at_end) for bit in following]
    it.add(it.both(state[2], state[3]))


def lfsr(it, steps):
    state = it.some(8)
    it.force(state)
    for _ in range(steps):
        given, last = it.new(), state[-1]
        state = [it.differ(last, given), *(it.differ(bit, last) if place in (1, 4) else bit for place, bit in enumerate(state[:-1]))]
        it.add(-given, state[0], state[3])
        it.add(given, -state[2], state[5])
    it.force([state[0], -state[1]])


def trees(it, nodes):
    draw, colours, depth = random.Random(nodes), it.some(nodes), [0] * nodes
    edges = []
    for node in range(1, nodes):
        parent = draw.randint(max(0, node - 50), node - 1)
        depth[node] = depth[parent] + 1
        edges.append((node, parent))
    last = nodes - 1
    edges.append((last, next(node for node in range(nodes // 2, nodes) if node != last and (depth[node] - depth[last]) % 2 == 0)))
    for a, b in edges:
        it.parity([colours[a], colours[b]], 1)


def rosters(it, days):
    shifts = [[it.some(3) for _ in range(4)] for _ in range(days)]
    for day, workers in enumerate(shifts):
        for shift in zip(*workers):
            it.exactly_one(shift)
        for worker, (early, _, night) in enumerate(workers):
            it.not_two(workers[worker])
            if day + 1 < days:  # none works on the day behind a night, but at night
                it.add(-night, -shifts[day + 1][worker][0])
                it.add(-night, -shifts[day + 1][worker][1])
            if day + 2 < days:  # none is early on three days in turn
                it.add(*(-shifts[day + later][worker][0] for later in range(3)))


def covered(it, side, cut):
    """Each square of a board is covered by exactly one domino."""
    squares = [at for at in itertools.product(range(side), range(side)) if at not in cut]
    dominoes = {at: [] for at in squares}
    for row, column in squares:
        for other in (row, column + 1), (row + 1, column):
            if other in dominoes:
                domino = it.new()
                dominoes[row, column].append(domino)
                dominoes[other].append(domino)
    for at in squares:
        it.exactly_one(dominoes[at])


def cliques(it, nodes):
    members = [it.some(nodes) for _ in range(4)]
    edge = {pair: it.new() for pair in itertools.combinations(range(nodes), 2)}
    colours = [it.some(3) for _ in range(nodes)]
    for row in members:
        it.exactly_one(row)
    for one, other in itertools.combinations(members, 2):
        for node in range(nodes):
            it.add(-one[node], -other[node])
        for a, b in itertools.permutations(range(nodes), 2):
            it.add(-one[a], -other[b], edge[min(a, b), max(a, b)])
    for row in colours:
        it.add(*row)
    for (a, b), between in edge.items():
        for one, other in zip(colours[a], colours[b]):
            it.add(-between, -one, -other)


def queens(it, side):
    squares = {at: it.new() for at in itertools.product(range(side), range(side))}
    for row in range(side):
        it.add(*(squares[row, column] for column in range(side)))
    for ((row, column), one), ((down, right), other) in itertools.combinations(squares.items(), 2):
        if row == down or column == right or abs(row - down) == abs(column - right):
            it.add(-one, -other)


def maps(it, side):
    nodes = {at: it.some(3) for at in itertools.product(range(side), range(side))}
    for (row, column), colours in nodes.items():
        it.add(*colours)
        for other in (row, column + 1), (row + 1, column):
            for a, b in zip(colours, nodes.get(other, ())):
                it.add(-a, -b)


def short_clauses(variables, count):
    """Lines of clauses of three literals at random; a variable may come twice in one."""
    draw = random.Random(variables).random
    for _ in range(count):
        yield " ".join(str(int(draw() * variables + 1) * (1 if draw() < 0.5 else -1)) for _ in range(3)) + " 0\n"


def close_clauses(variables, count, width=10):
    """The same, but the variables stand within ten places of one another on a line, under names at random."""
    it = random.Random(variables)
    names, draw, step = it.sample(range(1, variables + 1), variables), it.random, (variables - width) / count
    for number in range(count):
        first = int(number * step)
        yield " ".join(str(names[first + int(draw() * width)] * (1 if draw() < 0.5 else -1)) for _ in range(3)) + " 0\n"


def three_literals(it, variables, seed=None):
    draw, inputs = random.Random(variables if seed is None else seed), it.some(variables)
    for _ in range(round(4.26 * variables)):
        it.add(*(draw.choice((1, -1)) * variable for variable in draw.sample(inputs, 3)))


def tseitin(it, nodes, edges, odd):
    """The edges are the variables, in turn; the sum at the nodes in `odd` is 1, and at the others 0."""
    at = {node: [] for node in nodes}
    for edge in edges:
        variable = it.new()
        for node in edge:
            at[node].append(variable)
    for node, variables in at.items():
        it.parity(variables, int(node in odd))


def grid(it, rows, columns, odd):
    nodes = list(itertools.product(range(rows), range(columns)))
    edges = [((row, column), other) for row, column in nodes for other in ((row, column + 1), (row + 1, column))
             if other[0] < rows and other[1] < columns]
    tseitin(it, nodes, edges, odd)


def charged(it, side):
    draw = random.Random(side)
    odd = {at for at in itertools.product(range(side), range(side)) if draw.random() < 0.5}
    grid(it, side, side, odd ^ {(0, 0)} if len(odd) % 2 else odd)


def regular(it, nodes):
    draw = random.Random(nodes)
    while True:
        ends = draw.sample([node for node in range(nodes) for _ in range(3)], 3 * nodes)
        edges = {tuple(sorted(pair)) for pair in zip(ends[::2], ends[1::2])}
        if len(edges) == 3 * nodes // 2 and all(a != b for a, b in edges):
            break
    tseitin(it, range(nodes), sorted(edges), {0})


def parity(it, size, order):
    inputs = it.some(size)
    for bit, row in enumerate((inputs, order(inputs))):
        held = row[0]
        for literal in row[1:-2]:
            following = it.new()
            it.parity([held, literal, following], 0)
            held = following
        it.parity([held, *row[-2:]], bit)


def mixed(inputs, window):
    """Another order of the inputs, each in the window where it stands."""
    draw = random.Random(len(inputs))
    rows = [inputs[at : at + window] for at in range(0, len(inputs), window)]
    return [literal for row in rows for literal in draw.sample(row, len(row))]


def are_in_conflict(equations):
    """By vectors over the bits, the equation's own bit as the lowest one."""
    rows = []
    for variables, bit in equations:
        vector = sum(1 << it for it in variables) + bit
        for row in rows:
            vector = min(vector, vector ^ row)
        if vector == 1:
            return True
        if vector:
            rows.append(vector)
    return False


def add_system(it, count, row=5, seed=0):
    """1.05 equations a variable, each over so many variables, drawn until they are in conflict."""
    draw, inputs = random.Random(f"{count} {seed}"), it.some(count)
    equations = []
    while not are_in_conflict(equations):
        equations = [(sorted(draw.sample(inputs, row)), draw.randint(0, 1)) for _ in range(round(1.05 * count))]
    for variables, bit in equations:
        it.parity(variables, bit)


def system(count, row, seed):
    it = Formula()
    add_system(it, count, row, seed)
    return it


def chains(it, size):
    inputs = it.some(size)
    for one, following in zip(inputs, inputs[1:]):
        it.add(one, -following)
    it.add(inputs[-1])


def gates(it, count):
    for _ in range(count):
        a, b, c, d, e = it.some(5)
        it.add(it.either(it.both(a, b), it.both(it.differ(c, d), e)))


def random_3sat(variables, seed):
    """The number of variables and the clauses of another formula of the family `random`."""
    it = Formula()
    three_literals(it, variables, seed)
    return it.variables, it.clauses


def two_clauses(literals):
    """They differ in the sign of their last literal."""
    front = list(range(1, literals))
    return literals, [[*front, literals], [*front, -literals]]


FAMILIES = {
    "adders": (adders, UNSATISFIABLE),
    "comparators": (comparators, UNSATISFIABLE),
    "multipliers": (multipliers, UNSATISFIABLE),
    "factoring": (factoring, EITHER),
    "parity_trees": (parity_trees, UNSATISFIABLE),
    "intervals": (intervals, UNSATISFIABLE),
    "rooms": (rooms, SATISFIABLE),
    "lists": (lists, EITHER),
    "bands": (bands, UNSATISFIABLE),
    "counters": (counters, UNSATISFIABLE),
    "cardinality": (cardinality, UNSATISFIABLE),
    "pigeons_seq": (lambda it, size: holes(it, size, it.not_two_in_turn), UNSATISFIABLE),
    "pigeons": (lambda it, size: holes(it, size, it.not_two), UNSATISFIABLE),
    "permutations": (permutations, EITHER),
    "bmc": (bmc, UNSATISFIABLE),
    "lfsr": (lfsr, EITHER),
    "trees": (trees, UNSATISFIABLE),
    "rosters": (rosters, EITHER),
    "boards": (lambda it, side: covered(it, side, {(0, 0), (side - 1, side - 1)}), UNSATISFIABLE),
    "dominoes": (lambda it, side: covered(it, side, ()), EITHER),
    "cliques": (cliques, UNSATISFIABLE),
    "queens": (queens, EITHER),
    "maps": (maps, SATISFIABLE),
    "random": (three_literals, EITHER),
    "grids": (lambda it, side: grid(it, side, side, {(0, 0)}), UNSATISFIABLE),
    "charged": (charged, SATISFIABLE),
    "ladders": (lambda it, rungs: grid(it, rungs, 2, {(0, 0)}), UNSATISFIABLE),
    "regular": (regular, UNSATISFIABLE),
    "parity": (lambda it, size: parity(it, size, lambda inputs: mixed(inputs, size)), UNSATISFIABLE),
    "near": (lambda it, size: parity(it, size, lambda inputs: mixed(inputs, 4)), UNSATISFIABLE),
    "systems": (add_system, UNSATISFIABLE),
    "chains": (chains, SATISFIABLE),
    "gates": (gates, SATISFIABLE),
}


def is_prime(number):
    return number > 1 and all(number % other for other in range(2, math.isqrt(number) + 1))


def answer_of(family, size):
    """The exit code that is known, None where both are possible."""
    if family == "factoring":
        return UNSATISFIABLE if is_prime(size) else SATISFIABLE
    return FAMILIES[family][1]


def made(family, size, seed=0):
    """The number of variables and the clauses; by a seed that isn't 0 the variables are renamed and the clauses stand in another order."""
    it = Formula()
    FAMILIES[family][0](it, size)
    if not seed:
        return it.variables, it.clauses
    draw = random.Random(seed)
    names, clauses = draw.sample(range(1, it.variables + 1), it.variables), draw.sample(it.clauses, len(it.clauses))
    return it.variables, [[names[abs(x) - 1] * (1 if x > 0 else -1) for x in clause] for clause in clauses]


def satisfies(answer, clauses):
    """Whether the values that a solver prints satisfy the clauses."""
    values = {int(word) for line in answer.splitlines() if line.startswith("v ") for word in line.split()[1:]}
    return all(any(literal in values for literal in clause) for clause in clauses)


def write(path, variables, clauses):
    with open(path, "w") as out:
        out.write(f"p cnf {variables} {len(clauses)}\n")
        out.writelines(" ".join(map(str, [*clause, 0])) + "\n" for clause in clauses)
