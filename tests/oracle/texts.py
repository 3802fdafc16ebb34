"""The texts of docs/FORMATS.md as the scripts beside it read and judge them, apart from the program: a formula, an order, a schedule,
cubes, a proof; the first refusal, with its line; and the text that tells values. It follows the tables of that page, and isn't made to be
fast.
lrat.py is another judge of LRAT, which shares nothing with this one.
"""
import itertools
import re

from terms import AND, EXISTS, PUSH

# a move of a line `e`, which becomes moves EXISTS
SET = "e"

MOST_VARIABLES, MOST_CLAUSES, MOST_LITERALS = 1_000_000, 10_000_000, 100_000_000
MOST_CUBES = 1_000_000
MOST_LITERAL, MOST_ID = 2_147_483_647, 999_999_999_999_999_999


class Refused(Exception):
    """What a text is refused for, and the line."""

    def __init__(self, kind, line):
        super().__init__(kind, line)
        self.kind, self.line = kind, line


class Fault(Exception):
    """Why an addition of a proof isn't good."""


def rows(text, comment):
    """The lines that have a token and are no comment, with their numbers."""
    tokens = ((number, re.findall(rb"[^ \t\r\n]+", line)) for number, line in enumerate(text.split(b"\n"), 1))
    return [(number, row) for number, row in tokens if row and not row[0].startswith(comment)]


def end_of(text):
    return text.count(b"\n") + 1


def plain(token):
    return int(token) if len(token) <= 64 and re.fullmatch(rb"[0-9]+", token) else None


def signed(token):
    if len(token) > 64 or not re.fullmatch(rb"-?[0-9]+", token):
        return None
    return None if token.startswith(b"-") and not int(token) else int(token)


def all_given(numbers):
    return None if None in numbers else numbers


def cnf(text, is_lax):
    """The number of variables and the clauses."""
    end = end_of(text)
    tokens = iter([(token, line) for line, row in rows(text, b"c") for token in row])
    token, line = next(tokens, (b"", end))
    if token != b"p":
        raise Refused("NoHeader", line)
    token, line = next(tokens, (b"", end))
    if token != b"cnf":
        raise Refused("BadHeader", line)
    sizes = []
    for most in MOST_VARIABLES, MOST_CLAUSES:
        token, line = next(tokens, (b"", end))
        sizes.append(plain(token))
        if sizes[-1] is None:
            raise Refused("BadHeader", line)
        if sizes[-1] > most:
            raise Refused("Limit", line)
    variables, announced = sizes
    clauses, clause, literals = [], [], 0
    for token, line in tokens:
        if token == b"%":
            break
        number = signed(token)
        if number is None:
            raise Refused("BadToken", line)
        if len(clauses) == (MOST_CLAUSES if is_lax else announced):
            raise Refused("Limit" if is_lax else "TooManyClauses", line)
        if abs(number) > variables:
            raise Refused("LiteralRange", line)
        if number:
            literals += 1
            if literals > MOST_LITERALS:
                raise Refused("Limit", line)
            clause.append(number)
        else:
            clauses.append(clause)
            clause = []
    else:
        line = end
    if is_lax:
        return variables, clauses + ([clause] if clause else [])
    if clause:
        raise Refused("NoEndingZero", line)
    if len(clauses) < announced:
        raise Refused("ClauseMissing", line)
    return variables, clauses


def order(text, variables):
    found, seen = [], set()
    for line, row in rows(text, b"#"):
        for token in row:
            number = plain(token)
            if number is None:
                raise Refused("BadNumber", line)
            if not 1 <= number <= variables:
                raise Refused("Range", line)
            if number in seen:
                raise Refused("Repeated", line)
            found.append(number)
            seen.add(number)
    if len(found) < variables:
        raise Refused("Missing", end_of(text))
    return found


def cubes(text, variables):
    found, cube, literals = [], [], 0
    for line, row in rows(text, b"#"):
        for token in row:
            number = signed(token)
            if number is None:
                raise Refused("BadToken", line)
            if len(found) == MOST_CUBES or number and literals == MOST_LITERALS:
                raise Refused("Limit", line)
            if abs(number) > variables:
                raise Refused("LiteralRange", line)
            if -number in cube:
                raise Refused("BothSigns", line)
            if number:
                literals += 1
                cube.append(number)
            else:
                found.append(cube)
                cube = []
    if cube:
        raise Refused("NoEndingZero", end_of(text))
    return found


def command(row):
    """The moves of a line, each with its number or its set of them, or None where it is no command."""
    word, numbers = row[0], all_given([plain(token) for token in row[1:]])
    if not numbers or word not in (b"c", b"a", b"q", b"e"):
        return None
    if word == b"e":
        return [(SET, set(numbers))]
    if word == b"a":
        return None if len(numbers) > 1 or numbers[0] < 2 else itertools.repeat((AND, None), min(numbers[0] - 1, MOST_CLAUSES))
    return [(PUSH if word == b"c" else EXISTS, number) for number in numbers]


def schedule(text, variables, clauses, order):
    """The moves, clauses by their place from 0 on; a set of variables one by one, from the last in the order to the first."""
    moves, stack, pushed = [], [], set()
    for line, row in rows(text, b"#"):
        taken = command(row)
        if taken is None:
            raise Refused("Syntax", line)
        for move, number in taken:
            if move == PUSH:
                if not 1 <= number <= len(clauses):
                    raise Refused("ClauseRange", line)
                if number in pushed:
                    raise Refused("ClauseTwice", line)
                pushed.add(number)
                stack.append({abs(it) for it in clauses[number - 1]})
                number -= 1
            elif move == AND:
                if len(stack) < 2:
                    raise Refused("StackShort", line)
                stack.append(stack.pop() | stack.pop())
            else:
                some = number if move == SET else {number}
                if not stack:
                    raise Refused("StackShort", line)
                if not all(1 <= it <= variables for it in some):
                    raise Refused("VariableRange", line)
                later = ({abs(it) for it in clause} for at, clause in enumerate(clauses, 1) if at not in pushed)
                if any(some & held for held in [*stack[:-1], *later]):
                    raise Refused("VariableInUse", line)
                stack[-1] = stack[-1] - some
                moves += [(EXISTS, it) for it in reversed(order or range(1, variables + 1)) if it in some]
                continue
            moves.append((move, number))
    if len(pushed) < len(clauses):
        raise Refused("ClauseUnused", end_of(text))
    if len(stack) > 1:
        raise Refused("TermsLeft", end_of(text))
    return moves


def step(row):
    """An addition as its number, literals, hints and groups; a deletion as its numbers; or None where the line is no step."""
    number = plain(row[0])
    if number is None or number > MOST_ID or len(row) < 2:
        return None
    if row[1] == b"d":
        numbers = all_given([plain(token) for token in row[2:]])
        if not numbers or numbers.count(0) != 1 or numbers[-1] or max(numbers) > MOST_ID:
            return None
        return numbers[:-1]
    numbers = all_given([signed(token) for token in row[1:]])
    if not number or not numbers or numbers.count(0) != 2 or numbers[-1]:
        return None
    cut = numbers.index(0)
    literals, hints = numbers[:cut], numbers[cut + 1 : -1]
    if any(abs(it) > MOST_LITERAL for it in literals) or any(abs(it) > MOST_ID for it in hints):
        return None
    starts = [at for at, hint in enumerate(hints) if hint < 0] + [len(hints)]
    groups = [(-hints[start], hints[start + 1 : end]) for start, end in zip(starts, starts[1:])]
    return number, literals, hints[: starts[0]], groups


class Judge:
    """The live clauses of a proof. It tells of a good addition which hints and groups it took, and raises why one isn't good."""

    def __init__(self, clauses):
        self.live, self.top = dict(enumerate(clauses, 1)), len(clauses)

    def chain(self, false, hints):
        """Adds to the false literals what the hints force. Whether they reach a conflict, and how many were taken."""
        for at, hint in enumerate(hints):
            if hint not in self.live:
                raise Fault("HintNotLive")
            rest = {literal for literal in self.live[hint] if literal not in false}
            if not rest:
                return True, at + 1
            if len(rest) > 1:
                raise Fault("HintNotUnit")
            false.add(-rest.pop())
        return False, len(hints)

    def cut(self, number, clause, hints, groups):
        if number <= self.top:
            raise Fault("IdNotGreater")
        false = set(clause)
        closed, taken = self.chain(false, hints)
        if closed:
            return hints[:taken], []
        if not clause:
            raise Fault("NoConflict")
        kept, pivot = [], clause[0]
        for candidate, own in groups:
            other = self.live.get(candidate, [])
            if -pivot not in other:
                raise Fault("GroupStray")
            if is_blocked(false, pivot, other):
                kept.append((candidate, []))
                continue
            closed, taken = self.chain(false | {it for it in other if it != -pivot}, own)
            if not closed:
                raise Fault("CandidateOpen")
            kept.append((candidate, own[:taken]))
        named = {candidate for candidate, _ in groups}
        for candidate, other in self.live.items():
            if -pivot in other and candidate not in named and not is_blocked(false, pivot, other):
                raise Fault("CandidateOpen")
        return hints, kept

    def add(self, number, clause, hints, groups):
        cut = self.cut(number, clause, hints, groups)
        self.live[number], self.top = clause, number
        return cut

    def delete(self, numbers):
        """Those of the numbers that were live."""
        return [number for number in numbers if self.live.pop(number, None) is not None]


def is_blocked(false, pivot, clause):
    return any(-it in false for it in clause if it != -pivot)


def verdict(text, clauses):
    """None where the proof is verified; else the line and the reason of its refusal."""
    judge, has_empty = Judge(clauses), False
    for line, row in rows(text, b"c"):
        taken = step(row)
        if taken is None:
            return line, "Syntax"
        if isinstance(taken, list):
            judge.delete(taken)
            continue
        try:
            judge.add(*taken)
        except Fault as why:
            return line, str(why)
        has_empty = has_empty or not taken[1]
    return None if has_empty else (end_of(text), "NoEmptyClause")


def satisfiable(values):
    """The answer with these values: lines of at most 78 bytes, each as full as it can be."""
    lines, line = ["s SATISFIABLE"], "v"
    for value in [*values, 0]:
        word = str(value)
        if len(line) + 1 + len(word) > 78:
            lines.append(line)
            line = "v"
        line += " " + word
    return "\n".join([*lines, line, ""]).encode()
