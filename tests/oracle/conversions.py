"""What becomes of a proof, by docs/FORMATS.md and apart from the program: what `trim` leaves of an LRAT proof, what `drat` and `lrat`
write, and how `check --format drat` judges. It isn't made to be fast."""
from texts import Judge, MOST_LITERAL, all_given, end_of, rows, signed, step, verdict


def addition_line(number, clause, hints, groups):
    words = [number, *clause, 0, *hints]
    for candidate, own in groups:
        words += [-candidate, *own]
    return " ".join(map(str, words + [0]))


def deletion_line(number, numbers):
    return " ".join(map(str, [number, "d", *numbers, 0]))


def line_of(step):
    return deletion_line(*step[1:]) if step[0] == "d" else addition_line(*step[1:])


# An LRAT proof.


def good_steps(text, clauses):
    """The steps before the first bad line: ("a", number, clause, hints, groups) or ("d", number, numbers)."""
    bad, found = verdict(text, clauses), []
    for line, row in rows(text, b"c"):
        if bad and bad[1] != "NoEmptyClause" and line >= bad[0]:
            break
        taken = step(row)
        found.append(("d", int(row[0]), taken) if isinstance(taken, list) else ("a", *taken))
    return found


def names(hints, groups):
    return {*hints, *(it for candidate, own in groups for it in (candidate, *own))}


def trimmed(clauses, steps):
    """What is left of good steps, one of which adds the empty clause: the lines, and what each addition names."""
    judge, cut = Judge(clauses), []
    for step in steps:
        if step[0] == "d":
            cut.append(("d", step[1], judge.delete(step[2])))
            continue
        number, clause, hints, groups = step[1:]
        cut.append(("a", number, clause, *judge.add(number, clause, hints, groups)))
        if not clause:
            break
    needed, left = set(), []
    for step in reversed(cut):
        if step[0] == "a":
            if step[2] and step[1] not in needed:
                continue
            needed |= names(step[3], step[4])
        left.append(step)
    there = lambda number: number <= len(clauses) or number in needed
    steps = []
    for step in reversed(left):
        if step[0] == "d":
            step = "d", step[1], [it for it in step[2] if there(it)]
            if not step[2]:
                continue
        steps.append(step)
    return steps


def core_of(clauses, steps):
    """The numbers of the formula's clauses that the additions name."""
    named = {number for step in steps if step[0] == "a" for number in names(step[3], step[4])}
    return [number for number in range(1, len(clauses) + 1) if number in named]


def drat_of(variables, clauses, steps, is_fresh=False):
    """The text that `drat` writes for good steps."""
    live, name, top, lines = dict(enumerate(clauses, 1)), {}, variables, []
    for step in steps:
        if step[0] == "d":
            lines += [["d", *live.pop(number)] for number in step[2] if number in live]
            continue
        clause = step[2]
        if is_fresh:
            # (names that stand are above the formula's variables, and a variable's own name is looked up by what it was given last)
            standing = {abs(it) for it in sum(live.values(), [])}
            given = set()
            for it in map(abs, clause):
                if it > variables and it not in given and name.get(it) not in standing:
                    top += 1
                    name[it] = top
                given.add(it)
            clause = [it if abs(it) <= variables else name[abs(it)] * (1 if it > 0 else -1) for it in clause]
        live[step[1]] = clause
        lines.append(clause)
    return "".join(" ".join(map(str, [*line, 0])) + "\n" for line in lines).encode()


# A DRAT proof.


def drat_step(row):
    """Whether the line deletes, and its literals; None where it is no step."""
    deletes = row[0] == b"d"
    numbers = all_given([signed(token) for token in row[deletes:]])
    if not numbers or numbers.count(0) != 1 or numbers[-1] or any(abs(it) > MOST_LITERAL for it in numbers):
        return None
    return deletes, numbers[:-1]


def reaches_conflict(clauses, false):
    """Whether unit propagation does, where these literals are false."""
    false, moved = set(false), True
    while moved:
        if any(-it in false for it in false):
            return True
        moved = False
        for clause in clauses:
            rest = {it for it in clause if it not in false}
            if not rest:
                return True
            if len(rest) == 1 and -min(rest) not in false:
                false.add(-min(rest))
                moved = True
    return False


def drat_fault(clauses, clause):
    """Why the addition of this clause isn't good; None where it is."""
    if reaches_conflict(clauses, clause):
        return None
    if not clause:
        return "NoConflict"
    others = [[it for it in other if it != -clause[0]] for other in clauses if -clause[0] in other]
    return None if all(reaches_conflict(clauses, clause + other) for other in others) else "CandidateOpen"


def is_tautology(clause):
    return any(-it in clause for it in clause)


def drat_run(text, clauses, any_order=False):
    """The verdict, as `texts.verdict` tells it, and what LRAT lines the good steps become: ("a", number, clause) or ("d", numbers)."""
    standing, top, has_empty = dict(enumerate(clauses, 1)), len(clauses), False
    gone = [number for number, clause in standing.items() if is_tautology(clause)]
    lines = [("d", gone)] if gone else []
    for line, row in rows(text, b"c"):
        taken = drat_step(row)
        if taken is None:
            return (line, "Syntax"), lines
        deletes, clause = taken
        if deletes:
            same = (lambda it: set(it) == set(clause)) if any_order else (lambda it: it == clause)
            number = next((number for number, it in standing.items() if same(it)), None)
            if number and not is_tautology(standing.pop(number)):
                lines.append(("d", [number]))
            continue
        why = drat_fault(list(standing.values()), clause)
        if why:
            return (line, why), lines
        top += 1
        standing[top] = clause
        has_empty = has_empty or not clause
        lines += [] if is_tautology(clause) else [("a", top, clause)]
    return (None if has_empty else (end_of(text), "NoEmptyClause")), lines
