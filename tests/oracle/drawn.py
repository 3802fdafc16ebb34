"""Good texts of each format, drawn from a seed, and what becomes of one by hostile changes of bytes, tokens and lines: cuts, what stands
twice or not at all, numbers that are huge, signed or begin with zeros, blanks and comments in odd places, bytes that are no text, tokens
of 64 and of 65 bytes.
"""
import conversions
import texts

NUMBERS = b"""0 00 -0 1 -1 2 -2 3 -3 4 5 +5 -00 007 -007 1000000 1000001 10000000 10000001 -1000001
2147483647 2147483648 -2147483647 -2147483648 4294967295 4294967296 4294967297 -4294967297
999999999999999999 1000000000000000000 -999999999999999999 -1000000000000000000
9223372036854775807 9223372036854775808 18446744073709551615 18446744073709551616 18446744073709551617 -18446744073709551617
340282366920938463463374607431768211457""".split()
LONG = [digit * length for digit in (b"0", b"9") for length in (63, 64, 65, 1000)]
LONG += [sign + b"0" * (length - 1 - len(sign)) + b"1" for sign in (b"", b"-") for length in (63, 64, 65, 66)]
WORDS = b"% %% c p cnf d a q # x - -- + 1.0 1e3 0x1 1c c1 P CNF D cnf1 dd \x00 1\x00 \x001 \xff".split(b" ")
WORDS += b"\xc2\xa0 1\xc2\xa0 \xe2\x88\x921 \xd9\xa1 \xef\xbb\xbf \xef\xbb\xbfp".split(b" ")
ODD = [bytes([it]) for it in b"\x00\xff\x0b\x0c\x1a\x1c\x85\xa0\x7f\r\t\n %c#-+09aqd"]


# Good texts.


def formula(draw):
    variables = draw.choice([0, 1, 2, 2, 3, 3, 3, 4, 4, 5, 6])
    count = draw.randint(0, draw.choice([1, 2, 3, 4]) * variables + 1)
    clauses = []
    for _ in range(count):
        length = 0 if draw.random() < 0.02 else draw.choice([1, 1, 2, 2, 2, 3, 3, 4])
        clauses.append([draw.choice([-1, 1]) * draw.randint(1, variables) for _ in range(length)] if variables else [])
    return variables, clauses


def line_of(*words):
    return " ".join(map(str, words)).encode()


def cnf_text(draw, variables, clauses, is_lax):
    announced = draw.choice([len(clauses), 0, 1, 5]) if is_lax else len(clauses)
    lines = [line_of("p", "cnf", variables, announced), *(line_of(*clause, 0) for clause in clauses)]
    if is_lax and clauses and clauses[-1] and draw.random() < 0.4:
        lines[-1] = line_of(*clauses[-1])
    if draw.random() < 0.2:
        lines += [b"%", b"0"]
    if draw.random() < 0.2:
        lines.insert(draw.randint(0, len(lines)), b"c 1 0")
    ends = b"\r\n" if draw.random() < 0.1 else b"\n"
    joined = draw.random() < 0.1
    return (b" " if joined else ends).join(lines) + ends if not joined or b"c 1 0" not in lines else b"\n".join(lines)


def order_text(draw, variables):
    order = draw.sample(range(1, variables + 1), variables)
    return b"".join(str(it).encode() + draw.choice([b" ", b" ", b"\n"]) for it in order)


def schedule_text(draw, variables, clauses):
    """An admissible plan, drawn move by move, and some lines of it joined."""
    stack, moves, left = [], [], draw.sample(range(len(clauses)), len(clauses))
    held = [{abs(it) for it in clause} for clause in clauses]
    while left or len(stack) > 1 or draw.random() < 0.4:
        free = []
        if stack:
            others = set().union(*stack[:-1], *(held[it] for it in left))
            free = [it for it in range(1, variables + 1) if it not in others and (it in stack[-1] or draw.random() < 0.1)]
        if free and draw.random() < 0.5:
            moves.append((draw.choice([b"q", b"e"]), draw.choice(free)))
            stack[-1] = stack[-1] - {moves[-1][1]}
        elif len(stack) > 1 and (not left or draw.random() < 0.5):
            terms = draw.randint(2, len(stack))
            moves.append((b"a", terms))
            stack[-terms:] = [set().union(*stack[-terms:])]
        elif left:
            moves.append((b"c", left[-1] + 1))
            stack.append(held[left.pop()])
        elif not stack or not free:
            break
    lines = []
    for word, number in moves:
        if lines and word != b"a" and lines[-1].startswith(word) and draw.random() < 0.6:
            lines[-1] += b" %d" % number
        else:
            lines.append(b"%s %d" % (word, number))
    return b"".join(line + b"\n" for line in lines)


def forced(draw, live, false):
    """Hints that reach a conflict, or as many as there are that force something; and whether they do."""
    hints, moved = [], True
    while moved:
        moved = False
        for number in draw.sample(sorted(live), len(live)):
            rest = set(live[number]) - false
            if not rest:
                return [*hints, number], True
            if len(rest) == 1 and -min(rest) not in false:
                false.add(-rest.pop())
                hints.append(number)
                moved = True
    return hints, False


def drawn_clause(draw, live, variables):
    """What a proof may add: a clause of some literals, a resolvent, the negation of a new variable, nothing."""
    kind, top = draw.random(), max(variables, 1) + 2
    if kind < 0.4 and live:
        one, other = (set(live[draw.choice(sorted(live))]) for _ in range(2))
        both = sorted(it for it in one if -it in other)
        if both:
            pivot = draw.choice(both)
            return draw.sample(found := sorted((one | other) - {pivot, -pivot}), len(found))
    if kind < 0.6:
        return [draw.choice([-1, 1]) * (top + 1), *(draw.choice([-1, 1]) * draw.randint(1, top) for _ in range(draw.randint(0, 2)))]
    if kind < 0.7:
        return []
    return [draw.choice([-1, 1]) * draw.randint(1, top) for _ in range(draw.randint(1, 3))]


def drawn_proof(draw, variables, clauses):
    """Some steps, most of them good: each clause is justified where hints can be found for it, and left out where not."""
    live, top, lines = dict(enumerate(clauses, 1)), len(clauses), []
    for _ in range(draw.randint(1, 12)):
        if live and draw.random() < 0.12:
            gone = draw.sample(sorted(live), draw.randint(1, min(2, len(live))))
            lines.append(line_of(draw.choice([top, top, 0, 1]), "d", *gone, 0))
            for number in gone:
                del live[number]
            continue
        clause = drawn_clause(draw, live, variables)
        false = set(clause)
        hints, is_good = forced(draw, live, false)
        words = list(hints)
        if is_good and draw.random() < 0.1:
            words.append(draw.randint(1, top + 3))
        elif not is_good and clause:
            is_good = True
            candidates = [it for it in live if -clause[0] in live[it]]
            for candidate in draw.sample(candidates, len(candidates)):
                others = set(live[candidate]) - {-clause[0]}
                if any(-it in false for it in others):
                    words += draw.choice([[], [-candidate], [-candidate, top + 7]])
                else:
                    own, closes = forced(draw, live, false | others)
                    words += [-candidate, *own]
                    is_good = is_good and closes
        if is_good or draw.random() < 0.1:
            top += draw.choice([1, 1, 1, 2, 50])
            lines.append(line_of(top, *clause, 0, *words, 0))
            live[top] = clause
    if draw.random() < 0.1:
        lines.insert(draw.randint(0, len(lines)), b"c 9 0 0")
    return b"".join(line + b"\n" for line in lines)


def cubes_text(draw, variables):
    words = []
    for _ in range(draw.randint(0, 6)):
        used = draw.sample(range(1, variables + 1), draw.randint(0, min(variables, 4)))
        cube = [draw.choice([-1, 1]) * it for it in used]
        words += [*cube, *draw.sample(cube, len(cube) if draw.random() < 0.1 else 0), 0]
    return b"".join(str(it).encode() + draw.choice([b" ", b" ", b"\n"]) for it in words)


def drat_text(draw, variables, clauses):
    """A drawn LRAT proof in DRAT; some of its deletions name their literals in another order."""
    steps = conversions.good_steps(drawn_proof(draw, variables, clauses), clauses)
    lines = [line.split() for line in conversions.drat_of(variables, clauses, steps).splitlines()]
    for line in lines:
        if line[0] == b"d" and draw.random() < 0.3:
            line[1:-1] = draw.sample(line[1:-1], len(line) - 2)
    return b"".join(b" ".join(line) + b"\n" for line in lines)


# Changes.


def token(draw):
    return draw.choice(draw.choice([NUMBERS, NUMBERS, NUMBERS[:14], LONG, WORDS]))


def by_bytes(draw, text):
    kind, at, to = draw.randrange(6), *sorted(draw.randint(0, len(text)) for _ in range(2))
    if kind == 0:
        return text[:at]
    if kind == 1:
        return text[:at] + text[at + 1 :]
    if kind == 2:
        return text[:at] + draw.choice(ODD) + text[at:]
    if kind == 3:
        return text[:at] + draw.choice(ODD) + text[at + 1 :]
    if kind == 4:
        return text[:to] + text[at:to] + text[to:]
    return text[:at] + bytes([draw.randrange(256)]) + text[at + 1 :]


def by_tokens(draw, text):
    """The parts of a text are in turn blanks and tokens, whatever the blanks are."""
    parts = text.replace(b"\n", b" \n ").split(b" ")
    places = [at for at, part in enumerate(parts) if part.strip()]
    if not places:
        return token(draw) + text
    kind, at = draw.randrange(9), draw.choice(places)
    if kind == 0:
        parts[at] = b""
    elif kind == 1:
        parts[at] += b" " + parts[at]
    elif kind in (2, 3):
        parts[at] = token(draw)
    elif kind == 4:
        parts[at] += b" " + token(draw)
    elif kind == 5:
        other = draw.choice(places)
        parts[at], parts[other] = parts[other], parts[at]
    elif kind == 6:
        old = parts[at]
        parts[at] = draw.choice([b"-" + old, b"+" + old, old.lstrip(b"-"), old + b"0", old + draw.choice(ODD)])
    elif kind == 7:
        length = draw.choice([2, 8, 63, 64, 65, 66])
        digits = parts[at].lstrip(b"-")
        parts[at] = parts[at][: len(parts[at]) - len(digits)] + digits.rjust(length - len(parts[at]) + len(digits), b"0")
    else:
        parts[at] = b"%d" % (texts.signed(parts[at]) + draw.choice([-1, 1])) if texts.signed(parts[at]) else token(draw)
    return b" ".join(parts).replace(b" \n ", b"\n")


def by_lines(draw, text, comment):
    lines = text.split(b"\n")
    kind, at = draw.randrange(10), draw.randrange(len(lines))
    if kind == 0:
        del lines[at]
    elif kind == 1:
        lines.insert(at, lines[at])
    elif kind == 2:
        other = draw.randrange(len(lines))
        lines[at], lines[other] = lines[other], lines[at]
    elif kind == 3:
        lines.insert(at, draw.choice([b"", b" ", b"\t\r", comment, comment + b" 1 0", b" \t" + comment + b"x", b"%", b"1 0", b"0"]))
    elif kind == 4:
        lines[at] = draw.choice([comment, b" " + comment, b"\t"]) + lines[at]
    elif kind == 5:
        lines[at] += draw.choice([b" " + comment, b" " + comment + b" 1", b"\r", b" \t", b"\x00"])
    elif kind == 6:
        return b"\r\n".join(lines)
    elif kind == 7:
        return draw.choice([b"\r", b" ", b"\t", b"\n\n"]).join(lines)
    elif kind == 8:
        lines[at : at + 2] = [b" ".join(lines[at : at + 2])]
    else:
        return text.rstrip(b"\n") if draw.random() < 0.8 else b""
    return b"\n".join(lines)


def by_numbers(draw, text):
    """So that it stays a text of numbers and its words and zeros, of which some are others, stand elsewhere, twice or not at all."""
    lines = [line.split(b" ") for line in text.split(b"\n")]
    places = [(line, at) for line in lines for at, word in enumerate(line) if texts.signed(word)]
    if not places or draw.random() < 0.25:
        at, other = (draw.randrange(len(lines)) for _ in range(2))
        lines[at:at] = draw.choice([[], [lines[other]]])
        del lines[draw.choice([at, other])]
        return b"\n".join(b" ".join(it) for it in lines)
    (line, at), (other, there) = draw.choice(places), draw.choice(places)
    kind, sign = draw.randrange(6), b"-" if line[at].startswith(b"-") else b""
    if kind < 2:
        line[at] = sign + b"%d" % draw.randint(0 if kind else 1, 12)
    elif kind == 2:
        line[at], other[there] = other[there], line[at]
    elif kind == 3:
        line.insert(at, other[there])
    elif kind == 4:
        line[at] = other[there]
    else:
        del line[at]
    return b"\n".join(b" ".join(it) for it in lines)


def hostile(draw, text, comment):
    is_mild = draw.random() < 0.4
    for _ in range(draw.choice([0, 1, 1, 1, 1, 2, 2, 3, 6])):
        kind = draw.random()
        if is_mild:
            text = by_numbers(draw, text)
        else:
            text = by_bytes(draw, text) if kind < 0.25 else by_tokens(draw, text) if kind < 0.65 else by_lines(draw, text, comment)
    return text
