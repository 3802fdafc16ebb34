"""What the scripts fuzz_.. have in common: their words, the loop over the cases, what is drawn of any proof, and the lines at the end."""
import collections
import os
import random
import subprocess
import tempfile
import time

import calling


def words(page, *flags):
    """COUNT, or =NUMBER of the case that is shown, SEED, and flags."""
    call = calling.Calling(page)
    call.add_argument("count")
    call.add_argument("seed", type=int, nargs="?", default=1)
    for flag in flags:
        call.add_argument(flag, action="store_true")
    given = call.words()
    given.shows = given.count.startswith("=")
    return given


def main(page, of_case, *flags):
    """Tries the cases of a seed in a new folder, and returns the exit code. `of_case` takes the words and the case's own generator, and
    tells under which names the case counts, the lines that show it, the first of which goes on behind its number, and whether something
    of it is not as it must be."""
    given = words(page, *flags)
    numbers = [int(given.count[1:])] if given.shows else range(1, int(given.count) + 1)
    counts, differences, begun = collections.Counter(), 0, time.monotonic()
    with tempfile.TemporaryDirectory() as folder:
        os.chdir(folder)
        for number in numbers:
            names, lines, is_wrong = of_case(given, random.Random(f"{given.seed} {number}"))
            counts.update(names)
            differences += is_wrong
            if is_wrong or given.shows:
                print(f"# case {number} of seed {given.seed}{lines[0]}", *lines[1:], sep="\n")
        os.chdir("/")
    return ended(counts, len(numbers), given.seed, differences, begun)


def ended(counts, cases, seed, differences, begun):
    """Prints the lines at the end, and returns the exit code."""
    for name, times in sorted(counts.items()):
        print(f"{times:8}  {name}")
    print(f"{cases} cases, seed {seed}, {differences} differences, {time.monotonic() - begun:.0f} seconds")
    return 1 if differences else 0


class Drawn:
    """A formula over its first variables and the lines of a proof, with comments and blank lines at a chance."""

    def __init__(self, draw, chance):
        self.draw, self.chance, self.lines = draw, chance, []

    def put(self, line):
        """The number of the line, which isn't ended yet."""
        while self.draw.random() < self.chance:
            self.lines.append(self.draw.choice(["", "c 1 0", " c"]))
        self.lines.append(line)
        return len(self.lines)

    def texts(self):
        ends = self.draw.choice(["\n", "\n", "\n", "\r\n"])
        proof = ends.join(self.lines) + ends * (self.draw.random() < 0.9)
        lines = ["p cnf %d %d" % (self.of_formula, len(self.formula)), *(" ".join(map(str, it + [0])) for it in self.formula)]
        return "\n".join(lines) + "\n", proof


def drawn_clause(draw, variables, longest, chance):
    """Some literals, of which there may be none at a chance."""
    return [draw.choice((-1, 1)) * draw.randint(1, variables) for _ in range(draw.randint(0 if draw.random() < chance else 1, longest))]


def write(files):
    for name, text in files.items():
        with open(name, "w", newline="") as out:
            out.write(text)


def shown(files):
    return [f"file {name} {ascii(text)}" for name, text in files.items()]


def run(program, *words):
    it = subprocess.run([program, *words], capture_output=True, text=True, timeout=60)
    return it.returncode, it.stdout, it.stderr
