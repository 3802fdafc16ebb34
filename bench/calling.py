"""The one calling style of the scripts in bench/ and tests/oracle/: SCRIPT [--program FILE] [--OPTION [VALUE]].. [WORD]..

Without --program they run the one that `./bddsat` of this clone runs. --help shows a script's head.
"""
import argparse
import os
import subprocess

ROOT = os.path.dirname(os.path.dirname(os.path.abspath(__file__)))


class Calling(argparse.ArgumentParser):
    """The options and words of a script with this head, which names them all."""

    def __init__(self, page):
        super().__init__(usage=page, add_help=True)
        self.add_argument("--program", type=os.path.abspath)

    def format_help(self):
        return self.usage

    def format_usage(self):
        return self.usage

    def words(self, given=None):
        found = super().parse_args(given)
        if not (found.program or getattr(found, "write", None) or getattr(found, "alone", None)):
            told = subprocess.run([os.path.join(ROOT, "build"), "--program"], stdout=subprocess.PIPE, text=True, check=True)
            found.program = told.stdout.rstrip("\n")
        return found


def count_and_seed(page, count):
    """The words of a script [COUNT [SEED]], where COUNT is this one and SEED 1 by default."""
    call = Calling(page)
    call.add_argument("count", type=int, nargs="?", default=count)
    call.add_argument("seed", type=int, nargs="?", default=1)
    return call.words()


def rows_of(words, families, *kinds):
    """FAMILY SIZE .. as rows, each word by its kind; None where they aren't such."""
    width = 1 + len(kinds)
    if len(words) % width or not set(words[::width]) <= set(families):
        return None
    return [(words[at], *(kind(word) for kind, word in zip(kinds, words[at + 1 :]))) for at in range(0, len(words), width)]
