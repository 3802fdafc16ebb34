"""The commands of the program with each of their options, over small files, for the scripts that call them under faults; how one is run
with a library before the system's calls (faults.c), and what it leaves."""
import collections
import fcntl
import os
import signal
import subprocess
import tempfile

import formulas

FILES = {
    "chain.cnf": "p cnf 3 3\n1 -2 0\n2 -3 0\n3 0\n",
    "clause.cnf": "p cnf 2 1\n1 2 0\n",
    "clause.lrat": "2 3 -2 0 0\n3 -3 2 0 -2 0\n4 4 -1 0 0\n5 4 1 -3 0 0\n6 -4 1 3 0 -4 -5 0\n7 4 0 4 5 2 1 0\n",
    "both.cnf": "p cnf 1 2\n1 0\n-1 0\n",
    "both.lrat": "3 2 1 0 1 0\n3 d 3 0\n4 2 -1 0 0\n5 -2 1 0 -4 0\n6 2 0 1 4 0\n7 0 1 2 0\n",
    "bad.lrat": "3 2 -1 0 0\n4 0 1 0\n",
    "lax.cnf": "p cnf 1 7\n1 0\n-1\n",
    "empty.cnf": "p cnf 0 1\n0\n",
    "none.cnf": "p cnf 40 0\n",
    "order": "3 2 1\n",
    "other": "2 3 1\n",
    "schedule": "c 1\nq 1\nc 2\na 2\nq 2\nc 3\na 2\nq 3\n",
    "sets": "c 1 2 3\na 3\ne 2 1\n",
    "bad.cnf": "p cnf 1 1\n2 0\n",
    "bad.order": "1 2 2\n",
    "bad.schedule": "c 1\nq 2\n",
    "sums.cnf": "p cnf 3 6\n1 2 0\n-1 -2 0\n2 3 0\n-2 -3 0\n1 -3 0\n-1 3 0\n",
    "conflict.cnf": "p cnf 2 4\n1 2 0\n-1 -2 0\n1 -2 0\n-1 2 0\n",
    "conflict.drat": "1 3 0\n-3 1 0\nd 2 1 0\nd 3 1 0\n1 0\n0\n",
    "bad.drat": "3 1 0\n-3 1 0\n4 0\n2 -3 0\n",
    "cubes": "1 -2 0\n-3 0\n1 2 3 0\n",
    "bad.cubes": "1 0 -1 1 0\n",
}

COMMANDS = [line.split() for line in """
solve chain.cnf --proof out
solve chain.cnf --proof out --plan conjoin --cache 1
solve chain.cnf --order order --proof out --schedule schedule
solve chain.cnf --proof out --schedule sets
solve chain.cnf --proof out --max-nodes 4
solve chain.cnf --proof out --max-ids 12
solve chain.cnf --proof out --order order --buckets other --progress
solve chain.cnf --proof out --search --progress
solve both.cnf --proof out
solve both.cnf --proof out --search
solve lax.cnf --lax --proof out --plan bucket
solve empty.cnf --proof out --progress
solve none.cnf --proof out
solve bad.cnf --proof out
solve chain.cnf --proof out --order bad.order
solve chain.cnf --proof out --buckets bad.order
solve chain.cnf --proof out --schedule bad.schedule
solve sums.cnf --proof out --parity --progress
solve sums.cnf --proof out --parity --search
solve conflict.cnf --proof out --parity
check clause.cnf clause.lrat
check both.cnf both.lrat --progress
check lax.cnf both.lrat --lax
check both.cnf bad.lrat --progress
check sums.cnf both.lrat
check conflict.cnf conflict.drat --format drat
check conflict.cnf conflict.drat --format drat --any-order --progress
check clause.cnf bad.drat --format drat
ask chain.cnf --cubes cubes --proof out
ask chain.cnf --cubes cubes --proof out --order order --cache 1
ask both.cnf --cubes cubes --proof out --progress
ask lax.cnf --cubes bad.cubes --proof out --lax
ask chain.cnf --cubes cubes --proof out --max-nodes 2
ask chain.cnf --cubes cubes --proof out --max-ids 20
lrat conflict.cnf conflict.drat --out out
lrat conflict.cnf conflict.drat --any-order --out out --progress
lrat clause.cnf bad.drat --out out
lrat sums.cnf conflict.drat --out out
lrat lax.cnf conflict.drat --lax --out out
drat both.cnf both.lrat --out out
drat clause.cnf clause.lrat --out out --fresh --progress
drat both.cnf bad.lrat --out out
drat lax.cnf both.lrat --lax --out out --fresh
trim both.cnf both.lrat --out out
trim both.cnf both.lrat --core core --out out --progress
trim lax.cnf both.lrat --lax --out out
trim both.cnf bad.lrat --out out --core core
order chain.cnf --by degree --out out
order sums.cnf --by cardinality --out out
order sums.cnf --by levels --out out --progress
order lax.cnf --by profile --out out --lax
order bad.cnf --by profile --out out
bench board 3 --proof out
bench board 2 --proof out --progress
bench board 3 --proof out --max-nodes 7 --cache 1
bench board 3 --proof out --max-ids 60
make board 3 --part cnf --out out
make board 3 --part order --out out
make board 3 --part schedule --out out
make board 3 --part sets --out out
--help
solve --help
--version
solve
solve chain.cnf --proof chain.cnf
""".strip().splitlines()]

# Those that grow further, over files that `prepare` makes.
LARGER = [line.split() for line in """
solve few.cnf --proof out --search
ask dominoes.cnf --cubes cubes --proof out --cache 3
solve dominoes.cnf --proof out --search
check pigeons.cnf pigeons.lrat
trim pigeons.cnf pigeons.lrat --out out --core core
drat pigeons.cnf pigeons.lrat --out out --fresh
check few.cnf few.drat --format drat
lrat few.cnf few.drat --any-order --out out
""".strip().splitlines()]

# Descriptors of a run: a pipe that gives a text, one that nobody reads, and that at which faults.c tells the calls.
PIPE, UNREAD, TOLD = 90, 91, 99

ERRORS = {3: b"error: read failed\n", 4: b"error: write failed\n", 5: b"error: out of memory\n"}

Left = collections.namedtuple("Left", "code out err files")  # `files`: what the run created or changed, by name; None of one that is gone


def library(folder):
    """faults.c, compiled."""
    made = os.path.join(folder, "faults.so")
    subprocess.run(["cc", "-shared", "-fPIC", "-O1", "-w", os.path.join(os.path.dirname(__file__), "faults.c"), "-o", made], check=True)
    return made


class Runner:
    """Runs the program in a folder that has the files, and tells what it leaves, and which calls it made."""

    def __init__(self, program, folder):
        self.program, self.library = program, library(folder)
        self.room = os.path.join(folder, "room")
        os.mkdir(self.room)
        os.chdir(self.room)

    def run(self, words, files=FILES, more=None, **how):
        """What is left and the calls. `more` makes further files; `how` is for `call`."""
        clear()
        for name, text in files.items():
            if name in words:
                with open(name, "w") as it:
                    it.write(text)
        if more:
            more()
        before = contents()
        code, out, err, calls = self.call(words, **how)
        after = contents()
        changed = {name: after.get(name) for name in {*before, *after} if before.get(name) != after.get(name)}
        return Left(code, out, err, changed), calls

    def call(self, words, streams=(), pipe="", **faults):
        """The exit code, both outputs, and the calls, each as what, a name and the bytes that it moved. `streams` are file actions behind
        those of the standard streams, `pipe` is what PIPE gives; for the faults see faults.c."""
        pipes = [os.pipe() for _ in range(3)]
        fcntl.fcntl(pipes[2][1], fcntl.F_SETPIPE_SZ, 1 << 20)  # for all calls of a run, which are read last
        (given, giving), (unread, nobody) = os.pipe(), os.pipe()
        os.write(giving, pipe.encode())
        os.close(giving)
        os.close(unread)
        writers = [writer for _, writer in pipes]
        ends = {given: PIPE, nobody: UNREAD, **dict(zip(writers, (1, 2, TOLD)))}
        actions = [(os.POSIX_SPAWN_OPEN, 0, "/dev/null", os.O_RDONLY, 0), *((os.POSIX_SPAWN_DUP2, it, to) for it, to in ends.items())]
        environment = {"LD_PRELOAD": self.library, **{name.upper(): str(value) for name, value in faults.items()}}
        pid = os.posix_spawn(self.program, [self.program, *words], environment, file_actions=[*actions, *streams])
        signal.signal(signal.SIGALRM, lambda *_: os.kill(pid, signal.SIGKILL))
        signal.alarm(60)
        for it in (given, nobody, *writers):
            os.close(it)
        out, err, told = (read(reader) for reader, _ in pipes)
        code = os.waitstatus_to_exitcode(os.waitpid(pid, 0)[1])
        signal.alarm(0)
        calls = (line.split("\t") for line in told.decode().splitlines())
        return code, out, err, [(call, name, int(count)) for call, name, count in calls]


def prepare(runner):
    """Makes the files of LARGER, and the formulas of the boards, as "board N"."""
    for name, family, size in ("pigeons", "pigeons", 5), ("few", "pigeons", 3), ("dominoes", "dominoes", 4):
        formulas.write(f"{name}.cnf", *formulas.made(family, size))
        FILES[f"{name}.cnf"] = read(f"{name}.cnf").decode()
    made = lambda *words: runner.run(words)[0].files["out"].decode()
    for name in "pigeons", "few":
        FILES[f"{name}.lrat"] = made("solve", f"{name}.cnf", "--proof", "out")
    FILES["few.drat"] = made("drat", "few.cnf", "few.lrat", "--out", "out")
    for size in "23":
        FILES[f"board {size}"] = made("make", "board", size, "--part", "cnf", "--out", "out")


def read(file):
    with open(file, "rb") as it:
        return it.read()


def contents():
    """The regular files of the folder, by name."""
    return {name: read(name) for name in os.listdir() if os.path.isfile(name)}


def clear():
    for it in os.scandir():
        if it.is_dir(follow_symlinks=False):
            os.rmdir(it)
        else:
            os.unlink(it)


def rooms():
    """A folder for a runner, in memory where there is such a place."""
    return tempfile.TemporaryDirectory(dir="/dev/shm" if os.path.isdir("/dev/shm") else None)
