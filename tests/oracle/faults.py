"""What may go wrong around a command, and what it must leave then, by docs/FORMATS.md: from the calls of its plain run follows what each
fault leaves. A fault gives its cases as what happens, the run, and what must be left, which may depend on what was left."""
import collections
import errno
import functools
import itertools
import os
import re
import signal
from functools import partial

import lrat
from commands import ERRORS, FILES, PIPE, UNREAD, Left

GROWTH = "1 0\n"
# How much was counted by the end of a run depends on how much was read at once: any such line stands for each.
NOTE = b"c line 1\n"
LONG = "x" * 300


class Command:
    """A command with its plain run: what it leaves, and its calls as (what, name, bytes moved)."""

    def __init__(self, runner, words):
        self.runner, self.words = runner, words
        self.plain, (*self.calls, (_, _, self.growths)) = runner.run(words)
        self.inputs = [name for call, name, _ in self.calls if call == "open" and name in FILES]
        self.made = [name for call, name, _ in self.calls if call == "create"]
        self.in_pieces = functools.cache(lambda piece: runner.run(words, piece=piece)[1][:-1])

    def is_right(self):
        """Whether an assignment that is printed satisfies the formula, and the proof has good lines, and refutes it where that is told."""
        if self.words[0] not in ("solve", "bench", "ask", "lrat") or "out" not in self.plain.files:
            return True
        proof = judged(self, self.plain.files["out"])
        told = self.words[0] == "lrat" and self.plain.code == 0 or b"s UNSATISFIABLE" in self.plain.out and self.words[0] != "ask"
        return proof and proof.has_empty == told and (self.plain.code != 10 or satisfies(self, self.plain.out))

    def case(self, what, wanted, words=None, **faults):
        """`wanted` is what must be left, or gives it of what is left."""
        return what, lambda: self.runner.run(words or self.words, **faults)[0], wanted if callable(wanted) else lambda _: wanted

    def over(self, name, text):
        """What is left where an input holds another text."""
        return self.runner.run(self.words, {**FILES, name: text})[0]

    def place(self, call, name):
        """That of the first such call; None where there is none."""
        return next((at for at, it in enumerate(self.calls) if it[:2] == (call, name)), None)

    def stopped(self, calls, at, code, left=None):
        """What is left where the run ends by this exit code before the call at this place."""
        moved = collections.Counter()
        for call, name, count in calls[:at]:
            moved[name] += count if call == "write" else 0
        begun = [name for call, name, _ in calls[:at] if call == "create"]
        files = {name: self.plain.files[name][: moved[name]] for name in begun}
        if code == 3 and self.words[0] in ("drat", "lrat") and begun:
            files = self.converted(calls[:at], left)
        err = self.plain.err[: moved["<err>"]] + ERRORS.get(code, b"")
        if code > 0 and not moved["<err>"] and "--progress" in self.words and self.counted() in [it[:2] for it in calls[:at]]:
            err = NOTE + err  # of the lines, or of the cubes, so far
        return Left(code, self.plain.out[: moved["<out>"]], err, files)

    def counted(self):
        """The call that opens or creates what is counted, where a command tells that at its end however it ends."""
        place = {"check": 1, "drat": 1, "lrat": 1, "trim": 1, "order": 0}.get(self.words[0])
        if place is not None and place < len(self.inputs):
            return "open", self.inputs[place]
        return ("create", "out") if self.words[0] == "ask" else None

    def converted(self, calls, left):
        """The file of a conversion that has read so much of its proof: the lines so far. The last one may not be known to be ended."""
        proof = self.inputs[1]
        text = FILES[proof][: sum(count for call, name, count in calls if (call, name) == ("read", proof))]
        lines = text.split("\n")[:-1]
        files = [self.over(proof, "".join(line + "\n" for line in lines[:count])).files for count in (len(lines), len(lines[:-1]))]
        return left.files if left.files in files else files[0]

    def failed(self, calls, at, left=None):
        """What is left where the call at this place fails, and each later one of that file."""
        call, name, _ = calls[at]
        if name == "/dev/null" or call == "close":
            return self.plain
        if name == "<err>":
            told = sum(count for _, name, count in calls[:at] if name == "<err>")
            return self.plain._replace(err=self.plain.err[:told])
        return self.stopped(calls, at, 3 if name in self.inputs else 4, left)

    def failed_once(self, calls, at, left):
        """What is left where that call alone fails: what its file had by then at least, and what the plain run writes at the most, since
        a buffer is written once more at the end."""
        must, name = self.failed(calls, at, left), calls[at][1]
        between = lambda least, most, found: found if found.startswith(least) and most.startswith(found) else least
        if name == "<out>":
            return must._replace(out=between(must.out, self.plain.out, left.out))
        if name == "<err>":
            return must._replace(err=between(must.err, self.plain.err, left.err))
        if name in must.files and name in left.files:
            return must._replace(files={**must.files, name: between(must.files[name], self.plain.files[name], left.files[name])})
        return must

    def ended(self, calls, at, _=None):
        """What is left where the read at this place finds the end of the file."""
        name = calls[at][1]
        return self.over(name, FILES[name][: sum(it[2] for it in calls[:at] if it[:2] == ("read", name))])

    def renamed(self, old, new):
        return [new if it == old else it for it in self.words]


def without(left, *names):
    return left._replace(files={name: text for name, text in left.files.items() if name not in names})


# At a call.


def calls_of(command, *kinds):
    """The calls of the plain run, and of one in pieces, with the place of one of these kinds, and what leads there."""
    for piece in 0, 9:
        calls = command.in_pieces(piece)
        for at, call in enumerate(calls):
            if not kinds or call[0] in kinds:
                yield calls, at, {"piece": piece, "at": at + 1}


def fails(command):
    """each call of each role fails, and the later ones of its file: it is opened, read, created or written, a standard stream is written;
    one that closes is of no account"""
    for calls, at, how in calls_of(command):
        error = errno.ENOSPC if calls[at][0] == "write" else errno.EIO
        yield command.case(calls[at], partial(command.failed, calls, at), fault="fail", error=error, all=1, **how)


def fails_once(command):
    """each call fails alone"""
    for calls, at, how in calls_of(command):
        error = errno.ENOSPC if calls[at][0] == "write" else errno.EIO
        yield command.case(calls[at], partial(command.failed_once, calls, at), fault="fail", error=error, **how)


def breaks(command):
    """each call is broken off by a signal once: the plain answer"""
    for calls, at, how in calls_of(command, "open", "create", "read", "write"):
        yield command.case(calls[at], command.plain, fault="fail", error=errno.EINTR, **how)


def takes_nothing(command):
    """each write takes nothing: as one that fails"""
    for calls, at, how in calls_of(command, "write"):
        yield command.case(calls[at], partial(command.failed, calls, at), fault="zero", all=1, **how)


def shrinks(command):
    """each read finds the end: the answer of the text up to there"""
    for calls, at, how in calls_of(command, "read"):
        yield command.case(calls[at], partial(command.ended, calls, at), fault="zero", **how)


def grows(command):
    """each input gains a line before each of its reads: the answer of the longer text"""
    for calls, at, how in calls_of(command, "read"):
        name = calls[at][1]
        longer = FILES[name] + GROWTH

        def wanted(_, name=name, longer=longer):
            left = command.over(name, longer)
            return left._replace(files={**left.files, name: longer.encode()})

        yield command.case(calls[at], wanted, fault="grow", growth=GROWTH, **how)


def ends(command):
    """SIGINT, SIGTERM, SIGHUP or SIGKILL before each call: the end by that signal, and what was written by then"""
    which = itertools.cycle([signal.SIGINT, signal.SIGTERM, signal.SIGHUP, signal.SIGKILL])
    for calls, at, how in calls_of(command):
        by = next(which)
        yield command.case((by.name, *calls[at]), partial(command.stopped, calls, at, -by), fault="signal", signal=int(by), **how)


def sigpipe(command):
    """SIGPIPE before each call: the plain answer"""
    for calls, at, how in calls_of(command):
        yield command.case(calls[at], command.plain, fault="signal", signal=int(signal.SIGPIPE), **how)


def pieces(command):
    """each read and write moves so many bytes at the most: the plain answer"""
    for piece in (1, 2, 3, 5, 10, 50, 100):
        yield command.case(piece, command.plain, piece=piece)


# Memory and limits.


def clauses_of(words):
    numbers = map(int, FILES[f"board {words[2]}" if words[0] == "bench" else words[1]].split()[4:])
    clauses = [[]]
    for it in numbers:
        clauses[-1].append(it) if it else clauses.append([])
    return clauses if clauses[-1] else clauses[:-1]


def judged(command, proof):
    """The proof by lrat.py, where each whole line is a good step; else None."""
    found = lrat.Proof(clauses_of(command.words))
    try:
        found.refutes(proof.decode().splitlines()[: proof.count(b"\n")])
    except lrat.Bad:
        return None
    return found


def is_cut_off(command, left):
    """Whether the run may have ended for want of memory, or have gone on by another way to the plain answer: a search by other orders, so
    that it may print other values, and `lrat` by other hints. Buffers of the system's files may be wanting, too, and with them a file or a
    stream."""
    plain, words = command.plain, command.words
    if left.code not in (plain.code, *ERRORS):
        return False
    is_whole = left.code == plain.code
    outs = left.out == plain.out if is_whole else plain.out.startswith(left.out) if left.code == 4 else not left.out
    outs = outs or "--search" in words and left.code == 10 and satisfies(command, left.out)
    notes = left.err.removesuffix(ERRORS.get(left.code, b""))
    line = rb"(c .*\n)*" if "--search" in words else rb"(c (line|cube) .*\n)?"
    errs = plain.err.startswith(notes) or "--progress" in words and line and re.fullmatch(line, notes)
    files = not is_whole or plain.files.keys() == left.files.keys()
    return outs and errs and files and all(is_front(command, name, text, is_whole) for name, text in left.files.items())


def is_front(command, name, text, is_whole):
    whole = command.plain.files.get(name, b"")
    if text == whole or not is_whole and whole.startswith(text):
        return True
    proof = command.words[0] in ("solve", "bench", "ask", "lrat") and judged(command, text)
    return bool(proof) and (not is_whole or proof.has_empty == judged(command, whole).has_empty)


def satisfies(command, out):
    told = {int(word) for line in out.splitlines()[1:] for word in line.split()[1:]}
    return out.startswith(b"s SATISFIABLE\n") and all(told & set(clause) for clause in clauses_of(command.words))


def memory(command):
    """each growth of memory is refused, once or from there on: out of memory, or the plain answer by another way"""
    wanted = lambda left: left if is_cut_off(command, left) else command.plain
    for growth in range(1, command.growths + 1):
        yield command.case(growth, wanted, refused=growth)
        yield command.case((growth, "and later ones"), wanted, refused=growth, all=1)


def size(command):
    """no file grows beyond each number of bytes up to what the command writes: the file so far, as a failed write, or where SIGXFSZ isn't
    ignored the end by that signal"""
    for most in range(max(map(len, command.plain.files.values()), default=-1) + 2):
        yield command.case(most, partial(cut, command, most, 4), fsize=most)
        yield command.case((most, "SIGXFSZ"), partial(cut, command, most, -signal.SIGXFSZ), fsize=most, xfsz=1)


def cut(command, most, code, _):
    for name in command.made:
        if len(command.plain.files[name]) > most:
            left = command.stopped(command.calls, command.place("write", name), code)
            return left._replace(files={**left.files, name: command.plain.files[name][:most]})
    return command.plain


def handles(command):
    """no file gets a descriptor from each number on: the first one that needs it can't be opened or created"""
    for most in range(4, 14):
        given = 3
        for at, (call, name, _) in enumerate(command.calls):
            if call in ("open", "create") and given >= most and name != "/dev/null":
                yield command.case(most, partial(command.failed, command.calls, at), nofile=most)
                break
            given += call in ("open", "create") and given < most
        else:
            yield command.case(most, command.plain, nofile=most)


def limits(command):
    """--max-nodes, --max-ids and --cache of each number up to what the command needs: the plain answer, or that the limit was reached"""
    if command.words[0] not in ("solve", "bench", "ask") or "out" not in command.plain.files:
        return
    last = max([int(line.split()[0]) for line in command.plain.files["out"].splitlines()], default=0)
    for option, most in ("--max-nodes", 40), ("--max-ids", last + 6), ("--cache", 12):
        if option not in command.words:
            for number in range(option == "--cache", most):
                yield command.case((option, number), partial(limited, command, option, number), [*command.words, option, str(number)])


def limited(command, option, number, left):
    """The limit of nodes is told where as many are in use at the end, that of numbers where less than four are left behind the last."""
    plain, kind = command.plain, {"--max-nodes": b"node", "--max-ids": b"identifier", "--cache": b"no"}[option]
    proof = judged(command, left.files.get("out", b"no proof\n"))
    if not proof or left.files.keys() != {"out"} or left.err and "--progress" not in command.words:
        return "a proof of good lines"
    if not left.out.endswith(b"c %s limit %d reached\ns UNKNOWN\n" % (kind, number)):
        answer = lambda out: [line for line in out.splitlines() if not line.startswith(b"c last")]
        is_plain = left.code == plain.code and answer(left.out) == answer(plain.out)
        return left if is_plain and proof.has_empty == judged(command, plain.files["out"]).has_empty else plain
    variables = max((abs(it) for clause in clauses_of(command.words) for it in clause), default=0)
    in_use = len({abs(it) for clause in proof.live.values() for it in clause if abs(it) > variables})
    is_cause = in_use == number if kind == b"node" else proof.top + 4 > number
    is_told = left.code == 0 and left.out.count(b"\n") == (3 if command.words[0] == "bench" else 2)
    return left if is_cause and is_told and not proof.has_empty else "a limit that was reached"


# At names and streams.


def make_odd():
    os.mkdir("folder")
    os.symlink("loop", "loop")
    with open("file", "w"):
        pass


ODD = ["missing/x", "folder", "file/x", "", "loop", LONG, "/"]


def odd_inputs(command):
    """each input is missing, a folder, in a file's place, without a name, a link to itself, a name too long: it can't be read"""
    for name, odd in itertools.product(command.inputs, [*ODD, "missing"]):
        kind = "read" if odd in ("folder", "/") else "open"
        wanted = partial(command.failed, command.calls, command.place(kind, name))
        yield command.case((name, odd), wanted, command.renamed(name, odd), more=make_odd)


def odd_outputs(command):
    """each file to write is one of these: it can't be created"""
    for name, odd in itertools.product(command.made, ODD):
        wanted = partial(command.failed, command.calls, command.place("create", name))
        yield command.case((name, odd), wanted, command.renamed(name, odd), more=make_odd)


def devices(command):
    """each input is /dev/null: an empty text; each file to write is it, or /dev/full, which takes nothing but an empty text"""
    for name in command.inputs:
        yield command.case(name, lambda _, name=name: command.over(name, ""), command.renamed(name, "/dev/null"))
    for name in command.made:
        at = command.place("write", name)
        full = command.plain if at is None else command.failed(command.calls, at)
        yield command.case((name, "null"), without(command.plain, name), command.renamed(name, "/dev/null"))
        yield command.case((name, "full"), without(full, name), command.renamed(name, "/dev/full"))


def pipes(command):
    """each input is a pipe, which ends behind each number of bytes: the answer of the text so far"""
    for name in command.inputs:
        for length in range(len(FILES[name]) + 1):
            text = FILES[name][:length]
            wanted = lambda _, name=name, text=text: command.over(name, text)
            yield command.case((name, length), wanted, command.renamed(name, f"/dev/fd/{PIPE}"), pipe=text)


def streams(command):
    """standard input, output and error are closed, full or a pipe that nobody reads: an answer can't be written, an error's line is lost"""
    ways = {
        "kept": lambda to: [],
        "closed": lambda to: [(os.POSIX_SPAWN_CLOSE, to)],
        "full": lambda to: [(os.POSIX_SPAWN_OPEN, to, "/dev/full", os.O_WRONLY, 0)],
        "nobody": lambda to: [(os.POSIX_SPAWN_DUP2, UNREAD, to)],
    }
    at = command.place("write", "<out>")
    for given, out, err in itertools.product(("kept", "closed"), ways, ways):
        left = command.plain if out == "kept" or at is None else command.failed(command.calls, at)
        left = left._replace(out=left.out if out == "kept" else b"", err=left.err if err == "kept" else b"")
        yield command.case((given, out, err), left, streams=[*ways[given](0), *ways[out](1), *ways[err](2)])


def links(command):
    """each input is a link to its file: the plain answer; each file to write is a link to another, or to none: that one is written"""
    for name in command.inputs:
        yield command.case(name, command.plain, command.renamed(name, "link"), more=partial(linked, name))
    for name in command.made:
        text = command.plain.files[name]
        left = without(command.plain, name)
        left = left._replace(files={**left.files, "target": text, "link": text})
        yield command.case(name, left, command.renamed(name, "link"), more=lambda: os.symlink("target", "link"))


def linked(name):
    with open("target", "w") as it:
        it.write(FILES[name])
    os.symlink("target", "link")


def same(command):
    """each file to write is another file of the command by another name, ./NAME, a link or a hard link: it isn't created, and the other stays"""
    for name, old, how in itertools.product(command.made, command.inputs, ("./", "link", "hard")):
        def more(old=old, how=how):
            if how == "link":
                os.symlink(old, "link")
            elif how == "hard":
                os.link(old, "link")

        wanted = partial(command.failed, command.calls, command.place("create", name))
        yield command.case((name, old, how), wanted, command.renamed(name, "./" + old if how == "./" else "link"), more=more)
    for name, other in itertools.permutations(command.made, 2):
        left = command.failed(command.calls, max(command.place("create", it) for it in (name, other)))
        left = left._replace(files={other: text for text in left.files.values()})
        yield command.case((name, other), left, command.renamed(name, "./" + other))


def shared(command):
    """standard output or standard error is a file to write: it isn't created"""
    for name, (stream, to) in itertools.product(command.made, {"out": 1, "err": 2}.items()):
        left = command.failed(command.calls, command.place("create", name))
        left = left._replace(files={**left.files, name: getattr(left, stream)}, **{stream: b""})
        streams = [(os.POSIX_SPAWN_OPEN, to, name, os.O_WRONLY | os.O_CREAT, 0o644)]
        yield command.case((name, stream), left, streams=streams)


# The command line.


def words(command):
    """a word too many, an unknown option, one without its value, one that stands twice, a number that is none, a word that isn't UTF-8"""
    usage = Left(6, b"", b"error: bad usage\n", {})
    told = command.plain if "--version" in command.words or "--help" in command.words else usage
    yield command.case("\xff", usage, [*map(os.fsencode, command.words), b"\xff"])
    numbers = ["--cache", "0"], ["--max-ids", "x"], ["--max-nodes", "1" * 19], ["--cache", "-1"]
    for more in ["extra"], ["--what"], ["-x"], ["--proof"], *numbers:
        yield command.case(more, told, [*command.words, *more])
    for at, word in enumerate(command.words):
        if word.startswith("--") and word not in ("--help", "--version"):
            given = command.words[at : at + 2]
            yield command.case((word, "twice"), told, [*command.words, *(given if not given[-1].startswith("--") else given[:1])])


FAULTS = [fails, fails_once, breaks, takes_nothing, shrinks, grows, ends, sigpipe, pieces, memory, size, handles, limits, odd_inputs,
          odd_outputs, devices, pipes, streams, links, same, shared, words]
