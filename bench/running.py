"""The one runner of the scripts in bench/: a command within limits, and what it took.

The peak is that of /usr/bin/time, where that is installed (apt-get install time). Elsewhere it counts from the fork on, so that one below
about 14 MiB is that of Python before the program was loaded.
"""
import os
import re
import resource
import shutil
import statistics
import subprocess
import sys
import tempfile

TIME = "/usr/bin/time"


class Run:
    """The exit code (None where a signal ended it, as at the end of its seconds), the output, the CPU seconds, those of the user alone, the
    most memory in MiB, and how many system calls wrote, None where the system doesn't tell.

    A limit of `space`, the bytes of address space, would count for /usr/bin/time as well: such a run goes without it."""

    def __init__(self, words, seconds=None, text="", space=None):
        limits = [(what, most) for what, most in ((resource.RLIMIT_CPU, seconds), (resource.RLIMIT_AS, space)) if most]
        narrow = lambda: [resource.setrlimit(what, (most, most)) for what, most in limits]
        with tempfile.TemporaryFile("w+") as given, tempfile.NamedTemporaryFile("r") as peak:
            given.write(text)
            given.seek(0)
            if not space and os.access(TIME, os.X_OK):
                words = [TIME, "-q", "-o", peak.name, "-f", "%M", *words]
            child = subprocess.Popen(words, stdin=given, stdout=subprocess.PIPE, stderr=subprocess.STDOUT, text=True, preexec_fn=narrow)
            self.output = child.stdout.read()
            self.writes = writes_of(child.pid)
            _, status, used = os.wait4(child.pid, 0)
            kib = peak.read()
        child.returncode = 0  # (it is waited for)
        code = os.waitstatus_to_exitcode(status)
        self.code = code if 0 <= code <= 128 else None
        self.user, self.seconds = used.ru_utime, used.ru_utime + used.ru_stime
        self.memory = int(kib or used.ru_maxrss) / 1024


def writes_of(pid):
    """Of a process that has ended and isn't waited for yet, with those that it has waited for."""
    os.waitid(os.P_PID, pid, os.WEXITED | os.WNOWAIT)
    try:
        with open(f"/proc/{pid}/io") as counts:
            return int(dict(line.split(": ") for line in counts)["syscw"])
    except OSError:
        return None


def run(words, seconds):
    """The code, output, seconds and memory of a run that ends by itself, or by the limit of its seconds."""
    it = Run(words, seconds)
    assert it.code is not None or it.seconds > 0.9 * seconds, (words, "ended by another signal than that of the limit")
    return it.code, it.output, it.seconds, it.memory


def summary(runs):
    """Some runs in a line: the median of the seconds of those that are answered, and how many they are."""
    done = [seconds for code, _, seconds, _ in runs if code in (10, 20)]
    told = f"median {statistics.median(done):.2f} s" if done else "none done"
    return f"{told}, {len(done)} of {len(runs)} done, peak {max(peak for *_, peak in runs):.0f} MiB"


def version(program):
    """What the program says of itself, or Debian of its package."""
    told = subprocess.run([program, "--version"], stdin=subprocess.DEVNULL, capture_output=True, text=True).stdout
    if not re.search(r"\d\.\d", told) and shutil.which("dpkg-query"):
        told = subprocess.run(["dpkg-query", "-W", "-f=${Version}", os.path.basename(program)], capture_output=True, text=True).stdout
    found = re.search(r"\d+(\.\d+)+", told)
    return found[0] if found else "of an unknown version"


def needs_time(script):
    """Ends a script whose peaks are below those of Python, where /usr/bin/time isn't there."""
    if not os.access(TIME, os.X_OK):
        sys.exit(f"{script}: {TIME} isn't there: apt-get install time")


def lines_in(path):
    with open(path, "rb") as it:
        return sum(block.count(b"\n") for block in iter(lambda: it.read(1 << 20), b""))
