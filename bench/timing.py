"""What bench/growth and bench/speed share: sources that grow, runs of a program over them, their times and memory.

Python 3.9 or later, with its standard library alone; as a program, it prints what it is and does nothing.
"""

import contextlib
import math
import mmap
import os
import resource
import shlex
import shutil
import struct
import subprocess

HERE = os.path.dirname(os.path.abspath(__file__))
MILLION = ["--reductions", "1000000"]
TURNS = 5  # of so many runs the least time counts
NOISE = 0.005  # seconds: where a time less the start is less, it gives no exponent


def conjuncts(parts, last="empty"):
    return f"run {' and '.join(parts)} and {last}.\n"


def numbers(count):
    return "<" + ",".join(map(str, range(count))) + ">"


def each(count, piece):
    """The piece so many times, with the numbers from 0 for #, and from 1 for %."""
    return [piece.replace("#", str(k)).replace("%", str(k + 1)) for k in range(count)]


def heading(definition, formula):
    return f"define {definition}. run {formula}.\n"


def exponent(less, more, times=2):
    """The power of the size with which a time grew, where that grew by so many times; the start is in neither time."""
    return f"{math.log(more / less, times):.2f}" if min(less, more) > NOISE else "-"


@contextlib.contextmanager
def stack(kilobytes):
    """What runs meanwhile has so much stack, where a number is given."""
    before, most = resource.getrlimit(resource.RLIMIT_STACK)
    resource.setrlimit(resource.RLIMIT_STACK, (kilobytes * 1024 if kilobytes else before, most))
    try:
        yield
    finally:
        resource.setrlimit(resource.RLIMIT_STACK, (before, most))


class Run:
    """A run of a program: its status, what it printed, and its processor time in seconds."""

    def __init__(self, program, words, folder, environment=None):
        with open(os.path.join(folder, "out"), "w+b") as out:
            ran = subprocess.Popen([program, *words], cwd=folder, stdout=out, stdin=subprocess.DEVNULL, env=environment)
            _, status, usage = os.wait4(ran.pid, 0)
            ran.returncode = self.status = os.waitstatus_to_exitcode(status)
            out.seek(0)
            self.printed = out.read()
        self.seconds = usage.ru_utime + usage.ru_stime

    @property
    def last_line(self):
        return self.printed.decode("utf-8", "replace").rstrip("\n").rpartition("\n")[2]


class Bench:
    """The programs that are measured, a folder for their files, the library that counts, and how long a start takes.

    The first program is the one that counts; others are measured beside it.
    """

    def __init__(self, tool, programs, folder):
        self.tool, self.folder, self.what = tool, folder, "run empty."  # and what is measured now
        self.programs = [os.path.abspath(program) for program in programs]
        for program in self.programs:
            if not os.path.isfile(program) or not os.access(program, os.X_OK):
                tool.refuse(f"{program} is no program")
        self.library = self.compiled()
        self.write("run empty.\n")
        found = self.in_turns([(program, ["run", "a.t"]) for program in self.programs], 2 * TURNS)
        self.starts = [self.least(runs).seconds for runs in found]
        self.counted = [program for program in self.programs if self.counts(program)]

    def compiled(self):
        """The library that counts allocations and bytes, or None where no C compiler is."""
        compiler = shlex.split(os.environ.get("CC", "cc"))
        if not compiler or not shutil.which(compiler[0]):
            return None
        made = os.path.join(self.folder, "refused.so")
        words = [*compiler, "-O2", "-shared", "-fPIC", "-o", made, os.path.join(HERE, "refused.c")]
        return made if subprocess.run(words, check=False).returncode == 0 else None

    def write(self, text, name="a.t"):
        with open(os.path.join(self.folder, name), "w", encoding="ascii") as file:
            file.write(text)

    def in_turns(self, calls, turns=TURNS):
        """Of each call, a program with its words, so many runs.

        The calls take turns, so that what else the machine does counts for all of them.
        """
        rounds = [[Run(program, words, self.folder) for program, words in calls] for _ in range(turns)]
        return list(zip(*rounds))

    def least(self, runs, status=0):
        """The run that took the least time, of those of one call, which are to end with this status."""
        for ran in runs:
            if ran.status != status:
                self.tool.refuse(f"{self.what}: a run ended with {ran.status}, not {status}: {ran.printed[-80:]!r}")
        return min(runs, key=lambda ran: ran.seconds)

    def measured(self, words, status=0, turns=TURNS):
        """The run of the first program that took the least time."""
        return self.least(self.in_turns([(self.programs[0], words)], turns)[0], status)

    def telling(self):
        """The environment of a run that counts, into the file `told`."""
        self.write("\0" * mmap.PAGESIZE, "told")
        return {**os.environ, "LD_PRELOAD": self.library, "REFUSED_TOLD": os.path.join(self.folder, "told")}

    def told(self):
        """What was counted: the allocations and the writes, and the bytes that are held, and were at most."""
        with open(os.path.join(self.folder, "told"), "rb") as file:
            allocations, _, _, writes, held, peak = struct.unpack("6Q", file.read(48))
        return allocations, writes, held, peak

    def counts(self, program):
        """Whether a run of the program can be counted: not without a C compiler, nor where it is linked statically."""
        if not self.library:
            return False
        Run(program, ["run", "a.t"], self.folder, self.telling())
        return self.told()[0] > 0

    def megabytes(self, words):
        """The most memory that a run of the first program holds."""
        if self.programs[0] not in self.counted:
            return "-"
        Run(self.programs[0], words, self.folder, self.telling())
        return f"{self.told()[3] / 1e6:.1f}"


if __name__ == "__main__":
    print(__doc__)
