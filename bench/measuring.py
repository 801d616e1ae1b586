"""Runs of programs: their processor time, their peak of memory, and the instructions that they take."""
import ctypes
import os
import re
import signal
import subprocess
import sys
import time
from statistics import median
from typing import NamedTuple

# Of prctl: orphans of this process's children become its own children.
SUBREAPER = 36
# The shell waits for a word before it becomes the program, so that the shell that began it has ended by then.
WAITING = 'exec 3<&0; out=$1 limit=$2; shift 2; { read -r go <&3; [ -z "$limit" ] || ulimit -S -t "$limit"; exec "$@" < /dev/null > "$out" 3<&-; } & echo $!'
# Statuses of a run that has an answer: 2 is that of `equivalent` where a word has two weights, in OpenFst's tool too.
ANSWERS = 0, 2
# Seconds of both programs' runs behind which there are no more rounds.
LONG = 40


class Run(NamedTuple):
    """Processor seconds, user and system, the peak resident KiB, seconds by the clock, and whether a limit of seconds ended it."""

    seconds: float
    peak: int
    clock: float
    is_cut: bool = False


class Sides(NamedTuple):
    """The runs of two programs, turn by turn."""

    ours: list
    theirs: list

    def seconds(self):
        """The medians of both."""
        return median(run.seconds for run in self.ours), median(run.seconds for run in self.theirs)

    def peaks(self):
        """The medians of both, in KiB."""
        return median(run.peak for run in self.ours), median(run.peak for run in self.theirs)

    def time(self):
        """The ratio of the medians of time."""
        ours, theirs = self.seconds()
        return ours / theirs

    def memory(self):
        """The ratio of the medians of memory."""
        ours, theirs = self.peaks()
        return ours / theirs

    def best(self):
        """The ratio of the fastest runs."""
        return min(run.seconds for run in self.ours) / min(run.seconds for run in self.theirs)

    def is_cut(self):
        """Whether a limit ended a run of the second, which takes more than is known of it."""
        return any(run.is_cut for run in self.theirs)

    def spread(self):
        """The least and the greatest ratio of time of two runs of one turn."""
        ratios = [ours.seconds / theirs.seconds for ours, theirs in zip(self.ours, self.theirs)]
        return min(ratios), max(ratios)


def adopt():
    """Makes the orphans of this process's children its own, which `measured` asks for."""
    if ctypes.CDLL(None, use_errno=True).prctl(SUBREAPER, 1, 0, 0, 0) != 0:
        sys.exit("this system does not give orphans to a process: " + os.strerror(ctypes.get_errno()))


def measured(argv, stdout="/dev/null", limit=None):
    """One run of a program, which a limit of processor seconds may end.

    A peak includes what the process held that made it. So a shell makes it, which is small, and ends, whereupon the program
    is this process's own.
    """
    with subprocess.Popen(["sh", "-c", WAITING, "sh", stdout, str(limit or ""), *argv], stdin=subprocess.PIPE, stdout=subprocess.PIPE) as shell:
        child = int(shell.stdout.readline())
        shell.wait()
        began = time.monotonic()
        shell.stdin.write(b"go\n")
    _, status, usage = os.wait4(child, 0)
    ended = os.waitstatus_to_exitcode(status)
    is_cut = limit is not None and ended == -signal.SIGXCPU
    if ended not in ANSWERS and not is_cut:
        sys.exit(f"{' '.join(argv)} ended with status {ended}")
    return Run(usage.ru_utime + usage.ru_stime, usage.ru_maxrss, time.monotonic() - began, is_cut)


def in_turn(commands, rounds, long=LONG, limits=None):
    """The runs of commands in turn, the other way round by turns; so many, or fewer where they take long, but one at least. Each
    command may have a limit of seconds."""
    runs = [[] for _ in commands]
    spent = 0.0
    for turn in range(rounds):
        if turn and spent > long:
            break
        order = list(zip(runs, commands, limits or [None] * len(commands)))
        for own, argv, limit in order if turn % 2 == 0 else reversed(order):
            own.append(measured(argv, limit=limit))
            spent += own[-1].seconds
    return runs


def compared(ours, theirs, rounds, long=LONG, limit=None):
    """The runs of two programs in turn, of which the second may have a limit of seconds."""
    return Sides(*in_turn([ours, theirs], rounds, long, [None, limit]))


def lacks(argv):
    """Whether the program does not have the command of these words. It is asked with files that are not there, which takes no
    time; what else it says of them is of no matter. Their names differ, since two outputs may not have one."""
    words = [f"/absent/{place}" if word.startswith("/") else word for place, word in enumerate(argv[1:])]
    run = subprocess.run([argv[0], *words], stdin=subprocess.DEVNULL, stdout=subprocess.DEVNULL, stderr=subprocess.PIPE)
    return run.returncode == 1 and b"bad command line" in run.stderr


def counts_in_hardware():
    """Whether `perf` counts a process's instructions here: in most virtual machines it does not."""
    try:
        run = subprocess.run(["perf", "stat", "-x,", "-e", "instructions:u", "true"], capture_output=True, text=True)
    except FileNotFoundError:
        return False
    return run.returncode == 0 and re.search(r"^\d+,", run.stderr, re.M) is not None


def instructions(argv, hardware):
    """The instructions that a program takes, by the processor's own counter or by valgrind, which takes 20 times as long."""
    counter = ["perf", "stat", "-x,", "-e", "instructions:u"]
    pattern = r"^(\d+),"
    if not hardware:
        counter = ["valgrind", "--tool=cachegrind", "--cache-sim=no", "--cachegrind-out-file=/dev/null"]
        pattern = r"I +refs: +([\d,]+)"
    run = subprocess.run([*counter, *argv], stdin=subprocess.DEVNULL, stdout=subprocess.DEVNULL, stderr=subprocess.PIPE, text=True)
    count = re.search(pattern, run.stderr, re.M)
    if run.returncode not in ANSWERS or not count:
        sys.exit(f"{' '.join(argv)} is not counted: {run.stderr[-400:]}")
    return int(count.group(1).replace(",", ""))
