#!/usr/bin/env python3
"""Each growth of the program refused in turn, for one run of each command.

    refused_growth.py [--fst PATH] [--only WORD]

A library that is loaded before the C library (failing.c) counts the calls of malloc and realloc. Each command runs once unharmed,
which gives its outputs, and how many growths it has. Then it runs twice for each of these: that one alone is refused, and all from
it on. Something stands under the names of its outputs before each run. The answer has to be

- the outputs, the status and the silence of the unharmed run, where the program could do without;
- or status 3, `fst: out of memory` or a front of that line, and outputs as they stood before. Of `encode` the codex may stand
  whole, since it is stored before the machine.

The inputs have to be as before. The status is 1 where an answer is another. Without a C compiler all is skipped. --only runs the
lines that have the word.
"""
import argparse
import os
import shutil
import struct
import subprocess
import sys
import tempfile
from collections import Counter

HERE = os.path.dirname(os.path.abspath(__file__))
SOURCE = os.path.join(HERE, "failing.c")
BEFORE = b"what stood before"
MEMORY = b"fst: out of memory\n"
SECONDS = 60

# Small files: texts that are read as they are, and texts of machines.
TEXTS = {
    "t": "0 1 one two 2\n1 3\n",
    "s": "<eps> 0\none 1\ntwo 2\nthree 3\nseven 7\n",
    "p": "1 7\n",
    "q": "3 8\n",
    "l": "twenty one\n\ntwenty\n",
}
# Number words, read byte by byte, and digits with a price.
WORDS = [(0, 1, "t", "2"), (1, 2, "w", ""), (2, 3, "e", ""), (3, 4, "n", ""), (4, 5, "t", ""), (5, 6, "y", ""), (6, 7, "", "0"), (6, 8, " ", ""),
         (8, 9, "o", "1"), (9, 10, "n", ""), (10, 7, "e", ""), (8, 11, "t", "2"), (11, 12, "w", ""), (12, 7, "o", "")]
MACHINES = {
    "m": "0 1 1 1\n0 1 2 2 1\n1 2 3 3 5\n1 3 3 3 2\n2 1\n3\n",
    "d": "0 1 1 1 1\n0 1 2 2 2\n1 2 3 3 5\n2 1\n",
    "e": "0 1 0 0 3\n0 2 1 1\n1 2 0 0 1\n1 3 5 6 4\n2 3 0 0 1\n3 1 1 1\n3\n",
    "a": "".join(f"{source} {target} {ord(i) if i else 0} {ord(o) if o else 0}\n" for source, target, i, o in WORDS) + "7\n",
    "b": "0 0 48 48\n0 0 49 49 1\n0 0 50 50\n0\n",
    "x": "0 1 1 1\n1 2 5 101 2\n2\n",
    "y": "0 1 7 8 3\n1 4\n",
    "f": "0 1 1 1\n0 2 2 2\n1 3 3 3\n2 3 3 3\n3\n",
    "g": "0 1 1 1\n1 2 3 3\n2\n",
}
# A line for each command, in the order of its help, and for each of its ways. The outputs are r and k.
LINES = [
    "compile --isymbols=s --osymbols=s t r",
    "compile --isymbols=s --osymbols=s --keep_isymbols --keep_osymbols t r",
    "print --isymbols=s --osymbols=s m r",
    "info m r",
    "invert m r",
    "reverse m r",
    "connect m r",
    "union m d r",
    "concat m d r",
    "closure m r",
    "project --project_output m r",
    "replace x 100 y 101 r",
    "relabel --relabel_ipairs=p --relabel_opairs=q m r",
    "arcsort --sort_type=olabel m r",
    "compose a b r",
    "rmepsilon e r",
    "shortestdistance m r",
    "shortestdistance --reverse m r",
    "shortestpath --nshortest=4 m r",
    "shortestpath --nshortest=4 --unique m r",
    "push --push_weights m r",
    "encode --encode_labels m k r",
    "encode --encode_labels --encode_weights m k r",
    "encode --decode n c r",
    "determinize m r",
    "minimize d r",
    "prune --weight=3 m r",
    "intersect f g r",
    "difference f g r",
    "equivalent f f r",
    "equivalent f g r",
    "batch --summary a b l r",
    "batch --summary --workers=2 a b l r",
    "make --lines=1 r",
]


def build(folder):
    """The library, or None without a C compiler."""
    if not shutil.which("cc"):
        return None
    library = os.path.join(folder, "failing.so")
    subprocess.run(["cc", "-O2", "-shared", "-fPIC", SOURCE, "-o", library, "-ldl"], check=True)
    return library


def write(folder, name, content):
    """Puts a file."""
    with open(os.path.join(folder, name), "wb") as file:
        file.write(content)


def read(folder, name):
    """The content of a file."""
    with open(os.path.join(folder, name), "rb") as file:
        return file.read()


def stock(fst, folder):
    """Puts the inputs. Their contents by name."""
    for name, text in TEXTS.items():
        write(folder, name, text.encode())
    for name, text in MACHINES.items():
        subprocess.run([fst, "compile", "--keep_state_numbering", "-", name], input=text.encode(), cwd=folder, check=True)
    subprocess.run([fst, "encode", "--encode_labels", "m", "c", "n"], cwd=folder, check=True)
    return {name: read(folder, name) for name in os.listdir(folder)}


class Runs:
    """Runs of the program in a folder, each over what stood before."""

    def __init__(self, fst, library, folder):
        self.fst, self.library, self.folder = fst, library, folder
        self.count = os.path.join(os.path.dirname(library), "count")

    def run(self, line, at=0, onward=False):
        """The status, the line, r and k of a run of which that growth is refused."""
        for name in "rk":
            write(self.folder, name, BEFORE)
        env = {"LD_PRELOAD": self.library, "FAIL_COUNT": self.count, "FAIL_AT": str(at)}
        if onward:
            env["FAIL_ONWARD"] = "1"
        run = subprocess.run([self.fst, *line.split()], cwd=self.folder, env=env, capture_output=True, timeout=SECONDS)
        return run.returncode, run.stderr, read(self.folder, "r"), read(self.folder, "k")

    def growths(self):
        """How many growths the run before had."""
        return struct.unpack("q", read(os.path.dirname(self.count), "count"))[0]


def judge(line, whole, answer):
    """What an answer is."""
    status, shown, r, k = answer
    if answer == whole:
        return "whole"
    stored = k == whole[3] and line.startswith("encode --encode")
    if status != 3 or not MEMORY.startswith(shown) or r != BEFORE or not (k == BEFORE or stored):
        return "WRONG"
    return "3 and the line" if shown == MEMORY else "3 and a front of it" if shown else "3 without a line"


def attack(runs, line, inputs):
    """How many growths a line has, and how many of its runs end in which way. Wrong ones are told."""
    whole = runs.run(line)
    growths, tally = runs.growths(), Counter()
    if whole[0] != (2 if line == "equivalent f g r" else 0) or whole[1] or whole[2] == BEFORE:
        sys.exit(f"{line}: status {whole[0]} unharmed: {whole[1]}")
    if not growths:
        sys.exit("no growth was counted: the library is not loaded before a program that is linked statically")
    for at in range(1, growths + 1):
        for onward in False, True:
            answer = runs.run(line, at, onward)
            kind = judge(line, whole, answer)
            tally[kind] += 1
            if kind == "WRONG":
                print(f"{line}: growth {at}{' and all behind it' if onward else ''}: status {answer[0]}, {answer[1]}")
    if any(read(runs.folder, name) != content for name, content in inputs.items()):
        tally["WRONG"] += 1
        print(f"{line}: an input is changed")
    return growths, tally


def main():
    """All lines."""
    parser = argparse.ArgumentParser(description=__doc__, formatter_class=argparse.RawDescriptionHelpFormatter)
    parser.add_argument("--fst", default=os.environ.get("FST", os.path.join(HERE, "..", "out", "fst")), help="the program")
    parser.add_argument("--only", default="", help="the lines that have this word")
    words = parser.parse_args()
    fst = os.path.abspath(words.fst)
    with tempfile.TemporaryDirectory() as scratch:
        library = build(scratch)
        if library is None:
            print("skipped: there is no C compiler (cc), which builds the library that refuses memory")
            return 0
        folder = os.path.join(scratch, "files")
        os.mkdir(folder)
        inputs = stock(fst, folder)
        runs, total, sum_of_growths = Runs(fst, library, folder), Counter(), 0
        for line in LINES:
            if words.only in line:
                growths, tally = attack(runs, line, inputs)
                total += tally
                sum_of_growths += growths
                print(f"{line}: {growths} growths; {', '.join(f'{kind}: {number}' for kind, number in sorted(tally.items()))}", flush=True)
    if not total:
        sys.exit(f"no line has {words.only!r}")
    print(f"{sum_of_growths} growths, {sum(total.values())} runs; {', '.join(f'{kind}: {number}' for kind, number in sorted(total.items()))}")
    return 1 if total["WRONG"] else 0


if __name__ == "__main__":
    sys.exit(main())
