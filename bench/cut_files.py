#!/usr/bin/env python3
"""Files that are cut after each byte, files with one byte changed, and headers that lie, each given to the program.

    cut_files.py [--fst PATH]

Of each arc type there are a text, its machine, and two codices, with weights and without. A machine or codex that is cut has to be
refused as too short at its end, and leave no output. A text that is cut may be read or refused. A machine in which one byte is
another has to be read or refused, within 20 seconds and 60 MiB, whatever count the byte belongs to. The greatest number of a state
is read. The status is 1 where an answer is another.
"""
import argparse
import os
import struct
import subprocess
import sys
import tempfile
from collections import Counter

HERE = os.path.dirname(os.path.abspath(__file__))
TEXTS = {
    "tropical": "0 1 1 2 5\n0 2 3 4 -7\n1 3\n2 Infinity\n",
    "boolean": "0 1 1 2 1\n1 0\n0 1\n",
    "minmax": "0 1 1 2 -Infinity\n1 2 3 3 9\n2 -Infinity\n1 4\n",
    "lexicographic": "0 1 1 2 5,6\n1 3,-4\n",
}
# What is put in the place of each byte, the most seconds, and the most MiB.
VALUES = 0, 1, 2, 127, 128, 255
SECONDS, MEBIBYTES = 20, 60
# The parts of a binary file: magic number, type, arc type, and how version, flags, properties, start, states and arcs are packed.
MAGIC, VECTOR, TROPICAL = struct.pack("<I", 2125659606), b"\6\0\0\0vector", b"\x08\0\0\0tropical"
NUMBERS = "<IIQqqq"
MOST_STATES, MOST_ARCS = 4194304, 33554432


class Program:
    """The program in a folder, and a tally of what it was given; what it answers otherwise is told."""

    def __init__(self, fst, folder):
        self.fst, self.folder = fst, folder
        self.given, self.wrong = Counter(), 0

    def path(self, name):
        """Where a file is."""
        return os.path.join(self.folder, name)

    def run(self, line, seconds=SECONDS):
        """The status, what is shown, and the peak in MiB."""
        with open(self.path("shown"), "wb") as shown:
            child = subprocess.Popen(["timeout", str(seconds), self.fst, *line.split()], cwd=self.folder, stdout=subprocess.DEVNULL, stderr=shown)
            _, status, usage = os.wait4(child.pid, 0)
        child.returncode = os.waitstatus_to_exitcode(status)
        return child.returncode, self.read("shown").decode(errors="replace"), usage.ru_maxrss / 1024

    def made(self, line, name):
        """The bytes of a file that a line makes."""
        status, shown, _ = self.run(line, 10 * SECONDS)
        if status:
            sys.exit(f"{line}: status {status}: {shown}")
        return self.read(name)

    def read(self, name):
        """The content of a file."""
        with open(self.path(name), "rb") as file:
            return file.read()

    def write(self, name, content):
        """Puts a file."""
        with open(self.path(name), "wb") as file:
            file.write(content)

    def give(self, what, content, line, statuses, wanted=None):
        """Gives the content as `given` to a line, which ends with one of the statuses and shows what is wanted, if anything is."""
        self.write("given", content)
        self.given[what] += 1
        status, shown, peak = self.run(line)
        left = os.path.exists(self.path("out"))
        if left:
            os.remove(self.path("out"))
        right = status in statuses and left == (status == 0) and peak <= MEBIBYTES and wanted in (None, shown)
        if not right:
            self.wrong += 1
            print(f"{what}, {len(content)} bytes: {line}: status {status}, {peak:.0f} MiB, {shown}", flush=True)


def too_short(end):
    """The line for the file that is cut there."""
    return f"fst: given: byte {end}: too short\n"


def cut(program, what, content, line):
    """Each cut of the content, each too short."""
    for end in range(len(content)):
        program.give(what, content[:end], line, [1], too_short(end))


def cut_and_changed(program, kind, text):
    """The text of an arc type, its machine and its codices."""
    program.write("text", text.encode())
    machine = program.made(f"compile --arc_type={kind} text machine", "machine")
    cut(program, "cut machines", machine, "print given out")
    for weights in "", "--encode_weights":
        codex = program.made(f"encode --encode_labels {weights} machine codex encoded", "codex")
        cut(program, "cut codices", codex, "encode --decode encoded given out")
    for end in range(len(text) + 1):
        program.give("cut texts", text[:end].encode(), f"compile --arc_type={kind} given out", [0, 1])
    for at, byte in enumerate(machine):
        for value in VALUES:
            if value != byte:
                program.give("changed machines", machine[:at] + bytes([value]) + machine[at + 1:], "info given out", [0, 1])


def lying(program):
    """Counts that the bytes behind them cannot hold, and a number of a state that is too great."""
    arc = struct.pack("<iiBqi", 1, 2, 1, 5, 0)
    for states, tail in (MOST_STATES, bytes(60)), (1, b"\0" + struct.pack("<q", MOST_ARCS) + arc * 2 + arc[:-1]):
        content = MAGIC + VECTOR + TROPICAL + struct.pack(NUMBERS, 2, 0, 3, 0, states, MOST_ARCS) + tail
        program.give("headers that lie", content, "info given out", [1], too_short(len(content)))
    program.give("headers that lie", MAGIC + b"\xff\xff\xff\xffvector", "info given out", [1], "fst: given: byte 4: unknown machine type\n")
    program.write("text", b"0 1 1 2 5\n1 3\n")
    program.made("compile text machine", "machine")
    codex = program.made("encode --encode_labels machine codex encoded", "codex")
    lies = codex[:21] + struct.pack("<q", MOST_ARCS) + codex[29:]
    program.give("headers that lie", lies, "encode --decode encoded given out", [1], too_short(len(lies)))
    many = "fst: given: line 1: too many states\n"
    program.give("headers that lie", b"%d\n" % MOST_STATES, "compile --keep_state_numbering given out", [1], many)


def greatest(program):
    """The greatest number of a state, which is also the start."""
    program.write("text", b"%d\n" % (MOST_STATES - 1))
    program.made("compile --keep_state_numbering text machine", "machine")
    told = program.made("info machine told", "told").decode().split("\n")
    program.given["machines with the most states"] += 1
    if told[1:4] != [f"states\t{MOST_STATES}", "arcs\t0", f"start\t{MOST_STATES - 1}"]:
        program.wrong += 1
        print(f"the most states: {told}")


def main():
    """All files."""
    parser = argparse.ArgumentParser(description=__doc__, formatter_class=argparse.RawDescriptionHelpFormatter)
    parser.add_argument("--fst", default=os.environ.get("FST", os.path.join(HERE, "..", "out", "fst")), help="the program")
    words = parser.parse_args()
    with tempfile.TemporaryDirectory() as folder:
        program = Program(os.path.abspath(words.fst), folder)
        for kind, text in TEXTS.items():
            cut_and_changed(program, kind, text)
        lying(program)
        greatest(program)
    told = ", ".join(f"{what}: {number}" for what, number in program.given.items())
    print(f"{told}; {sum(program.given.values())} runs, wrong: {program.wrong}")
    return 1 if program.wrong else 0


if __name__ == "__main__":
    sys.exit(main())
