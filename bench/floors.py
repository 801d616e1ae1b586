"""Floors: what a program in C takes that makes the same bytes as a row and judges nothing (`floors.c`)."""
import filecmp
import os
import subprocess
import sys
import tempfile

from cliffs import CLIFFS
from inputs import Inputs
from measuring import in_turn
from rows import ALGEBRA, FORMS, OPERATIONS
from tables import floor_line, head

SOURCE = os.path.join(os.path.dirname(os.path.abspath(__file__)), "floors.c")
# The words of the C program for a row, whose inputs are those of ours and stand before its output.
FLOORS = {
    "compile": "compile {dense.text} {out}",
    "union": "union {dense} {dense} {out}",
    "concat": "concat {dense} {dense} {out}",
    "closure": "closure {dense} {out}",
    "invert": "invert {dense} {out}",
    "reverse": "reverse {dense} {out}",
    "connect": "connect {dense} {out}",
    "shortestdistance": "shortestdistance {dense} {out}",
    "compose": "compose {first} {second} {out}",
    "rmepsilon": "rmepsilon {epsilons} {out}",
    "compose, two hubs whose arcs all match": "compose {equal} {other_equal} {out}",
    "invert, two states": "invert {between} {out}",
    "closure, two states": "closure {between} {out}",
    "connect, two states": "connect {between} {out}",
    "connect, a chain": "connect {chain} {out}",
    "reverse, a chain": "reverse {chain} {out}",
    "closure, a chain": "closure {chain} {out}",
    "print, long names": "print {inames.text} {onames.text} {long_named.long_named} {out}",
}


def built(scratch):
    """The C program."""
    program = os.path.join(scratch, "floors")
    subprocess.run(["cc", "-O2", "-o", program, SOURCE], check=True)
    return program


def same_bytes(ours, floor):
    """Whether both programs make the same bytes of the same input."""
    copy = ours[-1] + ".copy"
    subprocess.run(ours, check=True)
    os.replace(ours[-1], copy)
    subprocess.run(floor, check=True)
    same = filecmp.cmp(copy, floor[-1], shallow=False)
    os.remove(copy)
    return same


def floors(words, scratch):
    """Shows what OpenFst, the C program and ours take, in turn, for each row that has a floor."""
    program = built(scratch)
    rows = [row for row in [*FORMS, *OPERATIONS, *ALGEBRA, *CLIFFS] if row.name in FLOORS and words.rows.search(row.name)]
    print(head("Arcs", "Command", "OpenFst: s, MiB", "C: s, MiB", "C: time, memory", "`fst`: s, MiB", "`fst`: time, memory"))
    for size in words.sizes:
        with tempfile.TemporaryDirectory(dir=scratch) as folder:
            inputs = Inputs(words.fst, folder, size)
            for row in rows:
                ours, theirs = row.argv(inputs)
                floor = [program, *inputs.words(FLOORS[row.name], "ours")[1:]]
                if not same_bytes(ours, floor):
                    sys.exit(f"{row.name}: not the same bytes")
                print(floor_line(size, row.name, *in_turn([theirs, floor, ours], words.rounds)), flush=True)
