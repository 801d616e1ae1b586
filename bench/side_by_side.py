#!/usr/bin/env python3
"""fst beside OpenFst's tools on the same inputs, in one run.

    side_by_side.py [--fst PATH] [--sizes 10000,100000,1000000] [--rounds 5] [--only PART] [--rows PATTERN] [--keys 20000]
                    [--large] [--table | --growth | --floors] [--gate]

The runs of the two programs alternate, so that a slow minute of the machine falls on both. For each run the processor time (user
and system) and the peak resident size are taken; the tables show medians. The parts are forms, operations, algebra, cliffs,
improving, crafted, batch and cascades; without --only all but cascades are shown. --table shows the first three in one table with a line for each
command, --growth their instructions, which no load changes, --floors what a program in C takes for the same bytes. With --large the
machine of the cliffs is added that takes gigabytes.

With --gate the status is 1 where a ratio passes the bound of its row at 10^6 arcs, where an operation takes more than GROWTH times
as long for ten times the arcs, where instructions grow by more than the power 1.1, where a cycle that is better than One is refused
in more than twice the time that the machine takes without it, where crafted keys take more than four times as long as plain ones,
or where the program does not have a command.
"""
import argparse
import os
import re
import shutil
import sys
import tempfile
from statistics import mean, median

import tables
from batch import LINES, batch
from cascades import cascades
from cliffs import CLIFFS, LARGE
from crafted import KEYS, crafted
from floors import floors
from growth import LIMIT, growth
from improving import improving
from inputs import Inputs
from measuring import adopt, compared, in_turn, lacks, measured
from rows import ALGEBRA, FORMS, OPERATIONS

# Where the start stands in a tropical binary file.
START = 42
# The size from which the bounds hold.
BOUND_SIZE = 1_000_000
# How many times as long an operation may take for ten times the arcs.
GROWTH = 20
# Bounds of what stands by itself: megabytes a second, milliseconds, and times as long.
MEGABYTES, CALL, SHUFFLED = 300, 5, 1.5
PARTS = ["forms", "operations", "algebra", "cliffs", "improving", "crafted", "batch", "cascades"]


def compare(rows, inputs, rounds, tell):
    """The runs of each row by name, None for a command that the program lacks; each is told at once."""
    found = {}
    for row in rows:
        ours, theirs = row.argv(inputs)
        found[row.name] = None if lacks(ours) else compared(ours, theirs, rounds, limit=row.limit)
        tell(inputs.size, row.name, found[row.name])
    return found


def show(size, name, sides):
    """Shows a row as a line of its own."""
    print(tables.side_by_side_line(size, name, sides) if sides else tables.missing_line(size, name), flush=True)


def note(size, name, _sides):
    """Says how far the work is, where the table comes at its end."""
    print(f"{size} {name}", file=sys.stderr, flush=True)


def passes(rows, found):
    """Whether a row passes its bounds or is missing. Shows which do."""
    past = [row.name for row in rows if not found[row.name] or found[row.name].time() > row.time or found[row.name].memory() > row.memory]
    if past:
        print(f"\nPast their bounds: {'; '.join(past)}")
    return bool(past)


def by_size(rows, words, scratch, behind=lambda inputs: False):
    """Shows the rows at each size, and what is to be shown behind the last. Gives the runs, and whether a bound is passed."""
    found, over = {}, False
    print(tables.head("Arcs", "Command", "fst: s, MiB", "OpenFst: s, MiB", "time", "in pairs of runs", "memory"))
    for size in words.sizes:
        with tempfile.TemporaryDirectory(dir=scratch) as folder:
            inputs = Inputs(words.fst, folder, size)
            found[size] = compare(rows, inputs, words.rounds, show)
            if size == words.sizes[-1]:
                over = behind(inputs)
    return found, over or (words.sizes[-1] >= BOUND_SIZE and passes(rows, found[words.sizes[-1]]))


def reading_alone(inputs, rounds):
    """Megabytes and megabytes a second of reading a binary file whose machine prints as nothing."""
    with open(inputs.words("print {dense}", "ours")[2], "rb") as file:
        content = bytearray(file.read())
    # The machine's start, behind the magic number, the two type names, the version, the flags and the properties; with none
    # nothing is printed.
    content[START : START + 8] = b"\xff" * 8
    silent, printed = inputs.path("silent"), inputs.path("silent.printed")
    with open(silent, "wb") as file:
        file.write(content)
    seconds = median(measured([inputs.fst, "print", silent, printed]).seconds for _ in range(rounds))
    if os.path.getsize(printed) != 0:
        sys.exit("a machine without a start is printed")
    return len(content) / 1e6, len(content) / 1e6 / seconds


def shuffled_alone(inputs, rounds):
    """How much more texts with gaps cost than the dense one: medians of runs that alternate, so that they share slow minutes."""
    commands = [inputs.words(f"compile {{{name}.text}} {{out}}", "ours") for name in ("dense", "gaps", "wide_gaps")]
    dense, *others = (median(run.seconds for run in runs) for runs in in_turn(commands, rounds))
    return [other / dense for other in others]


def call_alone(inputs):
    """Milliseconds of a whole call that has next to nothing to do but to read its words."""
    argv = inputs.words("compile --arc_type=minmax --acceptor --keep_state_numbering - {out}", "ours")
    return 1000 * mean(measured(argv).seconds for _ in range(100))


def forms_alone(inputs, rounds):
    """Shows what is measured of our program alone. Gives whether a bound is passed."""
    megabytes, rate = reading_alone(inputs, rounds)
    print(f"\nReading a binary file of {megabytes:.1f} MB: {rate:.0f} MB/s")
    gaps, wide_gaps = shuffled_alone(inputs, 5 * rounds)
    print(f"\nShuffled numbers against the dense text: gaps of 7 {gaps:.2f} times, gaps of 1000 {wide_gaps:.2f} times")
    call = call_alone(inputs)
    print(f"\nA call with three options and an empty text: {call:.1f} ms")
    return inputs.size >= BOUND_SIZE and (rate < MEGABYTES or call > CALL or max(gaps, wide_gaps) > SHUFFLED)


def grows(found):
    """Shows seconds for 10^6 arcs by size. Gives whether an operation takes too long for ten times the arcs."""
    print("\n" + tables.seconds_by_size(found))
    sizes = sorted(found)
    over = False
    for name in [name for name, sides in found[sizes[-1]].items() if sides]:
        times = [found[size][name].seconds()[0] for size in sizes]
        # A run of few milliseconds is mostly the start of the program.
        over = over or any(more > GROWTH * max(less, 0.005) for less, more in zip(times, times[1:]))
    return over


def forms(rows, words, scratch):
    """Shows `compile` and `print` beside OpenFst's tools. Gives whether a bound is passed."""
    return by_size(rows, words, scratch, lambda inputs: forms_alone(inputs, words.rounds))[1]


def operations(rows, words, scratch):
    """Shows operations, or the algebra, beside OpenFst's tools. Gives whether a bound is passed."""
    found, over = by_size(rows, words, scratch)
    return grows(found) or over


def cliffs(rows, words, scratch):
    """Shows the corners beside OpenFst's tools, which have one size. Gives whether a bound is passed."""
    words = argparse.Namespace(**vars(words) | {"sizes": words.sizes[-1:]})
    over = by_size(rows, words, scratch)[1]
    if words.large:
        over = by_size(LARGE, words, scratch)[1] or over
    return over


def one_table(rows, words, scratch):
    """Shows the rows in a table with a line for each. Gives whether a bound is passed."""
    found = {}
    for size in words.sizes:
        with tempfile.TemporaryDirectory(dir=scratch) as folder:
            found[size] = compare(rows, Inputs(words.fst, folder, size), words.rounds, note)
    print(tables.all_commands(found))
    return words.sizes[-1] >= BOUND_SIZE and passes(rows, found[words.sizes[-1]])


def read_words():
    """The words of the command line."""
    words = argparse.ArgumentParser(description=__doc__, formatter_class=argparse.RawDescriptionHelpFormatter)
    words.add_argument("--fst", default="out/fst", type=os.path.abspath)
    words.add_argument("--sizes", default="10000,100000,1000000", type=lambda text: sorted(map(int, text.split(","))))
    words.add_argument("--rounds", type=int, default=5)
    words.add_argument("--only", choices=PARTS)
    words.add_argument("--rows", default="", type=re.compile, help="a pattern: only rows whose names have it")
    words.add_argument("--keys", type=int, default=KEYS, help="how many crafted keys")
    words.add_argument("--lines", type=int, default=LINES, help="how many lines a batch has")
    words.add_argument("--limit", type=int, default=LIMIT, help="the most seconds for counting the instructions of a row")
    words.add_argument("--folder", default="/dev/shm", help="where the files stand meanwhile")
    for flag in "--large", "--table", "--growth", "--floors", "--gate":
        words.add_argument(flag, action="store_true")
    return words.parse_args()


def measure(words, scratch):
    """Shows what the words ask for. Gives whether a bound is passed."""
    if words.floors:
        return floors(words, scratch)
    wanted = {"forms": FORMS, "operations": OPERATIONS, "algebra": ALGEBRA, "cliffs": CLIFFS}
    wanted = {part: [row for row in rows if words.rows.search(row.name)] for part, rows in wanted.items()}
    if words.only:
        wanted = {part: rows if part == words.only else [] for part, rows in wanted.items()}
    commands = [row for part in ("forms", "operations", "algebra") for row in wanted[part]]
    if words.table:
        return one_table(commands, words, scratch)
    if words.growth:
        return growth(words.fst, commands, words.sizes, scratch, words.limit)
    over = False
    for part, shown in ("forms", forms), ("operations", operations), ("algebra", operations), ("cliffs", cliffs):
        if wanted[part]:
            over = shown(wanted[part], words, scratch) or over
            print()
    if words.only in (None, "improving"):
        over = improving(words, scratch) or over
        print()
    if words.only in (None, "crafted"):
        over = crafted(words.fst, words.rounds, scratch, words.keys, lambda name: words.rows.search(name)) or over
        print()
    if words.only in (None, "batch"):
        over = batch(words.fst, words.rounds, scratch, words.lines) or over
        print()
    if words.only == "cascades":
        over = cascades(words.fst, words.rounds, scratch) or over
    return over


def main():
    words = read_words()
    if not shutil.which("fstcompile"):
        sys.exit("OpenFst's tools are not here: apt-get install libfst-tools")
    if words.growth and not shutil.which("valgrind"):
        sys.exit("what counts instructions is not here: apt-get install valgrind")
    adopt()
    with tempfile.TemporaryDirectory(dir=words.folder) as scratch:
        over = measure(words, scratch)
    sys.exit(1 if over and words.gate else 0)


if __name__ == "__main__":
    main()
