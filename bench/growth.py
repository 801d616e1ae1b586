"""How instructions grow with the arcs: no load of the machine changes them."""
import math
import tempfile
import time

from inputs import Inputs
from measuring import counts_in_hardware, instructions, lacks
from tables import head, size_name

# The greatest power of the number of arcs by which the instructions may grow from one size to the next.
MOST_POWER = 1.1
# A command is not counted at a size where that would take more seconds.
LIMIT = 300


def power(before, after, sizes):
    """The power of the number of arcs by which a count grows."""
    return math.log(after / before) / math.log(sizes[1] / sizes[0])


def counted(fst, rows, sizes, scratch, limit):
    """The instructions of each row by size, and None where they are not counted: where the program does not have the command,
    or counting takes too long, which is told from the size before."""
    hardware = counts_in_hardware()
    found = {row.name: [] for row in rows}
    spent = {}
    for size in sizes:
        with tempfile.TemporaryDirectory(dir=scratch) as folder:
            inputs = Inputs(fst, folder, size)
            for row in rows:
                before, took = spent.get(row.name, (size, 0))
                argv = inputs.words(row.words, "ours")
                if took * size / before > limit or lacks(argv):
                    found[row.name].append(None)
                    continue
                began = time.monotonic()
                found[row.name].append(instructions(argv, hardware))
                spent[row.name] = size, time.monotonic() - began
    return found


def growth(fst, rows, sizes, scratch, limit):
    """Shows the millions of instructions of each row by size and how they grow. Gives whether some grow by too great a power."""
    steps = list(zip(sizes, sizes[1:]))
    powers = [f"power, {size_name(less)} to {size_name(more)}" for less, more in steps]
    print(head("Millions of instructions", *map(size_name, sizes), *powers), flush=True)
    over = False
    for name, counts in counted(fst, rows, sizes, scratch, limit).items():
        figures = ["" if count is None else f"{count / 1e6:.1f}" for count in counts]
        for pair, step in zip(zip(counts, counts[1:]), steps):
            grows = None if None in pair else power(*pair, step)
            over = over or (grows is not None and grows > MOST_POWER)
            figures.append("" if grows is None else f"{grows:.2f}")
        print(f"| {name} | " + " | ".join(figures) + " |", flush=True)
    return over
