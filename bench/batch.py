"""A batch: lines that are read through two machines, by more and more workers."""
import tempfile
from statistics import median

from inputs import Inputs
from measuring import in_turn, lacks
from tables import head

LINES = 1000
WORKERS = [1, 2, 4, 64]
FILES = "{cascade.numbered} {other_cascade.numbered} {lines.text} {out}"


def batch(fst, rounds, scratch, count=LINES):
    """Shows a batch of so many lines, and `make`, which draws the same ones. Gives whether the program lacks either."""
    rows = [f"batch --workers={workers} {FILES}" for workers in WORKERS] + [f"make --lines={count} {{out}}"]
    with tempfile.TemporaryDirectory(dir=scratch) as folder:
        inputs = Inputs(fst, folder, count)
        commands = [inputs.words(row, "ours") for row in rows]
        missing = [argv[1] for argv in commands if lacks(argv)]
        if missing:
            print(f"The program does not have {' and '.join(sorted(set(missing)))}.")
            return True
        print(head(f"{count} lines", "processor: s", "least, most", "MiB", "clock: s"))
        for row, runs in zip(rows, in_turn(commands, rounds)):
            seconds = [run.seconds for run in runs]
            peak, clock = median(run.peak for run in runs), median(run.clock for run in runs)
            name = row.split(" {")[0]
            print(f"| `{name}` | {median(seconds):.2f} | {min(seconds):.2f} to {max(seconds):.2f} | {peak / 1024:.0f} | {clock:.2f} |")
    return False
