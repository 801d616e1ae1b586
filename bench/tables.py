"""What the tables look like."""
from statistics import median


def size_name(size):
    """A number of arcs, as a power of ten where it is one."""
    text = str(size)
    return f"10^{len(text) - 1}" if text.strip("0") == "1" else text


def head(*names):
    """The first two lines of a table."""
    return "| " + " | ".join(names) + " |\n" + "|---" * len(names) + "|"


def marks(sides):
    """What stands before the seconds and MiB of the second program, and before the ratios, where a limit ended a run of it."""
    return ("over ", "below ") if sides.is_cut() else ("", "")


def side_by_side_line(size, name, sides):
    """A row: seconds and MiB of both programs, and their ratios."""
    (s, t), (k, m), (over, below) = sides.seconds(), sides.peaks(), marks(sides)
    least, most = sides.spread()
    seconds = f"{s:.3f}, {k / 1024:.0f} | {over}{t:.3f}, {over}{m / 1024:.0f}"
    return f"| {size} | {name} | {seconds} | {below}{sides.time():.2f} | {least:.2f} to {most:.2f} | {below}{sides.memory():.2f} |"


def floor_line(size, name, theirs, floor, ours):
    """A row of floors: medians of the runs of OpenFst, of the C program and of ours, and their ratios to OpenFst's."""
    seconds, peaks = ([median(getattr(run, field) for run in runs) for runs in (theirs, floor, ours)] for field in ("seconds", "peak"))
    figures = [f"{s:.4f}, {k / 1024:.0f}" for s, k in zip(seconds, peaks)]
    ratios = [f"{s / seconds[0]:.3f}, {k / peaks[0]:.2f}" for s, k in zip(seconds, peaks)]
    return f"| {size} | {name} | {figures[0]} | {figures[1]} | {ratios[1]} | {figures[2]} | {ratios[2]} |"


def times_line(name, sides):
    """A row of our program alone on two inputs: the seconds on the second and on the first, and how many times as long that is."""
    (first, second), (least, most) = sides.seconds(), sides.spread()
    return f"| {name} | {second:.3f} | {first:.3f} | {sides.time():.2f} | {least:.2f} to {most:.2f} |"


def missing_line(size, name):
    """A row of a command that the program does not have."""
    return f"| {size} | {name} | the program does not have this command | | | | |"


def all_commands(found):
    """A table with one line a row: the ratios for lesser sizes, and for the greatest what both programs take, the ratios of the
    medians, of single runs one behind the other, of the best runs, and of the memory."""
    sizes = sorted(found)
    *lesser, greatest = sizes
    names = [f"{size_name(size)}: time, memory" for size in lesser]
    largest = f"{size_name(greatest)}, `fst`: s, MiB"
    lines = [head("Command and input", *names, largest, "OpenFst: s, MiB", "time", "in pairs of runs", "best runs", "memory")]
    for name, sides in found[greatest].items():
        if sides is None:
            continue
        ratios = [f"{found[size][name].time():.2f}, {found[size][name].memory():.2f}" for size in lesser]
        (s, t), (k, m), (least, most), (over, below) = sides.seconds(), sides.peaks(), sides.spread(), marks(sides)
        figures = [f"{s:.3f}, {k / 1024:.0f}", f"{over}{t:.3f}, {over}{m / 1024:.0f}", f"{below}{sides.time():.2f}", f"{least:.2f} to {most:.2f}"]
        lines.append("| " + " | ".join([name, *ratios, *figures, f"{below}{sides.best():.2f}", f"{below}{sides.memory():.2f}"]) + " |")
    return "\n".join(lines)


def seconds_by_size(found):
    """A table of the seconds of our program for 10^6 arcs by size."""
    sizes = sorted(found)
    lines = [head("Seconds for 10^6 arcs", *(f"of {size}" for size in sizes))]
    for name, sides in found[sizes[-1]].items():
        if sides:
            seconds = (1e6 * found[size][name].seconds()[0] / size for size in sizes)
            lines.append(f"| {name} | " + " | ".join(f"{figure:.2f}" for figure in seconds) + " |")
    return "\n".join(lines)
