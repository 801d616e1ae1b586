"""Cascades of two machines: `batch` beside a program over OpenFst's library that composes line by line.

Two cascades are real. `analysis`: Debian's English analyser of Apertium, then its English and Spanish dictionary, both over bytes;
its lines are English words. `spelling`: at most one edit over the letters a to z, then the tree of English words; its lines are
such words with up to two letters wrong. The others are those that `fst make` draws. The bounds
are what is wanted of `batch`; those of the drawn machines are not met yet.
"""
import os
import random
import shutil
import subprocess
import sys
import tempfile
from statistics import median

from inputs import Inputs
from measuring import in_turn
from tables import head

HERE = os.path.dirname(os.path.abspath(__file__))
SCRIPTS = os.path.join(os.path.dirname(HERE), "scripts")
ANALYSER = "/usr/share/apertium/apertium-eng-spa/eng-spa"
WORDS = "/usr/share/dict/american-english"
LETTERS = "abcdefghijklmnopqrstuvwxyz"
# How many lines the real cascades get.
REAL_LINES = 10_000
# Rows: cascade, lines, best paths, and how much of the time of the other program is allowed.
ROWS = [
    ("drawn", 1_000, 1, 1.1),
    ("drawn", 10_000, 1, 0.6),
    ("analysis", REAL_LINES, 1, 0.6),
    ("analysis", REAL_LINES, 5, 0.6),
    ("spelling", REAL_LINES, 1, 0.6),
    ("spelling", REAL_LINES, 5, 0.6),
]
# Parts of the time of one worker that two and four may take by the clock.
SHARES = {2: 0.6, 4: 0.4}


def run(*argv, stdin=None, stdout=None):
    """Runs a program, which has to succeed."""
    subprocess.run(argv, check=True, stdin=stdin, stdout=stdout)


def script(name, *words):
    """Runs one of the repository's scripts."""
    run(sys.executable, os.path.join(SCRIPTS, name), *words)


class Files:
    """The machines and lines of the cascades, as both programs read them; each is made when it is first asked for."""

    def __init__(self, fst, folder):
        self.fst, self.folder, self.made = fst, folder, {}

    def path(self, name):
        return os.path.join(self.folder, name)

    def compiled(self, name, *options):
        """The binary files of a text of arcs with numbers, in order of input labels, for both programs."""
        text, ours, theirs = self.path(name), self.path(f"{name}.ours"), self.path(f"{name}.theirs")
        run(self.fst, "compile", *options, text, f"{ours}.unsorted")
        run(self.fst, "arcsort", "--sort_type=ilabel", f"{ours}.unsorted", ours)
        run("fstcompile", *options, text, theirs)
        return ours, theirs

    def drawn(self):
        """The machines and lines that `fst make` draws."""
        inputs = Inputs(self.fst, self.folder, max(lines for name, lines, *_ in ROWS if name == "drawn"))
        paths = [inputs.words(f"{{{name}.text}}", "ours")[-1] for name in ("cascade", "other_cascade", "lines")]
        for name, path in zip(("drawn_first", "drawn_second", "drawn_lines"), paths):
            shutil.copy(path, self.path(name))
        return ["drawn_first", "drawn_second"], "drawn_lines"

    def dictionary(self, name):
        """One of Apertium's machines as a text over bytes."""
        with open(self.path(f"{name}.att"), "w") as out:
            run("lt-print", f"{ANALYSER}.{name}.bin", stdout=out)
        script("fst-from-att", "--from=lttoolbox", self.path(f"{name}.att"), self.path(f"{name}.named"), self.path(f"{name}.names"))
        script("fst-to-bytes", self.path(f"{name}.named"), self.path(name))

    def analysis(self):
        """The analyser and the dictionary, whose final states get a loop over all bytes: it reads the tags that are left."""
        self.dictionary("automorf")
        self.dictionary("autobil")
        with open(self.path("autobil")) as text:
            rows = [line.split() for line in text]
        loop = 1 + max(int(state) for row in rows for state in (row[:1] if len(row) < 3 else row[:2]))
        with open(self.path("autobil"), "a") as out:
            for row in rows:
                if len(row) < 3:
                    out.write(f"{row[0]}\t{loop}\t0\t0\n")
            for byte in range(1, 256):
                out.write(f"{loop}\t{loop}\t{byte}\t{byte}\n")
            out.write(f"{loop}\n")
        draw = random.Random(1)
        with open(WORDS, encoding="utf-8") as file:
            words = draw.sample(file.read().split(), REAL_LINES)
        self.write_lines("analysis_lines", words)
        return ["automorf", "autobil"], "analysis_lines"

    def spelling(self):
        """A machine of one edit, and the words of small letters alone."""
        with open(self.path("edits"), "w") as out:
            for letter in map(ord, LETTERS):
                out.write(f"0\t0\t{letter}\t{letter}\n0\t1\t{letter}\t0\t1\n0\t1\t0\t{letter}\t1\n1\t1\t{letter}\t{letter}\n")
                for other in map(ord, LETTERS):
                    if other != letter:
                        out.write(f"0\t1\t{letter}\t{other}\t1\n")
            out.write("0\n1\n")
        with open(WORDS, encoding="utf-8") as file:
            words = sorted({word for word in file.read().split() if set(word) <= set(LETTERS)})
        self.write_lines("word_list", words)
        script("fst-from-words", "--bytes", self.path("word_list"), self.path("tree.acceptor"))
        with open(self.path("tree.acceptor")) as text, open(self.path("tree"), "w") as out:
            for line in text:
                row = line.split()
                out.write("\t".join(row if len(row) < 3 else row[:3] + row[2:]) + "\n")
        draw = random.Random(2)
        self.write_lines("spelling_lines", [misspelt(draw, draw.choice(words)) for _ in range(REAL_LINES)])
        return ["edits", "tree"], "spelling_lines"

    def write_lines(self, name, lines):
        with open(self.path(name), "w", encoding="utf-8") as out:
            out.writelines(f"{line}\n" for line in lines)

    def machines(self, name):
        """The compiled machines of a cascade, for both programs, and the file of its lines."""
        if name not in self.made:
            texts, lines = getattr(self, name)()
            self.made[name] = list(zip(*map(self.compiled, texts))), self.path(lines)
        return self.made[name]


def misspelt(draw, word):
    """The word with up to two letters put in, left out or replaced."""
    letters = list(word)
    for _ in range(draw.randrange(3)):
        place = draw.randrange(len(letters) + 1)
        letters[place : place + draw.randrange(2)] = draw.choices(LETTERS, k=draw.randrange(2))
    return "".join(letters)


def front(path, count):
    """A file of the first lines of another."""
    short = f"{path}.{count}"
    with open(path, "rb") as lines, open(short, "wb") as out:
        out.writelines(line for _, line in zip(range(count), lines))
    return short


def commands(files, other, row):
    """What both programs run for a row, and where they write."""
    name, count, best, _ = row
    (ours, theirs), lines = files.machines(name)
    lines, out = front(lines, count), files.path("out")
    return (
        [files.fst, "batch", f"--nshortest={best}", *ours, lines, f"{out}.ours"],
        [other, "--nshortest", str(best), *theirs, lines, f"{out}.theirs"],
    )


def weights(path):
    """The numbers of lines with their weights: of equal paths the two programs may list others."""
    with open(path, "rb") as file:
        return [line.split(b"\t")[:2] for line in file]


def beside(files, other, rounds):
    """Shows each cascade beside the other program. Gives whether a bound is passed."""
    past = []
    print(head("cascade", "lines, paths", "fst: s, MiB", "line by line: s, MiB", "time", "memory"))
    for row in ROWS:
        name, count, best, bound = row
        ours, theirs = commands(files, other, row)
        runs, others = in_turn([ours, theirs], rounds)
        if weights(ours[-1]) != weights(theirs[-1]):
            sys.exit(f"{name}: the two programs give other weights")
        seconds, more = (median(run.seconds for run in side) for side in (runs, others))
        peak, other_peak = (median(run.peak for run in side) / 1024 for side in (runs, others))
        figures = f"{seconds:.2f}, {peak:.0f} | {more:.2f}, {other_peak:.0f} | {seconds / more:.2f} | {peak / other_peak:.2f}"
        print(f"| {name} | {count:,}, {best} | {figures} |", flush=True)
        if seconds / more > bound:
            past.append(f"{name} of {count:,} lines, {best}")
    if past:
        print(f"\nPast their bounds: {'; '.join(past)}")
    return bool(past)


def shared(files, rounds):
    """Shows what more workers take by the clock. Gives whether a bound is passed."""
    (ours, _), lines = files.machines("drawn")
    lines = front(lines, 10_000)
    argv = [[files.fst, "batch", f"--workers={workers}", *ours, lines, files.path("out")] for workers in (1, *SHARES)]
    alone, *others = (median(run.clock for run in runs) for runs in in_turn(argv, rounds))
    print("\n" + ", ".join(f"{workers} workers {clock / alone:.2f} of the time of one" for workers, clock in zip(SHARES, others)) + ", by the clock")
    return any(clock / alone > bound for bound, clock in zip(SHARES.values(), others))


def cascades(fst, rounds, scratch):
    """Shows the cascades beside a program over OpenFst's library. Gives whether a bound is passed."""
    lacking = [what for what in ("lt-print", "g++", "fstcompile") if not shutil.which(what)]
    lacking += [file for file in (f"{ANALYSER}.autobil.bin", WORDS, "/usr/include/fst/fstlib.h") if not os.path.exists(file)]
    if lacking:
        print(f"Cascades are not measured: {', '.join(lacking)} is not here (libfst-dev g++ lttoolbox-dev apertium-eng-spa wamerican).")
        return False
    with tempfile.TemporaryDirectory(dir=scratch) as folder:
        other = os.path.join(folder, "line_by_line")
        run("g++", "-O2", "-std=c++17", "-o", other, os.path.join(HERE, "line_by_line.cc"), "-lfst", "-ldl")
        files = Files(fst, folder)
        over = beside(files, other, rounds)
        return shared(files, rounds) or over
