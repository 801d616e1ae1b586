"""The files that the rows read: texts that `machines.py` writes, and what each program makes of them itself.

A file is made when a row first names it. In the words of a row `{dense}` is the file of the machine `dense` that the program of
the side compiled, `{dense.text}` its text, and `{out}` where the program writes.
"""
import os
import subprocess
import sys
from typing import Callable, NamedTuple

MACHINES = os.path.join(os.path.dirname(os.path.abspath(__file__)), "machines.py")
# The most states that a machine has.
MOST_STATES = 4_194_304
# How many labels are changed, and how many names a table has.
PAIRS, NAMES = 1000, 5001
# The labels of the root and of the rule that it calls.
ROOT, CALL = 1_000_000, 1_000_001
# How many arcs the composition of two machines of one state each would have: two machines of n states make n * n times
# as many.
PAIR_ARCS = 14
# How many layers a lattice has, and how many arcs a state of it.
LAYERS, LATTICE_FAN = 100, 5
# How many states the lesser of two acceptors has, and how many arcs a state of both.
FEW_STATES, FEW_FAN = 50, 20


class Recipe(NamedTuple):
    """How files are written: the mode of `machines.py`, their names, and its numbers by the number of arcs of the rows."""

    mode: str
    names: tuple
    numbers: Callable = lambda size: [size]


def chain_states(size):
    """How many states a long chain has: for 10^6 arcs one fewer than the most, since some commands add one."""
    return MOST_STATES - 1 if size >= 1_000_000 else 4 * size


RECIPES = [
    Recipe("--dense", ("dense",)),
    Recipe("--dense", ("gaps",), lambda size: [size, 7]),
    Recipe("--dense", ("wide_gaps",), lambda size: [size, 1000]),
    Recipe("--named", ("table", "named"), lambda size: [NAMES, size]),
    Recipe("--named", ("wide_table", "wide_named"), lambda size: [size // 10, size]),
    Recipe("--symbols", ("long_table",)),
    Recipe("--chain", ("bare",), lambda size: [1]),
    Recipe("--pairs", ("pairs",), lambda size: [PAIRS]),
    Recipe("--rules", ("root", "rule"), lambda size: [CALL, size]),
    Recipe("--pair", ("first", "second"), lambda size: [round((size / PAIR_ARCS) ** 0.5)]),
    Recipe("--useless", ("useless",)),
    Recipe("--epsilons", ("epsilons",)),
    Recipe("--lattice", ("lattice",), lambda size: [LAYERS, max(2, size // (LAYERS * LATTICE_FAN))]),
    Recipe("--words", ("words",)),
    Recipe("--words", ("other_words",), lambda size: [size // 2, 2]),
    Recipe("--acceptors", ("many", "few"), lambda size: [max(1, size // (FEW_STATES * FEW_FAN)), FEW_STATES, FEW_FAN]),
    Recipe("--confusion", ("confusion",)),
    Recipe("--confusion", ("small_confusion",), lambda size: [100_000]),
    Recipe("--classes", ("classes",)),
    Recipe("--cycle", ("cycle",)),
    # A batch, of as many lines as the size.
    Recipe("--cascade", ("cascade", "other_cascade", "lines")),
    # The corners.
    Recipe("--word", ("word", "lexicon"), lambda size: [20, size // 10]),
    Recipe("--hubs", ("hub", "other_hub"), lambda size: [100, size // 10]),
    Recipe("--equal", ("equal", "other_equal"), lambda size: [2 * round(size**0.5)]),
    Recipe("--huge", ("huge",), lambda size: [30 * size]),
    Recipe("--between", ("between",)),
    Recipe("--chain", ("chain",), lambda size: [chain_states(size)]),
    Recipe("--epsilon-chain", ("epsilon_chain",), lambda size: [1000]),
    Recipe("--epsilon-chain", ("long_epsilon_chain",), lambda size: [10_000]),
    Recipe("--forks", ("forks",), lambda size: [size // 250]),
    Recipe("--fan", ("fan",), lambda size: [size // 10]),
    Recipe("--doubles", ("doubles",)),
    Recipe("--orders", ("order", "other_order", "half")),
    Recipe("--long-names", ("inames", "onames", "long_named")),
]
# The tables that machines carry for both sides.
CARRIED = {"bare": "long_table", "wide_named": "wide_table"}
RECIPE_OF = {name: recipe for recipe in RECIPES for name in recipe.names}
# The deterministic machines of others, which OpenFst makes and both programs read as text.
DETERMINED = {"trie": "words", "other_trie": "other_words", "network": "confusion"}


def without_weights(lines):
    """The lines of a text without its weights."""
    for line in lines:
        fields = line.split()
        yield "\t".join(fields[: 4 if len(fields) > 2 else 1]) + "\n"


def with_another_weight(lines):
    """The lines of a text, the last final state of which weighs one more."""
    lines = list(lines)
    place = max(place for place, line in enumerate(lines) if len(line.split()) < 3)
    state, *weight = lines[place].split()
    lines[place] = f"{state}\t{1 + sum(map(int, weight))}\n"
    return lines


def with_moved_weights(lines):
    """The lines of a text whose start is state 0, with weights moved along the arcs, so that each word weighs as before."""
    def carried(state):
        return int(state) * 7919 % 50

    for line in lines:
        fields = line.split()
        if len(fields) > 2:
            weight = sum(map(int, fields[4:])) + carried(fields[0]) - carried(fields[1])
            yield "\t".join([*fields[:4], str(weight)]) + "\n"
        else:
            yield f"{fields[0]}\t{sum(map(int, fields[1:])) + carried(fields[0])}\n"


# Machines with other weights: which they are made of, and how.
WEIGHED = {
    "bare_trie": ("trie", without_weights),
    "bare_other_trie": ("other_trie", without_weights),
    "bare_classes": ("classes", without_weights),
    "changed_trie": ("trie", with_another_weight),
    "moved_trie": ("trie", with_moved_weights),
    "moved_classes": ("classes", with_moved_weights),
}


def piped(commands, out):
    """Writes to a file what commands make that read each other's output."""
    with open(out, "wb") as file:
        before = None
        runs = []
        for place, argv in enumerate(commands):
            last = place + 1 == len(commands)
            runs.append(subprocess.Popen(argv, stdin=before, stdout=file if last else subprocess.PIPE))
            if before:
                before.close()
            before = runs[-1].stdout
    if any(run.wait() for run in runs):
        sys.exit(f"no {out}: a command of {commands} fails")


class File:
    """A machine as a program of one side has it."""

    def __init__(self, inputs, name, side):
        self.inputs, self.name, self.side = inputs, name, side

    def command(self, *words):
        """The words of a command of this side's program."""
        return [self.inputs.fst, *words] if self.side == "ours" else ["fst" + words[0], *words[1:]]

    def made(self, suffix, words):
        """A file with this suffix; words by a function of its name, where it is not there."""
        path = self.inputs.path(f"{self.name}.{self.side}{suffix}")
        if not os.path.exists(path):
            subprocess.run(self.command(*words(path)), check=True)
        return path

    def __format__(self, _form):
        return self.made("", lambda path: ["compile", self.text, path])

    @property
    def text(self):
        """Its text."""
        return self.inputs.text(self.name)

    @property
    def letters(self):
        """Its text with one label an arc."""
        path = self.inputs.path(self.name + ".letters")
        if not os.path.exists(path):
            piped([["fstcompile", self.text], ["fstprint", "--acceptor"]], path)
        return path

    @property
    def carrying(self):
        """The machine with a table that it carries for both sides."""
        table = self.inputs.text(CARRIED[self.name])
        return self.made(".carrying", lambda path: ["compile", f"--isymbols={table}", f"--osymbols={table}", "--keep_isymbols", "--keep_osymbols", self.text, path])

    @property
    def sorted(self):
        """The machine with the arcs of each state by their labels."""
        return self.made(".sorted", lambda path: ["arcsort", f"{self}", path])

    @property
    def encoded(self):
        """What its encoding by labels is; the codex stands beside it."""
        return self.made(".encoded", lambda path: ["encode", "--encode_labels", f"{self}", path[: -len("encoded")] + "codex", path])

    @property
    def codex(self):
        """The codex of its encoding."""
        return self.encoded[: -len("encoded")] + "codex"

    @property
    def lexicographic(self):
        """The machine of pairs of costs; OpenFst's tools do not have its arc type."""
        return self.made(".lexicographic", lambda path: ["compile", "--arc_type=lexicographic", self.text, path])

    @property
    def numbered(self):
        """The machine with the states that are written."""
        return self.made(".numbered", lambda path: ["compile", "--keep_state_numbering", self.text, path])

    @property
    def minmax(self):
        """The machine of greatest costs; OpenFst's tools do not read its arc type."""
        return self.made(".minmax", lambda path: ["compile", "--arc_type=minmax", self.text, path])

    @property
    def long_named(self):
        """The machine of labels with long names."""
        tables = ["--isymbols=" + self.inputs.text("inames"), "--osymbols=" + self.inputs.text("onames")]
        return self.made(".named", lambda path: ["compile", *tables, self.text, path])


class Side(dict):
    """The names in the words of a row, for the program of one side."""

    def __init__(self, inputs, side):
        super().__init__(out=inputs.path("out." + side))
        self.inputs, self.side = inputs, side

    def __missing__(self, name):
        return File(self.inputs, name, self.side)


class Inputs:
    """The files for rows of so many arcs, in a folder."""

    def __init__(self, fst, folder, size):
        self.fst, self.folder, self.size = fst, folder, size

    def path(self, name):
        """Where a file of this name stands."""
        return os.path.join(self.folder, name)

    def text(self, name):
        """The text of this name, which is written where it is not there."""
        path = self.path(name + ".txt")
        if os.path.exists(path):
            return path
        if name in DETERMINED:
            piped([["fstcompile", self.text(DETERMINED[name])], ["fstdeterminize"], ["fstprint"]], path)
            return path
        if name in WEIGHED:
            other, change = WEIGHED[name]
            with open(self.text(other)) as lines, open(path, "w") as out:
                out.writelines(change(lines))
            return path
        recipe = RECIPE_OF[name]
        paths = [self.path(other + ".txt") for other in recipe.names]
        # A process of its own writes it, and gives its memory back.
        subprocess.run([sys.executable, MACHINES, recipe.mode, *paths, *map(str, recipe.numbers(self.size))], check=True)
        return path

    def words(self, template, side):
        """The words of a template for the program of a side."""
        words = template.format_map(Side(self, side)).split()
        return [self.fst, *words] if side == "ours" else ["fst" + words[0], *words[1:]]

    def forget(self, name):
        """Removes a text, which both programs have read."""
        os.remove(self.path(name + ".txt"))


def written(fst, folder, texts):
    """The inputs that these texts are, in a folder of their own: lines by name."""
    os.mkdir(folder)
    for name, lines in texts.items():
        with open(os.path.join(folder, name + ".txt"), "wb") as out:
            out.writelines(line if isinstance(line, bytes) else line.encode() for line in lines)
    return Inputs(fst, folder, 0)
