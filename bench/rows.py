"""The rows: a command on an input, the words of both programs, and how much of OpenFst's time and memory it may take."""
from typing import NamedTuple, Optional

from inputs import CALL, MOST_STATES, ROOT

# The bounds of a row on the ratios of time and of memory, where it says nothing else.
TIME, MEMORY = 0.5, 1.7
# How many states a command may make.
MOST = f"--max_states={MOST_STATES}"


class Row(NamedTuple):
    """A command: the words of our program, in which names in braces are inputs (`inputs.py`), and of OpenFst's where they differ;
    or the words of our own program that it is measured beside. OpenFst's tool may have a limit of processor seconds."""

    name: str
    words: str
    time: float = TIME
    memory: float = MEMORY
    theirs: str = ""
    beside: str = ""
    limit: Optional[int] = None

    def argv(self, inputs):
        """The words of both programs, or of both commands, with the files of these inputs."""
        ours = inputs.words(self.words, "ours")
        return ours, inputs.words(self.beside, "ours") if self.beside else inputs.words(self.theirs or self.words, "theirs")


NAMES = "--isymbols={table.text} --osymbols={table.text}"
# `compile` and `print`. The bound of shuffled numbers is that of the dense text, half as much again.
FORMS = [
    Row("compile", "compile {dense.text} {out}", 0.12, 1.05),
    Row("compile, a trie as an acceptor", "compile --acceptor {trie.letters} {out}", 0.25, 1.5),
    Row("compile, shuffled, gaps of 7", "compile {gaps.text} {out}", 0.3, 1.5),
    Row("compile, shuffled, gaps of 1000", "compile {wide_gaps.text} {out}", 0.3, 1.5),
    Row("print", "print {dense} {out}", 0.15, 1.25),
    Row("compile, names of labels", f"compile {NAMES} {{named.text}} {{out}}", 1 / 3, 1.5),
    Row("print, names of labels", f"print {NAMES} {{dense}} {{out}}", 1 / 3, 1.75),
    # A table as long as the machine has arcs, and a text of one state. It is kept by `indexmap` (`docs/DECISIONS.md`).
    Row("a symbol table by itself", "compile --isymbols={long_table.text} {bare.text} {out}", 1.3, 1.7),
    # The same table on both sides of a file, and two of a tenth as many names as there are arcs.
    # Wanted are 1.0 and 1.7, 0.4 and 1.3; each bound has a tenth more where the median comes that near.
    Row("print, two long tables in the file", "print {bare.carrying} {out}", 1.0, 1.87),
    Row("invert, two tables in the file", "invert {wide_named.carrying} {out}", 0.44, 1.43),
]
# As ours does, OpenFst's tool is to write no labels on the arcs into and out of a call.
CALLS = "--call_arc_labeling=neither --return_arc_labeling=neither"
RULES = f"{{root}} {ROOT} {{rule}} {CALL}"
# The operations, on a random machine where no other is said.
OPERATIONS = [
    Row("union", "union {dense} {dense} {out}", 0.34, 1.0),
    Row("concat", "concat {dense} {dense} {out}", 0.34, 1.0),
    Row("closure", "closure {dense} {out}", 0.33, 1.1),
    Row("invert", "invert {dense} {out}", 0.33, 1.25),
    Row("project", "project {dense} {out}", 0.33, 1.25),
    Row("project, the output side", "project --project_output {dense} {out}", 0.33, 1.25, "project --project_type=output {dense} {out}"),
    # Arcs are put back here and there in the store, in one pass (`docs/DECISIONS.md`).
    Row("reverse", "reverse {dense} {out}", 0.3125, 0.8),
    Row("relabel", "relabel --relabel_ipairs={pairs.text} --relabel_opairs={pairs.text} {dense} {out}", 0.37, 1.25),
    Row("arcsort", "arcsort --sort_type=ilabel {dense} {out}", 0.37, 1.25),
    Row("arcsort, by output labels", "arcsort --sort_type=olabel {dense} {out}", 0.37, 1.25),
    Row("connect", "connect {dense} {out}", 0.32, 1.2),
    Row("connect, a fifth of it useless", "connect {useless} {out}", 0.32, 1.2),
    Row("info", "info {dense}", 0.09, 1.0),
    Row("shortestdistance", "shortestdistance {dense} {out}", 0.4, 1.0),
    Row("shortestdistance, best first", "shortestdistance --queue_type=shortest {dense} {out}", 1.0),
    Row("shortestdistance, backward", "shortestdistance --reverse {dense} {out}"),
    Row("encode", "encode --encode_labels {dense} {out}.codex {out}", 0.3, 0.7),
    Row("encode, labels and weights", "encode --encode_labels --encode_weights {dense} {out}.codex {out}", 0.17, 0.7),
    Row("encode --decode", "encode --decode {dense.encoded} {dense.codex} {out}", 0.08, 0.6),
    Row("replace", f"replace {RULES} {{out}}", 0.17, 0.8, f"replace {CALLS} {RULES} {{out}}"),
    Row("compose", f"compose {MOST} {{first}} {{second}} {{out}}", 0.24, 1.2, "compose {first} {second} {out}"),
]
# How much the sets of words may take.
SETS = 0.35, 1.2
# The algebra. The words are a lexicon of chains, `trie` is its deterministic machine, `classes` is deterministic with cycles,
# `cycle` is one long cycle, `confusion` has subsets of several states, and `network` is its deterministic machine.
ALGEBRA = [
    Row("rmepsilon", "rmepsilon {epsilons} {out}", 0.1, 1.0),
    Row("rmepsilon, first in first out", "rmepsilon --queue_type=fifo {epsilons} {out}", 0.5, 1.0),
    Row("shortestdistance, best first, half epsilon", "shortestdistance --queue_type=shortest {epsilons} {out}", 1.0),
    Row("shortestdistance, backward, half epsilon", "shortestdistance --reverse {epsilons} {out}"),
    Row("shortestpath", "shortestpath {lattice} {out}", 1.0),
    Row("shortestpath, ten", "shortestpath --nshortest=10 {lattice} {out}"),
    Row("shortestpath, a thousand", "shortestpath --nshortest=1000 {lattice} {out}"),
    # OpenFst's tool is not known to end at 10^6 arcs.
    Row("shortestpath, a thousand strings", "shortestpath --unique --nshortest=1000 {confusion} {out}", 0.2, 0.5, limit=60),
    Row("determinize, words", f"determinize {MOST} {{words}} {{out}}", theirs="determinize {words} {out}"),
    Row("determinize, a confusion network", f"determinize {MOST} {{confusion}} {{out}}", theirs="determinize {confusion} {out}"),
    Row("push, a trie", "push --push_weights {trie} {out}"),
    Row("push, with cycles", "push --push_weights {classes} {out}"),
    Row("prune, within 100", "prune --weight=100 {dense} {out}", 0.6, 1.3),
    Row("prune, a confusion network", "prune --weight=50 {confusion} {out}", 0.6, 1.3),
    Row("minimize, a trie", "minimize {trie} {out}"),
    Row("minimize, a confusion network", "minimize {network} {out}"),
    Row("minimize, with cycles", "minimize {classes} {out}"),
    Row("minimize, one cycle", "minimize {cycle} {out}"),
    # Sets of words. `many` and `few` are acceptors with cycles, of which the one makes the other larger, pair by pair.
    Row("intersect, a trie with itself", f"intersect {MOST} {{trie}} {{bare_trie}} {{out}}", *SETS, "intersect {trie} {bare_trie} {out}"),
    Row("intersect, half of the labels match", f"intersect {MOST} {{many}} {{few}} {{out}}", *SETS, "intersect {many} {few} {out}"),
    Row("difference, a trie less another", f"difference {MOST} {{trie}} {{bare_other_trie}} {{out}}", *SETS, "difference {trie} {bare_other_trie} {out}"),
    Row("difference, half of the labels match", f"difference {MOST} {{many}} {{few}} {{out}}", *SETS, "difference {many} {few} {out}"),
    Row("difference, nothing stays", f"difference {MOST} {{classes}} {{bare_classes}} {{out}}", *SETS, "difference {classes} {bare_classes} {out}"),
    Row("equivalent, a trie with its weights moved", f"equivalent {MOST} {{trie}} {{moved_trie}} {{out}}", 0.25, 0.5, "equivalent {trie} {moved_trie}"),
    Row("equivalent, a trie with another weight", f"equivalent {MOST} {{trie}} {{changed_trie}} {{out}}", 0.25, 0.5, "equivalent {trie} {changed_trie}"),
    Row("equivalent, with cycles", f"equivalent {MOST} {{classes}} {{moved_classes}} {{out}}", 0.25, 0.8, "equivalent {classes} {moved_classes}"),
    Row("equivalent, one cycle", f"equivalent {MOST} {{cycle}} {{cycle}} {{out}}", 0.6, 1.1, "equivalent {cycle} {cycle}"),
]
