"""The rows of crafted keys: inputs whose keys a stranger chose, each beside one with as many plain keys."""
import os
import random
import string
import tempfile
from itertools import product
from typing import Callable, NamedTuple

import crafted_keys as keys
from inputs import written
from measuring import compared, lacks
from rows import MOST
from tables import times_line

# How many keys, and how many states a machine has whose pairs are keys.
KEYS, PAIR_STATES = 20_000, 4096
# The states to which words of three letters lead; those that they pass are before them.
WORD_ENDS = range(4096, 8192)
# How many times as long as plain ones they may take: a search in a sorted map each, for those that find no slot or whose number
# another has. Twice is wanted.
MOST_TIMES = 4.0
# Behind so many seconds of both runs there are no more rounds.
LONG = 20
# The label and the end of the arcs that come together when epsilon arcs are taken away.
ILABEL, TARGET = 1, 2


class Kind(NamedTuple):
    """Keys of one table: what they are called, how they are crafted and drawn, the texts that have them, and the command."""

    name: str
    crafted: Callable
    plain: Callable
    texts: Callable
    words: str


def drawn(least, end):
    """Draws so many different numbers."""
    return lambda draw, count: draw.sample(range(least, end), count)


def chain_text(numbers):
    """A path through states that are written by these numbers."""
    lines = [f"{here}\t{there}\t1\t1\n" for here, there in zip(numbers, numbers[1:])]
    return {"machine": [*lines, f"{numbers[-1]}\n"]}


def table_text(names):
    """A symbol table with these names, and a machine of one state."""
    return {"table": [b"%b\t%d\n" % (name, place + 1) for place, name in enumerate(names)], "machine": ["0\n"]}


def numbered_table_text(labels):
    """A symbol table with these numbers, and a machine of one state."""
    return {"table": [f"n{place}\t{label}\n" for place, label in enumerate(labels)], "machine": ["0\n"]}


def relabel_text(labels):
    """A machine of one state with an arc for each label, and a new label for each."""
    return {"machine": [*(f"0\t0\t{label}\t1\n" for label in labels), "0\n"], "pairs": [f"{label}\t1\n" for label in labels]}


def entries_text(entries):
    """A machine of one state with an arc for each label and weight."""
    return {"machine": [*(f"0\t0\t{label}\t{label}\t{weight}\n" for label, weight in entries), "0\n"]}


def compose_text(pairs):
    """Two machines whose starts lead to these pairs of states. All states are final, and first in the text, in their order."""
    states = [f"{state}\n" for state in range(PAIR_STATES)]
    sides = ([f"0\t{pair[side]}\t{label}\t{label}\n" for label, pair in enumerate(pairs, 1)] for side in (0, 1))
    return {name: states + arcs for name, arcs in zip(("machine", "other"), sides)}


def subsets_text(subsets):
    """A machine whose start leads by one label each to a state and to another with a residual. They are first in the text."""
    states = [f"{state}\n" for state in range(1 + max(second for _, second, _ in subsets))]
    arcs = []
    for label, (first, second, residual) in enumerate(subsets, 1):
        arcs += [f"0\t{first}\t{label}\t{label}\n", f"0\t{second}\t{label}\t{label}\t{residual}\n"]
    return {"machine": states + arcs}


def merged_text(labels):
    """A start with an epsilon arc to a state that has an arc for each output label."""
    arcs = [f"1\t{TARGET}\t{ILABEL}\t{label}\n" for label in labels]
    return {"machine": ["0\t1\t0\t0\n", *arcs, f"{TARGET}\n"]}


def rows_text(labels):
    """A start with an arc to as many states as labels, each of which has an arc with one of them to the end."""
    end = len(labels) + 1
    arcs = [f"{state}\t{end}\t{label}\t{label}\n" for state, label in enumerate(labels, 1)]
    return {"machine": [*(f"0\t{state}\t{state}\t{state}\n" for state in range(1, end)), *arcs, f"{end}\n"]}


def falling_text(labels):
    """A machine of one state with an arc for each label, where the greatest label is first."""
    return {"machine": [*(f"0\t0\t{label}\t{label}\n" for label in sorted(labels, reverse=True)), "0\n"]}


def weights_text(weights):
    """A start with an arc of each weight to the end, and one of weight 0, so that pushing changes none."""
    arcs = [f"0\t1\t{label}\t{label}\t{weight}\n" for label, weight in enumerate([0, *weights], 1)]
    return {"machine": [*arcs, "1\n"]}


def batch_text(pairs):
    """Words of three letters, and two machines that read them, in which each word leads to a pair of states."""
    # By their codes, so that the arcs of each state are in order.
    letters = sorted(string.ascii_letters)[: next(few for few in range(1, 53) if few**3 >= len(pairs))]
    few = len(letters)
    codes = [ord(letter) for letter in letters]
    before = [f"0\t{1 + i}\t{a}\t{a}\n" for i, a in enumerate(codes)]
    before += [f"{1 + i}\t{1 + few + few * i + j}\t{b}\t{b}\n" for i in range(few) for j, b in enumerate(codes)]
    machines = {}
    for name, side in ("machine", 0), ("other", 1):
        ends = [pair[side] for pair in pairs]
        last = [f"{1 + few + place // few}\t{end}\t{codes[place % few]}\t{codes[place % few]}\n" for place, end in enumerate(ends)]
        machines[name] = before + last + [f"{end}\n" for end in sorted(set(ends))]
    words = ("".join(word) + "\n" for _, word in zip(pairs, product(letters, repeat=3)))
    return machines | {"lines": list(words)}


def plain_subsets(draw, count):
    """As many states with a second state and a residual."""
    return [(state, draw.randrange(2 * count, 2 * count + 400), draw.randrange(1, keys.NUMBERS)) for state in range(1, count + 1)]


def plain_pairs(draw, count):
    """As many pairs of states."""
    numbers = draw.sample(range(PAIR_STATES, PAIR_STATES * PAIR_STATES), count)
    return [(number % PAIR_STATES, number // PAIR_STATES) for number in numbers]


KINDS = [
    Kind("written state numbers", keys.state_numbers, drawn(0, keys.NUMBERS), chain_text, "compile {machine.text} {out}"),
    Kind(
        "names of symbols",
        keys.names,
        lambda draw, count: [b"%08d%08d" % (place, draw.randrange(10**8)) for place in range(count)],
        table_text,
        "compile --isymbols={table.text} {machine.text} {out}",
    ),
    Kind(
        "numbers of symbols",
        # Those below twice the lines are found by a list.
        lambda count: keys.labels(count, 4 * count),
        drawn(4 * KEYS, keys.LABELS),
        numbered_table_text,
        "compile --isymbols={table.text} {machine.text} {out}",
    ),
    Kind(
        "pairs of labels",
        # Those below half the length of the text, of some ten bytes a line, are found by a list.
        lambda count: keys.labels(count, 8 * count),
        drawn(1, keys.LABELS),
        relabel_text,
        "relabel --relabel_ipairs={pairs.text} {machine} {out}",
    ),
    Kind(
        "labels and weights of a codex",
        keys.entries,
        lambda draw, count: [(label, draw.randrange(keys.NUMBERS)) for label in range(1, count + 1)],
        entries_text,
        "encode --encode_labels --encode_weights {machine} {out}.codex {out}",
    ),
    Kind(
        "pairs of states of a composition",
        lambda count: keys.state_pairs(count, PAIR_STATES),
        plain_pairs,
        compose_text,
        f"compose {MOST} {{machine}} {{other}} {{out}}",
    ),
    Kind(
        "pairs of states of a batch",
        lambda count: keys.name_pairs(count, WORD_ENDS),
        lambda draw, count: [(draw.choice(WORD_ENDS), draw.choice(WORD_ENDS)) for _ in range(count)],
        batch_text,
        "batch {machine.numbered} {other.numbered} {lines.text} {out}",
    ),
    Kind("subsets", keys.subsets, plain_subsets, subsets_text, f"determinize {MOST} {{machine}} {{out}}"),
    Kind(
        "arcs that come together without epsilon",
        lambda count: keys.arc_labels(count, ILABEL, TARGET),
        drawn(1, keys.LABELS),
        merged_text,
        "rmepsilon {machine} {out}",
    ),
    Kind("input labels of one state", keys.labels, drawn(1, keys.LABELS), falling_text, "info {machine}"),
    Kind("labels when states are told apart", keys.labels, drawn(1, keys.LABELS), rows_text, "minimize {machine} {out}"),
    Kind("weights when states are told apart", keys.weights, drawn(1, keys.NUMBERS), weights_text, "minimize {machine} {out}"),
]


def times(fst, kind, count, rounds, scratch):
    """The runs of our program on crafted and on plain keys of a kind; none where it does not have the command."""
    with tempfile.TemporaryDirectory(dir=scratch) as folder:
        chosen = written(fst, os.path.join(folder, "crafted"), kind.texts(kind.crafted(count)))
        plain = written(fst, os.path.join(folder, "plain"), kind.texts(kind.plain(random.Random(1), count)))
        ours = [inputs.words(kind.words, "ours") for inputs in (chosen, plain)]
        if lacks(ours[1]):
            return None
        return compared(*ours, rounds, LONG)


def crafted(fst, rounds, scratch, count=KEYS, is_wanted=lambda name: True):
    """Shows the crafted keys beside plain ones. Gives whether one takes too many times as long."""
    print(f"| {count} keys | plain: s | crafted: s | times | in pairs of runs |")
    print("|---" * 5 + "|")
    over = False
    for kind in KINDS:
        if not is_wanted(kind.name):
            continue
        sides = times(fst, kind, count, rounds, scratch)
        if sides is None:
            print(f"| {kind.name} | the program does not have this command | | | |", flush=True)
            over = True
            continue
        print(times_line(kind.name, sides), flush=True)
        over = over or sides.time() > MOST_TIMES
    return over
