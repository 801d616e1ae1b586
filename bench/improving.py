"""Machines with a cycle that is better than One, beside the same machines without it, by `fst` alone, which refuses them: OpenFst's
`fstshortestdistance` goes round such a loop until its floats change no more."""
import os
import tempfile
from typing import NamedTuple

from inputs import written
from machines import MODES
from measuring import compared, lacks
from tables import head, times_line

# How many times as long as without the cycle a command may take to refuse it.
MOST_TIMES = 2.0
# A program that has to end with a status, so that another one is seen.
ENDING = 'status=$1; shift; "$@" 2> /dev/null; [ $? = $status ]'


class Kind(NamedTuple):
    """A command on a machine with one arc more, from the state that is farthest from the start: what it is called, the machine's
    mode, the words, whether the arc leads to the start and not back to that state, and its label and weight."""

    name: str
    mode: str
    words: str
    to_start: bool
    label: int
    weight: int


KINDS = [
    Kind("shortestdistance, a loop of -1 at the farthest state", "--dense", "shortestdistance {machine} {out}", False, 1, -1),
    Kind("shortestdistance, an arc of -1,000,000 from there to the start", "--dense", "shortestdistance {machine} {out}", True, 1, -1_000_000),
    Kind("the same, backward", "--dense", "shortestdistance --reverse {machine} {out}", True, 1, -1_000_000),
    Kind("rmepsilon, a loop of -1 at the farthest state", "--epsilons", "rmepsilon {machine} {out}", False, 0, -1),
]


def farthest(lines):
    """The state of a machine that the start reaches by the most arcs, the last such by breadth first."""
    leads = {}
    for line in lines:
        fields = line.split("\t", 2)
        if len(fields) == 3:
            leads.setdefault(fields[0], []).append(fields[1])
    order = [lines[0].split("\t", 1)[0]]
    known = set(order)
    for state in order:
        new = [target for target in dict.fromkeys(leads.get(state, ())) if target not in known]
        known.update(new)
        order += new
    return order[-1]


def with_arc(lines, source, kind):
    """The lines of a machine, and the arc from this state."""
    target = lines[0].split("\t", 1)[0] if kind.to_start else source
    return [*lines, f"{source}\t{target}\t{kind.label}\t{kind.label}\t{kind.weight}\n"]


def text_of(mode, size, scratch):
    """The lines of the machine of a mode."""
    with tempfile.TemporaryDirectory(dir=scratch) as folder:
        path = os.path.join(folder, "text")
        MODES[mode][0](path, size)
        with open(path) as file:
            return file.readlines()


def times(fst, kind, lines, source, rounds, scratch):
    """The runs on the machine with the cycle and on that without it; none where the program does not have the command."""
    with tempfile.TemporaryDirectory(dir=scratch) as folder:
        texts = {"with": with_arc(lines, source, kind), "without": lines}
        sides = [written(fst, os.path.join(folder, name), {"machine": text}) for name, text in texts.items()]
        commands = [inputs.words(kind.words, "ours") for inputs in sides]
        if lacks(commands[1]):
            return None
        return compared(*(["sh", "-c", ENDING, "sh", status, *argv] for status, argv in zip("10", commands)), rounds)


def improving(words, scratch):
    """Shows how long commands take to refuse a cycle. Gives whether one takes too many times as long."""
    print(head("Arcs", "Command and cycle", "without: s", "with: s", "times", "in pairs of runs"))
    over = False
    kinds = [kind for kind in KINDS if words.rows.search(kind.name)]
    for size in words.sizes:
        texts = {mode: text_of(mode, size, scratch) for mode in dict.fromkeys(kind.mode for kind in kinds)}
        sources = {mode: farthest(lines) for mode, lines in texts.items()}
        for kind in kinds:
            sides = times(words.fst, kind, texts[kind.mode], sources[kind.mode], words.rounds, scratch)
            if sides is None:
                print(f"| {size} | {kind.name} | the program does not have this command | | | |", flush=True)
                over = True
                continue
            print(times_line(f"{size} | {kind.name}", sides), flush=True)
            over = over or sides.time() > MOST_TIMES
    return over
