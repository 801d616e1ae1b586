"""Seeded random machines as text, for measuring.

Every weight is a whole number below 1,000, so that a 32-bit float holds it exactly. The states are
numbered in the order of first appearance, so that every program reads the same machine; with a gap the
same machine has its state numbers permuted and spread out, as multiples of the gap.

    machines.py MODE FILE.. NUMBER..

The modes are those of `MODES`, each with the number of its files: a function here or in `corner_machines.py` says what it writes.
"""
import random
import sys

import corner_machines as corners


def arcs_by_state(arcs, seed):
    """About `arcs` arcs from a fifth as many states, 2 to 8 a state; labels below 5,000, some epsilon."""
    draw = random.Random(seed)
    states = max(2, arcs // 5)
    machine, total = [], 0
    while total < arcs:
        here = []
        for _ in range(draw.randrange(2, 9)):
            ilabel = 0 if draw.random() < 0.05 else draw.randrange(1, 5001)
            olabel = 0 if draw.random() < 0.05 else draw.randrange(1, 5001)
            here.append((ilabel, olabel, draw.randrange(1000), draw.randrange(states)))
        machine.append(here)
        total += len(here)
    return machine, states


def symbol(label):
    """The name of a label: of 5 to 12 bytes, and epsilon's own."""
    return f"w{label * 7919 % 1000003:04d}{'abcdefg'[: label % 8]}" if label else "<eps>"


def write_symbols(path, count):
    """Writes a table of so many symbols, numbered from 0, which is epsilon."""
    with open(path, "w") as out:
        out.writelines(f"{symbol(label)}\t{label}\n" for label in range(count))


def write_text(path, arcs, gap=None, seed=1, label_text=str):
    """Writes the machine as text, its states numbered by first appearance, or spread out by the gap."""
    machine, states = arcs_by_state(arcs, seed)
    states = max(states, len(machine))
    number, names = {}, None
    if gap:
        names = list(range(0, gap * states, gap))
        random.Random(seed + 1).shuffle(names)

    def name(state):
        known = number.setdefault(state, len(number))
        return names[known] if names else known

    with open(path, "w") as out:
        for state, here in enumerate(machine):
            source = name(state)
            lines = []
            for ilabel, olabel, weight, target in here:
                lines.append(f"{source}\t{name(target)}\t{label_text(ilabel)}\t{label_text(olabel)}\t{weight}\n")
            if state % 6 == 0:
                lines.append(f"{source}\t{state % 1000}\n")
            out.write("".join(lines))


def write_named(table, path, count, arcs):
    """Writes a table of so many symbols, and a machine whose labels are written by their names in it."""
    write_symbols(table, count)
    write_text(path, arcs, label_text=symbol)


def write_chain(path, states, seed=1):
    """Writes a machine of one path through so many states."""
    draw = random.Random(seed)
    with open(path, "w") as out:
        for state in range(states - 1):
            out.write(f"{state}\t{state + 1}\t{draw.randrange(1, 5001)}\t{draw.randrange(1, 5001)}\t{draw.randrange(1000)}\n")
        out.write(f"{states - 1}\n")


def write_pairs(path, count, seed=1):
    """Writes so many pairs of an old label, each once, and a new one."""
    draw = random.Random(seed)
    with open(path, "w") as out:
        out.writelines(f"{old}\t{draw.randrange(5001)}\n" for old in draw.sample(range(1, 5001), count))


def write_arc(out, draw, state, target, olabel=None):
    """Writes an arc with some labels and weight, or with this output label."""
    out.write(f"{state}\t{target}\t{draw.randrange(1, 201)}\t{olabel or draw.randrange(1, 201)}\t{draw.randrange(100)}\n")


def write_rules(root, rule, label, arcs, seed=1):
    """Writes a chain in which each other arc calls the rule, and the rule, a machine without cycles."""
    draw = random.Random(seed)
    calls = arcs // 102
    with open(root, "w") as out:
        for call in range(calls):
            write_arc(out, draw, 2 * call, 2 * call + 1, label)
            write_arc(out, draw, 2 * call + 1, 2 * call + 2)
        out.write(f"{2 * calls}\t3\n")
    with open(rule, "w") as out:
        for state in range(25):
            write_arc(out, draw, state, state + 1)
            for _ in range(3):
                write_arc(out, draw, state, min(25, state + 1 + draw.randrange(8)))
        out.write("25\t2\n")


def write_pair(first, second, states, seed=1, fan=20, labels=60):
    """Writes two machines of which most pairs of states are reached, both sorted for composition."""
    draw = random.Random(seed)

    def label():
        return draw.randrange(1, labels + 1)

    for path, side in (first, 1), (second, 0):
        with open(path, "w") as out:
            for state in range(states):
                here = []
                for _ in range(fan):
                    arc = [label(), label(), draw.randrange(states)]
                    if draw.random() < 0.1 and state + 1 < states:
                        # An arc of one machine alone leads to a later state, so that no cycle is of epsilons.
                        arc[side], arc[2] = 0, draw.randrange(state + 1, states)
                    here.append(arc)
                for ilabel, olabel, target in sorted(here, key=lambda arc: arc[side]):
                    out.write(f"{state}\t{target}\t{ilabel}\t{olabel}\t{draw.randrange(1000)}\n")
                if state % 3 == 0 or state == states - 1:
                    out.write(f"{state}\t{draw.randrange(1000)}\n")


def write_hub(path, target, labels, side, draw):
    """Writes a machine whose start has an arc to this state for each label, in order."""
    with open(path, "w") as out:
        for label in sorted(labels):
            arc = [draw.randrange(1, 1_000_000), draw.randrange(1, 1_000_000)]
            arc[side] = label
            out.write(f"0\t{target}\t{arc[0]}\t{arc[1]}\t{draw.randrange(1000)}\n")
        out.write(f"{target}\t0\n")


def write_word(word, lexicon, letters, arcs, seed=1):
    """Writes a word, and a lexicon of one state that reads its letters."""
    draw = random.Random(seed)
    labels = draw.sample(range(1, 1_000_000), arcs)
    write_hub(lexicon, 0, labels, 0, draw)
    with open(word, "w") as out:
        for state, label in enumerate(draw.sample(labels, letters)):
            out.write(f"{state}\t{state + 1}\t{label}\t{label}\t0\n")
        out.write(f"{letters}\t0\n")


def write_hubs(first, second, matches, arcs, seed=1):
    """Writes two machines whose starts have so many arcs, of which some match."""
    draw = random.Random(seed)
    labels = draw.sample(range(1, 1_000_000), 2 * arcs - matches)
    write_hub(first, 1, labels[:arcs], 1, draw)
    write_hub(second, 1, labels[arcs - matches :], 0, draw)


def write_epsilons(path, arcs, seed=1, block=16):
    """Writes a machine of three arcs a state, about half of them epsilon and within blocks, a tenth of these back."""
    draw = random.Random(seed)
    states = arcs // 3

    def plain(state, target):
        return f"{state}\t{target}\t{draw.randrange(1, 100)}\t{draw.randrange(1, 100)}\t{draw.randrange(20)}\n"

    with open(path, "w") as out:
        for state in range(states):
            first = state - state % block
            last = min(states, first + block) - 1
            out.write(plain(state, (state + 1) % states))
            for _ in range(2):
                turn = draw.random()
                if turn < 0.7 and state < last:
                    out.write(f"{state}\t{draw.randrange(state + 1, last + 1)}\t0\t0\t{draw.randrange(1, 21)}\n")
                elif 0.7 <= turn < 0.78 and state > first:
                    out.write(f"{state}\t{draw.randrange(first, state)}\t0\t0\t{draw.randrange(1, 21)}\n")
                else:
                    out.write(plain(state, draw.randrange(states)))
            if draw.random() < 0.2 or state == states - 1:
                out.write(f"{state}\t{draw.randrange(20)}\n")


def write_lattice(path, layers, width, seed=1):
    """Writes layers of states, each with five arcs to states of the next, behind a start with an arc to each of the first."""
    draw = random.Random(seed)

    def arc(state, target):
        return f"{state}\t{target}\t{draw.randrange(1, 501)}\t{draw.randrange(1, 501)}\t{draw.randrange(1000)}\n"

    with open(path, "w") as out:
        out.writelines(arc(0, 1 + place) for place in range(width))
        for layer in range(layers):
            for place in range(width):
                state = 1 + layer * width + place
                if layer + 1 == layers:
                    out.write(f"{state}\t{draw.randrange(1000)}\n")
                else:
                    out.writelines(arc(state, 1 + (layer + 1) * width + draw.randrange(width)) for _ in range(5))


def write_words(path, arcs, seed=1):
    """Writes different words, each a chain of arcs from one start, until there are so many arcs; some letters are rarer."""
    draw = random.Random(seed)
    words, state = set(), 0
    with open(path, "w") as out:
        while state < arcs:
            word = tuple(1 + int(draw.random() ** 2 * 26) for _ in range(draw.randrange(3, 13)))
            if word in words:
                continue
            words.add(word)
            source = 0
            for letter in word:
                state += 1
                out.write(f"{source}\t{state}\t{letter}\t{letter}\t{draw.randrange(3)}\n")
                source = state
            out.write(f"{state}\t{draw.randrange(10)}\n")


def write_classes(path, arcs, seed=1, letters=10, alike=8):
    """Writes a deterministic acceptor with cycles, whose states fall into classes behind weights that pushing takes away."""
    draw = random.Random(seed)
    states = arcs // letters
    count = max(2, states // alike)
    nexts = [[draw.randrange(count) for _ in range(letters)] for _ in range(count)]
    weights = [[draw.randrange(10) for _ in range(letters)] for _ in range(count)]
    finals = [draw.randrange(10) if draw.random() < 0.3 or own == 0 else None for own in range(count)]
    hidden = [0] + [draw.randrange(50) for _ in range(states - 1)]
    with open(path, "w") as out:
        for state in range(states):
            own = state % count
            for letter in range(letters):
                goal = nexts[own][letter]
                target = goal + count * draw.randrange((states - goal + count - 1) // count)
                weight = 100 + weights[own][letter] + hidden[state] - hidden[target]
                out.write(f"{state}\t{target}\t{letter + 1}\t{letter + 1}\t{weight}\n")
            if finals[own] is not None:
                out.write(f"{state}\t{finals[own] + hidden[state]}\n")


def write_confusion(path, arcs, seed=1, depth=12, width=3):
    """Writes layers of three states with two labels behind three rarer ones, group by group from one start, until there are so
    many arcs: a word reaches up to three states of a layer, each with a weight of its own. No two groups have the same rarer
    labels, so that the deterministic machine grows as the arcs do."""
    draw = random.Random(seed)
    written, first, keys = 0, 1, set()
    with open(path, "w") as out:
        while written < arcs:
            key = tuple(draw.randrange(1, 27) for _ in range(3))
            if key in keys:
                continue
            keys.add(key)
            sources = [0]
            for layer in range(depth):
                targets = range(first, first + width)
                for source in sources:
                    for target in targets:
                        label = key[layer] if layer < len(key) else draw.randrange(1, 3)
                        out.write(f"{source}\t{target}\t{label}\t{label}\t{draw.randrange(4)}\n")
                written += len(sources) * width
                first += width
                sources = targets
            out.writelines(f"{state}\t{draw.randrange(4)}\n" for state in sources)


def write_acceptors(many, few, states, others, fan, seed=1):
    """Writes two deterministic acceptors with so many arcs a state, of twice as many labels, the second without weights."""
    draw = random.Random(seed)
    for path, count, weight in (many, states, lambda: f"\t{draw.randrange(1000)}"), (few, others, lambda: ""):
        with open(path, "w") as out:
            for state in range(count):
                for label in sorted(draw.sample(range(1, 2 * fan + 1), fan)):
                    out.write(f"{state}\t{draw.randrange(count)}\t{label}\t{label}{weight()}\n")
                if state % 3 == 0:
                    out.write(f"{state}{weight()}\n")


def write_cycle(path, states):
    """Writes a cycle through so many states, no two of which do the same, though only one is final."""
    with open(path, "w") as out:
        out.writelines(f"{state}\t{(state + 1) % states}\t1\t1\n" for state in range(states))
        out.write("0\n")


def write_cascade(first, second, lines, count, seed=1):
    """Writes the two machines and so many lines that `fst make` draws, as docs/FORMATS.md says."""
    state = seed

    def draw(end):
        nonlocal state
        state = (state * 6364136223846793005 + 1442695040888963407) % 2**64
        return state // 2**33 % end

    letters = range(ord("a"), ord("z") + 1)
    with open(first, "w") as out:
        for source in range(500):
            for letter in letters:
                written, weight, target = letters[draw(26)], draw(10), draw(500)
                out.write(f"{source}\t{target}\t{letter}\t{written}\t{weight}\n")
                weight, target = 5 + draw(10), draw(500)
                out.write(f"{source}\t{target}\t{letter}\t0\t{weight}\n")
            out.write(f"{source}\t{draw(5)}\n")
    with open(second, "w") as out:
        for source in range(200):
            for letter in letters:
                weight, target = draw(10), draw(200)
                out.write(f"{source}\t{target}\t{letter}\t{letter}\t{weight}\n")
            out.write(f"{source}\t0\n")
    with open(lines, "w") as out:
        for _ in range(count):
            length = 1 + draw(12)
            out.write("".join(chr(letters[draw(26)]) for _ in range(length)) + "\n")


# What each mode writes, and how many files: their names come first, and numbers after them.
MODES = {
    "--dense": (write_text, 1),
    "--symbols": (write_symbols, 1),
    "--named": (write_named, 2),
    "--chain": (write_chain, 1),
    "--pairs": (write_pairs, 1),
    "--rules": (write_rules, 2),
    "--pair": (write_pair, 2),
    "--word": (write_word, 2),
    "--hubs": (write_hubs, 2),
    "--epsilons": (write_epsilons, 1),
    "--lattice": (write_lattice, 1),
    "--words": (write_words, 1),
    "--classes": (write_classes, 1),
    "--cycle": (write_cycle, 1),
    "--acceptors": (write_acceptors, 2),
    "--confusion": (write_confusion, 1),
    "--cascade": (write_cascade, 3),
    "--useless": (corners.write_useless, 1),
    "--huge": (corners.write_huge, 1),
    "--between": (corners.write_between, 1),
    "--equal": (corners.write_equal, 2),
    "--epsilon-chain": (corners.write_epsilon_chain, 1),
    "--forks": (corners.write_forks, 1),
    "--fan": (corners.write_fan, 1),
    "--long-names": (corners.write_long_names, 3),
    "--doubles": (corners.write_doubles, 1),
    "--orders": (corners.write_orders, 3),
}


if __name__ == "__main__":
    write, files = MODES[sys.argv[1]]
    write(*sys.argv[2 : 2 + files], *map(int, sys.argv[2 + files :]))
