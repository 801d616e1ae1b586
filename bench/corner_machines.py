"""Machines at the corners of what a machine may be: very many arcs of a state, very long paths, very long names.

They are written as `machines.py` writes its own, line by line, so that one of many millions of arcs takes no memory here.
"""
import random


def lines_of(arcs, draw, target, is_final=lambda state, states: state % 6 == 0):
    """So many arcs as text, five a state: where each leads is drawn for the state, and each sixth state is final."""
    states = arcs // 5
    for state in range(states):
        for _ in range(5):
            labels = f"{draw.randrange(1, 5001)}\t{draw.randrange(1, 5001)}"
            yield f"{state}\t{target(state, states)}\t{labels}\t{draw.randrange(1000)}\n"
        if is_final(state, states):
            yield f"{state}\t{state % 1000}\n"


def write_useless(path, arcs, seed=1):
    """Writes a random machine of which a fifth is useless: a tenth of the states lead to no final one, and a tenth are not
    reached from the start."""
    draw = random.Random(seed)

    def leads_nowhere(state, states):
        return states * 8 // 10 <= state < states * 9 // 10

    def target(state, states):
        live, reached = states * 8 // 10, states * 9 // 10
        if leads_nowhere(state, states):
            return draw.randrange(live, reached)
        return draw.randrange(reached) if draw.random() < 0.1 else draw.randrange(live)

    def is_final(state, states):
        return state % 6 == 0 and not leads_nowhere(state, states)

    with open(path, "w") as out:
        out.writelines(lines_of(arcs, draw, target, is_final))


def write_huge(path, arcs, seed=1):
    """Writes a random machine of ten arcs a state, of any length: it is not held."""
    draw = random.Random(seed)
    states = arcs // 10
    with open(path, "w") as out:
        for state in range(states):
            for _ in range(10):
                number = draw.getrandbits(64)
                out.write(f"{state}\t{number % states}\t{1 + (number >> 32) % 5000}\t{1 + (number >> 48) % 5000}\t{number % 1000}\n")
            if state % 6 == 0:
                out.write(f"{state}\t{state % 1000}\n")


def write_between(path, arcs, seed=1):
    """Writes two states with so many arcs between them, half of them from each."""
    draw = random.Random(seed)
    with open(path, "w") as out:
        for place in range(arcs):
            labels = f"{draw.randrange(1, 1_000_000)}\t{draw.randrange(1, 1_000_000)}"
            out.write(f"{place * 2 // arcs}\t{draw.randrange(2)}\t{labels}\t{draw.randrange(1000)}\n")
        out.write("1\t3\n")


def write_equal(first, second, arcs, seed=1):
    """Writes two machines of two states, whose starts have so many arcs with one label: all pairs of these match."""
    draw = random.Random(seed)
    for path in first, second:
        with open(path, "w") as out:
            out.writelines(f"0\t1\t7\t7\t{draw.randrange(1000)}\n" for _ in range(arcs))
            out.write("1\t0\n")


def write_epsilon_chain(path, states, seed=1):
    """Writes a chain of epsilon arcs through so many states, to each of which an arc of the start leads; the last is final."""
    draw = random.Random(seed)
    with open(path, "w") as out:
        for state in range(1, states):
            out.write(f"0\t{state}\t{state}\t{state}\t{draw.randrange(20)}\n")
        for state in range(1, states - 1):
            out.write(f"{state}\t{state + 1}\t0\t0\t{draw.randrange(1, 21)}\n")
        out.write(f"{states - 1}\n")


def write_forks(path, states):
    """Writes a chain of so many states with two equal arcs from each to the next, so that very many paths are equally good."""
    with open(path, "w") as out:
        out.writelines(f"{state}\t{state + 1}\t{label}\t{label}\t1\n" for state in range(states - 1) for label in (1, 2))
        out.write(f"{states - 1}\n")


def write_fan(path, arcs, seed=1):
    """Writes a state with so many arcs of different weights to a final one."""
    draw = random.Random(seed)
    weights = draw.sample(range(10 * arcs), arcs)
    with open(path, "w") as out:
        out.writelines(f"0\t1\t{place + 1}\t{place + 1}\t{weight}\n" for place, weight in enumerate(weights))
        out.write("1\n")


def long_name(side, label):
    """A name of 60 bytes, unlike the others in its first ones."""
    return f"{side}{label * 7919 % 1000003:07d}{'the rest of a long name is the same for all of them'.replace(' ', '_'):_<52}"


def write_long_names(first, second, named, count, seed=1):
    """Writes two tables of so many names of 60 bytes, and a machine of as many arcs with names of both for its labels."""
    draw = random.Random(seed)
    for path, side in (first, "i"), (second, "o"):
        with open(path, "w") as out:
            out.write("<eps>\t0\n")
            out.writelines(f"{long_name(side, label)}\t{label}\n" for label in range(1, count))
    states = max(2, count // 5)
    with open(named, "w") as out:
        for place in range(count):
            labels = (long_name(side, draw.randrange(1, count)) for side in "io")
            out.write("\t".join((str(place // 5), str(draw.randrange(states)), *labels, str(draw.randrange(1000)))) + "\n")
        out.write("0\t3\n")


def write_doubles(path, arcs, seed=1):
    """Writes a machine of so many arcs whose weights are pairs of numbers, of the lexicographic type."""
    draw = random.Random(seed)
    with open(path, "w") as out:
        for line in lines_of(arcs, draw, lambda state, states: draw.randrange(states)):
            # A line ends with its weight, which gets a second part.
            out.write(f"{line[:-1]},{draw.randrange(1000)}\n")


def write_orders(order, other, half, arcs, seed=1):
    """Writes a state with so many arcs, which do not stand by their labels; the same arcs in another order; and half of them
    in a third, without weights."""
    draw = random.Random(seed)
    labels = draw.sample(range(1, 2_000_000), arcs)
    weights = {label: draw.randrange(1000) for label in labels}
    for path in order, other, half:
        draw.shuffle(labels)
        with open(path, "w") as out:
            if path == half:
                out.writelines(f"0\t1\t{label}\t{label}\n" for label in labels[: arcs // 2])
                out.write("1\n")
            else:
                out.writelines(f"0\t1\t{label}\t{label}\t{weights[label]}\n" for label in labels)
                out.write("1\t0\n")
