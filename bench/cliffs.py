"""The rows at the corners: what one state, one path, one name or one table may have at most."""
from rows import MOST, Row

# The bound of a composition of machines with very many arcs a state on memory.
COMPOSE_MEMORY = 2.0
# A row that is shown and has no bound yet.
UNBOUNDED = float("inf")

LONG_NAMES = "--isymbols={inames.text} --osymbols={onames.text}"
# `compose` where a state has very many arcs, either machine first.
FANS = [
    Row("compose, a word of 20 letters and a lexicon", "compose {word} {lexicon} {out}", memory=COMPOSE_MEMORY),
    Row("compose, a word of 20 letters and a lexicon, turned", "compose {lexicon} {word} {out}", memory=COMPOSE_MEMORY),
    Row("compose, two hubs of which 100 arcs match", "compose {hub} {other_hub} {out}", memory=COMPOSE_MEMORY),
    Row("compose, two hubs whose arcs all match", f"compose {MOST} {{equal}} {{other_equal}} {{out}}", 0.5, 1.9, "compose {equal} {other_equal} {out}"),
]
# Arcs of one state out of order, beside the same in another order, and half of them; OpenFst's difference wants them in order.
ORDERS = [
    Row("equivalent, one state, two orders", "equivalent {order} {other_order} {out}", 0.5, 1.7, "equivalent {order} {other_order}"),
    Row("difference, one state out of order", "difference {order} {half} {out}", 0.8, 1.9, "difference {order} {half.sorted} {out}"),
]
# All arcs between two states.
BETWEEN = [
    Row("invert, two states", "invert {between} {out}", 0.45, 1.7),
    Row("closure, two states", "closure {between} {out}", 0.45, 1.7),
    Row("connect, two states", "connect {between} {out}", 0.45, 1.7),
]
# One path.
CHAINS = [
    Row("connect, a chain", "connect {chain} {out}", 0.35, 0.9),
    Row("info, a chain", "info {chain}", 0.35, 0.9),
    Row("reverse, a chain", "reverse {chain} {out}", 0.35, 0.9),
    Row("closure, a chain", "closure {chain} {out}", 0.35, 0.9),
]
# Pairs of costs beside OpenFst's single ones, which are half as long: its tools do not have the arc type.
DOUBLES = [
    Row("invert, pairs of costs (OpenFst: tropical)", "invert {doubles.lexicographic} {out}", 0.5, 2.0, "invert {dense} {out}"),
]
# Names of 60 bytes in a table of each side, as many as arcs.
NAMED = [
    Row("compile, long names", f"compile {LONG_NAMES} {{long_named.text}} {{out}}", 0.4, 1.3),
    Row("print, long names", f"print {LONG_NAMES} {{long_named.long_named}} {{out}}", 0.4, 1.3),
]
# Epsilon paths from each of so many states, and paths of equal weight.
PATHS = [
    # OpenFst takes the states from the end of the chain; ours looks along the chain from each.
    Row("rmepsilon, a chain of 1,000 epsilon arcs", "rmepsilon {epsilon_chain} {out}", UNBOUNDED, UNBOUNDED),
    Row("rmepsilon, a chain of 10,000 epsilon arcs", "rmepsilon {long_epsilon_chain} {out}", UNBOUNDED, UNBOUNDED),
    Row("shortestpath, a thousand of equal weight", "shortestpath --nshortest=1000 {forks} {out}"),
    Row("shortestpath, 100,000 from one state", "shortestpath --nshortest=100000 {fan} {out}", 0.7),
    # A total after the other, with a pass over the arcs for each.
    Row(
        "shortestpath, a thousand of min-max (OpenFst: tropical)",
        "shortestpath --nshortest=1000 {fan.minmax} {out}",
        8,
        theirs="shortestpath --nshortest=1000 {fan} {out}",
    ),
    Row("shortestpath, a thousand strings of 10^5 arcs", "shortestpath --unique --nshortest=1000 {small_confusion} {out}", 0.2, 0.5),
    # Distances take most of the time, and the best path needs them too.
    Row(
        "shortestpath, a thousand strings (OpenFst: fst, one path)",
        "shortestpath --unique --nshortest=1000 {confusion} {out}",
        2.0,
        2.0,
        beside="shortestpath {confusion} {out}",
    ),
]
CLIFFS = [*FANS, *ORDERS, *BETWEEN, *CHAINS, *DOUBLES, *NAMED, *PATHS]
# It takes gigabytes.
LARGE = [Row("connect, thirty times as many arcs", "connect {huge} {out}", 0.7, 2.4)]
