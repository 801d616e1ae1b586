"""The commands of fst from Python, over pipes. Python's standard library is enough.

    import jazvurd as fst

    table = {"<eps>": 0, "a": 1, "b": 2}
    rule = fst.compile([(0, 1, "a", "b", 5)], finals={1: 0}, isymbols=table, osymbols=table)
    both = fst.union(rule, fst.invert(rule))
    print(fst.print(both, isymbols=table, osymbols=table))

A machine is the content of its binary file, as bytes; a notebook shows its graph where dot is there. A symbol table is a mapping of names to numbers, or the path of a
file. Where the program refuses, Refusal has its line, in which the machines are called first, second and so on. The
program is the one that the variable JAZVURD_FST names, or that of the wheel, or fst on the path. The functions have the names and options of
the commands; the manual page fst(1) says what each does.
"""
import os
import subprocess
import sys
import tempfile
from typing import Any, Dict, Iterable, Iterator, List, Mapping, NamedTuple, Optional, Set, Tuple, Union

__version__ = "0.1.0"


class Machine(bytes):
    """The content of a binary file. Bytes that were read from a file are taken as well."""

    def _repr_svg_(self) -> Optional[str]:
        """The graph for a notebook, with numbers for labels; none where there is no dot."""
        try:
            return draw(self, to="svg")
        except NoProgram:
            return None


Label = Union[int, str]
Weight = Union[int, float, Tuple[Any, ...]]
Table = Union[Mapping[Any, int], str, "os.PathLike[str]"]
Finals = Union[Mapping[int, Optional[Weight]], Iterable[int]]
Pairs = Mapping[int, int]
Symbols = Tuple[Optional[Dict[str, int]], Optional[Dict[str, int]]]
Arc = Tuple[int, int, Label, Label, Optional[Weight]]


# The exit status of `equivalent` where a word tells the machines apart: an answer, and no refusal.
SEPARATED = 2


class Refusal(Exception):
    """The program refused: `line` is what it said, `status` its exit status."""

    def __init__(self, line: str, status: int):
        super().__init__(line)
        self.line, self.status = line, status


class NoProgram(Exception):
    """There is no program to run."""


class Answer(NamedTuple):
    """A path of a line of a batch, which count from 1. A line without a path has no weight and no text, and one that was
    refused has the reason too."""

    line: int
    weight: Optional[Weight] = None
    text: Optional[str] = None
    refused: Optional[str] = None


class Verdict(NamedTuple):
    """What `equivalent` finds: true where each word has the same weight in both machines. Else `word` is the least word whose
    weights differ, the shorter before the longer, as a tuple of labels; `first` and `second` are its two weights."""

    equivalent: bool
    word: Optional[Tuple[Label, ...]] = None
    first: Optional[Weight] = None
    second: Optional[Weight] = None

    def __bool__(self) -> bool:
        return self.equivalent


class Path(NamedTuple):
    """A successful path: its weight, and the strings that it reads and writes."""

    weight: Weight
    input: str
    output: str


class Parts(NamedTuple):
    """A machine taken apart: a weight One is None in an arc, and a final state has its weight, None for One."""

    start: Optional[int]
    arcs: List[Arc]
    finals: Dict[int, Optional[Weight]]


def _program() -> str:
    """The program: the one that JAZVURD_FST names, or the one of the wheel, or fst on the path."""
    inside = os.path.join(os.path.dirname(os.path.abspath(__file__)), "fst")
    return os.environ.get("JAZVURD_FST") or (inside if os.path.isfile(inside) else "fst")


def _program_instead() -> None:
    """The command fst of the wheel: the program in the place of Python."""
    program = _program()
    os.execvp(program, ["fst", *sys.argv[1:]])


def run(words: Iterable[str], files: Mapping[str, bytes] = {}, wanted: Optional[str] = None) -> Tuple[Machine, bytes]:
    """Runs the program in a folder with these files: what it writes to standard output, and the file that is wanted."""
    for name, content in files.items():
        if not isinstance(content, (bytes, bytearray, memoryview)):
            raise TypeError(f"{name}: a machine is bytes, as compile gives them or open(path, 'rb').read(), and not {type(content).__name__}")
    program = _program()
    with tempfile.TemporaryDirectory(prefix="jazvurd-") as folder:
        for name, content in files.items():
            with open(os.path.join(folder, name), "wb") as file:
                file.write(content)
        try:
            argv = [os.path.abspath(program) if os.sep in program else program, *words]
            done = subprocess.run(argv, cwd=folder, stdin=subprocess.DEVNULL, capture_output=True, check=False)
        except OSError as fault:
            raise NoProgram(f"{program}: {fault.strerror} (make install puts fst on the path, JAZVURD_FST names another)") from fault
        if done.returncode not in (0, SEPARATED):
            raise Refusal(done.stderr.decode("utf-8", "replace").strip() or f"{program}: status {done.returncode}", done.returncode)
        if wanted is None:
            return Machine(done.stdout), b""
        with open(os.path.join(folder, wanted), "rb") as result:
            return Machine(done.stdout), result.read()


def weight_of(text: str) -> Weight:
    """A weight text as a number; an infinity is a float, a pair a tuple."""
    if "," in text:
        return tuple(map(weight_of, text.split(",")))
    return float(text) if text.endswith("Infinity") else int(text)


def weight_text(weight: Weight) -> str:
    """A weight as a weight text. A float is an infinity or a whole number."""
    if isinstance(weight, tuple):
        return ",".join(map(weight_text, weight))
    if isinstance(weight, bool):
        return str(int(weight))
    if not isinstance(weight, (int, float)):
        raise TypeError(f"a weight is a whole number, a pair of them, or True or False, and not {weight!r}")
    if isinstance(weight, float) and abs(weight) != float("inf"):
        if not weight.is_integer():
            raise ValueError(f"a weight is a whole number, and not {weight}")
        weight = int(weight)
    return str(weight).replace("inf", "Infinity")


def field(value: object) -> str:
    """A label or a name as a field of a text."""
    text = str(value)
    if not text or any(blank in text for blank in " \t\r\n"):
        raise ValueError(f"a label or a name has no blank, and is not empty: {text!r}")
    return text


def _options(**values: object) -> List[str]:
    """The words of the options that are given; a flag is True."""
    given = ((name, value) for name, value in values.items() if value is not None and value is not False)
    return [f"--{name}" if value is True else f"--{name}={value}" for name, value in given]


def _tables(files: Dict[str, bytes], **tables: Optional[Table]) -> List[str]:
    """Puts the tables among the files, and gives the words of their options."""
    for name, table in tables.items():
        if isinstance(table, Mapping):
            files[name] = "".join(f"{field(symbol)}\t{number}\n" for symbol, number in table.items()).encode("utf-8", "surrogateescape")
        elif table is not None:
            with open(table, "rb") as file:
                files[name] = file.read()
    return [f"--{name}={name}" for name, table in tables.items() if table is not None]


def _unary(command: str, machine: bytes, *options: str) -> Machine:
    return run([command, *options, "first"], {"first": machine})[0]


def _binary(command: str, first: bytes, second: bytes, *options: str) -> Machine:
    return run([command, *options, "first", "second"], {"first": first, "second": second})[0]


def _final_rows(finals: Finals, arc_type: str) -> List[List[str]]:
    """The rows of final states: a mapping has weights, other collections have states of weight One."""
    pairs: Iterable[Tuple[int, Optional[Weight]]] = finals.items() if isinstance(finals, Mapping) else ((state, None) for state in finals)
    return [[_state(state, "finals")] + _weight_fields(weight, arc_type, f"final state {state}") for state, weight in pairs]


def _state(state: object, place: str) -> str:
    if isinstance(state, bool) or not isinstance(state, int) or state < 0:
        raise TypeError(f"{place}: a state is a whole number from 0 on, and not {state!r}")
    return str(state)


def _weight_fields(weight: Optional[Weight], arc_type: str, place: str) -> List[str]:
    """The column of a weight: none where it is One."""
    if weight is None:
        return []
    if isinstance(weight, bool) and arc_type != "boolean":
        raise TypeError(f"{place}: {weight} is a weight of the type boolean, and not of {arc_type}")
    return [weight_text(weight)]


def _arc_row(arc: Tuple[Any, ...], labels: int, arc_type: str, place: str) -> List[str]:
    if not isinstance(arc, (tuple, list)) or not labels <= len(arc) <= labels + 1:
        raise ValueError(f"{place}: an arc is (source, destination, {'label' if labels == 3 else 'input, output'}[, weight]), and not {arc!r}")
    states = [_state(state, place) for state in arc[:2]]
    return states + [field(label) for label in arc[2:labels]] + _weight_fields(arc[labels] if len(arc) > labels else None, arc_type, place)


def compile(source: Union[str, Iterable[Tuple[Any, ...]]], finals: Finals = {}, *, arc_type: str = "tropical", acceptor: bool = False,
            keep_state_numbering: bool = False, isymbols: Optional[Table] = None, osymbols: Optional[Table] = None,
            keep_isymbols: bool = False, keep_osymbols: bool = False) -> Machine:
    """A machine of a text, or of arcs (source, destination, input, output[, weight]), with one label for an acceptor, and the
    final states, with their weights or without. The first state that is named is the start. The machine carries the tables
    that are kept, and most operations pass them on."""
    if not isinstance(source, str):
        rows = [_arc_row(arc, 3 if acceptor else 4, arc_type, f"arc {number}") for number, arc in enumerate(source)]
        source = "".join("\t".join(row) + "\n" for row in rows + _final_rows(finals, arc_type))
    files = {"text": source.encode("utf-8", "surrogateescape")}
    options = _tables(files, isymbols=isymbols, osymbols=osymbols) + _options(arc_type=arc_type, acceptor=acceptor, keep_state_numbering=keep_state_numbering,
                                                                                keep_isymbols=keep_isymbols, keep_osymbols=keep_osymbols)
    return run(["compile", *options, "text"], files)[0]


def print(machine: bytes, *, acceptor: bool = False, show_weight_one: bool = False, isymbols: Optional[Table] = None,
          osymbols: Optional[Table] = None, numeric: bool = False) -> str:
    """The text of a machine: labels by the tables that are given, or else by those that it carries, or as numbers."""
    files = {"first": machine}
    options = _tables(files, isymbols=isymbols, osymbols=osymbols) + _options(acceptor=acceptor, show_weight_one=show_weight_one, numeric=numeric)
    return run(["print", *options, "first"], files)[0].decode("utf-8", "surrogateescape")


def _table_at(machine: bytes, at: int) -> Tuple[Dict[str, int], int]:
    """The table at an offset of a machine, and the offset after it."""
    def number(size: int) -> int:
        nonlocal at
        at += size
        return int.from_bytes(machine[at - size:at], "little")

    table: Dict[str, int] = {}
    for _ in range(number(8)):
        size = number(4)
        at += size
        name = bytes(machine[at - size:at]).decode("utf-8", "surrogateescape")
        table[name] = number(4)
    return table, at


def symbols(machine: bytes) -> Symbols:
    """The tables of input and of output labels that a machine carries: names with their numbers, or None."""
    _unary("info", machine)
    at = 18 + int.from_bytes(machine[14:18], "little")
    flags, at = machine[at + 4], at + 40
    isymbols, at = _table_at(machine, at) if flags & 1 else (None, at)
    osymbols, at = _table_at(machine, at) if flags & 2 else (None, at)
    return isymbols, osymbols


def _shown(machine: bytes, isymbols: Optional[Table], osymbols: Optional[Table]) -> Tuple[Optional[Table], Optional[Table]]:
    """The tables that name the labels: those that are given, or else those that the machine carries."""
    own = symbols(machine)
    return own[0] if isymbols is None else isymbols, own[1] if osymbols is None else osymbols


def parts(machine: bytes, *, isymbols: Optional[Table] = None, osymbols: Optional[Table] = None) -> Parts:
    """The start, the arcs and the final states of a machine; a label is a name of its side's table, one that is given or that
    the machine carries, or else a number."""
    isymbols, osymbols = _shown(machine, isymbols, osymbols)
    rows = [line.split("\t") for line in print(machine, isymbols=isymbols, osymbols=osymbols).split("\n")[:-1]]
    zero = _ZEROS.get(_arc_type(machine))
    arcs: List[Arc] = []
    finals: Dict[int, Optional[Weight]] = {}
    for row in rows:
        weight = weight_of(row[-1]) if len(row) in (2, 5) else None
        if len(row) > 2:
            ilabel: Label = row[2] if isymbols is not None else int(row[2])
            olabel: Label = row[3] if osymbols is not None else int(row[3])
            arcs.append((int(row[0]), int(row[1]), ilabel, olabel, weight))
        elif row[1:] != [zero]:
            finals[int(row[0])] = weight
    return Parts(int(rows[0][0]) if rows else None, arcs, finals)


_ZEROS = {"tropical": "Infinity", "boolean": "0", "minmax": "Infinity", "lexicographic": "Infinity,Infinity"}


def _arc_type(machine: bytes) -> str:
    """The arc type of a machine, by the first fields of its form."""
    return bytes(machine[18:18 + int.from_bytes(machine[14:18], "little")]).decode("ascii", "replace")


def _times(arc_type: str, left: Weight, right: Optional[Weight]) -> Weight:
    """The weight of a path that goes on by an arc, One where right is none."""
    if right is None:
        return left
    if isinstance(left, tuple) and isinstance(right, tuple):
        return tuple(one + other for one, other in zip(left, right))
    if isinstance(left, tuple) or isinstance(right, tuple):
        raise ValueError(f"{left} and {right} are weights of two types")
    return max(left, right) if arc_type == "minmax" else min(left, right) if arc_type == "boolean" else left + right


_ONES: Dict[str, Weight] = {"tropical": 0, "boolean": 1, "minmax": float("-inf"), "lexicographic": (0, 0)}


def _epsilon(table: Optional[Table]) -> str:
    """The name of label 0."""
    return "0" if table is None else _names(table).get(0, "")


def _names(table: Optional[Table]) -> Dict[int, str]:
    """The names of a table by their numbers."""
    if table is None:
        return {}
    if isinstance(table, Mapping):
        return {number: str(name) for name, number in table.items()}
    with open(table, encoding="utf-8", errors="surrogateescape") as lines:
        return {int(fields[1]): fields[0] for fields in map(str.split, lines) if len(fields) == 2 and fields[1].isdigit()}


def strings(machine: bytes, *, isymbols: Optional[Table] = None, osymbols: Optional[Table] = None, between: Optional[str] = None,
            nshortest: Optional[int] = None, unique: bool = False) -> Iterator[Path]:
    """The strings of each successful path, in the order of the arcs, epsilons left out. Between labels stands `between`, if not
    given nothing between names and a blank between numbers. A cycle has no end of paths: ValueError names a state on it.
    With `nshortest` the strings of so many best paths, best first, or, `unique`, so many different strings of an acceptor
    without epsilon."""
    if nshortest is not None:
        machine = shortestpath(machine, nshortest=nshortest, unique=unique)
    elif unique:
        raise ValueError("unique wants to know how many: nshortest=9, say")
    isymbols, osymbols = _shown(machine, isymbols, osymbols)
    start, arcs, finals = parts(machine, isymbols=isymbols, osymbols=osymbols)
    arc_type, leaving = _arc_type(machine), {}  # type: str, Dict[int, List[Arc]]
    for arc in arcs:
        leaving.setdefault(arc[0], []).append(arc)
    epsilons = _epsilon(isymbols), _epsilon(osymbols)
    gaps = [between if between is not None else " " if table is None else "" for table in (isymbols, osymbols)]
    if start is not None:
        _refuse_cycles(start, leaving)
        way: List[Tuple[int, Weight, Tuple[str, ...], Tuple[str, ...]]] = [(start, _ONES[arc_type], (), ())]
        while way:
            state, weight, read, written = way.pop()
            if state in finals:
                yield Path(_times(arc_type, weight, finals[state]), gaps[0].join(read), gaps[1].join(written))
            for _, target, ilabel, olabel, cost in reversed(leaving.get(state, [])):
                more = [() if str(label) == epsilon else (str(label),) for label, epsilon in zip((ilabel, olabel), epsilons)]
                way.append((target, _times(arc_type, weight, cost), read + more[0], written + more[1]))


def _refuse_cycles(start: int, leaving: Mapping[int, List[Arc]]) -> None:
    """A search in depth: a state that is met again on the way to it lies on a cycle."""
    done: Set[int] = set()
    on_way, way = {start}, [(start, iter(leaving.get(start, [])))]
    while way:
        state, arcs = way[-1]
        arc = next(arcs, None)
        if arc is None:
            way.pop()
            on_way.discard(state)
            done.add(state)
        elif arc[1] in on_way:
            raise ValueError(f"state {arc[1]} lies on a cycle: nshortest=9, say, gives the strings of the best paths")
        elif arc[1] not in done:
            on_way.add(arc[1])
            way.append((arc[1], iter(leaving.get(arc[1], []))))


def draw(machine: bytes, *, isymbols: Optional[Table] = None, osymbols: Optional[Table] = None, to: str = "dot") -> str:
    """The graph of a machine as dot reads it, or what dot makes of it, as svg."""
    isymbols, osymbols = _shown(machine, isymbols, osymbols)
    start, arcs, finals = parts(machine, isymbols=isymbols, osymbols=osymbols)
    epsilons = _epsilon(isymbols), _epsilon(osymbols)
    lines = ["digraph machine {", "  rankdir = LR;", "  node [shape = circle];"]
    for state in sorted({state for arc in arcs for state in arc[:2]} | set(finals) | ({start} if start is not None else set())):
        final = finals.get(state)
        label = _quoted(str(state) + (f"/{weight_text(final)}" if final is not None else ""))
        lines.append(f"  {state} [label = {label}{', shape = doublecircle' if state in finals else ''}{', penwidth = 2' if state == start else ''}];")
    for source, target, ilabel, olabel, weight in arcs:
        names = ["ε" if str(label) == epsilon else str(label) for label, epsilon in zip((ilabel, olabel), epsilons)]
        text = (names[0] if names[0] == names[1] else ":".join(names)) + (f"/{weight_text(weight)}" if weight is not None else "")
        lines.append(f"  {source} -> {target} [label = {_quoted(text)}];")
    graph = "\n".join(lines + ["}"]) + "\n"
    if to == "dot":
        return graph
    try:
        done = subprocess.run(["dot", f"-T{to}"], input=graph.encode("utf-8", "replace"), capture_output=True, check=False)
    except OSError as fault:
        raise NoProgram(f"dot: {fault.strerror} (Debian's package graphviz has it)") from fault
    if done.returncode:
        raise ValueError(done.stderr.decode("utf-8", "replace").strip())
    return done.stdout.decode("utf-8")


def _quoted(text: str) -> str:
    return '"' + text.replace("\\", "\\\\").replace('"', '\\"') + '"'


def info(machine: bytes) -> Dict[str, str]:
    """The fifteen lines of info, by their names."""
    rows = (line.split("\t") for line in _unary("info", machine).decode().splitlines())
    return {name: value for name, value in rows}


def invert(machine: bytes) -> Machine:
    """Input and output change places."""
    return _unary("invert", machine)


def reverse(machine: bytes) -> Machine:
    """Every path turned round."""
    return _unary("reverse", machine)


def connect(machine: bytes) -> Machine:
    """The states on successful paths alone."""
    return _unary("connect", machine)


def closure(machine: bytes, *, closure_plus: bool = False) -> Machine:
    """Any number of paths, one after the other."""
    return _unary("closure", machine, *_options(closure_plus=closure_plus))


def project(machine: bytes, *, project_output: bool = False) -> Machine:
    """The input on both sides, or the output."""
    return _unary("project", machine, *_options(project_output=project_output))


def relabel(machine: bytes, *, relabel_ipairs: Optional[Pairs] = None, relabel_opairs: Optional[Pairs] = None) -> Machine:
    """Each old label becomes the new one."""
    files = {"first": machine}
    options = _tables(files, relabel_ipairs=relabel_ipairs, relabel_opairs=relabel_opairs)
    return run(["relabel", *options, "first"], files)[0]


def arcsort(machine: bytes, *, sort_type: str = "ilabel") -> Machine:
    """The arcs of each state by their input labels, or their output labels."""
    return _unary("arcsort", machine, f"--sort_type={sort_type}")


def union(first: bytes, second: bytes, *others: bytes) -> Machine:
    """The paths of both, or of all."""
    together = _binary("union", first, second)
    for other in others:
        together = _binary("union", together, other)
    return together


def concat(first: bytes, second: bytes) -> Machine:
    """A path of the first, then one of the second."""
    return _binary("concat", first, second)


def compose(first: bytes, second: bytes, *, connect: bool = True, max_states: Optional[int] = None) -> Machine:
    """What the first writes is read by the second."""
    return _binary("compose", first, second, f"--connect={str(connect).lower()}", *_options(max_states=max_states))


def intersect(first: bytes, second: bytes, *, connect: bool = True, max_states: Optional[int] = None) -> Machine:
    """Of two acceptors the strings that both have, with the products of their weights."""
    return _binary("intersect", first, second, f"--connect={str(connect).lower()}", *_options(max_states=max_states))


def difference(first: bytes, second: bytes, *, connect: bool = True, max_states: Optional[int] = None) -> Machine:
    """The paths of the first acceptor whose string the second does not have."""
    return _binary("difference", first, second, f"--connect={str(connect).lower()}", *_options(max_states=max_states))


def equivalent(first: bytes, second: bytes, *, isymbols: Optional[Table] = None, max_states: Optional[int] = None) -> Verdict:
    """Whether two acceptors, each with at most one arc of a state for a label, give each word the same weight: true, or the
    least word whose weights differ. Its labels are names of the table that is given or that the first machine carries."""
    said = _binary("equivalent", first, second, *_options(max_states=max_states)).decode().rstrip("\n")
    if said == "equivalent":
        return Verdict(True)
    names = _names(_shown(first, isymbols, None)[0])
    _, one, other, word = said.split("\t")
    labels = [int(label) for label in word.split()]
    return Verdict(False, tuple(names.get(label, label) for label in labels), weight_of(one), weight_of(other))


def replace(root: bytes, label: int, rules: Mapping[int, bytes]) -> Machine:
    """The root, whose own label this is, with the rule of each label in place of the arcs that call it."""
    files, names = {"root": root}, ["root", str(label)]
    for number, rule in rules.items():
        files[f"rule{number}"] = rule
        names += [f"rule{number}", str(number)]
    return run(["replace", *names], files)[0]


def encode(machine: bytes, *, encode_weights: bool = False) -> Tuple[Machine, bytes]:
    """The machine with pairs of labels as single ones, and the codex that turns it back."""
    return run(["encode", "--encode_labels", *_options(encode_weights=encode_weights), "first", "codex"], {"first": machine}, "codex")


def decode(machine: bytes, codex: bytes) -> Machine:
    """The machine whose labels the codex turns back."""
    return run(["encode", "--decode", "first", "codex"], {"first": machine, "codex": codex})[0]


def rmepsilon(machine: bytes, *, connect: bool = True, queue_type: Optional[str] = None) -> Machine:
    """The same relation without epsilon arcs."""
    return _unary("rmepsilon", machine, f"--connect={str(connect).lower()}", *_options(queue_type=queue_type))


def shortestdistance(machine: bytes, *, reverse: bool = False, queue_type: Optional[str] = None) -> List[Weight]:
    """The distance of each state."""
    lines = _unary("shortestdistance", machine, *_options(reverse=reverse, queue_type=queue_type)).decode().splitlines()
    return [weight_of(line.split("\t")[1]) for line in lines]


def shortestpath(machine: bytes, *, nshortest: int = 1, unique: bool = False) -> Machine:
    """The best paths, best first, or the best different strings of an acceptor without epsilon."""
    return _unary("shortestpath", machine, f"--nshortest={nshortest}", *_options(unique=unique))


def push(machine: bytes, *, remove_total_weight: bool = False, queue_type: Optional[str] = None) -> Machine:
    """Weights pushed toward the start."""
    return _unary("push", machine, "--push_weights", *_options(remove_total_weight=remove_total_weight, queue_type=queue_type))


def determinize(machine: bytes, *, max_states: Optional[int] = None) -> Machine:
    """At most one arc of a state with a label."""
    return _unary("determinize", machine, *_options(max_states=max_states))


def minimize(machine: bytes, *, queue_type: Optional[str] = None) -> Machine:
    """The fewest states."""
    return _unary("minimize", machine, *_options(queue_type=queue_type))


def prune(machine: bytes, *, weight: Optional[str] = None, queue_type: Optional[str] = None) -> Machine:
    """The paths whose weight is no worse than the best Times a threshold, a weight text of the arc type."""
    return _unary("prune", machine, *_options(weight=weight, queue_type=queue_type))


def batch(first: bytes, second: bytes, lines: Iterable[Union[str, bytes]], *, nshortest: int = 1, workers: int = 1,
          max_states: Optional[int] = None) -> List[Answer]:
    """The best answers of the cascade of both machines to each line, in order."""
    rows = [line if isinstance(line, bytes) else line.encode("utf-8", "surrogateescape") for line in lines]
    if any(b"\n" in row for row in rows):
        raise ValueError("a line holds the end of a line")
    files = {"first": first, "second": second, "lines": b"".join(row + b"\n" for row in rows)}
    words = ["batch", f"--nshortest={nshortest}", f"--workers={workers}", *_options(max_states=max_states), "first", "second", "lines"]
    answers = []
    for row in run(words, files)[0].decode("utf-8", "surrogateescape").split("\n")[:-1]:
        line, weight, *text = row.split("\t", 2)
        if weight == "!":
            answers.append(Answer(int(line), refused=text[0]))
        else:
            answers.append(Answer(int(line), weight_of(weight), text[0]) if text else Answer(int(line)))
    return answers


def make(*, seed: int = 1, lines: int = 1000, nshortest: int = 1, workers: int = 1, max_states: Optional[int] = None) -> Dict[str, List[int]]:
    """The numbers of a cascade that is made by a seed and run as a batch, by their names."""
    words = _options(seed=seed, nshortest=nshortest, workers=workers, max_states=max_states) + [f"--lines={lines}"]
    rows = [line.split("\t") for line in run(["make", *words])[0].decode().splitlines()]
    return {name: [int(number) for number in numbers] for name, *numbers in rows}
