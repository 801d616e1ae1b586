"""What the converters share: how they speak, the texts that they read, names of labels, whole weights, whole outputs."""
import argparse
import io
import operator
import os
import re
import struct
import subprocess
import sys
import tempfile

EPSILON = "<eps>"
# The bytes 32, 9 and 13 separate the fields of a text.
FIELDS = re.compile(r"[ \t\r]+")
# What a name of a symbol table cannot hold, and the names that HFST has for it.
SAFE_NAMES = {" ": "@_SPACE_@", "\t": "@_TAB_@"}
DECIMAL = re.compile(r"[-+]?(\d+\.?\d*|\.\d+)([eE][-+]?\d{1,3})?")
GREATEST_WEIGHT = 10**18
GREATEST_LABEL = 2_147_483_647
ARC_TYPES = ("tropical", "boolean", "minmax", "lexicographic")
# The final weights of a state that is not final.
ZEROS = {"tropical": ("Infinity",), "boolean": ("0",), "minmax": ("Infinity",), "lexicographic": ("Infinity,Infinity",)}
# The names that epsilon has by custom: eps, epsilon and signs of it, and these and others between brackets, as in <eps> and @0@.
EPSILON_NAMES = re.compile(r"eps|epsilon|[εϵλ∅]|[<\[{(@*_\"']+(|0|e|eps|epsilon|[εϵλ]|epsilon_symbol|lambda|empty|null|nil|none|blk|blank)[>\]})@*_\"']+", re.IGNORECASE)
MAGIC, TABLE_MAGIC = struct.pack("<i", 2125659606), struct.pack("<i", 2125658996)


class Refused(Exception):
    """What cannot be turned, and where it stands."""


def shown(text):
    """A text for a terminal: control bytes and bytes that are no character are written out."""
    return "".join(one if one.isprintable() else f"\\x{ord(one) & 255:02x}" if ord(one) < 160 or 0xDC80 <= ord(one) <= 0xDCFF else f"\\u{ord(one):04x}"
                   for one in text)


def warn(message):
    """Says on standard error what may be meant otherwise, and is done all the same."""
    print(shown(f"{os.path.basename(sys.argv[0])}: {message}"), file=sys.stderr)


def table_at(data, at):
    """The table at an offset of a machine of fst: its names with their numbers, and the offset after it."""
    (count,), at, table = struct.unpack_from("<q", data, at), at + 8, {}
    for _ in range(count):
        size, = struct.unpack_from("<I", data, at)
        name = data[at + 4:at + 4 + size].decode("utf-8", "surrogateescape")
        table[name], = struct.unpack_from("<I", data, at + 4 + size)
        at += 8 + size
    return table, at


def tables_of(data):
    """The tables of input and of output labels that a machine of fst carries, `None` for none, and the offset after them.
    The machine has been read by fst, and found whole."""
    at = 18 + struct.unpack_from("<i", data, 14)[0]
    flags, at, tables = struct.unpack_from("<i", data, at + 4)[0], at + 40, [None, None]
    for side in range(2):
        if flags & (side + 1):
            tables[side], at = table_at(data, at)
    return tables, at


def epsilon_of(table):
    """The name of epsilon in a table that a machine carries."""
    return next((name for name, number in table.items() if number == 0), EPSILON)


class Place:
    """A line of a file, for what is said of it."""

    def __init__(self, name, line_of="line"):
        self.name, self.line, self.line_of = "standard input" if name == "-" else name, 0, line_of

    def refuse(self, why):
        raise Refused(f"{self.name}: {self.line_of} {self.line}: {why}")


class Words(argparse.ArgumentParser):
    """The words of a script: a wrong one is answered with one line."""

    def __init__(self, description):
        super().__init__(description=description, allow_abbrev=False, formatter_class=argparse.RawDescriptionHelpFormatter)

    def error(self, message):
        print(shown(f"{self.prog}: {message} ({self.prog} --help says more)"), file=sys.stderr)
        sys.exit(2)


def run(words, work):
    """Does the work that the words ask for: a refusal is one line on standard error, with status 1."""
    options = words.parse_args()
    try:
        work(options)
        sys.stdout.flush()
    except BrokenPipeError:
        # Whoever reads the output has had enough, as head does.
        os.dup2(os.open(os.devnull, os.O_WRONLY), 1)
    except Refused as refusal:
        sys.exit(shown(f"{words.prog}: {refusal}"))
    except OSError as fault:
        sys.exit(shown(f"{words.prog}: {fault.filename or 'the output'}: {fault.strerror}"))
    except KeyboardInterrupt:
        sys.exit(130)


def arc_type_of(head):
    """The arc type of a machine of fst, from its first bytes; none where they are of another kind of file."""
    for arc_type in ARC_TYPES:
        if head.startswith(MAGIC + struct.pack("<i6si", 6, b"vector", len(arc_type)) + arc_type.encode()):
            return arc_type
    return None


def kind_of(head):
    """What a file is that is no text, and what makes a text of it; none where it may be a text."""
    kinds = [(MAGIC, "OpenFst's binary file: fst-from-openfst reads it"), (TABLE_MAGIC, "OpenFst's binary symbol table: fstsymbols makes a text of it"),
             (b"HFST\0", "a binary file of HFST: hfst-fst2txt makes a text of it"), (b"LTTB", "a binary file of lttoolbox: lt-print makes a text of it"),
             (b"LTTX", "a binary file of lttoolbox: lt-print makes a text of it"), (b"FSTCODEX", "the codex of fst encode, and no text"),
             (b"\x1f\x8b", "compressed, as foma's binary files are: gzip -d, or foma's write att, makes a text of it"), (b"<?xml", "XML, and no text of lines")]
    if arc_type_of(head) is not None:
        return "a binary machine of fst: fst print makes a text of it"
    return next((kind for start, kind in kinds if head.startswith(start)), "a binary file, and no text" if b"\0" in head else None)


def refuse_no_machine(name, head):
    """Refuses a file that is no machine of fst, and says what makes one of it."""
    raise Refused(f"{shown_name(name)}: it is {kind_of(head) or ('a text: fst compile makes a machine of it' if head else 'empty')}")


def opened(name):
    """A file to read, `-` for standard input, and its first bytes, which stay unread."""
    file = open(sys.stdin.fileno() if name == "-" else name, "rb", closefd=name != "-", buffering=1 << 16)
    return file, file.peek(4096)[:4096]


def refuse_no_text(name):
    """Refuses a file of which the program is to read a text, where it is of another kind."""
    if os.path.isfile(name):
        file, head = opened(name)
        with file:
            kind = kind_of(head)
        if kind:
            raise Refused(f"{name}: it is {kind}")


def read_lines(place, name, source=None):
    """The lines of a file, `-` for standard input, without a byte order mark and without the ends of lines."""
    file = source
    if source is None:
        file, head = opened(name)
        kind = kind_of(head)
        if kind:
            raise Refused(f"{place.name}: it is {kind}")
    with file:
        for place.line, line in enumerate(file, 1):
            line = line.decode("utf-8", "surrogateescape")
            yield (line.removeprefix("\ufeff") if place.line == 1 else line).removesuffix("\n").removesuffix("\r")


def program_words(*words):
    return [os.environ.get("JAZVURD_FST") or "fst", *words]


def run_program(words, data):
    """What the program writes, given these bytes as standard input: its line is the refusal."""
    try:
        done = subprocess.run(program_words(*words), input=data, capture_output=True, check=False)
    except OSError as fault:
        raise Refused(f"{program_words()[0]}: {fault.strerror} (make install puts fst on the path, JAZVURD_FST names another)") from fault
    if done.returncode:
        line = done.stderr.decode("utf-8", "surrogateescape").strip().removeprefix("fst: ")
        raise Refused(line or f"fst ended with status {done.returncode}")
    return done.stdout


def run_on(name, words, data):
    """What the program writes, given the bytes of this file as standard input: its line, with the name, is the refusal."""
    try:
        return run_program([*words, "-"], data)
    except Refused as refusal:
        line = re.sub("^(-|cannot read -):", f"{shown_name(name)}:", str(refusal))
        raise Refused(line if ": " in line else f"{shown_name(name)}: {line}") from None


def compiled(text, symbols, acceptor=False):
    """The binary machine of a text whose labels have the names of a table; none for a text of numbers."""
    if symbols is None:
        return run_program(["compile", *(["--acceptor"] if acceptor else [])], text)
    with tempfile.NamedTemporaryFile(prefix="fst-symbols-") as table:
        table.write(symbols.text())
        table.flush()
        sides = ["--acceptor", f"--isymbols={table.name}"] if acceptor else [f"--isymbols={table.name}", f"--osymbols={table.name}"]
        return run_program(["compile", *sides], text)


def write_draft(path, data):
    """Writes a file beside the path, with the rights that the path has or would get, and gives its name."""
    mask = os.umask(0)
    os.umask(mask)
    rights = os.stat(path).st_mode if os.path.exists(path) else 0o666 & ~mask
    handle, draft = tempfile.mkstemp(dir=os.path.dirname(path), prefix=".draft-")
    try:
        with os.fdopen(handle, "wb") as file:
            file.write(data)
        os.chmod(draft, rights)
    except OSError:
        os.unlink(draft)
        raise
    return draft


def write_whole(outputs):
    """Writes pairs of a name and its bytes. A file gets its name when all of them are whole, so that none is half written."""
    if len({name for name, _ in outputs}) < len(outputs):
        raise Refused("two outputs have one name")
    drafts, name = [], None
    try:
        for name, data in outputs:
            if name != "-" and (os.path.isfile(name) or not os.path.exists(name)):
                path = os.path.realpath(name)
                drafts.append((write_draft(path, data), path))
        # Pipes and devices get their bytes as they come.
        for name, data in outputs:
            if name == "-":
                sys.stdout.buffer.write(data)
            elif os.path.exists(name) and not os.path.isfile(name):
                with open(name, "wb") as file:
                    file.write(data)
        while drafts:
            os.replace(*drafts[0])
            drafts.pop(0)
    except OSError as fault:
        if not isinstance(fault, BrokenPipeError):
            fault.filename = "standard output" if name == "-" else name
        raise
    finally:
        for draft, _ in drafts:
            os.unlink(draft)


def as_bytes(lines):
    return "".join(lines).encode("utf-8", "surrogateescape")


def state_of(place, field):
    if not (field.isascii() and field.isdigit()):
        place.refuse(f"bad state {field}")
    return int(field)


def is_weight(text):
    """Whether a text is a decimal, or infinity."""
    return DECIMAL.fullmatch(text) is not None or text.lower().removeprefix("+") in ("inf", "infinity")


class Weights:
    """Turns decimals to whole numbers by a factor, and counts what was rounded."""

    def __init__(self, factor):
        self.factor, self.rounded, self.known = factor, 0, {}

    def whole(self, place, text):
        if text not in self.known:
            self.known[text] = self.turned(place, text)
        number, is_rounded = self.known[text]
        self.rounded += is_rounded
        return number

    def turned(self, place, text):
        if not is_weight(text):
            place.refuse(f"bad weight {text}")
        if not DECIMAL.fullmatch(text):
            return "Infinity", False
        # It is slow to load, and few scripts need it.
        from fractions import Fraction
        value = Fraction(text)
        if self.factor is None and value.denominator > 1:
            place.refuse(f"weight {text} is no whole number: --factor=1000, say, makes it one")
        exact = value * (self.factor or 1)
        number = round(exact)
        if abs(number) > GREATEST_WEIGHT:
            place.refuse(f"weight {text} is past 10^18")
        return str(number), number != exact

    def tell(self, script):
        if self.rounded:
            print(f"{script}: {self.rounded} weights were rounded to whole numbers of 1/{self.factor}", file=sys.stderr)


def factor_of(text):
    """A factor of the command line: a whole number above 0."""
    if not (text.isascii() and text.isdigit() and int(text) > 0):
        raise argparse.ArgumentTypeError(f"{text} is no whole number above 0")
    return int(text)


class Symbols:
    """A symbol table that grows: its names with their numbers, the new ones after the greatest. In a table that names labels
    which are written, number 0 has no name that a label could have."""

    def __init__(self, name=None, to_write=False, warns=True):
        self.numbers = {}
        if name is not None:
            self.read(name, to_write)
            if warns and not self.numbers:
                warn(f"{shown_name(name)}: the table is empty")
        self.given = frozenset(self.numbers)
        self.epsilon = next((symbol for symbol, number in self.numbers.items() if number == 0), EPSILON)
        if self.numbers.setdefault(self.epsilon, 0) != 0:
            raise Refused(f"{name}: {EPSILON} has another number than 0")
        self.next = max(self.numbers.values()) + 1

    def read(self, name, to_write):
        place, taken = Place(name), set()
        for line in read_lines(place, name):
            fields = [field for field in FIELDS.split(line) if field]
            if not fields:
                continue
            if len(fields) != 2:
                place.refuse("not a symbol table? wrong number of columns")
            symbol, number = fields
            if not (number.isascii() and number.isdigit() and int(number) <= GREATEST_LABEL):
                place.refuse(f"not a symbol table? bad number {number}")
            if symbol in self.numbers:
                place.refuse(f"{symbol} is given twice")
            if int(number) in taken:
                place.refuse(f"not a symbol table? {number} is given twice")
            if to_write and int(number) == 0 and not EPSILON_NAMES.fullmatch(symbol):
                place.refuse(f"number 0 is that of epsilon: give {symbol} another number")
            self.numbers[symbol] = int(number)
            taken.add(int(number))

    def add(self, symbol):
        if symbol not in self.numbers:
            self.numbers[symbol] = self.next
            self.next += 1
        return symbol

    def text(self):
        return as_bytes(f"{symbol}\t{number}\n" for symbol, number in self.numbers.items())


def shown_name(name):
    return "standard input" if name == "-" else name


def is_number(label):
    return label.isascii() and label.isdigit()


def takes_machine(words, tables=True):
    """The words of a script that reads a machine."""
    if tables:
        words.add_argument("--isymbols", metavar="TABLE", help="the names of the input labels of a binary machine, unless given those that it carries")
        words.add_argument("--osymbols", metavar="TABLE", help="the names of its output labels, unless given those that it carries; for an acceptor those of --isymbols")
        words.add_argument("--epsilon", metavar="NAME", help="of a text: the name of epsilon, <eps> unless given; 0 where labels are numbers")
    words.add_argument("--arc_type", choices=ARC_TYPES, help="of a text: the type of its weights, tropical unless given")
    words.add_argument("--acceptor", action="store_true", help="an arc has one label")
    words.add_argument("input", nargs="?", default="-", help="the binary machine, or the text of fst print; - for standard input")


def takes_between(words):
    """The words of a script that writes strings."""
    words.add_argument("--between", metavar="TEXT", help="what stands between two labels: nothing between names, a blank between numbers unless given")
    words.add_argument("--obetween", metavar="TEXT", help="the same of the output side alone")


class Text:
    """A machine, of its binary file or of the text that `fst print` writes: its arc type, its start, and by state its arcs
    and its final weight, as they stand in the text. A side's epsilon has the name in `epsilons`. `carried` has the tables
    that a binary machine carries: they name the labels of a side for which no option does, unless numbers are asked for."""

    def __init__(self, options, numbers=False):
        self.start, self.arcs, self.finals, self.name, self.numbers = None, {}, {}, options.input, numbers
        self.tables, self.carried = [None, None] if numbers else [options.isymbols, options.osymbols], [None, None]
        if options.acceptor and self.tables[1] is None:
            self.tables[1] = self.tables[0]
        file, head = opened(options.input)
        self.arc_type = arc_type_of(head)
        self.is_binary = self.arc_type is not None
        if self.is_binary:
            with file:
                data = file.read()
            lines = self.printed(options, data)
            self.carried = tables_of(data)[0]
            # Of an acceptor that carries the names of its input labels alone, these are those of both sides.
            one_label = options.acceptor and not numbers and self.tables[1] is None and self.carried[0] is not None and self.carried[1] is None
            if one_label:
                lines, self.carried[1] = self.printed(options, data, "--acceptor"), self.carried[0]
            self.epsilons = [self.epsilon(side) for side in range(2)]
            self.read(read_lines(self.place, options.input, lines), one_label)
            return
        if any(self.tables):
            raise Refused(f"{shown_name(options.input)}: tables are for a binary machine, and this is none")
        kind = kind_of(head)
        if kind:
            raise Refused(f"{shown_name(options.input)}: it is {kind}")
        self.arc_type = options.arc_type or "tropical"
        self.place = Place(options.input)
        given = "0" if numbers else options.epsilon
        self.epsilons = [given or EPSILON] * 2
        self.read(read_lines(self.place, options.input, file), options.acceptor)
        if given is None:
            self.refuse_numbers()

    def epsilon(self, side):
        """The name of epsilon on a side of a binary machine, 0 where its labels are numbers."""
        if self.tables[side] is not None:
            return Symbols(self.tables[side]).epsilon
        return "0" if self.is_numbered(side) else epsilon_of(self.carried[side])

    def printed(self, options, data, *flags):
        """The lines of a binary machine, by the program."""
        if options.arc_type not in (None, self.arc_type):
            raise Refused(f"{shown_name(options.input)}: the arc type is {self.arc_type}, and not {options.arc_type}")
        self.place = Place(options.input, "line of fst print")
        for table in filter(None, self.tables):
            refuse_no_text(table)
        words = ["print", *(f"--{side}={table}" for side, table in zip(("isymbols", "osymbols"), self.tables) if table is not None)]
        return io.BytesIO(run_on(options.input, [*words, *(["--numeric"] if self.numbers else []), *flags], data))

    def refuse_numbers(self):
        """A text that was printed without tables has numbers for labels, and 0 is no name then."""
        for side, name in enumerate(("input", "output")):
            labels = {arc[side] for arcs in self.arcs.values() for arc in arcs}
            if "0" in labels and all(map(is_number, labels)):
                raise Refused(f"{self.place.name}: the {name} labels are numbers, as it seems: --epsilon=0 takes 0 for epsilon, --epsilon='<eps>' for a name")

    def is_numbered(self, side):
        """Whether the labels of a side, 0 for input and 1 for output, are numbers and not names."""
        if self.is_binary:
            return self.numbers or self.tables[side] is None and self.carried[side] is None
        return self.epsilons[side] == "0"

    def is_zero(self, weight):
        return weight in ZEROS[self.arc_type]

    def needs(self, *arc_types):
        if self.arc_type not in arc_types:
            raise Refused(f"{shown_name(self.name)}: the arc type is {self.arc_type}, which has no place there")

    def read(self, lines, acceptor):
        arc_columns, targets = (3, 4) if acceptor else (4, 5), {}
        for line in lines:
            fields = [field for field in FIELDS.split(line) if field]
            if not fields:
                continue
            state = state_of(self.place, fields[0])
            if self.start is None:
                self.start = state
            if len(fields) in arc_columns:
                labels = (fields[2], fields[2]) if acceptor else (fields[2], fields[3])
                weight = fields[arc_columns[0]:]
                target = state_of(self.place, fields[1])
                self.arcs.setdefault(state, []).append((*labels, weight[0] if weight else "", target, self.place.line))
                targets[target] = None
            elif len(fields) in (1, 2):
                self.arcs.setdefault(state, [])
                self.finals[state] = (fields[1] if len(fields) == 2 else "", self.place.line)
            else:
                self.place.refuse("wrong number of columns")
        # The states come in the order of their lines, and those without a line last.
        for target in targets:
            self.arcs.setdefault(target, [])

    def final(self, state):
        """The final weight of a state and its line; none where it is not final."""
        weight = self.finals.get(state)
        return None if weight is None or self.is_zero(weight[0]) else weight

    def at(self, line):
        """The place of a line, for what is said of it later."""
        self.place.line = line
        return self.place


MINUS_INFINITY = float("-inf")
# By arc type: One, how many numbers a weight has, and Times of a number.
WEIGHTS = {"tropical": ((0,), 1, operator.add), "boolean": ((1,), 1, min), "minmax": ((MINUS_INFINITY,), 1, max), "lexicographic": ((0, 0), 2, operator.add)}


def weight_text(weight):
    return ",".join("-Infinity" if number == MINUS_INFINITY else str(number) for number in weight)


class Spelling:
    """The labels and weights of a machine as they stand in a string."""

    def __init__(self, options, machine):
        self.machine, self.plain = machine, [{epsilon: ""} for epsilon in machine.epsilons]
        given = options.between, options.between if options.obetween is None else options.obetween
        self.between = [" " if text is None and machine.is_numbered(side) else text or "" for side, text in enumerate(given)]
        self.known, self.one = {}, WEIGHTS[machine.arc_type][0]

    def label(self, side, name):
        if name not in self.plain[side]:
            plain = name + self.between[side]
            for blank, safe in SAFE_NAMES.items():
                plain = plain.replace(safe, blank)
            self.plain[side][name] = plain
        return self.plain[side][name]

    def weight(self, text, line):
        """A weight as numbers: one, or those of a pair."""
        if text not in self.known:
            one, parts, _ = WEIGHTS[self.machine.arc_type]
            numbers = text.split(",") if text else []
            if text and (len(numbers) != parts or not all(number.removeprefix("-").isdigit() for number in numbers)):
                self.machine.at(line).refuse(f"the weight {text} is none of the type {self.machine.arc_type}")
            self.known[text] = tuple(map(int, numbers)) if text else one
        return self.known[text]

    def times(self, left, right):
        return tuple(map(WEIGHTS[self.machine.arc_type][2], left, right))

    def without_end(self, side, text):
        """A string without what stands after its last label."""
        return text[:len(text) - len(self.between[side])]
