#!/usr/bin/env python3
"""Makes docs/PROMISES.md, and the table of crates in docs/MAP.md, from crates.txt and the sources.

In the other pages it corrects the crate of a file that has moved to another crate. Without a word it writes what has
changed (`make docs`); with --check it writes nothing, and ends with 1 where something has.
"""
import pathlib
import re
import sys

ROOT = pathlib.Path(__file__).resolve().parents[1]
HEAD = """# Promises

`make docs` makes this page from the sources, and `.ci/checks/promises` fails where the two differ. Crates are in the order of
`crates.txt`.

A public call has a line where a wrong body guards it, where it is a law, or where the program calls it and it is no mere
getter. The text is the first sentence of the `///`, and what that says of paths, weights and refusals. In brackets are the
names of the clauses that the call ensures, and after "asks" those of its conditions. After ✗ come the wrong bodies of
`must-fail/` that the prover refuses by a clause. The contract itself is at `fn NAME` in the crate's `src`, and cites
definitions of `specs/` alone.

[HEADLINE.md](HEADLINE.md) has what `run`, the top call, promises. [DEFINITIONS.md](DEFINITIONS.md) and
[CONSTRUCTIONS.md](CONSTRUCTIONS.md) say what the words mean, [FORMATS.md](FORMATS.md) what each refusal means, and
[CONCURRENCY.md](CONCURRENCY.md) speaks of threads. Crates of mechanism are left out: their `//!` name the proofs above that
need them. [MAP.md](MAP.md) has all crates.
"""
# The table of docs/MAP.md is between these lines.
BEGIN, END = "<!-- The table of crates: make docs makes it. -->", "<!-- The end of the table. -->"
# The paragraph of a crate's //! that says why it has no wrong bodies.
MECHANISM = "No wrong body is tried in this crate"
# What says when a call refuses; and what it leaves then.
REFUSAL = re.compile(r"\b(exactly|only) (where|past|at)\b|\bin this order\b")
LEFT = re.compile(REFUSAL.pattern + r"|\b(is|are) as (it was|before|they were)\b|\bas it was\b")
# What says which paths and weights the result has.
MEANING = re.compile(r"\bone[ -]to[ -]one\b|\brelates?\b|\bsuccessful path|\bsame weight\b")


class Item:
    """A function, type or trait of a source file: its doc comment, and the names of the clauses of its contract."""

    def __init__(self, kind, name, owner, inside, doc):
        self.kind, self.name, self.owner, self.inside, self.doc = kind, name, owner, inside, " ".join(" ".join(doc).split())
        # The names of the clauses that it ensures, and of those that it requires; and whether its body is empty.
        self.labels, self.asked, self.empty = [], [], False

    def called(self):
        return f"{self.owner}::{self.name}" if self.owner else self.name


def layers():
    """Returns the layers of crates.txt: a title, and its crates, each with the names of those that it uses."""
    found, title = [], []
    for line in (ROOT / "crates.txt").read_text(encoding="utf-8").split("\n"):
        if line.startswith("#"):
            title.append(line[1:].strip())
            continue
        if line and title:
            found.append((" ".join(title).partition(":")[0].rstrip("."), []))
        title = []
        if line:
            crate, _, below = line.partition(":")
            found[-1][1].append((crate, below.split()))
    return found


def sentences(text):
    """Returns the sentences of a text, without sources in parentheses."""
    parts = re.split(r"(?<=[.?!])\s+(?=[A-Z`(])", text)
    return [re.sub(r"^\([^()]*\) ", "", part) for part in parts if not re.fullmatch(r"\([^()]*\)", part)] or [""]


def head_of(crate):
    """Returns the paragraphs of a crate's //!."""
    for name in ("lib.rt", "main.rt"):
        file = ROOT / "crates" / crate / "src" / name
        if file.exists():
            lines = [line[3:].strip() for line in file.read_text(encoding="utf-8").split("\n") if line.startswith("//!")]
            return [" ".join(part.split()) for part in "\n".join(lines).split("\n\n")]
    return [""]


def owner_of(line):
    """Returns of the first line of an impl block the type, and whether it is of a trait."""
    text, depth = line[4:].strip(), 0
    for place, letter in enumerate(text):
        depth += (letter == "<") - (letter == ">" and text[place - 1] != "-")
        if not depth:
            text = text[place + 1 :].strip() if text.startswith("<") else text
            break
    of, is_trait, to = text.partition(" for ")
    match = re.match(r"[&' \w:]*?(\w+)(?=[<\s{]|$)", to if is_trait else of)
    return match and match[1], bool(is_trait)


def read_contract(lines, place, indent, item):
    """Reads the clauses of the function that begins at a line, and passes its body; returns the place after it."""
    first = place
    while True:
        text = lines[place].strip()
        place += 1
        item.labels += re.findall(r"\bensures (?:(\w+) )?\{", text)
        item.asked += re.findall(r"\brequires (\w+) \{", text)
        if text.endswith(("{}", ";")):
            item.empty = text.endswith("{}")
            return place
        if text == "{" or (text.endswith("{") and not re.match(r"(ensures|requires)\b", text) and (place > first + 1 or "->" in text or ")" in text)):
            break
    while lines[place] != indent + "}":
        place += 1
    return place + 1


def items_of(file):
    """Returns the public items of a source file."""
    lines, found, owner, inside, doc, place = file.read_text(encoding="utf-8").split("\n"), [], None, None, [], 0
    while place < len(lines):
        line = lines[place]
        place += 1
        text = line.strip()
        if text.startswith("///"):
            doc.append(text[3:].strip())
            continue
        if text.startswith("#["):
            continue
        if line.startswith("impl"):
            owner, of_trait = owner_of(line)
            inside = "impl of a trait" if of_trait else "impl"
        elif line.startswith("}"):
            owner = inside = None
        match = re.match(r"( *)(pub(?:\(\w+\))? )?(?:const |unsafe )*(fn|struct|enum|trait) (\w+)", line)
        if match and (not match[1] or (inside and len(match[1]) == 4)):
            indent, public, kind, name = match.groups()
            item = Item(kind, name, indent and owner or None, indent and inside or None, doc)
            if kind == "trait":
                owner, inside = name, "trait"
            if kind == "fn":
                place = read_contract(lines, place - 1, indent, item)
            if public == "pub " or item.inside == "trait":
                found.append(item)
        if text:
            doc = []
    return found


def program():
    """Returns the crates of the layer of the program, and their code."""
    crates = [crate for title, of in layers() if title.startswith("The program") for crate, _ in of]
    files = [file for crate in crates for file in sorted((ROOT / "crates" / crate / "src").rglob("*.rt"))]
    return crates, "\n".join(re.sub(r"(?m)^ *(//|ghost use).*$", "", file.read_text(encoding="utf-8")) for file in files)


def public_of(crate):
    """Returns the calls with a contract that a crate offers, in the order of its files."""
    folder = ROOT / "crates" / crate / "src"
    calls, exported = [], {}
    if not (folder / "lib.rt").exists():
        return calls
    text = (folder / "lib.rt").read_text(encoding="utf-8")
    modules = re.findall(r"(?m)^pub mod (\w+);", text)
    for module, names in re.findall(r"(?m)^pub use (\w+)(?:::\w+)*::(\{[^}]*\}|\w+);", text):
        exported.update(dict.fromkeys(re.findall(r"\w+", names), module))
    for file in sorted(folder.rglob("*.rt")):
        parts = file.relative_to(folder).with_suffix("").parts
        for item in items_of(file):
            top = item.owner or item.name
            is_out = parts[0] in modules or (top in exported if item.owner else exported.get(top) in parts)
            if item.kind == "fn" and item.labels and item.inside != "impl of a trait" and is_out:
                calls.append(item)
    return calls


def edits_of(crate, calls):
    """Returns the wrong bodies of a crate, by the call and the name of the clause that refuse them.

    A clause that no call of that name has is one of the same call in an implementation, or one without a name.
    """
    found, rest = {}, []
    for edit in sorted((ROOT / "crates" / crate / "must-fail").glob("*.edit")):
        turns = re.search(r"(?m)^turns: (\w+), (.*)$", edit.read_text(encoding="utf-8"))
        if not turns:
            continue
        alike = [it for it in calls if it.name == turns[1]]
        exact = [it for it in alike if turns[2] in it.labels]
        body = edit.stem.replace("_", " ")
        for it in exact or alike:
            found.setdefault((it.called(), turns[2] if exact else ""), []).append(body)
        if not alike:
            rest.append(f"✗ {body} (`{turns[1]}`)")
    return found, rest


def text_of(item):
    """Returns what a call's doc comment says of its result, its meaning and its refusals, of which several are named alone."""
    first, *others = sentences(item.doc)
    refusals = [it for it in others if REFUSAL.search(it)]
    causes = [it for it in re.findall(r"`([A-Z]\w+)`", " ".join(refusals)) if it not in ("Err", "Memory", "None", "Ok")]
    is_order = any("in this order" in it or "lse `" in it for it in refusals)
    said = [first]
    for sentence in others:
        parts = sentence.split("; ")
        if MEANING.search(sentence) and sentence not in refusals:
            said.append(sentence)
        elif LEFT.search(parts[0]) and not (is_order and sentence in refusals):
            said.append("; ".join(part for part in parts if LEFT.search(part)).rstrip(".") + ".")
    if is_order:
        said.append("Refused exactly for `" + "`, `".join(dict.fromkeys(causes)) + "`, in this order.")
    return " ".join(said)


def clauses_of(item, edits):
    """Returns the names of a call's clauses, each with the wrong bodies that it refuses."""
    cells, labels = [], list(dict.fromkeys(item.labels))
    for label in labels + [""] * ("" not in labels):
        wrong = [f"✗ {body}" for body in edits.get((item.called(), label), [])]
        cells += [" ".join([label, *wrong]).strip()] if label or wrong else []
    asked = [f"asks {', '.join(dict.fromkeys(item.asked))}"] if item.asked else []
    return f" [{'; '.join(filter(None, [', '.join(cells), *asked]))}]" if cells or asked else ""


def named(calls):
    """Returns a list of calls by name, those of a type together."""
    names = {}
    for it in calls:
        names.setdefault(it.owner, []).append(it.name)
    return ", ".join(
        "`" + "`, `".join(of) + "`" if not owner else f"`{owner}::{of[0]}`" if len(of) == 1 else f"`{owner}::{{{', '.join(of)}}}`"
        for owner, of in names.items()
    )


def is_getter(item):
    """Returns whether a call refuses nothing and has few named clauses: none, or of a type's own two at most."""
    few = 2 if item.inside == "impl" else 0
    return not REFUSAL.search(text_of(item).replace("`None` exactly", "")) and len(set(item.labels) - {""}) <= few


def rows_of(crate, code):
    """Returns the lines of a crate; code is that of the program: what it calls has a line."""
    calls = public_of(crate)
    edits, rest = edits_of(crate, calls)
    rows = []
    for item in calls:
        wrong = any((item.called(), label) in edits for label in [*item.labels, ""])
        used = re.search(rf"(\.|\b{item.owner}(::<.*>)?::){item.name}\b" if item.owner else rf"\b{item.name}\b", code)
        like = re.search(r"\bas `(\w+)` (?:makes|gives|has) (?:it|them)\b", sentences(item.doc)[0])
        same = next((row for row in rows if row["of"].labels == item.labels and (row["text"] == text_of(item) or like and row["of"].name == like[1])), None)
        if not same and rows and rows[-1]["of"].labels == item.labels and item.doc.startswith("The same"):
            same = rows[-1]
        if same and (not wrong or same["text"] == text_of(item)):
            same["calls"].append(item)
        elif wrong or item.empty or used and not is_getter(item):
            rows.append({"calls": [item], "text": text_of(item), "clauses": clauses_of(item, edits), "of": item})
    lines = [f"- {named(row['calls'])}: {row['text']}{row['clauses']}" for row in rows]
    lines += ["- In functions behind these: " + ", ".join(rest)] if rest else []
    return lines


def promises():
    """Returns the page of promises."""
    parts, (top, code) = [HEAD], program()
    for title, crates in layers():
        sections = []
        for crate, _ in crates:
            head = head_of(crate)
            lines = [] if any(it.startswith(MECHANISM) for it in head) else rows_of(crate, "" if crate in top else code)
            if lines:
                sections += [f"### {crate}\n\n{sentences(head[0])[0]}\n", "\n".join(lines) + "\n"]
        parts += [f"## {title}\n", *sections] if sections else []
    return "\n".join(parts)


def table():
    """Returns the table of crates."""
    below = {crate: names for _, crates in layers() for crate, names in crates}

    def reached(crate):
        return {it for name in below.get(crate, []) for it in {name} | reached(name)}

    lines = ["| Crate | What it is | Uses |", "|---|---|---|"]
    for title, crates in layers():
        lines.append(f"| **{title}** | | |")
        for crate, names in crates:
            least = [it for it in names if not any(it in reached(other) for other in names)]
            lines.append(f"| `{crate}` | {sentences(head_of(crate)[0])[0]} | {', '.join(least)} |")
    return "\n".join(lines)


def placed(text):
    """Returns the text of a page with the crates of the files that it names, where a file has moved to another crate."""

    def place(match):
        crate, rest = match[1], match[2]
        found = list(ROOT.glob(f"crates/*/{rest}"))
        return f"{found[0].parts[len(ROOT.parts) + 1]}/{rest}" if not (ROOT / "crates" / crate / rest).exists() and len(found) == 1 else match[0]

    return re.sub(r"\b(fst\w*)/((?:specs|src)/[\w/]+\.(?:antt|rt))", place, text)


def main():
    page, wanted = ROOT / "docs" / "MAP.md", promises()
    text = page.read_text(encoding="utf-8")
    begin, end = text.find(BEGIN), text.find(END)
    if not 0 <= begin < end:
        sys.exit("docs/MAP.md lacks the lines between which its table stands")
    pages = {it: placed(it.read_text(encoding="utf-8")) for it in [ROOT / "README.md", ROOT / "CONTRIBUTING.md", *(ROOT / "docs").glob("*.md")]}
    pages[page] = placed(f"{text[:begin]}{BEGIN}\n\n{table()}\n\n{text[end:]}")
    pages[ROOT / "docs" / "PROMISES.md"] = wanted
    stale = [it for it, made in sorted(pages.items()) if not it.exists() or it.read_text(encoding="utf-8") != made]
    if sys.argv[1:] == ["--check"]:
        for it in stale:
            print(f"{it.relative_to(ROOT)} is not what the sources say: make docs writes it anew")
        sys.exit(bool(stale))
    for it in stale:
        it.write_text(pages[it], encoding="utf-8")
        print(it.relative_to(ROOT))


if __name__ == "__main__":
    main()
