#!/usr/bin/env python3
"""Links of the pages in FOLDER.. that lead nowhere, and files of the repository that pages name and that are not there.

A link leads to a file, and what follows # to a heading there. In the repository itself a page may name a file between
backticks: as `fst_trim/specs/Sides.antt`, by its name alone, or by its place, as `.ci/run`.
"""
import pathlib
import re
import subprocess
import sys

FEWEST = 40
PLACES = ("bench", "completions", "docs", "examples", "man", "packaging", "scripts", ".ci")


def pages_of(folder):
    """Returns the pages of a folder: those that git knows, where it is a repository."""
    if (folder / ".git").exists():
        names = subprocess.run(["git", "ls-files", "-co", "--exclude-standard", "*.md"], cwd=folder, capture_output=True, text=True).stdout.split()
        return [folder / name for name in names if (folder / name).exists()]
    return sorted(folder.rglob("*.md"))


def anchors_of(page):
    """Returns the anchors of a page's headings."""
    headings = re.findall(r"(?m)^#+ (.*)", page.read_text(encoding="utf-8"))
    return {re.sub(r"[^\w\- ]", "", heading.lower()).replace(" ", "-") for heading in headings}


def leads(page, link):
    """Returns whether a link of a page leads somewhere."""
    path, _, anchor = link.partition("#")
    target = page.parent / path if path else page
    return target.exists() and (not anchor or target.suffix != ".md" or anchor in anchors_of(target))


def is_there(root, name):
    """Returns whether a file that a page names is in the repository; True where the words name none."""
    crate = re.fullmatch(r"(?:crates/)?(fst\w*)/((?:src|specs|proofs|must-fail)/[\w/.]+)", name)
    if crate:
        return (root / "crates" / crate[1] / crate[2]).exists()
    if re.fullmatch(r"(?:specs|src|proofs)/[\w/]+\.(antt|rt)", name):
        return any(root.glob(f"crates/*/{name}"))
    if re.fullmatch(r"\w+\.(antt|rt)", name):
        return any(any(root.glob(f"crates/*/{part}/**/{name}")) for part in ("specs", "src", "proofs"))
    if re.fullmatch(r"[\w.-]+(/[\w.-]+)+/?", name) and name.split("/")[0] in PLACES:
        return (root / name).exists()
    return True


dead, count = [], 0
for folder in map(pathlib.Path, sys.argv[1:]):
    for page in pages_of(folder):
        text = re.sub(r"(?ms)^```.*?^```", "", page.read_text(encoding="utf-8"))
        for link in re.findall(r"\]\(([^)\s]+)\)", re.sub(r"`[^`\n]*`", "", text)):
            if not re.match(r"[a-z]+:", link):
                count += 1
                dead += [] if leads(page, link) else [f"{page}: {link} leads nowhere"]
        if (folder / ".git").exists():
            dead += [f"{page}: there is no {name}" for name in re.findall(r"`([^`\n]*)`", text) if not is_there(folder, name)]
print("\n".join(dead), end="\n" * bool(dead))
if count < FEWEST:
    print(f"there are {count} links, fewer than {FEWEST}")
sys.exit(bool(dead) or count < FEWEST)
