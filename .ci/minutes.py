#!/usr/bin/env python3
"""Prints the processor minutes that `rt ci` takes, crate by crate: of proofs, of edits, of tests.

Its word is the number of the process below which `rt ci` runs. It looks twice a second at what runs there, and prints
the table once it is ended by SIGTERM. What is done in less than that is not in the table.
"""
import collections
import os
import signal
import sys
import time

KINDS = ("proof", "edits", "tests")


def running():
    """Returns of each process its parent, when it began, and the seconds of processor that it has taken, by its number."""
    found, tick = {}, os.sysconf("SC_CLK_TCK")
    for name in os.listdir("/proc"):
        try:
            # (a process may end meanwhile)
            with open(f"/proc/{int(name)}/stat", encoding="utf-8", errors="replace") as it:
                words = it.read().rpartition(")")[2].split()
        except (OSError, ValueError):
            continue
        found[int(name)] = int(words[1]), words[19], (int(words[11]) + int(words[12])) / tick
    return found


def work_of(process):
    """Returns the crate that a process proves and for what, or None."""
    try:
        with open(f"/proc/{process}/cmdline", encoding="utf-8", errors="replace") as it:
            words = it.read().split("\0")
        place = os.readlink(f"/proc/{process}/cwd")
    except OSError:
        return None
    if "--crate-name" not in words[:-1]:
        return None
    # (an edit is tried on a copy of its crate)
    kind = "edits" if "/rt-edit-" in place else "tests" if "--test" in words else "proof"
    return words[words.index("--crate-name") + 1], kind


def looked(top, works, taken):
    """Notes what the processes below top do and have taken, and returns whether top is there."""
    found = running()
    for process, (parent, began, seconds) in found.items():
        above = parent
        while above in found and above != top:
            above = found[above][0]
        if above != top or process == os.getpid():
            continue
        key = process, began
        if not works.get(key):
            works[key] = work_of(process) or works.get((parent, found.get(parent, ("", ""))[1]))
        taken[key] = seconds
    return top in found


def table(works, taken):
    """Prints the minutes of each crate, the most first."""
    minutes = collections.defaultdict(lambda: dict.fromkeys(KINDS, 0.0))
    for key, seconds in taken.items():
        if works.get(key):
            crate, kind = works[key]
            minutes[crate][kind] += seconds / 60
    print(f"{'processor minutes':20}", *(f"{it:>7}" for it in KINDS), f"{'all':>7}")
    for crate, of in sorted(minutes.items(), key=lambda it: -sum(it[1].values())):
        print(f"{crate:20}", *(f"{of[it]:7.1f}" for it in KINDS), f"{sum(of.values()):7.1f}")
    sums = [sum(of[it] for of in minutes.values()) for it in KINDS]
    print(f"{'of all crates':20}", *(f"{it:7.1f}" for it in sums), f"{sum(sums):7.1f}", flush=True)


def main():
    works, taken, ended = {}, {}, []
    signal.signal(signal.SIGTERM, lambda *_: ended.append(True))
    while not ended and looked(int(sys.argv[1]), works, taken):
        time.sleep(0.5)
    table(works, taken)


main()
