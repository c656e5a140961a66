#!/usr/bin/env python3
"""Counts the lines of proofs that are longer than 160 characters, and refuses more of them than there were.

Usage: bench/long_lines.py [--keep]. Compares each crate's count with bench/long_lines.txt, and ends with status 1 where one has
grown. With --keep writes today's counts there.
"""

import os
import sys

ROOT = os.path.dirname(os.path.dirname(os.path.abspath(__file__)))
KEPT = os.path.join(ROOT, "bench", "long_lines.txt")
LONGEST = 160
# (lines that list names, which the language keeps on one line)
LISTS = ("use ", "unfolding ")


def count_in(folder):
    """How many lines of the proofs in a folder are too long; those that list names aside."""
    count = 0
    for place, _, names in os.walk(folder):
        for name in names:
            if name.endswith(".antt"):
                with open(os.path.join(place, name), encoding="utf-8") as file:
                    count += sum(len(line.rstrip("\n")) > LONGEST and not line.lstrip().startswith(LISTS) for line in file)
    return count


def counts():
    crates = os.path.join(ROOT, "crates")
    found = {name: count_in(os.path.join(crates, name, "proofs")) for name in sorted(os.listdir(crates))}
    return {name: count for name, count in found.items() if count}


def kept():
    with open(KEPT, encoding="utf-8") as file:
        return {name: int(count) for name, count in (line.split() for line in file)}


def main():
    now = counts()
    if sys.argv[1:] == ["--keep"]:
        with open(KEPT, "w", encoding="utf-8") as file:
            file.writelines(f"{name} {count}\n" for name, count in now.items())
        return
    if sys.argv[1:]:
        sys.exit(__doc__)
    before = kept()
    grown = [f"{name} has {count}, and had {before.get(name, 0)}" for name, count in now.items() if count > before.get(name, 0)]
    print(f"{sum(now.values())} lines of proofs are longer than {LONGEST} characters")
    if grown:
        sys.exit("more long lines of proofs: " + "; ".join(grown))


if __name__ == "__main__":
    main()
