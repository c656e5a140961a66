#!/usr/bin/env python3
"""Runs the sources of the program on the words given, without any proof. Usage: ./tsn --unproved WORDS..

`rt try` compiles all crates as they are, with checks of addresses, sums and indexes, and runs the program once, in a folder of its
own. So files of the words that are there, and those after --plan and --cert, are named from the root on. What the program writes
comes when it has ended, up to a mebibyte; it has ten minutes. Ends with the program's status, or with 70 where it couldn't be run.
"""

import os
import re
import subprocess
import sys
import time

from lanes import ROOT

# Options whose value is a file, and those whose value is a word.
FILES = ("--plan", "--cert")
WORDS = ("--format", "--search")


def from_the_root(words):
    """The words, with the paths of files made absolute."""
    made, before = [], ""
    for word in words:
        option, _, value = word.partition("=")
        if before in FILES and word:
            word = os.path.abspath(word)
        elif value and option in FILES:
            word = f"{option}={os.path.abspath(value)}"
        elif before not in WORDS and not word.startswith("-") and os.path.exists(word):
            word = os.path.abspath(word)
        before = word
        made.append(word)
    return made


def main():
    begin = time.monotonic()
    print("tsn: nothing of this run is proved; the sources are compiled first, which takes minutes (./build proves them)", file=sys.stderr, flush=True)
    words = ["rt", "try", "--seconds", "600", "--", *from_the_root(sys.argv[1:])]
    ended = subprocess.run(words, cwd=os.path.join(ROOT, "crates", "tsn"), stdin=None, stderr=subprocess.PIPE, text=True, errors="replace")
    *told, last = ended.stderr.splitlines() or [""]
    found = re.search(r"run=ended status=(\d+)", last)
    # (the lines of `rt try` itself are left out where the program has run)
    lines = [it for it in told if not re.match(r"(checked|races|interpreted): ", it)] if found else [*told, last]
    for line in lines:
        print(line, file=sys.stderr)
    print(f"tsn: unproved, after {time.monotonic() - begin:.0f} s", file=sys.stderr)
    return int(found.group(1)) if found else 70


if __name__ == "__main__":
    sys.exit(main())
