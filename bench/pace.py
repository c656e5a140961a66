#!/usr/bin/env python3
"""The pace of the conflict-driven search: processor seconds of `plan --search learn` till it met so many conflicts, or was done before.

Usage: bench/pace.py FOLDER [--conflicts N] [--bin PROGRAM] [--beside PROGRAM] [--runs N] [--only REGEX]

For each network file of the folder the least of some runs, each from start to end. What `plan` settles after the search gave up is
in it: as many nodes in the order of the file. Another program of such a search (--beside) is called with a network file, and has to
end by itself after as many conflicts as MOST says in its environment. bench/networks/draw.py draws networks.
"""

import argparse
import os
import re
import resource
import subprocess

from measure import PROGRAM


def spent(words, environment):
    """What a run prints, and its processor seconds."""
    before = resource.getrusage(resource.RUSAGE_CHILDREN)
    text = subprocess.run(words, capture_output=True, text=True, env=environment).stdout
    after = resource.getrusage(resource.RUSAGE_CHILDREN)
    return text, after.ru_utime + after.ru_stime - before.ru_utime - before.ru_stime


def least(words, environment, runs):
    """What the runs print, and the least of their seconds."""
    ended = [spent(words, environment) for _ in range(runs)]
    return ended[0][0], min(seconds for _, seconds in ended)


def main():
    parser = argparse.ArgumentParser(description=__doc__, formatter_class=argparse.RawDescriptionHelpFormatter)
    parser.add_argument("folder")
    parser.add_argument("--conflicts", default="1000")
    parser.add_argument("--bin", default=PROGRAM)
    parser.add_argument("--beside", default="")
    parser.add_argument("--runs", type=int, default=3)
    parser.add_argument("--only", default="")
    given = parser.parse_args()
    environment = dict(os.environ, MOST=given.conflicts)
    print("| Network | Line | Seconds | Beside | Part |\n|---|---|---|---|---|", flush=True)
    for name in sorted(os.listdir(given.folder)):
        if not name.endswith(".toml") or not re.search(given.only, name):
            continue
        network = os.path.abspath(os.path.join(given.folder, name))
        line, own = least([given.bin, "plan", network, "--search", "learn", "--steps", given.conflicts], environment, given.runs)
        cells = [name[:-5], f"`{line.strip()}`", f"{own:.2f}"]
        if given.beside:
            _, other = least([given.beside, network], environment, given.runs)
            cells += [f"{other:.2f}", f"{100 * own / max(other, 0.001):.0f} %"]
        print("| " + " | ".join(cells) + " |", flush=True)


if __name__ == "__main__":
    main()
