#!/usr/bin/env python3
"""What each crate costs in `rt ci`: the processor minutes of its proofs and tests, and of its must-fail edits.

Usage: bench/minutes.py [--anew] [CRATE..]. Runs `rt ci` on these crates, or on all, and writes what it prints to out/minutes.log.
Prints a line for each crate, as minutes.txt has them: its name, the minutes of its proofs, tests and runs, and where it has edits,
how many and the minutes of these. The last line has all processor minutes, and the minutes by the clock. It looks at the processes
of `rt ci` twice a second (/proc), so what one does in its last moments is in that line alone. What `rt` keeps proved isn't proved
again, but with --anew it is.
"""

import os
import re
import resource
import subprocess
import sys
import time

ROOT = os.path.dirname(os.path.dirname(os.path.abspath(__file__)))
CRATES = os.path.join(ROOT, "crates")
TICKS = os.sysconf("SC_CLK_TCK")


def children_of(parent):
    """The processes that a process started and that it has not ended, with their processor seconds and those of their own."""
    for number in filter(str.isdigit, os.listdir("/proc")):
        try:
            with open(f"/proc/{number}/stat", encoding="utf-8", errors="replace") as file:
                words = file.read().rpartition(")")[2].split()
        except OSError:
            continue
        if int(words[1]) == parent:
            yield (number, words[19]), sum(map(int, words[11:15])) / TICKS


def work_of(number):
    """For which crate a process works, and whether on an edit: those are tried in folders of their own."""
    try:
        with open(f"/proc/{number}/cmdline", encoding="utf-8", errors="replace") as file:
            words = file.read().split("\0")
        folder = os.readlink(f"/proc/{number}/cwd")
    except OSError:
        return None
    is_edit = os.path.basename(folder).startswith("rt-edit-")
    if "--crate-name" in words:
        return words[words.index("--crate-name") + 1], is_edit
    above, name = os.path.split(folder)
    return (name, False) if os.path.basename(above) == "crates" else None


def watch(started):
    """The processor seconds of each crate's proofs, and of its edits, once the command has ended."""
    works, seconds = {}, {}
    while started.poll() is None:
        for process, spent in children_of(started.pid):
            if works.get(process) is None:
                works[process] = work_of(process[0])
            seconds[process] = spent
        time.sleep(0.5)
    found = {}
    for process, work in works.items():
        if work is not None:
            found[work] = found.get(work, 0) + seconds[process]
    return found


def edits_of(name):
    folder = os.path.join(CRATES, name, "must-fail")
    return len(os.listdir(folder)) if os.path.isdir(folder) else 0


def names():
    with open(os.path.join(ROOT, "crates.txt"), encoding="utf-8") as file:
        return [found[1] for found in (re.match(r"(\w+)[^#]*:", line) for line in file) if found]


def main():
    os.makedirs(os.path.join(ROOT, "out"), exist_ok=True)
    begin = time.monotonic()
    with open(os.path.join(ROOT, "out", "minutes.log"), "w", encoding="utf-8") as log:
        with subprocess.Popen(["rt", "ci", *sys.argv[1:]], cwd=ROOT, stdout=log, stderr=subprocess.STDOUT) as started:
            found = watch(started)
    for name in names():
        if (name, False) in found or (name, True) in found:
            edits = f" {edits_of(name)} {found[name, True] / 60:.1f}" if (name, True) in found else ""
            print(f"{name} {found.get((name, False), 0) / 60:.1f}{edits}")
    used = resource.getrusage(resource.RUSAGE_CHILDREN)
    print(f"# {(used.ru_utime + used.ru_stime) / 60:.1f} processor minutes, {(time.monotonic() - begin) / 60:.1f} by the clock")
    return started.returncode


if __name__ == "__main__":
    sys.exit(main())
