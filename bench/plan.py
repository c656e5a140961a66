#!/usr/bin/env python3
"""Planning in the order of the file on the networks of bench/networks: settled nodes a second, and memory, with one worker.

plan.py [STEPS]: the limit of settlements is 1,000,000 unless given. Each network is planned three times; the least time
counts, and the greatest memory. Where valgrind is installed, the instructions of 50,000 settlements on random-40 are told by
their functions.
"""

import os
import re
import shutil
import subprocess
import sys
import tempfile

from measure import PROGRAM, ROOT, build, run

NETWORKS = os.path.join(ROOT, "bench", "networks")


def plan(name, steps):
    """The line of one run, its seconds and its peak bytes."""
    line, _, taken, memory = run(["plan", os.path.join(NETWORKS, name + ".toml"), "--search", "file", "--steps", str(steps)])
    return line, taken, memory


def profile(name, steps):
    with tempfile.TemporaryDirectory() as folder:
        trace = os.path.join(folder, "callgrind.out")
        words = [PROGRAM, "plan", os.path.join(NETWORKS, name + ".toml"), "--search", "file", "--steps", str(steps)]
        subprocess.run(["valgrind", "--tool=callgrind", f"--callgrind-out-file={trace}", *words], capture_output=True)
        table = subprocess.run(["callgrind_annotate", trace], check=True, capture_output=True, text=True).stdout
    for line in table.splitlines():
        found = re.match(r"\s*([\d,]+) \(\s*([\d.]+)%\)\s+(.*)", line)
        if found and float(found.group(2)) >= 1:
            print(f"  {found.group(1):>15}  {found.group(2):>6} %  {found.group(3)[:90]}")


def main():
    steps = int(sys.argv[1]) if len(sys.argv) > 1 else 1_000_000
    build()
    print("network    line                            seconds   nodes/s  us/node  memory MB")
    for name in ("star", "line", "random-20", "random-40", "random-128"):
        runs = [plan(name, steps) for _ in range(3)]
        line, taken, memory = runs[0][0], min(run[1] for run in runs), max(run[2] for run in runs)
        settled = int(line.split()[-1])
        print(f"{name:<10} {line:<30} {taken:8.3f}  {settled / taken:8.0f}  {taken / settled * 1e6:7.2f}  {memory / 1e6:9.1f}")
    if shutil.which("valgrind") and shutil.which("callgrind_annotate"):
        print("instructions of 50,000 settlements on random-40, by function:")
        profile("random-40", 50_000)


main()
