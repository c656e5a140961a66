#!/usr/bin/env python3
"""Time and memory of `tsn check` on certificates of 1,001 to 1,000,001 nodes (bench/check/generate.py).

Each size is checked five times; the least time counts, and the greatest memory. Where valgrind is installed, the
instructions of one run on 10,001 nodes are told by their functions.
"""

import os
import re
import shutil
import subprocess
import sys
import tempfile

from measure import PROGRAM, ROOT, build, run

GENERATE = os.path.join(ROOT, "bench", "check", "generate.py")


def check(folder):
    """Seconds and peak bytes of one run."""
    files = [os.path.join(folder, name) for name in ("net.toml", "plan.json", "cert.json")]
    line, status, taken, memory = run(["check", *files])
    if status != 0 or not line.startswith("accepted optimal"):
        sys.exit(f"{files}: status {status}, {line!r}")
    return taken, memory


def generate(folder, nodes):
    found = subprocess.run([sys.executable, GENERATE, folder, str(nodes)], check=True, capture_output=True, text=True)
    return found.stdout.split()


def profile(folder):
    trace = os.path.join(folder, "callgrind.out")
    words = [PROGRAM, "check"] + [os.path.join(folder, name) for name in ("net.toml", "plan.json", "cert.json")]
    subprocess.run(["valgrind", "--tool=callgrind", f"--callgrind-out-file={trace}", *words], check=True, capture_output=True)
    table = subprocess.run(["callgrind_annotate", trace], check=True, capture_output=True, text=True).stdout
    for line in table.splitlines():
        found = re.match(r"\s*([\d,]+) \(\s*([\d.]+)%\)\s+(.*)", line)
        if found and float(found.group(2)) >= 2:
            print(f"  {found.group(2):>5} %  {found.group(3)[:90]}")


def main():
    build()
    with tempfile.TemporaryDirectory() as folder:
        print("  nodes  depth  file MB  seconds  us/node  memory MB  bytes/node")
        for wanted in (1_001, 10_001, 100_001, 1_000_001):
            nodes, depth = generate(folder, wanted)
            size = os.path.getsize(os.path.join(folder, "cert.json"))
            runs = [check(folder) for _ in range(5)]
            taken, memory = min(run[0] for run in runs), max(run[1] for run in runs)
            print(f"{nodes:>7}  {depth:>5}  {size / 1e6:7.2f}  {taken:7.3f}  {taken / int(nodes) * 1e6:7.2f}  "
                  f"{memory / 1e6:9.1f}  {memory / int(nodes):10.0f}")
        if shutil.which("valgrind") and shutil.which("callgrind_annotate"):
            generate(folder, 10_001)
            print("instructions of a run on 10,001 nodes, by function:")
            profile(folder)


main()
