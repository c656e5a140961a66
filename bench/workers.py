#!/usr/bin/env python3
"""`tsn plan` with several workers: that it always ends with one plan, and how much faster it is.

workers.py runs [COUNT]   plans each of twelve networks of bench/suite COUNT times (200 unless given), with 2, 4, 8 and 16 workers
                          in turn. Each run has to end within two minutes; where the answer is optimal, the plan file has to
                          have the bytes of every other run's, and each certificate has to be accepted.
workers.py speed [FILE..] settlements a second in the order of the file with 1, 2 and 4 workers, as ratios to one worker, up to 1,000,000 of them: of
                          the files given, else of random-40, random-128, and those of bench/suite that the list LARGE and the twelve name. Runs with
                          one worker and with several take turns, five of each, and the least time counts.
"""

import os
import subprocess
import sys
import tempfile
import time

from measure import PROGRAM, ROOT, build

SUITE = os.path.join(ROOT, "bench", "suite")
# Those that a search in the order of the file decides, some after a while; and some that it doesn't decide.
ENDING = [
    "er-020-gig-two-any-tight-1", "grid-020-mix-mix-any-loose-1", "indline-020-fe-wild-any-f990-24", "indline-020-gig-eq-hot-loose-1",
    "line-020-gig-wild-any-loose-1", "ring-010-fe-eq-hot-loose-3", "ring-020-mix-mix-any-fit-7", "rrg-080-gig-eq-any-tight-1",
    "star-005-gig-mix-hot-loose-1", "star-010-gig-eq-hot-loose-1", "star-020-gig-mix-hot-f990-5", "tree-020-mix-mix-hot-f980-26",
]
LARGE = ["grid-040-gig-wild-any-tight-1", "ring-128-gig-mix-any-tight-1", "tree-040-mix-wild-any-loose-1"]
LARGER = [os.path.join(ROOT, "bench", "networks", name + ".toml") for name in ("random-40", "random-128")]
STEPS = 1_000_000


def networks(names):
    return [os.path.join(SUITE, name + ".toml") for name in names]


def tsn(words, limit=120):
    """Standard output, the status and the seconds of a run."""
    begin = time.perf_counter()
    found = subprocess.run([PROGRAM, *words], capture_output=True, text=True, timeout=limit)
    return found.stdout.strip(), found.returncode, time.perf_counter() - begin


def read(path):
    with open(path, "rb") as file:
        return file.read()


def checked(network, workers, folder):
    """The line of one run, its plan's bytes, and whether its certificate is accepted (None where it was stopped)."""
    plan, cert = os.path.join(folder, "plan.json"), os.path.join(folder, "cert.json")
    line, status, _ = tsn(["plan", network, "--workers", str(workers), "--steps", "10000000", "--plan", plan, "--cert", cert])
    if status == 5:
        return line, read(plan) if os.path.exists(plan) else b"", None
    told, status, _ = tsn(["check", network, plan, cert])
    wanted = "accepted no schedule" if line.startswith("no schedule") else "accepted first " + line.split()[1]
    return line, read(plan), status == 0 and told == wanted


def runs(count):
    wrong = 0
    print("network                              runs  settled, least and most        plans  refused")
    for network in networks(ENDING):
        plans, settled, refused = set(), [], 0
        for number in range(count):
            with tempfile.TemporaryDirectory() as folder:
                line, plan, accepted = checked(network, (2, 4, 8, 16)[number % 4], folder)
            settled.append(int(line.split()[-1]))
            plans.add(plan)
            refused += accepted is not True
        wrong += refused + len(plans) - 1
        name = os.path.basename(network)[:-5]
        print(f"{name:<36} {count:>5}  {min(settled):>11,} {max(settled):>11,}  {len(plans):>9}  {refused:>7}", flush=True)
    print("all hold" if wrong == 0 else f"{wrong} don't hold")
    return 1 if wrong else 0


def rate(network, workers):
    """The settlements and the seconds of one run."""
    line, _, taken = tsn(["plan", network, "--search", "file", "--workers", str(workers), "--steps", str(STEPS)])
    return int(line.split()[-1]), taken


def speed(files):
    print("network                                settled   seconds  2 workers  4 workers")
    for network in files:
        best = {1: 0.0, 2: 0.0, 4: 0.0}
        least, counted = None, 0
        for _ in range(5):
            for workers in best:
                settled, taken = rate(network, workers)
                best[workers] = max(best[workers], settled / taken)
                if workers == 1:
                    least, counted = min(least or taken, taken), settled
        name = os.path.basename(network)[:-5]
        print(f"{name:<36} {counted:>9,}  {least:8.3f}  {best[2] / best[1]:8.2f}x  {best[4] / best[1]:8.2f}x", flush=True)
    return 0


def main():
    build()
    what = sys.argv[1] if len(sys.argv) > 1 else ""
    if what == "runs":
        return runs(int(sys.argv[2]) if len(sys.argv) > 2 else 200)
    if what == "speed":
        return speed(sys.argv[2:] or LARGER + networks(LARGE) + networks(ENDING))
    print(__doc__)
    return 2


sys.exit(main())
