#!/usr/bin/env python3
"""What general solvers answered on the networks of bench/suite: how many they decided, and in how many seconds.

Usage: bench/peers.py [--only REGEX]

bench/suite/peers.tsv has each answer. They were measured once, 20 seconds each, by models of the flowspan alone (neither list order nor
a certificate) that aren't in this repository. An optimum is held against bench/suite/first_plans.json; status 1 where one differs.
"""

import argparse
import csv
import json
import os
import re
import sys

SUITE = os.path.join(os.path.dirname(os.path.abspath(__file__)), "suite")


def main():
    parser = argparse.ArgumentParser(description=__doc__, formatter_class=argparse.RawDescriptionHelpFormatter)
    parser.add_argument("--only", default="")
    given = parser.parse_args()
    with open(os.path.join(SUITE, "first_plans.json"), encoding="utf-8") as file:
        known = json.load(file)
    with open(os.path.join(SUITE, "peers.tsv"), encoding="utf-8", newline="") as file:
        rows = [row for row in csv.DictReader(file, delimiter="\t") if re.search(given.only, row["network"])]
    wrong = []
    print("| | Decided | Seconds a network, half and most | Seconds together |\n|---|---|---|---|")
    for solver in dict.fromkeys(row["solver"] for row in rows):
        own = [row for row in rows if row["solver"] == solver]
        decided = sorted((row for row in own if row["answer"] != "open"), key=lambda row: float(row["seconds"]))
        seconds = [float(row["seconds"]) for row in decided]
        wrong += [row for row in decided if (row["flowspan"] if row["answer"] == "optimal" else "None") != str(known[row["network"]]["flowspan"])]
        together = sum(float(row["seconds"]) for row in own)
        print(f"| {solver} | {len(decided)} of {len(own)} | {seconds[len(seconds) // 2]:.2f} and {seconds[-1]:.1f} | {together:.0f} |")
    if wrong:
        sys.exit("other answers: " + " ".join(f"{row['solver']} on {row['network']}" for row in wrong))


if __name__ == "__main__":
    main()
