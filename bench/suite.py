#!/usr/bin/env python3
"""Plans networks, has each certificate checked, and each plan proved.

Usage: bench/suite.py [FOLDER..] [--bin PROGRAM] [--search HOW] [--steps N] [--workers W] [--plans FILE] [--only REGEX]
                      [--beside PROGRAM]

There is a table for each folder: unless others are given, for bench/suite, whose streams send one frame a cycle, for bench/periods,
whose streams have periods and bursts, and for bench/trees, whose streams have several listeners, or two ways to one. It has a line for
each network file: what `plan` says and in how many seconds from start to end, what `check` says of its certificate, and what `prove`
says of the plan it wrote (the best one, where it was stopped). Each plan that is decided is compared with the one that an object of
JSON (--plans, else first_plans.json in the folder, if it is there) has by the network's name: those were found by unproved searches
that learn, of other kinds. Each table ends with how many were decided, how many certificates were accepted and how many plans were
proved. The status is 1 where a certificate or a proof is refused or a plan is another one. Another program that plans (--beside) is
called with each network right after `plan`, and its seconds are told too.
"""

import argparse
import json
import os
import re
import subprocess
import sys
import tempfile
import time

ROOT = os.path.dirname(os.path.dirname(os.path.abspath(__file__)))
FOLDERS = [os.path.join(ROOT, "bench", it) for it in ("suite", "periods", "trees")]


def said(words):
    """The line that a command prints, its status, and the seconds that it took."""
    begin = time.monotonic()
    ended = subprocess.run(words, stdin=subprocess.DEVNULL, stdout=subprocess.PIPE, stderr=subprocess.DEVNULL, text=True)
    return ended.stdout.strip(), ended.returncode, time.monotonic() - begin


def tried(program, network, words, room):
    """What is said of one network: of its plan, its certificate, and its plan's proof; and whether all of it is as it should be."""
    plan, cert, proof = (os.path.join(room, it) for it in ("plan.json", "cert.json", "proof.json"))
    for it in (plan, cert, proof):
        if os.path.exists(it):
            os.remove(it)
    line, status, seconds = said([program, "plan", network, "--plan", plan, "--cert", cert, *words])
    checked, proved, proof_seconds, right = "", "", 0.0, status in (0, 4, 5)
    if os.path.exists(cert):
        checked, check_status, _ = said([program, "check", network, plan, cert])
        right = right and check_status == 0
    if os.path.exists(plan):
        proved, proof_status, proof_seconds = said([program, "prove", network, plan, "--cert", proof])
        # (of a search that was stopped `prove` may find a better plan)
        better = line.startswith("stopped") and proved.startswith("undercut")
        right = right and (proof_status in (0, 5) or better)
        if proof_status == 0:
            accepted, accept_status, _ = said([program, "check", network, plan, proof])
            right = right and accept_status == 0 and accepted.startswith("accepted")
    return line, seconds, checked, proved, proof_seconds, right, plan_in(plan)


def plan_in(path):
    """What a plan's file says; none where there is no file."""
    if not os.path.exists(path):
        return None
    with open(path, encoding="utf-8") as file:
        return json.load(file)


def is_same(found, known):
    """Whether a plan's file says what is known."""
    offsets = known.get("offsets") if known else None
    return found is not None and found.get("offsets") == offsets


def known_plans(path):
    """The plan of each network by its name; none where there is no file."""
    if not os.path.exists(path):
        return {}
    with open(path, encoding="utf-8") as file:
        return json.load(file)


def run_folder(folder, given, words):
    """Prints the table of a folder, and gives the networks at which something isn't as it should be."""
    known = known_plans(given.plans or os.path.join(folder, "first_plans.json"))
    names = sorted(it for it in os.listdir(folder) if it.endswith(".toml") and re.search(given.only, it))
    decided, accepted, proofs, total, beside, wrong = 0, 0, 0, 0.0, 0.0, []
    more = ["Beside"] if given.beside else []
    print("| " + " | ".join(["Network", "`plan`", "Seconds", "`check`", "`prove`", "Seconds", *more]) + " |\n" + "|---" * (6 + len(more)) + "|", flush=True)
    with tempfile.TemporaryDirectory() as room:
        for name in names:
            line, seconds, checked, proved, proof_seconds, right, found = tried(given.bin, os.path.join(folder, name), words, room)
            decided += not line.startswith("stopped")
            accepted += checked.startswith("accepted")
            proofs += proved.startswith("proved")
            total += seconds
            other = ""
            if given.beside:
                taken = said([given.beside, os.path.abspath(os.path.join(folder, name))])[2]
                beside += taken
                other = f" {taken:.2f} |"
            if name[:-5] in known and not line.startswith("stopped"):
                right = right and is_same(found, known[name[:-5]])
            if not right:
                wrong.append(name)
            print(f"| {name[:-5]} | `{line}` | {seconds:.2f} | `{checked}` | `{proved}` | {proof_seconds:.2f} |{other}", flush=True)
    print(f"\n{decided} of {len(names)} decided, {accepted} certificates accepted, {proofs} plans proved, {total:.1f} s for the plans")
    if given.beside:
        print(f"{beside:.1f} s by the other program")
    return wrong


def main():
    parser = argparse.ArgumentParser(description=__doc__, formatter_class=argparse.RawDescriptionHelpFormatter)
    parser.add_argument("folders", nargs="*", default=FOLDERS)
    parser.add_argument("--bin", default=os.path.join(ROOT, "crates", "tsn", "out", "tsn"))
    parser.add_argument("--search", default="")
    parser.add_argument("--plans", default="")
    parser.add_argument("--steps", default="1000000")
    parser.add_argument("--workers", default="1")
    parser.add_argument("--only", default="")
    parser.add_argument("--beside", default="")
    given = parser.parse_args()
    words = ["--steps", given.steps, "--workers", given.workers] + (["--search", given.search] if given.search else [])
    wrong = []
    for place, folder in enumerate(given.folders):
        print("\n" * (place > 0) + os.path.relpath(folder) + "\n")
        wrong += run_folder(folder, given, words)
    if wrong:
        sys.exit("not as it should be: " + " ".join(wrong))


if __name__ == "__main__":
    main()
