#!/usr/bin/env python3
"""Makes arguments (certificates of format 3) of all networks of a folder, and checks each of them.

make.py MAKER FOLDER    MAKER is a program that is run as `MAKER NET SECONDS` in a folder with an empty folder `out`, where it
                        writes NAME.json, the plan, and NAME.cert, the argument, of the network NAME.toml
    --planner           MAKER is `tsn`, run as `MAKER plan NET --plan .. --cert ..`; certificates of other formats are passed over
    --tsn PROGRAM       a built `tsn` that checks each argument too
    --known FILE        plans that are known, an object of JSON: {NAME: {"flowspan": F, "offsets": [..]}}
    --keep FOLDER       where NAME.plan and NAME.cert are kept
    --seconds N         how long each network may take, 60 unless given
    --only PATTERN      the networks whose names have this (a regular expression)

A line of the table is the network's name; the argument's goal, steps and octets; the seconds that MAKER, the slow checker
(check_argument.py) and `tsn` took; and what is wrong: a plan that isn't the known one, or a line of either checker other than the
goal asks for. `-` stands where nothing was made in time, which is no fault. Ends with 1 where something is wrong.
"""

import argparse
import json
import os
import re
import subprocess
import sys
import tempfile
import time

import check_argument


def parsed():
    words = argparse.ArgumentParser(description=__doc__, formatter_class=argparse.RawDescriptionHelpFormatter)
    words.add_argument("maker")
    words.add_argument("folder")
    words.add_argument("--planner", action="store_true")
    words.add_argument("--tsn")
    words.add_argument("--known")
    words.add_argument("--keep")
    words.add_argument("--seconds", type=float, default=60)
    words.add_argument("--only", default="")
    return words.parse_args()


def make(words, name, folder):
    """The bytes of a plan and of an argument, or None each, and the seconds."""
    network = os.path.abspath(os.path.join(words.folder, name + ".toml"))
    plan, cert = (os.path.join(folder, "out", f"{name}.{kind}") for kind in ("json", "cert"))
    maker = os.path.abspath(words.maker)
    if words.planner:
        command = [maker, "plan", network, "--plan", plan, "--cert", cert]
    else:
        command = [maker, network, str(words.seconds)]
    begin = time.perf_counter()
    try:
        limit = words.seconds if words.planner else 2 * words.seconds + 10
        subprocess.run(command, cwd=folder, capture_output=True, timeout=limit)
    except subprocess.TimeoutExpired:
        return None, None, time.perf_counter() - begin
    taken = time.perf_counter() - begin
    if not (os.path.exists(plan) and os.path.exists(cert)):
        return None, None, taken
    return check_argument.read(plan), check_argument.read(cert), taken


def run_tsn(program, network, plan, cert, folder):
    """The line and the status of `tsn check`, and its seconds."""
    paths = [network]
    for name, data in ("plan", plan), ("cert", cert):
        paths.append(os.path.join(folder, name))
        with open(paths[-1], "wb") as file:
            file.write(data)
    begin = time.perf_counter()
    try:
        found = subprocess.run([program, "check", *paths], capture_output=True, text=True, timeout=600)
    except subprocess.TimeoutExpired:
        return ("no end within 600 seconds", None), time.perf_counter() - begin
    return (found.stdout.removesuffix("\n"), found.returncode), time.perf_counter() - begin


def expected(plan, goal):
    """The line that an argument of this goal has to be answered with."""
    if goal == "none":
        return "accepted no schedule"
    return f"accepted {'first' if goal == 'first' else 'optimal'} {'of no plan' if plan is None else plan[0]}"


def told(words, name, known, folder):
    """A line of the table, without the name, and whether something is wrong."""
    plan, cert, taken = make(words, name, folder)
    if plan is None:
        return f"{'-':5} {'':8} {'':10} {taken:8.2f}", False
    path = os.path.join(words.folder, name + ".toml")
    begin = time.perf_counter()
    line = check_argument.judged(check_argument.Network(check_argument.read(path)), plan, cert)
    slow = time.perf_counter() - begin
    if line[1] == check_argument.NOT_JUDGED:
        return f"{'-':5} {'':8} {len(cert):10} {taken:8.2f}", False
    wrong = []
    goal, steps, size = "?", "", len(cert)
    try:
        goal, steps = json.loads(cert)["goal"], len(json.loads(cert)["steps"])
        wanted = expected(check_argument.plan_of(plan), goal), check_argument.ACCEPTED
        if line != wanted:
            wrong.append(f"slow: {line[0]}")
    except (ValueError, LookupError, check_argument.FileFault):
        wrong.append(f"slow: {line[0]}")
    if name in known and json.loads(plan) != known[name]:
        wrong.append("another plan is known")
    quick = ""
    if words.tsn:
        found, seconds = run_tsn(words.tsn, path, plan, cert, folder)
        quick = f"{seconds:8.2f}"
        if found != line:
            wrong.append(f"tsn: {found[1]} {found[0]}")
    if words.keep:
        os.makedirs(words.keep, exist_ok=True)
        for kind, data in ("plan", plan), ("cert", cert):
            with open(os.path.join(words.keep, f"{name}.{kind}"), "wb") as file:
                file.write(data)
    return f"{goal:5} {steps:8} {size:10} {taken:8.2f} {slow:8.2f} {quick:8} {'; '.join(wrong)}".rstrip(), bool(wrong)


def main():
    words = parsed()
    words.tsn = words.tsn and os.path.abspath(words.tsn)
    known = {}
    if words.known:
        with open(words.known) as file:
            known = json.load(file)
    names = sorted(it.removesuffix(".toml") for it in os.listdir(words.folder) if it.endswith(".toml"))
    names = [it for it in names if re.search(words.only, it)]
    width = max(map(len, names), default=4)
    print(f"{'name':{width}} goal     steps     octets     made     slow tsn")
    failed, made = 0, 0
    for name in names:
        with tempfile.TemporaryDirectory() as folder:
            os.mkdir(os.path.join(folder, "out"))
            line, is_wrong = told(words, name, known, folder)
        print(f"{name:{width}} {line}", flush=True)
        failed += is_wrong
        made += not line.startswith("-")
    print(f"{made} of {len(names)} networks have an argument; {failed} are wrong")
    sys.exit(failed > 0)


if __name__ == "__main__":
    main()
