#!/usr/bin/env python3
"""Kills the built program (SIGKILL) at many instants of a plan that replaces two files, and tells whether what is there is whole.

killed.py [N [PROGRAM]]   N, 50 unless given: at how many instants

The networks are the star of ten, and 48 equal streams on one route of 16 hops, whose certificate has some megabytes. Both files
hold old texts before each run. After it the plan and the certificate are both old, or the plan is new, or both are; what is left besides has a name that tells
what it is, and a run behind it ends as ever. The instants lie between the start and the end of a whole run, half of them in the
last tenth.
"""

import os
import signal
import subprocess
import sys
import tempfile
import time

from measure import PROGRAM, ROOT, build

STAR = os.path.join(ROOT, "examples", "ten-stream-star.toml")
OLD = "an old text\n"


def equal_streams(count, hops):
    """A network file of equal streams on one route."""
    names = ["A", *(f"S{number}" for number in range(1, hops)), "B"]
    kinds = {"A": "'station'", "B": "'station'"}
    nodes = [f"{{name = '{name}', kind = {kinds.get(name, chr(39) + 'bridge' + chr(39) + ', proc = 0')}}}" for name in names]
    links = [f"{{a = '{left}', b = '{right}', mbps = 1000, prop = 0}}" for left, right in zip(names, names[1:])]
    route = ", ".join(f"'{name}'" for name in names)
    streams = [f"{{name = 's{number}', octets = 64, route = [{route}]}}" for number in range(count)]
    return "cycle = 1000000\n" + "".join(f"{key} = [\n{(',' + chr(10)).join(tables)}\n]\n" for key, tables in (("node", nodes), ("link", links), ("stream", streams)))


def text_of(path):
    with open(path) as file:
        return file.read()


def words(program, network, folder):
    return [program, "plan", network, "--plan", os.path.join(folder, "plan"), "--cert", os.path.join(folder, "cert")]


def set_old(folder):
    for name in os.listdir(folder):
        os.remove(os.path.join(folder, name))
    for name in ("plan", "cert"):
        with open(os.path.join(folder, name), "w") as file:
            file.write(OLD)


def whole_run(program, network, folder):
    """The new texts, and the seconds that a run takes."""
    begin = time.perf_counter()
    subprocess.run(words(program, network, folder), check=True, capture_output=True)
    taken = time.perf_counter() - begin
    return text_of(os.path.join(folder, "plan")), text_of(os.path.join(folder, "cert")), taken


def instants(count, taken):
    early = count // 2
    late = count - early
    return [taken * 0.9 * i / max(1, early) for i in range(early)] + [taken * (0.9 + 0.1 * i / max(1, late)) for i in range(late)]


def kill_at(program, network, folder, instant):
    """What is there after a run that is killed at an instant: of the plan and of the certificate, and what else."""
    set_old(folder)
    process = subprocess.Popen(words(program, network, folder), stdout=subprocess.DEVNULL, stderr=subprocess.DEVNULL)
    time.sleep(instant)
    process.send_signal(signal.SIGKILL)
    process.wait()
    others = [name for name in os.listdir(folder) if name not in ("plan", "cert")]
    return text_of(os.path.join(folder, "plan")), text_of(os.path.join(folder, "cert")), others


def judge(found, new_plan, new_cert):
    plan, cert, others = found
    states = {(OLD, OLD): "both old", (new_plan, OLD): "plan new", (new_plan, new_cert): "both new"}
    if (plan, cert) not in states:
        sys.exit(f"it leaves a plan of {len(plan)} and a certificate of {len(cert)} bytes, which are neither old nor new")
    if any(not name.startswith(("plan.tsn-unfinished-", "cert.tsn-unfinished-")) for name in others):
        sys.exit(f"it leaves {others}")
    return states[plan, cert], len(others)


def kill_often(program, network, count):
    with tempfile.TemporaryDirectory() as folder:
        set_old(folder)
        new_plan, new_cert, taken = whole_run(program, network, folder)
        told, left = {}, 0
        for instant in instants(count, taken):
            state, others = judge(kill_at(program, network, folder, instant), new_plan, new_cert)
            told[state] = told.get(state, 0) + 1
            left += others > 0
        if whole_run(program, network, folder)[:2] != (new_plan, new_cert):
            sys.exit("a run after them leaves other texts")
        counts = ", ".join(f"{state} {number} times" for state, number in sorted(told.items()))
        print(f"{os.path.basename(network)}: killed at {count} instants of {taken:.3f} s: {counts}; something unfinished left {left} times")


def main():
    count = int(sys.argv[1]) if len(sys.argv) > 1 else 50
    program = os.path.abspath(sys.argv[2]) if len(sys.argv) > 2 else PROGRAM
    if len(sys.argv) <= 2:
        build()
    with tempfile.TemporaryDirectory() as room:
        equal = os.path.join(room, "equal.toml")
        with open(equal, "w") as file:
            file.write(equal_streams(48, 16))
        for network in (STAR, equal):
            kill_often(program, network, count)


main()
