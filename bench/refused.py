#!/usr/bin/env python3
"""Runs each command of `tsn` with one call for memory refused, for each such call in turn, until a run meets none.

refused.py [N]   N, 1 unless given: only each Nth call is refused.

A small library (bench/refused/refuse.c, which needs a C compiler) stands before the allocator of the built program. Each run
has to end with status 7 and the line `no memory`, or whole, where the call that was refused could be done without; with status 0 it
tells the same remarks, too. Then the same with all calls refused from each one on; and `plan` with 4 workers and by the conflict-driven
search, each call alone, on the star of ten and on networks on which that search learns, and of 129 streams: no memory, or the optimum
with a certificate that is accepted; of the calls of that last one some 40 are refused. A run is stopped
only where the limit is too little for the order of the file, when the conflict-driven search or the check of its argument had no
memory; its plan is then a valid schedule. Of a plan whose tree is written in pieces the last calls alone are refused, when some of
these are written. No run leaves an unfinished file. What is told at the end has how many calls were refused in all.
"""

import json
import os
import subprocess
import sys
import tempfile

from measure import PROGRAM, ROOT, build

HERE = os.path.dirname(os.path.abspath(__file__))
EXAMPLES = os.path.join(ROOT, "examples")
NO_MEMORY = ("no memory", 7)
CALLS = os.path.join(ROOT, "crates", "tsn_calls", "out", "tsn_calls")
STAR = "examples/ten-stream-star.toml"
SEARCHES = [
    (STAR, 8300, ["--workers", "4"]),
    (STAR, 8300, ["--search", "learn"]),
    (STAR, 8300, ["--search", "learn", "--workers", "4"]),
    ("bench/suite/ring-010-fe-eq-hot-loose-3.toml", 60250, ["--search", "learn"]),
    ("bench/suite/tree-020-gig-wild-hot-tight-2.toml", 95302, ["--search", "learn", "--steps", "1000"]),
]
# Frames of 64 octets at 100 Mb/s, of more streams than are searched in the order of the file.
MANY = 129, 865_921
# A plan whose tree is longer than two pieces, and how many of its last calls are refused.
PIECES = "bench/suite/ring-010-fe-eq-hot-loose-3.toml", ["--search", "file"]
LATE = 400
EVERY = int(sys.argv[1]) if len(sys.argv) > 1 else 1


def compiled(folder):
    library = os.path.join(folder, "refuse.so")
    source = os.path.join(HERE, "refused", "refuse.c")
    subprocess.run(["cc", "-O2", "-shared", "-fPIC", "-o", library, source, "-ldl"], check=True)
    return library


class Program:
    def __init__(self, folder, path=PROGRAM):
        self.folder, self.path, self.remarks = folder, path, ""
        self.library = compiled(folder)

    def run(self, words, refused=None):
        """What a run says, its status, and how many calls for memory it made."""
        counted = os.path.join(self.folder, "count")
        environment = dict(os.environ, LD_PRELOAD=self.library, REFUSE_COUNT=counted)
        if refused is not None:
            environment["REFUSE"] = refused
        found = subprocess.run([self.path, *words], capture_output=True, text=True, env=environment, timeout=120)
        with open(counted) as file:
            calls = int(file.read())
        for name in os.listdir(self.folder):
            if ".tsn-unfinished-" in name:
                sys.exit(f"{' '.join(words)}: with call {refused} refused it leaves {name}")
        self.remarks = found.stderr
        return (found.stdout.strip(), found.returncode), calls

    def refuse_each(self, words):
        """Refuses each call of a run, alone and with all behind it: how many runs ended with no memory."""
        whole, calls = self.run(words)
        remarks = self.remarks if whole[1] == 0 else None
        ended = 0
        for number in range(1, calls + 1, EVERY):
            for refused in (f"{number}", f"{number}+"):
                end, _ = self.run(words, refused)
                if end not in (whole, NO_MEMORY) and not (refused.endswith("+") and end[1] == 7):
                    sys.exit(f"{' '.join(words)}: with call {refused} refused it ends with {end}")
                if end == whole and remarks not in (None, self.remarks):
                    sys.exit(f"{' '.join(words)}: with call {refused} refused it tells {self.remarks!r}")
                ended += end != whole
        return calls, ended


def commands(folder):
    """Each command, over the two streams, the star of ten, streams of three periods with a burst, and some with several listeners."""
    for name in ("two-streams", "ten-stream-star", "three-periods", "alarm-and-drive"):
        network = os.path.join(EXAMPLES, name + ".toml")
        plan, cert = os.path.join(folder, name + ".plan"), os.path.join(folder, name + ".cert")
        subprocess.run([PROGRAM, "plan", network, "--plan", plan, "--cert", cert], check=True, capture_output=True)
        argument = os.path.join(folder, name + ".argument")
        subprocess.run([PROGRAM, "plan", network, "--search", "learn", "--cert", argument], check=True, capture_output=True)
        yield ["valid", network, "0", "672"]
        yield ["plan", network, "--plan", os.path.join(folder, "plan"), "--cert", os.path.join(folder, "cert")]
        yield ["check", network, plan, cert]
        yield ["check", network, plan, argument]
        yield ["prove", network, plan, "--cert", os.path.join(folder, "cert")]
        yield ["gates", network, plan]
        yield ["gates", network, plan, "--merge", "2000", "--format", "taprio", "--most", "2"]
        yield ["replay", network, plan, "--cycles", "2", "--greedy"]
        yield ["streams", network, plan, "--format", "json"]
        yield ["chart", network, plan]
        yield ["explain", network, plan, argument]
        yield ["chart", network, plan, "--cert", argument]


def is_stopped(network, plan, line, optimum):
    """Whether a stopped run's plan is a valid schedule of the flowspan that its line tells, or it tells none."""
    if line.startswith("stopped none settled "):
        return not os.path.exists(plan) or os.path.getsize(plan) == 0
    if int(line.split()[1]) < optimum:
        return False
    with open(plan) as file:
        found = json.load(file)
    told = subprocess.run([PROGRAM, "valid", network, *map(str, found["offsets"])], capture_output=True, text=True).stdout.split()
    return line.startswith(f"stopped {found['flowspan']} settled ") and told == ["valid", "flowspan", str(found["flowspan"])]


def refuse_search(program, network, optimum, search, most=None):
    """A search by some words: no memory, or the optimum with a certificate that is accepted, or stopped with a valid schedule."""
    plan, cert = os.path.join(program.folder, "plan"), os.path.join(program.folder, "cert")
    words = ["plan", network, *search, "--plan", plan, "--cert", cert]
    _, calls = program.run(words)
    optimal = stopped = 0
    for number in range(1, calls + 1, EVERY if most is None else max(EVERY, calls // most)):
        for path in (plan, cert):
            if os.path.exists(path):
                os.remove(path)
        (line, status), _ = program.run(words, str(number))
        if (line, status) == NO_MEMORY:
            continue
        if status == 5 and "--steps" in search and is_stopped(network, plan, line, optimum):
            stopped += 1
            continue
        told = subprocess.run([PROGRAM, "check", network, plan, cert], capture_output=True, text=True).stdout.strip()
        if not line.startswith(f"optimal {optimum} settled ") or status != 0 or told != f"accepted first {optimum}":
            sys.exit(f"{' '.join(search)}: with call {number} refused it ends with {line!r}, and the check says {told!r}")
        optimal += 1
    return calls, optimal, stopped


def network_of_many(folder):
    path = os.path.join(folder, "many.toml")
    with open(path, "w") as file:
        file.write("cycle = 1000000\nnode = [{name = 'A', kind = 'station'}, {name = 'Z', kind = 'station'}]\n")
        file.write("link = [{a = 'A', b = 'Z', mbps = 100, prop = 1}]\n")
        for number in range(MANY[0]):
            file.write(f"[[stream]]\nname = 's{number}'\noctets = 64\nroute = ['A', 'Z']\n")
    return path


def refuse_late(program, network, search):
    """The last calls of a plan whose tree is written in pieces: no memory, and no certificate."""
    plan, cert = os.path.join(program.folder, "plan"), os.path.join(program.folder, "cert")
    words = ["plan", network, *search, "--plan", plan, "--cert", cert]
    whole, calls = program.run(words)
    late = range(max(1, calls - LATE), calls + 1, EVERY)
    for number in late:
        if os.path.exists(cert):
            os.remove(cert)
        end, _ = program.run(words, str(number))
        if end not in (whole, NO_MEMORY) or os.path.exists(cert) != (end == whole):
            sys.exit(f"{' '.join(search)}: with call {number} refused it ends with {end}, and {os.path.exists(cert)=}")
    return calls, len(late)


def refuse_calls(folder):
    """The calls that no command makes: each that met want of memory was made again, and nothing else that is printed changed."""
    if not os.path.exists(CALLS):
        subprocess.run(["rt", "run"], cwd=os.path.join(ROOT, "crates", "tsn_calls"), check=True, capture_output=True)
    program = Program(folder, CALLS)
    (text, _), calls = program.run([])
    whole, again = text.split("\n"), 0
    for number in range(1, calls + 1, EVERY):
        (text, status), _ = program.run([], str(number))
        lines = [line for line in text.split("\n") if line and not line.endswith(": no memory")]
        if not (status == 0 and lines == whole or status == 7 and lines == whole[: len(lines)]):
            sys.exit(f"tsn_calls: with call {number} refused it ends with {status} and {text!r}")
        again += status == 0 and text.count(": no memory")
    return calls, again


def main():
    build()
    with tempfile.TemporaryDirectory() as folder:
        program = Program(folder)
        refused = 0
        for words in commands(folder):
            calls, ended = program.refuse_each(words)
            refused += calls
            name = os.path.basename(words[1])
            print(f"{words[0]:<7} {name:<22} {calls:>6} calls, {ended:>6} runs with no memory", flush=True)
        calls, again = refuse_calls(folder)
        refused += calls
        print(f"calls that no command makes: {calls} calls, {again} made again")
        for network, optimum, search in SEARCHES:
            calls, optimal, stopped = refuse_search(program, os.path.join(ROOT, network), optimum, search)
            refused += calls
            ends = f"{optimal} runs optimal, {stopped} stopped, the others with no memory"
            print(f"plan {' '.join(search)} on {os.path.basename(network)}: {calls} calls, {ends}", flush=True)
        calls, optimal, _ = refuse_search(program, network_of_many(program.folder), MANY[1], [], 40)
        print(f"plan of {MANY[0]} streams: {calls} calls, {optimal} runs optimal, the others with no memory", flush=True)
        network, search = PIECES
        calls, late = refuse_late(program, os.path.join(ROOT, network), search)
        refused += late
        print(f"plan {' '.join(search)} on {os.path.basename(network)}: {calls} calls, {late} of the last ones refused", flush=True)
        print(f"{refused} calls, {'each' if EVERY == 1 else f'one of {EVERY}'} refused, and each run ended as it has to")


main()
