#!/usr/bin/env python3
"""Networks of the size of plants: the time and the memory that the commands take.

Usage: bench/size.py [--bin PROGRAM] [--only PART]

Prints four tables:

- limits: the three networks that bench/networks/large.py draws, up to 2,048 streams, 64 bridges in a line and 29,930 frames in a cycle;
- growth: its plant with 128 to 2,048 streams;
- refused: files just past a limit, with the code that they are refused by;
- argument: the certificate of a network of 512 streams, as the search finds it, and with its steps told twice up to 440,000 moves.

Seconds are those of the processor, the least of three runs; memory is a run's peak. The status is 1 where something isn't answered as it should be,
or takes more than a second or 200 MB (an argument: two seconds).
"""

import argparse
import json
import os
import resource
import subprocess
import sys
import tempfile

import measure

ROOT = os.path.dirname(os.path.dirname(os.path.abspath(__file__)))
LARGE = os.path.join(ROOT, "bench", "networks", "large.py")
RUNS = 3
MOST_SECONDS, MOST_SECONDS_ARGUMENT, MOST_MEMORY = 1.0, 2.0, 200e6
# A network whose argument is long.
HARD = os.path.join(ROOT, "bench", "scale", "er-0512-gig-paper-any-loose-8.toml")


def processor_seconds():
    """What the programs that ended have taken."""
    usage = resource.getrusage(resource.RUSAGE_CHILDREN)
    return usage.ru_utime + usage.ru_stime


class Run:
    """What a command said, and took."""

    def __init__(self, program, words):
        self.words, self.seconds = words, float("inf")
        for _ in range(RUNS):
            begin = processor_seconds()
            ended = subprocess.run([program, *words], capture_output=True, text=True)
            self.seconds = min(self.seconds, processor_seconds() - begin)
        self.status, self.said, self.why = ended.returncode, ended.stdout, ended.stderr.strip()
        self.memory = measure.peak([program, *words])

    def last(self):
        return (self.said.splitlines() or self.why.splitlines() or [""])[-1]


class Table:
    """Lines that are printed as they come, and whether each run was as it should be."""

    def __init__(self):
        self.right = True

    def line(self, run, label, status=0, most=MOST_SECONDS):
        right = run.status == status and run.seconds <= most and run.memory <= MOST_MEMORY
        self.right = self.right and right
        print(f"{label:<34} {run.seconds:7.3f} s {run.memory / 1e6:6.1f} MB  {len(run.said):>10} octets{'' if right else f'  status {run.status}: {run.last()}'}", flush=True)


def commands(net, plan):
    """The words of each command that reads a network and a plan."""
    with open(plan, encoding="utf-8") as file:
        offsets = [str(it) for it in json.load(file)["offsets"]]
    yield "valid", ["valid", net, *offsets]
    for name in ("gates", "streams", "replay", "chart"):
        yield name, [name, net, plan]


def drawn(folder, streams, *words):
    subprocess.run([sys.executable, LARGE, folder, "--streams", str(streams), *words], check=True, stdout=subprocess.DEVNULL)


def limits(program, folder, table):
    drawn(folder, 2048)
    for name in ("plant", "line", "cycle"):
        net = os.path.join(folder, name + ".toml")
        for command, words in commands(net, os.path.join(folder, name + ".plan")):
            table.line(Run(program, words), f"{name} {command}")


def growth(program, folder, table):
    for streams in (128, 256, 512, 1024, 2048):
        drawn(folder, streams, "--only", "plant")
        net = os.path.join(folder, "plant.toml")
        for command, words in commands(net, os.path.join(folder, "plant.plan")):
            table.line(Run(program, words), f"plant of {streams} streams {command}")


def star(streams):
    """Two stations behind a bridge, and so many streams from one to the other."""
    lines = ["cycle = 536870912"]
    lines += [f'[[node]]\nname = "{name}"\nkind = "station"' for name in "AB"]
    lines.append('[[node]]\nname = "S"\nkind = "bridge"\nproc = 0')
    lines += [f'[[link]]\na = "{name}"\nb = "S"\nmbps = 1000\nprop = 0' for name in "AB"]
    lines += [f'[[stream]]\nname = "s{it}"\noctets = 64\nroute = ["A", "S", "B"]' for it in range(streams)]
    return "\n".join(lines) + "\n"


def long_line(links):
    """A line of so many links, and a stream over all of them."""
    names = ["A", *(f"S{it}" for it in range(links - 1)), "B"]
    lines = ["cycle = 1000000"]
    lines += [f'[[node]]\nname = "{name}"\n' + ('kind = "bridge"\nproc = 0' if name[0] == "S" else 'kind = "station"') for name in names]
    lines += [f'[[link]]\na = "{a}"\nb = "{b}"\nmbps = 1000\nprop = 0' for a, b in zip(names, names[1:])]
    route = ", ".join(f'"{name}"' for name in names)
    lines.append(f'[[stream]]\nname = "s"\noctets = 64\nroute = [{route}]')
    return "\n".join(lines) + "\n"


def refused(program, folder, table):
    net = os.path.join(folder, "net.toml")
    # The last stream sends 16 frames in each of 4,096 periods.
    for label, text, code in (
        ("2,049 streams", star(2049), "N5"),
        ("a route of 65 links", long_line(65), "N5"),
        ("65,537 frames", star(2) + "period = 131072\nframes = 16\n", "N5"),
    ):
        with open(net, "w", encoding="utf-8") as file:
            file.write(text)
        run = Run(program, ["valid", net, "0"])
        table.line(run, label, status=3)
        print(f"    {run.why or run.said.strip()}")
        table.right = table.right and code in run.why + run.said


def repeated(steps, most):
    """The same steps, of which those that have two facts or more are told once more each, as long as there are fewer moves than that."""
    told, numbers, moves, clauses = [], {}, 0, 0
    left = sum(len(it) for _, it in steps)
    for number, (clause, made) in enumerate(steps):
        own = [["use", numbers[it[1]]] if it[0] == "use" else it for it in made]
        left -= len(made)
        times = 2 if len(clause) > 1 and moves + left < most else 1
        if clause:
            numbers[len(numbers)] = clauses
        for _ in range(times):
            told.append([clause, own])
            moves += len(own)
            clauses += 1 if clause else 0
    return told


def argument(program, folder, table):
    plan, cert, long = (os.path.join(folder, it) for it in ("plan", "cert", "long"))
    subprocess.run([program, "plan", HARD, "--plan", plan, "--cert", cert], check=True, capture_output=True)
    with open(cert, encoding="utf-8") as file:
        said = json.load(file)
    said["steps"] = repeated(said["steps"], 440_000)
    with open(long, "w", encoding="utf-8") as file:
        json.dump(said, file, separators=(",", ":"))
    for name in (cert, long):
        with open(name, encoding="utf-8") as file:
            steps = json.load(file)["steps"]
        print(f"{len(steps)} steps, {sum(len(moves) for _, moves in steps)} moves, {os.path.getsize(name)} octets")
        for command in ("check", "explain"):
            table.line(Run(program, [command, HARD, plan, name]), command, most=MOST_SECONDS_ARGUMENT)


def main():
    parser = argparse.ArgumentParser(description=__doc__, formatter_class=argparse.RawDescriptionHelpFormatter)
    parser.add_argument("--bin", default=measure.PROGRAM)
    parser.add_argument("--only", choices=("limits", "growth", "refused", "argument"))
    given = parser.parse_args()
    table = Table()
    for part in (limits, growth, refused, argument):
        if given.only in (None, part.__name__):
            print(f"== {part.__name__}")
            with tempfile.TemporaryDirectory() as folder:
                part(given.bin, folder, table)
    return 0 if table.right else 1


if __name__ == "__main__":
    sys.exit(main())
