#!/usr/bin/env python3
"""Replaying: simulated seconds a second of `tsn replay`, by links, streams and background.

The networks are stars of N stations, each of which sends a frame of 64 octets to the next one, and a circle of 122 bridges, each
with a station and cables to the three bridges on either side, whose frames go over five of these; the cycle is 0.1 s or 1 s. The
plan is made by `tsn plan`. Each replay of 16 cycles is run three times, or once where it takes more than ten seconds; the least
time counts, and the greatest memory.
"""

import os
import sys
import tempfile

from measure import build, run



STEPS = (-2, 1, 3, -1, 2)


def circle(bridges, cycle):
    lines = [f"cycle = {cycle}"]
    lines += [f'[[node]]\nname = "A{i}"\nkind = "station"\n[[node]]\nname = "S{i}"\nkind = "bridge"\nproc = 1000' for i in range(bridges)]
    lines += [f'[[link]]\na = "A{i}"\nb = "S{i}"\nmbps = 1000\nprop = 50' for i in range(bridges)]
    for i in range(bridges):
        lines += [f'[[link]]\na = "S{i}"\nb = "S{(i + k) % bridges}"\nmbps = 1000\nprop = 50' for k in (1, 2, 3)]
        at, route = i, [f"A{i}", f"S{i}"]
        for step in STEPS:
            at = (at + step) % bridges
            route.append(f"S{at}")
        route.append(f"A{at}")
        lines.append(f'[[stream]]\nname = "s{i}"\noctets = 64\nroute = [' + ", ".join(f'"{name}"' for name in route) + "]")
    return "\n".join(lines) + "\n"


def star(stations, cycle):
    names = [f"A{i}" for i in range(stations)]
    lines = [f"cycle = {cycle}"]
    lines += [f'[[node]]\nname = "{name}"\nkind = "station"' for name in names]
    lines.append('[[node]]\nname = "S"\nkind = "bridge"\nproc = 1000')
    lines += [f'[[link]]\na = "{name}"\nb = "S"\nmbps = 1000\nprop = 50' for name in names]
    for i, name in enumerate(names):
        lines.append(f'[[stream]]\nname = "s{i}"\noctets = 64\nroute = ["{name}", "S", "{names[(i + 1) % stations]}"]')
    return "\n".join(lines) + "\n"


def measured(words):
    """The seconds and the peak bytes of one run, and its last line."""
    text, status, taken, memory = run(words)
    last = (text.splitlines() or [""])[-1]
    if status != 0:
        sys.exit(f"{words}: status {status}, {last}")
    return taken, memory, last


def least(words):
    """The least seconds of up to three runs, their greatest peak bytes, and the last line."""
    runs = [measured(words)]
    while runs[-1][0] <= 10 and len(runs) < 3:
        runs.append(measured(words))
    return min(one[0] for one in runs), max(one[1] for one in runs), runs[0][2]


def main():
    build()
    print("links  streams  cycle s  background  seconds  simulated s a second  memory MB  last line")
    with tempfile.TemporaryDirectory() as folder:
        net, plan = os.path.join(folder, "net.toml"), os.path.join(folder, "plan.json")
        for made, count, links, cycle in (
            (star, 2, 4, 1_000_000_000), (star, 20, 40, 100_000_000), (star, 20, 40, 1_000_000_000), (star, 120, 240, 1_000_000_000),
            (circle, 122, 854, 100_000_000), (circle, 122, 854, 1_000_000_000),
        ):
            with open(net, "w") as file:
                file.write(made(count, cycle))
            measured(["plan", net, "--plan", plan])
            for background in ([], ["--greedy"]):
                taken, memory, last = least(["replay", net, plan, "--cycles", "16", *background])
                name = "greedy" if background else "none"
                print(f"{links:5}  {count:7}  {cycle / 1e9:7.1f}  {name:<10}  {taken:7.3f}  "
                      f"{16 * cycle / 1e9 / taken:20.1f}  {memory / 1e6:9.1f}  {last}", flush=True)


if __name__ == "__main__":
    main()
