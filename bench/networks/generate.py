#!/usr/bin/env python3
"""Writes the networks on which planning is measured, beside this file: always the same ones.

- star: ten streams of 64 octets from ten stations to one.
- line: six bridges in a line, two stations at each, twenty streams of several lengths.
- random-20, random-40, random-128: so many streams of several lengths between stations at bridges that are joined at random, each on
  a shortest route.
"""

import os
import random
from collections import deque

HERE = os.path.dirname(os.path.abspath(__file__))
LENGTHS = [64, 128, 300, 600, 1000, 1522]


def shortest(cables, begin, end):
    """A shortest route between two stations over bridges (names that begin with S)."""
    beside = {}
    for a, b in cables:
        beside.setdefault(a, []).append(b)
        beside.setdefault(b, []).append(a)
    before, todo = {begin: None}, deque([begin])
    while todo:
        here = todo.popleft()
        for there in beside[here]:
            if there not in before and (there == end or there.startswith("S")):
                before[there] = here
                todo.append(there)
    route = [end]
    while before[route[-1]] is not None:
        route.append(before[route[-1]])
    return route[::-1]


def write(name, cycle, stations, bridges, cables, streams):
    lines = [f"cycle = {cycle}"]
    lines += [f'[[node]]\nname = "{station}"\nkind = "station"' for station in stations]
    lines += [f'[[node]]\nname = "{bridge}"\nkind = "bridge"\nproc = 1000' for bridge in bridges]
    lines += [f'[[link]]\na = "{a}"\nb = "{b}"\nmbps = 1000\nprop = 50' for a, b in cables]
    for number, (octets, route) in enumerate(streams):
        names = ", ".join(f'"{node}"' for node in route)
        lines.append(f'[[stream]]\nname = "s{number}"\noctets = {octets}\nroute = [{names}]')
    with open(os.path.join(HERE, name + ".toml"), "w") as file:
        file.write("\n".join(lines) + "\n")


def star():
    stations = [f"A{i}" for i in range(10)] + ["C"]
    cables = [(station, "S") for station in stations]
    streams = [(64, [f"A{i}", "S", "C"]) for i in range(10)]
    write("star", 1_000_000, stations, ["S"], cables, streams)


def drawn(name, rng, cycle, stations, bridges, cables, count):
    streams = []
    for _ in range(count):
        begin, end = rng.sample(stations, 2)
        streams.append((rng.choice(LENGTHS), shortest(cables, begin, end)))
    write(name, cycle, stations, bridges, cables, streams)


def line():
    rng = random.Random(6)
    bridges = [f"S{i}" for i in range(6)]
    stations = [f"A{i}" for i in range(12)]
    cables = [(bridges[i], bridges[i + 1]) for i in range(5)] + [(stations[i], bridges[i // 2]) for i in range(12)]
    drawn("line", rng, 200_000, stations, bridges, cables, 20)


def at_random(count, bridge_count, cycle):
    rng = random.Random(count)
    bridges = [f"S{i}" for i in range(bridge_count)]
    stations = [f"A{i}" for i in range(2 * bridge_count)]
    cables = [(bridges[i], bridges[rng.randrange(i)]) for i in range(1, bridge_count)]
    while len(cables) < bridge_count + 2:
        a, b = rng.sample(bridges, 2)
        if (a, b) not in cables and (b, a) not in cables:
            cables.append((a, b))
    cables += [(station, bridges[i // 2]) for i, station in enumerate(stations)]
    drawn(f"random-{count}", rng, cycle, stations, bridges, cables, count)


star()
line()
at_random(20, 6, 200_000)
at_random(40, 8, 300_000)
at_random(128, 16, 1_000_000)
