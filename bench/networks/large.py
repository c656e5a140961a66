#!/usr/bin/env python3
"""Draws networks of the size of plants, each with a plan that is found by placing one stream after another.

Usage: bench/networks/large.py FOLDER [--streams N] [--only plant|line|cycle]

Writes NAME.toml and NAME.plan into the folder, the same ones each time:

- plant: 2,048 streams (or N) over 100 bridges, a ring of 20 cells, each a line of four behind one that has a controller; six streams of
  ten go between a controller and a station of its cell, or of one beside it. Some 450,000 times two streams share a link.
- line: 500 streams over a line of 64 bridges.
- cycle: 300 streams with periods of 0.5 to 100 ms in a cycle of 100 ms, some 30,000 frames, over a ring of 24 bridges.

Links of two bridges have 1000 Mb/s.
"""

import argparse
import json
import math
import os
import random
import sys

HERE = os.path.dirname(os.path.abspath(__file__))
sys.path[:0] = [HERE, os.path.dirname(HERE)]

from draw import LENGTHS, routes_from
from plainly import flowspan, network_of
from tiny import written

# Periods in ns, and how many of 300 streams have them.
PERIODS = {500_000: 100, 1_000_000: 70, 2_000_000: 40, 5_000_000: 30, 10_000_000: 20, 20_000_000: 20, 50_000_000: 10, 100_000_000: 10}


class Plant:
    """Bridges and stations, how they are joined, and who sends to whom."""

    def __init__(self, rng, pairs, bridges, stations):
        self.rng, self.pairs = rng, [(f"S{a}", f"S{b}") for a, b in pairs]
        self.nodes = [{"name": f"S{at}", "kind": "bridge", "proc": rng.choice([500, 1000, 2000, 3000])} for at in range(bridges)]
        self.homes = {}
        for number in range(stations):
            self.station(f"h{number}", number % bridges)

    def station(self, name, bridge):
        self.nodes.append({"name": name, "kind": "station"})
        self.pairs.append((name, f"S{bridge}"))
        self.homes[name] = bridge

    def links(self):
        rng = self.rng
        return [
            {"a": a, "b": b, "mbps": 1000 if a.startswith("S") else rng.choice([1000, 1000, 100]), "prop": rng.choice([50, 100, 200, 500])}
            for a, b in self.pairs
        ]

    def routes(self, ends):
        beside = {}
        for a, b in self.pairs:
            beside.setdefault(a, []).append(b)
            beside.setdefault(b, []).append(a)
        ways = {talker: routes_from(beside, talker) for talker in {it for it, _ in ends}}
        return [ways[talker][listener] for talker, listener in ends]

    def document(self, ends, more):
        """A document without its cycle."""
        length = LENGTHS["mix"]
        streams = [{"name": f"s{at}", "octets": length(self.rng), "route": route} | more(at) for at, route in enumerate(self.routes(ends))]
        return {"node": self.nodes, "link": self.links(), "stream": streams}


def plant(rng, count):
    """A ring of cells. Bridge 5 c is the head of cell c, and those behind it are its line."""
    cells, lines = 20, 5
    joined = [(lines * at, lines * (at + 1) % (lines * cells)) for at in range(cells)]
    joined += [(lines * at + behind, lines * at + behind + 1) for at in range(cells) for behind in range(lines - 1)]
    made = Plant(rng, joined, lines * cells, max(count // 4, lines * cells))
    stations = list(made.homes)
    for cell in range(cells):
        made.station(f"P{cell}", lines * cell)
    near = [[it for it in stations if (made.homes[it] // lines - cell) % cells in (0, 1, cells - 1)] for cell in range(cells)]
    ends = []
    for number in range(count):
        pair = [f"P{number % cells}", rng.choice(near[number % cells])] if rng.random() < 0.6 else rng.sample(stations, 2)
        ends.append(rng.sample(pair, 2))
    return made.document(ends, lambda at: {})


def line(rng, count):
    made = Plant(rng, [(at, at + 1) for at in range(63)], 64, 192)
    return made.document([rng.sample(list(made.homes), 2) for _ in range(count)], lambda at: {})


def cycle(rng):
    made = Plant(rng, [(at, (at + 1) % 24) for at in range(24)], 24, 96)
    periods = [period for period, count in PERIODS.items() for _ in range(count)]
    rng.shuffle(periods)
    ends = []
    for period in periods:
        talker, listener = rng.sample(list(made.homes), 2)
        while period < 2_000_000 and (made.homes[listener] - made.homes[talker]) % 24 not in (0, 1, 2, 22, 23):
            listener = rng.choice([it for it in made.homes if it != talker])
        ends.append((talker, listener))
    return {"cycle": 100_000_000} | made.document(ends, lambda at: {"period": periods[at]})


DRAWN = {
    "plant": lambda streams: plant(random.Random(1), streams),
    "line": lambda _: line(random.Random(2), 500),
    "cycle": lambda _: cycle(random.Random(3)),
}


def taken(network, placed, number):
    """The offsets, from the least to below the greatest, that a stream can't have beside those that are placed: in its own period."""
    own = network.streams[number]
    for hop in own.hops:
        for other, offset in placed.get(hop.link, ()):
            theirs = network.streams[other]
            common = math.gcd(own.period, theirs.period)
            start, kept = next((it.start, it.kept) for it in theirs.hops if it.link == hop.link)
            first = offset + start - hop.start - hop.kept + 1
            for lag in range(first % common - common, own.period, common):
                yield lag, lag + hop.kept + kept - 1


def earliest(network, placed, number):
    """The least offset at which a stream keeps out of the way of those that are placed."""
    at = network.streams[number].release
    for begin, end in sorted(taken(network, placed, number)):
        if begin > at:
            break
        at = max(at, end)
    return at


def plan_of(network):
    """Offsets: streams of shorter periods are placed first, and of these those that need longest."""
    placed, offsets = {}, [0] * len(network.streams)
    for number in sorted(range(len(offsets)), key=lambda it: (network.streams[it].period, -network.streams[it].arrival)):
        offsets[number] = earliest(network, placed, number)
        for hop in network.streams[number].hops:
            placed.setdefault(hop.link, []).append((number, offsets[number]))
    return offsets


def main():
    parser = argparse.ArgumentParser(description=__doc__, formatter_class=argparse.RawDescriptionHelpFormatter)
    parser.add_argument("folder")
    parser.add_argument("--streams", type=int, default=2048)
    parser.add_argument("--only", choices=sorted(DRAWN))
    given = parser.parse_args()
    os.makedirs(given.folder, exist_ok=True)
    for name, draw in DRAWN.items():
        if given.only not in (None, name):
            continue
        said = {"cycle": 1_000_000_000} | draw(given.streams)
        network = network_of(said)
        offsets = plan_of(network)
        if name != "cycle":
            # The cycle is twice the time that this plan takes.
            said["cycle"] = 2 * max(offset + it.span for offset, it in zip(offsets, network.streams))
        late = [it.name for offset, it in zip(offsets, network.streams) if offset + it.span > it.period]
        written(said, os.path.join(given.folder, name + ".toml"))
        with open(os.path.join(given.folder, name + ".plan"), "w", encoding="utf-8") as file:
            json.dump({"flowspan": flowspan(network, offsets), "offsets": offsets}, file, separators=(",", ":"))
        frames = sum(len(it.shifts) for it in network.streams)
        print(name, len(offsets), "streams", frames, "frames", f"{len(late)} late" if late else "")


if __name__ == "__main__":
    main()
