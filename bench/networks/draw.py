#!/usr/bin/env python3
"""Draws networks at random: eight ways in which bridges are joined, and several rates, lengths of frames, kinds of traffic and cycles.

Usage: bench/networks/draw.py FOLDER SEED COUNT [--least N] [--most N] [--traffic hot|any|near]

Writes COUNT network files of 20 to 128 streams (--least, --most) into the folder, each named after what was drawn: the same ones
for the same seed. Hot: most streams begin or end at one station. Near: each goes to a station that few bridges are between. A loose
cycle is twice the time that the busiest link asks for, a tight one within a few parts in a hundred of it, so that some of these have
no schedule.
"""

import argparse
import os
import random
from collections import deque

SHAPES = ("star", "line", "indline", "ring", "tree", "er", "rrg", "grid")
RATES = {"gig": [1000], "fe": [100], "mix": [1000, 1000, 100], "ten": [10]}
LENGTHS = {
    "eq": lambda rng: 64,
    "two": lambda rng: rng.choice([64, 1522]),
    "mix": lambda rng: min(1522, int(64 * (1522 / 64) ** (rng.random() ** 2))),
    "wild": lambda rng: rng.randint(64, 1522),
}


def joined(shape, count, rng):
    """Pairs of bridges that are joined."""
    row = [(at, at + 1) for at in range(count - 1)]
    if shape in ("line", "indline"):
        return row
    if shape == "ring":
        return row + ([(count - 1, 0)] if count > 2 else [])
    if shape == "tree":
        return [((at - 1) // 2, at) for at in range(1, count)]
    if shape == "grid":
        wide = max(2, int(count**0.5))
        return [(at, at + 1) for at in range(count - 1) if at % wide != wide - 1] + [(at, at + wide) for at in range(count - wide)]
    pairs = [(rng.randrange(at), at) for at in range(1, count)]
    more = count // 2 if shape == "er" else count
    for _ in range(more if count > 3 else 0):
        pair = tuple(sorted(rng.sample(range(count), 2)))
        if pair not in pairs:
            pairs.append(pair)
    return pairs


def routes_from(cables, begin):
    """From a station, the shortest way to each other node, over bridges alone."""
    ways, todo = {begin: [begin]}, deque([begin])
    while todo:
        here = todo.popleft()
        for there in cables[here]:
            if there not in ways:
                ways[there] = ways[here] + [there]
                if there.startswith("S"):
                    todo.append(there)
    return ways


def pairs_of(traffic, stations, ways, streams, rng):
    """Where each stream begins and ends."""
    found = []
    for number in range(streams):
        begin, end = rng.sample(stations, 2)
        if traffic == "hot" and number % 5 < 4:
            other = begin if begin != stations[0] else end
            begin, end = (other, stations[0]) if number % 5 < 3 else (stations[0], other)
        if traffic == "near":
            end = min(rng.sample([it for it in stations if it != begin], min(3, len(stations) - 1)), key=lambda it: len(ways[begin][it]))
        found.append((begin, end))
    return found


class Drawn:
    """A network that was drawn."""

    def __init__(self, rng, traffic, least, most):
        self.shape, self.traffic = rng.choice(SHAPES), traffic or rng.choice(("hot", "any", "near"))
        self.rate, self.length = rng.choice(("gig", "gig", "gig", "fe", "mix", "ten")), rng.choice(tuple(LENGTHS))
        self.streams = rng.randint(least, most)
        bridges = 1 if self.shape == "star" else max(3, int(self.streams**0.5) + rng.randint(-1, 4))
        self.bridges = [(f"S{at}", rng.choice([500, 1000, 1500, 2000, 4000])) for at in range(bridges)]
        stations = [f"h{at}" for at in range(max(6, self.streams // rng.choice((2, 3, 4))))]
        pairs = [(f"S{a}", f"S{b}") for a, b in joined(self.shape, bridges, rng)]
        pairs += [(station, rng.choice(self.bridges)[0]) for station in stations]
        self.stations = stations
        self.cables = [(a, b, rng.choice(RATES[self.rate]), rng.choice([50, 100, 200, 500])) for a, b in pairs]
        self.routed(rng)
        self.cycle_of(rng)

    def routed(self, rng):
        beside = {}
        for a, b, _, _ in self.cables:
            beside.setdefault(a, []).append(b)
            beside.setdefault(b, []).append(a)
        ways = {station: routes_from(beside, station) for station in self.stations}
        ends = pairs_of(self.traffic, self.stations, ways, self.streams, rng)
        self.sent = [(LENGTHS[self.length](rng), ways[begin][end]) for begin, end in ends]

    def cycle_of(self, rng):
        """By the busiest link: the earliest start on it, its frames one after another, and the least time from there to an end."""
        rates = {(a, b): (rate, prop) for a, b, rate, prop in self.cables} | {(b, a): (rate, prop) for a, b, rate, prop in self.cables}
        waits, spans, on = dict(self.bridges), [], {}
        for octets, route in self.sent:
            time, stays = 0, []
            for cable in zip(route, route[1:]):
                rate, prop = rates[cable]
                work = (octets + 20) * 8000 // rate
                stays.append((cable, time, work))
                end = time + (octets + 8) * 8000 // rate + prop
                time = end + waits.get(cable[1], 0)
            spans.append(end)
            for cable, start, work in stays:
                on.setdefault(cable, []).append((start, work, end - start - work))
        loads = [min(s for s, _, _ in it) + sum(w for _, w, _ in it) + min(r for _, _, r in it) for it in on.values()]
        least = max(max(loads), max(spans))
        self.load = rng.choice(("loose", "loose", "tight"))
        self.cycle = 2 * least if self.load == "loose" else int(least * rng.uniform(0.99, 1.08))

    def name(self, number):
        return f"{self.shape}-{self.streams:03}-{self.rate}-{self.length}-{self.traffic}-{self.load}-{number}"

    def text(self):
        lines = [f"cycle = {self.cycle}"]
        lines += [f'[[node]]\nname = "{station}"\nkind = "station"' for station in self.stations]
        lines += [f'[[node]]\nname = "{bridge}"\nkind = "bridge"\nproc = {wait}' for bridge, wait in self.bridges]
        lines += [f'[[link]]\na = "{a}"\nb = "{b}"\nmbps = {rate}\nprop = {prop}' for a, b, rate, prop in self.cables]
        for number, (octets, route) in enumerate(self.sent):
            names = ", ".join(f'"{node}"' for node in route)
            lines.append(f'[[stream]]\nname = "s{number}"\noctets = {octets}\nroute = [{names}]')
        return "\n".join(lines) + "\n"


def main():
    parser = argparse.ArgumentParser(description=__doc__, formatter_class=argparse.RawDescriptionHelpFormatter)
    parser.add_argument("folder")
    parser.add_argument("seed", type=int)
    parser.add_argument("count", type=int)
    parser.add_argument("--least", type=int, default=20)
    parser.add_argument("--most", type=int, default=128)
    parser.add_argument("--traffic", choices=("hot", "any", "near"))
    given = parser.parse_args()
    os.makedirs(given.folder, exist_ok=True)
    rng = random.Random(given.seed)
    for number in range(1, given.count + 1):
        drawn = Drawn(rng, given.traffic, given.least, given.most)
        with open(os.path.join(given.folder, drawn.name(number) + ".toml"), "w", encoding="utf-8") as file:
            file.write(drawn.text())


if __name__ == "__main__":
    main()
