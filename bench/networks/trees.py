#!/usr/bin/env python3
"""Draws networks at random whose streams have several listeners, or two ways to one.

Usage: bench/networks/trees.py FOLDER SEED COUNT [--least N] [--most N]

Writes COUNT network files of 20 to 128 streams (--least, --most) into the folder, lines, rings, grids and zones by turns, each named
after what was drawn: the same ones for the same seed. A third of the streams go to 2 to 8 listeners. Some go to a listener with two
ports by two ways that have no bridge in common but the talker's where that has one port, and some of these to others besides. In half
of the networks each stream sends one frame a cycle; in the others it sends one to three in each period, of one, a half or a quarter of
the cycle. A loose cycle is twice the time that the fullest link asks for, or leaves it free for a third of the time and more; a tight
one is within a few parts in a hundred of it, or takes it up for nine tenths.
"""

import argparse
import os
import random
import sys

HERE = os.path.dirname(os.path.abspath(__file__))
sys.path[:0] = [HERE, os.path.dirname(HERE)]

from draw import LENGTHS, joined
from plainly import network_of
from tiny import written

SHAPES = ("line", "ring", "grid", "zones")
RATES = {"gig": [1000], "fe": [100], "mix": [1000, 1000, 100]}
TRIES = 12
# Most of the keys of a stream can't be drawn before its times are known, and those don't depend on the cycle.
SOME_CYCLE = 1_000_000_000


def bridges_joined(shape, count, rng):
    """Pairs of bridges that are joined. Zones: one or two bridges behind each of those in a ring."""
    if shape != "zones":
        return joined(shape, count, rng)
    gates = max(3, count // 2)
    return joined("ring", gates, rng) + [(at if at < gates else rng.randrange(gates), at + gates) for at in range(count - gates)]


def ways_from(begun, beside, rng):
    """Ways to all bridges that go on from some ways, none of which enters a bridge that another one enters: the shortest."""
    ways, todo = dict(begun), list(begun)
    for here in todo:
        for there in rng.sample(beside[here], len(beside[here])):
            if there.startswith("S") and there not in ways:
                ways[there] = ways[here] + [there]
                todo.append(there)
    return ways


def two_ways(talker, listener, beside, rng):
    """Two ways with no bridge in common but the talker's where that has one port; none where no try finds them."""
    first = beside[talker][0] if len(beside[talker]) == 1 else talker
    before = [talker] if first != talker else []
    for _ in range(TRIES):
        one = way_between(first, listener, beside, set(), rng)
        other = way_between(first, listener, beside, set(one[1:-1]) | ({"direct"} if len(one) == 2 else set()), rng)
        if other:
            return [before + one, before + other]
    return None


def way_between(begin, end, beside, without, rng):
    """A shortest way over bridges, without some of them; and not by the one link, where "direct" is among these."""
    ways, todo = {begin: [begin]}, [begin]
    for here in todo:
        for there in rng.sample(beside[here], len(beside[here])):
            if there == end and not (here == begin and "direct" in without):
                return ways[here] + [end]
            if there.startswith("S") and there not in ways and there not in without:
                ways[there] = ways[here] + [there]
                todo.append(there)
    return None


class Drawn:
    """A network that was drawn."""

    def __init__(self, rng, shape, least, most):
        self.rng, self.shape, self.count = rng, shape, rng.randint(least, most)
        self.rate, self.length = rng.choice(("gig", "gig", "fe", "mix")), rng.choice(tuple(LENGTHS))
        self.times, self.load = rng.choice(("one", "periods")), rng.choice(("loose", "loose", "tight"))
        self.joined()
        self.said["stream"] = [self.stream(number) for number in range(self.count)]
        self.timed()

    def joined(self):
        rng = self.rng
        bridges = max(4, int(self.count**0.5) + rng.randint(-1, 4))
        pairs = [(f"S{a}", f"S{b}") for a, b in bridges_joined(self.shape, bridges, rng)]
        neighbours = {at: [b if a == at else a for a, b in pairs if at in (a, b)] for pair in pairs for at in pair}
        self.stations = [f"h{at}" for at in range(max(10, self.count // rng.choice((2, 3))))]
        for station in self.stations:
            at = f"S{rng.randrange(bridges)}"
            pairs.append((station, at))
            if rng.random() < 0.3:
                pairs.append((station, rng.choice(neighbours[at])))
        self.beside = {at: [b if a == at else a for a, b in pairs if at in (a, b)] for pair in pairs for at in pair}
        self.said = {
            "node": [{"name": it, "kind": "station"} for it in self.stations]
            + [{"name": f"S{at}", "kind": "bridge", "proc": rng.choice([500, 1000, 2000, 4000])} for at in range(bridges)],
            "link": [{"a": a, "b": b, "mbps": rng.choice(RATES[self.rate]), "prop": rng.choice([50, 100, 200, 500])} for a, b in pairs],
        }

    def stream(self, number):
        """A third has several listeners. Each fourth of all is sent by two ways, where its listener has two ports and there are two."""
        rng = self.rng
        talker, listener = rng.sample(self.stations, 2)
        twofold = number % 4 == 0
        if twofold:
            listener = rng.choice([it for it in self.stations if it != talker and len(self.beside[it]) > 1] or [listener])
        found = two_ways(talker, listener, self.beside, rng) if twofold else None
        begun = {talker: [talker]} | {way[at]: way[: at + 1] for way in found or [] for at in range(1, len(way) - 1)}
        ways = ways_from(begun, self.beside, rng)
        routes, others = found or [self.shortest(ways, listener)], [it for it in self.stations if it not in (talker, listener)]
        if number % 3 == 1:
            routes += [self.shortest(ways, it) for it in rng.sample(others, rng.randint(1, 7))]
        route = {"routes": routes} if len(routes) > 1 else {"route": routes[0]}
        return {"name": f"s{number}", "octets": LENGTHS[self.length](rng)} | route

    def shortest(self, ways, listener):
        return min((ways[port] + [listener] for port in self.beside[listener] if port in ways), key=len)

    def timed(self):
        """Gives the streams their periods and deadlines, and the network its cycle."""
        rng, streams = self.rng, self.said["stream"]
        turns = [1] * self.count
        if self.times == "periods":
            turns = [rng.choice([1, 1, 2, 4]) for _ in streams]
            for it in streams:
                it["frames"] = rng.choice([1, 1, 1, 2, 3])
        network = network_of(self.said | {"cycle": SOME_CYCLE})
        self.said = {"cycle": self.cycle(network, turns)} | self.said
        for it, count, times in zip(streams, turns, network.streams):
            period = self.said["cycle"] // count
            if count > 1:
                it["period"] = period
            if it.get("frames") == 1:
                del it["frames"]
            if rng.random() < 0.3:
                it["latest"] = min(period, max(int(1.3 * times.arrival), period * rng.choice([4, 5, 6, 8, 9]) // 10))

    def cycle(self, network, turns):
        on = {}
        for it, count in zip(network.streams, turns):
            frames = len(it.shifts)
            for hop in it.hops:
                on.setdefault(hop.link, []).append((hop.start, count * frames * hop.kept, it.latency - hop.start - hop.kept))
        spans = max(it.span * count for it, count in zip(network.streams, turns))
        if self.times == "one":
            loads = [min(s for s, _, _ in it) + sum(w for _, w, _ in it) + min(r for _, _, r in it) for it in on.values()]
            least = max(*loads, spans)
            return 2 * least if self.load == "loose" else int(least * self.rng.uniform(0.99, 1.08))
        works = max(sum(work for _, work, _ in it) for it in on.values())
        part = 0.9 if self.load == "tight" else self.rng.uniform(0.3, 0.65)
        return max(int(works / part), int(spans * 1.1)) // 4000 * 4000 + 4000

    def name(self, number):
        return f"{self.shape}-{self.count:03}-{self.rate}-{self.length}-{self.times}-{self.load}-{number}"


def main():
    parser = argparse.ArgumentParser(description=__doc__, formatter_class=argparse.RawDescriptionHelpFormatter)
    parser.add_argument("folder")
    parser.add_argument("seed", type=int)
    parser.add_argument("count", type=int)
    parser.add_argument("--least", type=int, default=20)
    parser.add_argument("--most", type=int, default=128)
    given = parser.parse_args()
    os.makedirs(given.folder, exist_ok=True)
    rng = random.Random(given.seed)
    for number in range(1, given.count + 1):
        drawn = Drawn(rng, SHAPES[number % len(SHAPES)], given.least, given.most)
        written(drawn.said, os.path.join(given.folder, drawn.name(number) + ".toml"))


if __name__ == "__main__":
    main()
