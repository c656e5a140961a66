#!/usr/bin/env python3
"""Tiny networks drawn at random, with several listeners, periods, bursts and slacks, by the program and by trying every schedule.

Usage: bench/tiny.py [--count N] [--seed N] [--lists N] [--changed N] [--bin PROGRAM] [--keep FOLDER]

Of each network (2 to 4 streams, a few links) all lists of offsets are tried, by the definitions alone (bench/plainly.py): the first
optimal list is what `plan` has to write, and `check` has to accept its certificate. `valid` has to say of --lists further lists what
the definitions say, the first violation and its lag among it. Then --changed certificates, of this network and of others like it, are
changed at random, for plans that are right and for wrong ones: each has to be refused, or what `check` says of it has to be true.
Networks where something differs are told and kept (--keep); the status is 1 then.

Times are multiples of a step of the network's own. The first optimal list is so, too: by its own order of frames each offset is the
least, and that is a sum of such times. So only multiples are tried.
"""

import argparse
import copy
import json
import os
import random
import shutil
import subprocess
import sys
import tempfile
from collections import Counter
from itertools import permutations

from plainly import OCTET_TIME, flowspan, judged, network_of, overlaps, read, routes_of

ROOT = os.path.dirname(os.path.dirname(os.path.abspath(__file__)))
sys.path.append(os.path.join(ROOT, "bench", "arguments"))

import check_argument

# The octets whose times are multiples of 96 ns at 1000 Mb/s, and what a step of 8 ns leaves.
LENGTHS = {96: range(64, 300, 12), 8: range(64, 200)}

# How many lists of offsets, without the last stream's, are tried at most.
MOST_TRIED = 1_000_000


# ---- drawing


def bridges_of(rng):
    """The cables of one to three bridges in a row or a ring, each with stations of its own, some with a second port; and the stations."""
    count = rng.choice([1, 1, 2, 2, 3])
    stations, cables = [], [(f"S{at}", f"S{at + 1}") for at in range(count - 1)]
    if count == 3 and rng.random() < 0.5:
        cables.append(("S2", "S0"))
    for at in range(count):
        for _ in range(rng.randint(2, 3) if count == 1 else rng.randint(1, 2)):
            stations.append(f"A{len(stations)}")
            cables.append((stations[-1], f"S{at}"))
            if count > 1 and rng.random() < 0.3:
                cables.append((stations[-1], f"S{rng.choice([it for it in range(count) if it != at])}"))
    return count, stations, cables


def ways_from(talker, beside, rng):
    """A way from a station to each bridge, such that no bridge is entered by two of them."""
    ways, todo = {talker: [talker]}, [talker]
    while todo:
        here = todo.pop(rng.randrange(len(todo)))
        for there in rng.sample(beside[here], len(beside[here])):
            if there.startswith("S") and there not in ways:
                ways[there] = ways[here] + [there]
                todo.append(there)
    return ways


def way(talker, listener, beside, rng):
    """The key `route`."""
    ways = ways_from(talker, beside, rng)
    return {"route": ways[rng.choice(beside[listener])] + [listener]}


def tree(talker, listeners, beside, rng):
    """The key `routes`, to some listeners, mostly by both ports where one has two."""
    ways, routes = ways_from(talker, beside, rng), []
    for listener in listeners:
        ports = beside[listener] if rng.random() < 0.7 else [rng.choice(beside[listener])]
        routes += [ways[port] + [listener] for port in ports]
    rng.shuffle(routes)
    return {"routes": routes}


def drawn(rng):
    """A network as a dictionary with the keys of its file, and its step; one whose schedules can all be tried."""
    while True:
        said, step = drawn_once(rng)
        network, count = network_of(said), 1
        for least, greatest in room_of(network, step)[:-1]:
            count *= max(1, greatest - least + 1)
        if count <= MOST_TRIED:
            return said, step


def drawn_once(rng):
    step = rng.choice([96, 96, 8])
    count, stations, cables = bridges_of(rng)
    rates = rng.choice([[1000], [1000], [1000, 100]]) if step == 96 else [1000]
    said = {
        "node": [{"name": f"S{at}", "kind": "bridge", "proc": step * rng.choice([0, 0, 1, 7, 20])} for at in range(count)]
        + [{"name": name, "kind": "station"} for name in stations],
        "link": [{"a": a, "b": b, "mbps": rng.choice(rates), "prop": step * rng.choice([0, 0, 1, 3])} for a, b in cables],
        "stream": [],
    }
    rng.shuffle(said["link"])
    hot = rng.choice(stations)
    beside = {name: [a if b == name else b for a, b in cables if name in (a, b)] for cable in cables for name in cable}
    pairs = list(permutations(stations, 2))
    hot_pairs = [it for it in pairs if it[1] == hot]
    for at in range(rng.randint(2, 4 if step == 96 else 3)):
        talker, listener = rng.choice(hot_pairs if rng.random() < 0.6 else pairs)
        others = [it for it in stations if it not in (talker, listener)]
        octets = rng.choice(LENGTHS[step][:4] if rng.random() < 0.7 else LENGTHS[step])
        if rng.random() < 0.5:
            route = tree(talker, [listener, *rng.sample(others, rng.randint(0, min(3, len(others))))], beside, rng)
        else:
            route = way(talker, listener, beside, rng)
        said["stream"].append({"name": f"t{at}", "octets": octets} | route)
    timed(said, step, rng)
    if rng.random() < 0.3:
        slackened(said, step, rng)
    return said, step


def slackened(said, step, rng):
    """Gives a network a slack, for which frames keep their links for a multiple of the step; less than each delay before another hop."""
    streams = network_of(said).streams
    longest = min(hop.start - it.hops[hop.before].start for it in streams for hop in it.hops if hop.before is not None) // step
    if longest:
        said["slack"] = step * rng.randint(1, min(longest, 30)) - 1


def timed(said, step, rng):
    """Gives a network that is drawn its cycle, and its streams periods, bursts, releases and latest instants, or an offset."""
    longest = max(least_span(said, it) for it in said["stream"])
    parts = rng.choice([1, 2, 2, 3, 4, 6])
    shortest = max(1, int(longest * rng.uniform(1.0, 3.0)) // step) * step
    said["cycle"] = shortest * parts
    for it in said["stream"]:
        turns = rng.choice([n for n in range(1, parts + 1) if parts % n == 0])
        period = said["cycle"] // turns
        if turns > 1 or rng.random() < 0.2:
            it["period"] = period
        if rng.random() < 0.35:
            it["frames"] = rng.randint(1, 3)
        if rng.random() < 0.08:
            it["offset"] = step * rng.randint(0, period // step // 3)
            continue
        if rng.random() < 0.25:
            it["release"] = step * rng.randint(0, period // step // 3)
        if rng.random() < 0.25:
            it["latest"] = step * rng.randint(period // step // 2, period // step + 3)


def least_span(said, stream):
    """About how long one frame of a stream is on its way."""
    rate = {frozenset((it["a"], it["b"])): OCTET_TIME[it["mbps"]] for it in said["link"]}
    return max(sum((stream["octets"] + 20) * rate[frozenset(pair)] for pair in zip(it, it[1:])) for it in routes_of(stream))


def written(said, path):
    """Writes a network's file."""
    lines = [f"{key} = {said[key]}" for key in ("cycle", "slack") if key in said]
    for table in ("node", "link", "stream"):
        for it in said[table]:
            lines += [f"[[{table}]]"] + [f"{key} = {json.dumps(value)}" for key, value in it.items()]
    with open(path, "w", encoding="utf-8") as file:
        file.write("\n".join(lines) + "\n")


# ---- trying every schedule


def room_of(network, step):
    """The offsets at which each stream keeps its release, its period and its latest instant, in steps: the least and the greatest."""
    return [(-(-it.release // step), min(it.period - it.span, it.latest - it.arrival) // step) for it in network.streams]


def meeting(network, i, j, step):
    """The differences of two streams' offsets, in steps, at which their frames overlap: bit k is k less than the period of stream i."""
    found, base = 0, network.streams[i].period // step
    for k in range(base + network.streams[j].period // step):
        first, second = (max(0, base - k) * step, max(0, k - base) * step)
        if any(overlaps(network, i, j, (first, second))):
            found |= 1 << k
    return found


def between(least, greatest):
    """The bits from the least to the greatest."""
    return (1 << greatest + 1) - (1 << least) if least <= greatest else 0


class Trial:
    """All lists of offsets in steps, in their order: the first of the least flowspan is kept, and those that it took the place of."""

    def __init__(self, network, step):
        self.streams, self.step = network.streams, step
        self.arrivals = [it.arrival for it in network.streams]
        count = len(network.streams)
        self.meetings = {(i, j): meeting(network, i, j, step) for i in range(count) for j in range(i + 1, count)}
        self.best, self.end, self.others = None, network.cycle + 1, []
        self.go([], [between(least, greatest) for least, greatest in room_of(network, step)], 0)

    def go(self, offsets, free, end):
        """Goes on from some offsets; bit k of a later stream's number says that it can be at step k beside these."""
        at = len(offsets)
        if at == len(self.streams):
            self.others += [self.best] if self.best else []
            self.best, self.end = offsets, end
            return
        mine = free[at]
        while mine and all(free[at:]):
            offset = (mine & -mine).bit_length() - 1
            mine &= mine - 1
            later = max(end, offset * self.step + self.arrivals[at])
            if later >= self.end:
                return
            self.go(offsets + [offset], [self.beside(at, k, offset, it) if k > at else it for k, it in enumerate(free)], later)

    def beside(self, i, j, offset, free):
        """What is free to stream j where stream i is at that step."""
        shift = self.streams[i].period // self.step - offset
        return free & ~(self.meetings[i, j] >> shift)


def first_optimal(network, step):
    """The first optimal list of offsets, or None; and some valid lists that are none."""
    trial = Trial(network, step)
    lists = [[step * it for it in offsets] for offsets in [trial.best, *trial.others[-3:]] if offsets]
    return lists[0] if lists else None, lists[1:]


def worse_lists(network, first, step, others, rng):
    """Valid lists of offsets other than the first optimal one."""
    found = list(others)
    for _ in range(30):
        offsets = list(first)
        for at in rng.sample(range(len(offsets)), rng.randint(1, len(offsets))):
            offsets[at] = max(0, offsets[at] + step * rng.choice([-3, -1, 1, 2, 5, 11, rng.randint(1, 60)]))
        if offsets != first and judged(network, offsets).startswith("valid"):
            found.append(offsets)
    return found


# ---- certificates that are changed


def places_in(value, path=()):
    """The path of each value inside a certificate."""
    items = value.items() if isinstance(value, dict) else enumerate(value) if isinstance(value, list) else ()
    for key, inner in items:
        yield path + (key,)
        yield from places_in(inner, path + (key,))


def at_path(value, path):
    for key in path:
        value = value[key]
    return value


NODES = ("branch", "late", "overrun", "cycle", "load", "overload", "tie", "tieload")
WORDS = list(dict.fromkeys([*NODES, *check_argument.GOALS, *check_argument.FACTS, *check_argument.MOVES]))


def changed(cert, rng):
    """A certificate with one thing changed at random."""
    cert = copy.deepcopy(cert)
    places = list(places_in(cert))
    path = rng.choice(places)
    holder, key = at_path(cert, path[:-1]), path[-1]
    value = holder[key]
    if isinstance(value, bool) or value is None:
        return cert
    if isinstance(value, int):
        numbers = [it for it in (at_path(cert, place) for place in places) if isinstance(it, int)]
        holder[key] = rng.choice([value + 1, value - 1, value + rng.choice([-96, -8, 8, 96, 672]), rng.choice(numbers), 0, 2 * value])
    elif isinstance(value, str):
        holder[key] = rng.choice(WORDS)
    elif isinstance(holder, list):
        change = rng.randrange(4)
        if change == 0:
            del holder[key]
        elif change == 1:
            holder.insert(key, copy.deepcopy(value))
        elif change == 2:
            other = rng.randrange(len(holder))
            holder[key], holder[other] = holder[other], holder[key]
        else:
            holder[key] = copy.deepcopy(at_path(cert, rng.choice(places)))
    elif isinstance(value, list):
        rng.shuffle(value)
    return cert


def like_it(said, step, rng):
    """A network like another one, in one number."""
    other = copy.deepcopy(said)
    it = rng.choice(other["stream"])
    key = rng.choice(["octets", "frames", "release", "latest", "cycle"])
    if key == "octets":
        it[key] = rng.choice(LENGTHS[step])
    elif key == "frames":
        it[key] = rng.randint(1, 3)
    elif key == "cycle":
        for stream in other["stream"]:
            stream.pop("period", None)
        other[key] += step * rng.choice([-1, 1, 6, -6]) * rng.randint(1, 4)
        other[key] = max(step, other[key])
    else:
        it.pop("offset", None)
        it[key] = step * rng.randint(1, other["cycle"] // step)
    return other


# ---- by the program


def ends_of(network, stream):
    """By how many links each listener of a stream is reached."""
    return Counter(network.links[hop.link].end for hop in stream.heard())


# What a network has a stream of.
KINDS = {
    "several frames of a stream": lambda network, it: len(it.shifts) > 1,
    "a stream that runs already": lambda network, it: it.release + it.arrival == it.latest,
    "several listeners of a stream": lambda network, it: len(ends_of(network, it)) > 1,
    "a listener that is reached twice": lambda network, it: max(ends_of(network, it).values()) > 1,
    "a talker that sends by two ports": lambda network, it: sum(hop.before is None for hop in it.hops) > 1,
}


class Look:
    """What is found of one network after another."""

    def __init__(self, given, room):
        self.given, self.room, self.tally, self.wrong = given, room, Counter(), []

    def path(self, name):
        return os.path.join(self.room, name)

    def said(self, *words):
        ended = subprocess.run([self.given.bin, *words], stdin=subprocess.DEVNULL, capture_output=True, text=True)
        return ended.stdout.strip(), ended.returncode

    def write(self, name, value):
        with open(self.path(name), "w", encoding="utf-8") as file:
            json.dump(value, file)

    def differs(self, at, what):
        print(f"network {at}: {what}", flush=True)
        self.wrong.append(at)
        if self.given.keep:
            os.makedirs(self.given.keep, exist_ok=True)
            for name in ("net.toml", "plan.json", "cert.json", "changed-plan.json", "changed-cert.json"):
                if os.path.exists(self.path(name)):
                    shutil.copy(self.path(name), os.path.join(self.given.keep, f"{at}-{len(self.wrong)}-{name}"))

    def plan(self, net, how):
        """What `plan` says of a network, its plan and its certificate."""
        files = self.path("plan.json"), self.path("cert.json")
        for it in files:
            if os.path.exists(it):
                os.remove(it)
        line, _ = self.said("plan", net, "--search", how, "--plan", files[0], "--cert", files[1])
        return line, *(json.load(open(it, encoding="utf-8")) if os.path.exists(it) else None for it in files)

    def try_plan(self, at, net, network, first, how):
        """Compares the plan with the first optimal list, and has its certificate checked; gives the certificate."""
        line, plan, cert = self.plan(net, how)
        end = flowspan(network, first) if first else None
        wanted = f"optimal {end} settled" if first else "no schedule settled"
        if not line.startswith(wanted) or plan != {"flowspan": end, "offsets": first}:
            self.differs(at, f"plan --search {how} says {line}, {plan}, and not {wanted}, {first}")
        accepted, _ = self.said("check", net, self.path("plan.json"), self.path("cert.json"))
        if accepted != (f"accepted first {end}" if first else "accepted no schedule"):
            self.differs(at, f"check says {accepted}")
        return cert

    def try_lists(self, at, net, network, first, step, rng):
        """Compares what `valid` says of some lists with what the definitions say."""
        for _ in range(self.given.lists):
            if first and rng.random() < 0.6:
                offsets = list(first)
            else:
                offsets = [step * rng.randint(0, max(0, it.period - it.span) // step) for it in network.streams]
            for k in rng.sample(range(len(offsets)), rng.randint(0, len(offsets))):
                far = rng.randint(-network.cycle, network.cycle) // 9
                offsets[k] = max(0, offsets[k] + rng.choice([-1, 1, step, -step, 5 * step, -5 * step, 7 * step, far]))
            if rng.random() < 0.03:
                offsets = offsets[:-1] or [0, 0]
            wanted = judged(network, offsets)
            line, _ = self.said("valid", net, *map(str, offsets))
            words = wanted.split()
            self.tally["valid" if words[0] == "valid" else " ".join(words[:3]) + (" with a lag" if len(words) == 7 else "")] += 1
            if line != wanted:
                self.differs(at, f"valid {offsets} says {line}, and not {wanted}")

    def proof(self, network, optimal, rng):
        """The argument that `prove` writes for an optimal plan."""
        offsets = rng.choice(optimal)
        self.write("changed-plan.json", {"flowspan": flowspan(network, offsets), "offsets": offsets})
        self.said("prove", self.path("net.toml"), self.path("changed-plan.json"), "--cert", self.path("changed-cert.json"))
        with open(self.path("changed-cert.json"), encoding="utf-8") as file:
            return json.load(file)

    def with_other_plan(self, network, said, step, first, cert, worse, rng):
        """A plan and the certificate of this network or of one like it, not all of which belong together."""
        right = {"flowspan": flowspan(network, first) if first else None, "offsets": first}
        if first and rng.random() < 0.25:
            optimal = [it for it in [first, *worse] if flowspan(network, it) == right["flowspan"]]
            return {"offsets": rng.choice([first, *worse])}, self.proof(network, optimal, rng)
        if rng.random() < 0.4:
            written(like_it(said, step, rng), self.path("other.toml"))
            _, plan, other = self.plan(self.path("other.toml"), rng.choice(["file", "learn"]))
            if other:
                return ({"offsets": rng.choice(worse)} if worse and rng.random() < 0.5 else plan), other
        elif worse and rng.random() < 0.8:
            return {"offsets": rng.choice(worse)}, cert
        elif first and rng.random() < 0.5:
            return {"flowspan": None, "offsets": None}, cert
        return right, cert

    def try_changed(self, at, net, network, said, step, first, cert, others, rng):
        """Whether changed certificates are refused, or what `check` says is true."""
        worse = worse_lists(network, first, step, others, rng) if first else []
        for _ in range(self.given.changed):
            plan, base = map(copy.deepcopy, self.with_other_plan(network, said, step, first, cert, worse, rng))
            offsets = plan["offsets"]
            if offsets and len(offsets) == len(network.streams):
                plan["flowspan"] = flowspan(network, offsets)
            base["target"] = plan["flowspan"] if offsets else network.cycle + 1
            for _ in range(rng.choice([0, 1, 1, 2, 3])):
                base = changed(base, rng)
            self.write("changed-plan.json", plan)
            self.write("changed-cert.json", base)
            line, status = self.said("check", net, self.path("changed-plan.json"), self.path("changed-cert.json"))
            kind = "the first plan" if offsets == first else "another plan" if offsets else "no plan"
            self.tally[f"changed, for {kind}: " + ("accepted" if status == 0 else "refused")] += 1
            if status == 0 and not self.is_true(line, network, plan, first):
                self.differs(at, f"check says {line} of {plan}, and {first} is the first")
            if status not in (0, 3, 6):
                self.differs(at, f"check ends with {status} at a changed certificate")

    def is_true(self, line, network, plan, first):
        """Whether what `check` accepts is so."""
        if line == "accepted no schedule":
            return first is None and plan["offsets"] is None
        if first is None or not judged(network, plan["offsets"]).startswith("valid"):
            return False
        end = flowspan(network, first)
        if line == f"accepted optimal {end}":
            return flowspan(network, plan["offsets"]) == end
        return line == f"accepted first {end}" and plan["offsets"] == first

    def network(self, at):
        rng = random.Random(f"{self.given.seed} {at}")
        said, step = drawn(rng)
        net = self.path("net.toml")
        written(said, net)
        network = read(net)
        first, others = first_optimal(network, step)
        self.tally["networks with a schedule" if first else "networks without"] += 1
        self.tally["frames"] += sum(len(it.shifts) for it in network.streams)
        self.tally["networks with a slack"] += "slack" in said
        for kind, holds in KINDS.items():
            self.tally[f"networks with {kind}"] += any(holds(network, it) for it in network.streams)
        cert = self.try_plan(at, net, network, first, rng.choice(["file", "learn", "auto"]))
        self.try_lists(at, net, network, first, step, rng)
        if cert:
            self.try_changed(at, net, network, said, step, first, cert, others, rng)


def main():
    parser = argparse.ArgumentParser(description=__doc__, formatter_class=argparse.RawDescriptionHelpFormatter)
    parser.add_argument("--count", type=int, default=2000)
    parser.add_argument("--seed", type=int, default=1)
    parser.add_argument("--lists", type=int, default=8)
    parser.add_argument("--changed", type=int, default=8)
    parser.add_argument("--only", type=int)
    parser.add_argument("--bin", default=os.path.join(ROOT, "crates", "tsn", "out", "tsn"))
    parser.add_argument("--keep", default="")
    given = parser.parse_args()
    with tempfile.TemporaryDirectory() as room:
        look = Look(given, room)
        for at in [given.only] if given.only is not None else range(given.count):
            look.network(at)
    for key, number in sorted(look.tally.items()):
        print(f"{number:8} {key}")
    print(f"{given.count} networks, {len(look.wrong)} differences")
    sys.exit(1 if look.wrong else 0)


if __name__ == "__main__":
    main()
