#!/usr/bin/env python3
"""Frames that are ready early, in a simulation apart from the definitions: whether any starts late.

Usage: bench/early.py [FOLDER..] [--slack NS..] [--runs N] [--steps N] [--only REGEX] [--seed N] [--bin PROGRAM]

Of each network of the folders (else bench/suite and bench/periods) the plan of first_plans.json is taken, and with --slack, for each
of the numbers, or where the folder has no such file, the one that `plan --search learn` finds for the network with that key; `check`
has to accept its certificate. What a link bears is what `streams` tells. In --runs runs of two cycles each frame is ready for each link
at any instant between planned and as much sooner as the link bears, or at one of the two; queues are first in, first out, with ties at
random; gates are open in windows alone. Then no frame may start late, or early. With a nanosecond more on the link that bears the least
of those that spacing bounds, somebody has to be late where two neighbours on it are ready at once, or the later one sooner. There is a
line for each plan; the status is 1 where a frame isn't on time that has to be.
"""

import argparse
import heapq
import json
import os
import random
import re
import subprocess
import sys
import tempfile
from bisect import bisect_right

from instants import plans_of as known_plans
from plainly import frames_on, read, used_links

ROOT = os.path.dirname(os.path.dirname(os.path.abspath(__file__)))
CYCLES = 2
TRIES = 12


class Plan:
    """A network with offsets: its passages by link in planned order, and the times at which class 7 is open."""

    def __init__(self, network, offsets):
        self.network, self.offsets = network, offsets
        self.passages = {}
        for i, (it, offset) in enumerate(zip(network.streams, offsets)):
            for place, hop in enumerate(it.hops):
                for shift in it.shifts:
                    for cycle in range(CYCLES):
                        at = cycle * network.cycle + offset + shift + hop.start
                        self.passages.setdefault(hop.link, []).append((at, i, place, shift, cycle))
        for it in self.passages.values():
            it.sort()
        self.open = {link: self.opened(link) for link in used_links(network)}

    def opened(self, link):
        """The times at which class 7 is open, as long as they go on."""
        windows = sorted(
            (cycle * self.network.cycle + begin, cycle * self.network.cycle + end)
            for it, offset in zip(self.network.streams, self.offsets)
            for _, begin, end in frames_on(it, offset, link)
            for cycle in range(CYCLES + 2)
        )
        joined = []
        for begin, end in windows:
            if joined and joined[-1][1] == begin:
                joined[-1][1] = end
            else:
                joined.append([begin, end])
        return [begin for begin, _ in joined], [end for _, end in joined]

    def start(self, link, since, length):
        """When a frame that takes so long may start on a link, from an instant on; none within the cycles that are looked at."""
        begins, ends = self.open[link]
        at = max(0, bisect_right(begins, since) - 1)
        while at < len(begins):
            begin = max(begins[at], since)
            if begin + length <= ends[at]:
                return begin
            at += 1
        return None

    def run(self, early, rng):
        """How many frames start late, and how many early, where each is ready so much sooner than it would be."""
        streams, events, queues, free, busy = self.network.streams, [], {}, {}, set()
        late = sooner = 0
        for link, passages in self.passages.items():
            queues[link], free[link] = [], 0
            for passage in passages:
                if streams[passage[1]].hops[passage[2]].before is None:
                    heapq.heappush(events, (max(0, passage[0] - early(link, passage)), 0, rng.random(), link, passage))

        def begin(link, now):
            if link in busy or not queues[link]:
                return
            passage = queues[link][0]
            at = self.start(link, max(now, free[link]), streams[passage[1]].hops[passage[2]].occupancy)
            if at is not None:
                busy.add(link)
                heapq.heappush(events, (at, 1, 0.0, link, passage))

        while events:
            now, kind, _, link, passage = heapq.heappop(events)
            if kind == 0:
                queues[link].append(passage)
            else:
                busy.discard(link)
                queues[link].pop(0)
                hops = streams[passage[1]].hops
                hop = hops[passage[2]]
                late += now > passage[0]
                sooner += now < passage[0]
                free[link] = now + hop.occupancy
                for place in streams[passage[1]].onward(passage[2]):
                    following = hops[place]
                    delay = following.start - hop.start
                    then = (passage[0] + delay, passage[1], place, passage[3], passage[4])
                    ready = now + delay - early(following.link, then)
                    heapq.heappush(events, (ready, 0, rng.random(), following.link, then))
            begin(link, now)
        left = sum(len(it) for it in queues.values())
        return late + left, sooner

    def closest(self, links):
        """The closest neighbours of planned starts on these links: how far apart, the link, and the two passages."""
        return min(
            (after[0] - before[0], link, before, after)
            for link in links
            for before, after in zip(self.passages[link], self.passages[link][1:])
        )


def borne(program, net, plan):
    """What each link bears, as `streams` tells, and the least of all."""
    told = subprocess.run([program, "streams", net, plan, "--format", "json"], stdin=subprocess.DEVNULL, capture_output=True, text=True, check=True)
    lines = [json.loads(line) for line in told.stdout.splitlines()]
    return {it["link"]: it["slack"] for it in lines if "link" in it}, lines[-1]["slack"]


def tried(plan, slack, least, runs, rng):
    """How many frames aren't on time within the slack, and whether somebody is late with a nanosecond more on one link; none where spacing bounds none."""
    wrong = 0
    for at in range(runs):
        draw = (lambda n: rng.choice([0, n])) if at % 2 else (lambda n: rng.randint(0, n))
        wrong += sum(plan.run(lambda link, passage: draw(slack[link]), rng))
    spaced = [link for link, passages in plan.passages.items() if min(b[0] - a[0] for a, b in zip(passages, passages[1:])) == slack[link] + 1]
    if not spaced:
        return wrong, None
    _, link, before, after = plan.closest([min(spaced, key=lambda it: slack[it])])
    beyond = lambda on, passage: slack[link] + 1 if on == link and passage == after else 0
    return wrong, any(plan.run(beyond, rng)[0] for _ in range(TRIES))


def plans_of(folder, given, room):
    """The networks of a folder by name, each with its file, its plan's file, and what was said of it."""
    known = known_plans(folder)
    for name in sorted(it[:-5] for it in os.listdir(folder) if it.endswith(".toml") and re.search(given.only, it)):
        source = os.path.join(folder, name + ".toml")
        plan = os.path.join(room, "plan.json")
        if not given.slack and known.get(name, {}).get("offsets"):
            with open(plan, "w", encoding="utf-8") as file:
                json.dump({"flowspan": known[name]["flowspan"], "offsets": known[name]["offsets"]}, file)
            yield name, source, plan, "", False
        for slack in given.slack or ([] if known else [0]):
            yield planned(name, source, slack, given, room)


def planned(name, source, slack, given, room):
    """A network with a slack: its file, its plan's file, what `plan` says, and whether its certificate is refused."""
    net, plan, cert = (os.path.join(room, it) for it in ("net.toml", "plan.json", "cert.json"))
    for it in (plan, cert):
        if os.path.exists(it):
            os.remove(it)
    with open(source, encoding="utf-8") as file, open(net, "w", encoding="utf-8") as made:
        made.write(f"slack = {slack}\n" + file.read())
    words = [given.bin, "plan", net, "--search", "learn", "--steps", given.steps, "--plan", plan, "--cert", cert]
    line = subprocess.run(words, stdin=subprocess.DEVNULL, capture_output=True, text=True).stdout.strip()
    refused = False
    if os.path.exists(cert):
        refused = subprocess.run([given.bin, "check", net, plan, cert], stdin=subprocess.DEVNULL, capture_output=True).returncode != 0
    return f"{name} {slack}", net, plan, line, refused


def main():
    parser = argparse.ArgumentParser(description=__doc__, formatter_class=argparse.RawDescriptionHelpFormatter)
    parser.add_argument("folders", nargs="*", default=[os.path.join(ROOT, "bench", it) for it in ("suite", "periods")])
    parser.add_argument("--slack", type=int, nargs="*", default=[])
    parser.add_argument("--runs", type=int, default=4)
    parser.add_argument("--steps", default="200000")
    parser.add_argument("--only", default="")
    parser.add_argument("--seed", default="1")
    parser.add_argument("--bin", default=os.path.join(ROOT, "crates", "tsn", "out", "tsn"))
    given = parser.parse_args()
    plans = bound = late = wrong = 0
    with tempfile.TemporaryDirectory() as room:
        for folder in given.folders:
            for name, net, path, line, refused in plans_of(folder, given, room):
                rng, told, slack = random.Random(f"{given.seed} {name}"), "no plan", None
                if refused:
                    wrong += 1
                if os.path.exists(path) and os.path.getsize(path):
                    with open(path, encoding="utf-8") as file:
                        offsets = json.load(file)["offsets"]
                    if offsets:
                        slack, least = borne(given.bin, net, path)
                        off, beyond = tried(Plan(read(net), offsets), slack, least, given.runs, rng)
                        asked = read(net).slack
                        plans, wrong = plans + 1, wrong + (off > 0) + (least < asked)
                        bound, late = bound + (beyond is not None), late + (beyond is True)
                        told = f"bears {least}, {off} not on time" + (f", with 1 ns more {'some late' if beyond else 'none late'}" if beyond is not None else "")
                print(f"{name}: {line + '; ' if line else ''}{'certificate refused; ' if refused else ''}{told}", flush=True)
    print(f"{plans} plans, {wrong} wrong; with 1 ns more on a link that spacing bounds somebody is late in {late} of {bound}")
    sys.exit(1 if wrong else 0)


if __name__ == "__main__":
    main()
