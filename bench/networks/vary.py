#!/usr/bin/env python3
"""Writes the networks of a folder anew, with a slack, or with several listeners for a third of the streams.

Usage: bench/networks/vary.py FROM TO [--slack NS] [--listeners SEED]

--slack puts the key `slack` in. --listeners gives every third stream 1 to 7 more listeners, each by a shortest way of a tree from its
talker that all of them share (2 to 8 in all): the same ones for the same seed.
"""

import argparse
import collections
import os
import random
import re
import tomllib


def parents_of(ways, begin):
    """For each node the one before it, on shortest ways from one."""
    before, waiting = {begin: None}, collections.deque([begin])
    while waiting:
        node = waiting.popleft()
        # A station passes nothing on.
        if node == begin or node not in stations:
            for other in ways[node]:
                if other not in before:
                    before[other] = node
                    waiting.append(other)
    return before


def way_to(before, node):
    way = [node]
    while before[way[-1]] is not None:
        way.append(before[way[-1]])
    return way[::-1]


words = argparse.ArgumentParser(description=__doc__, formatter_class=argparse.RawDescriptionHelpFormatter)
words.add_argument("source")
words.add_argument("target")
words.add_argument("--slack", type=int)
words.add_argument("--listeners", type=int)
given = words.parse_args()
os.makedirs(given.target, exist_ok=True)
for name in sorted(os.listdir(given.source)):
    if not name.endswith(".toml"):
        continue
    with open(os.path.join(given.source, name), encoding="utf-8") as file:
        text = file.read()
    if given.slack is not None:
        text = re.sub(r"^cycle = .*$", rf"\g<0>\nslack = {given.slack}", text, count=1, flags=re.M)
    if given.listeners is not None:
        network = tomllib.loads(text)
        stations = sorted(it["name"] for it in network["node"] if it["kind"] == "station")
        ways = collections.defaultdict(list)
        for link in network["link"]:
            ways[link["a"]].append(link["b"])
            ways[link["b"]].append(link["a"])
        rng = random.Random(f"{given.listeners} {name}")
        turns = iter(range(len(network["stream"])))

        def routed(found):
            stream = network["stream"][next(turns)]
            if rng.random() >= 1 / 3:
                return found[0]
            talker, listener = stream["route"][0], stream["route"][-1]
            before = parents_of(ways, talker)
            others = [it for it in stations if it not in (talker, listener) and it in before]
            chosen = [listener] + rng.sample(others, min(len(others), rng.randint(1, 7)))
            routes = ", ".join("[" + ", ".join(f'"{it}"' for it in way_to(before, node)) + "]" for node in chosen)
            return f"routes = [{routes}]"

        text = re.sub(r"^route = .*$", routed, text, flags=re.M)
    with open(os.path.join(given.target, name), "w", encoding="utf-8") as file:
        file.write(text)
