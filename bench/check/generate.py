#!/usr/bin/env python3
"""Writes a network, its plan and an accepted certificate of so many nodes.

generate.py FOLDER NODES

The network is a star: STREAMS streams of 64 octets from as many stations to one. The tree is that of a search: least
offsets, a split on the first two streams that overlap, and a leaf where they are late. It is then grown at random leaves,
each replaced by a branch on some shared link with the same leaf twice, until it has NODES nodes (an odd number); a leaf's
chain stays a chain of the longer path.
"""

import json
import random
import sys

STREAMS = 5
OCCUPANCY, START, ARRIVAL, CYCLE = 672, 1626, 2252, 1_000_000
LINK = 2 * STREAMS


def network():
    lines = [f"cycle = {CYCLE}"]
    for i in range(STREAMS):
        lines.append(f'[[node]]\nname = "A{i}"\nkind = "station"')
    lines.append('[[node]]\nname = "C"\nkind = "station"')
    lines.append('[[node]]\nname = "S"\nkind = "bridge"\nproc = 1000')
    for name in [f"A{i}" for i in range(STREAMS)]:
        lines.append(f'[[link]]\na = "{name}"\nb = "S"\nmbps = 1000\nprop = 50')
    lines.append('[[link]]\na = "S"\nb = "C"\nmbps = 1000\nprop = 50')
    for i in range(STREAMS):
        lines.append(f'[[stream]]\nname = "s{i}"\noctets = 64\nroute = ["A{i}", "S", "C"]')
    return "\n".join(lines) + "\n"


def least(arcs):
    """The least offsets and the chain of each stream, or None where a chain closes (all weights are positive)."""
    offsets, last = [0] * STREAMS, [None] * STREAMS
    for _ in range(STREAMS + 1):
        raised = False
        for place, (first, second) in enumerate(arcs):
            if offsets[first] + OCCUPANCY > offsets[second]:
                offsets[second], last[second], raised = offsets[first] + OCCUPANCY, place, True
                step, seen = last[first], 0
                while step is not None and seen <= STREAMS:
                    if arcs[step][0] == second:
                        return None, closed(arcs, last, place)
                    step, seen = last[arcs[step][0]], seen + 1
        if not raised:
            return offsets, last
    raise AssertionError


def closed(arcs, last, place):
    chain, stream = [place], arcs[place][0]
    while stream != arcs[place][1]:
        chain.append(last[stream])
        stream = arcs[last[stream]][0]
    return chain[::-1]


def chain_to(arcs, last, stream):
    chain = []
    while last[stream] is not None:
        chain.append(last[stream])
        stream = arcs[last[stream]][0]
    return chain[::-1]


def tree(arcs, target):
    """The nodes below a path: a leaf, or (left stream, right stream, left part, right part)."""
    offsets, last = least(arcs)
    if offsets is None:
        return ["cycle", last]
    flowspan = max(offsets) + ARRIVAL
    if flowspan >= target:
        stream = offsets.index(max(offsets))
        return ["late", stream, chain_to(arcs, last, stream)]
    for i in range(STREAMS):
        for j in range(i + 1, STREAMS):
            if abs(offsets[i] - offsets[j]) < OCCUPANCY:
                return [i, j, tree(arcs + [(i, j)], target), tree(arcs + [(j, i)], target)]
    raise AssertionError("a schedule below the target")


def leaves_of(node, found):
    if isinstance(node[0], str):
        found.append(node)
    else:
        leaves_of(node[2], found)
        leaves_of(node[3], found)


def grow(root, nodes, rng):
    found = []
    leaves_of(root, found)
    count = 2 * len(found) - 1
    pairs = [(i, j) for i in range(STREAMS) for j in range(i + 1, STREAMS)]
    while count < nodes:
        place = rng.randrange(len(found))
        node = found[place]
        one, other = list(node), list(node)
        node[:] = [*rng.choice(pairs), one, other]
        found[place] = one
        found.append(other)
        count += 2
    return count


def preorder(root):
    nodes, todo, deepest = [], [(root, 0)], 0
    while todo:
        node, depth = todo.pop()
        deepest = max(deepest, depth)
        if isinstance(node[0], str):
            nodes.append(node)
        else:
            nodes.append(["branch", node[0], node[1], LINK])
            todo.append((node[3], depth + 1))
            todo.append((node[2], depth + 1))
    return nodes, deepest


def main():
    folder, wanted = sys.argv[1], int(sys.argv[2])
    target = START + STREAMS * OCCUPANCY + ARRIVAL - START - OCCUPANCY
    root = tree([], target)
    count = grow(root, wanted, random.Random(wanted))
    nodes, deepest = preorder(root)
    offsets = [i * OCCUPANCY for i in range(STREAMS)]
    with open(f"{folder}/net.toml", "w") as file:
        file.write(network())
    with open(f"{folder}/plan.json", "w") as file:
        json.dump({"flowspan": target, "offsets": offsets}, file, separators=(",", ":"))
    with open(f"{folder}/cert.json", "w") as file:
        json.dump({"format": 1, "nodes": nodes, "target": target}, file, separators=(",", ":"))
    print(count, deepest)


main()
