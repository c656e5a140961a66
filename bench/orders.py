#!/usr/bin/env python3
"""The first optimal schedule of a small network by trying the orders of its frames, by the definitions alone (bench/plainly.py).

Usage: bench/orders.py [--text gates|replay|streams] [--cycles N] NET..

Of each network file: the flowspan and the offsets of its first optimal schedule, or that there is none. With --text then what `tsn` has
to print of that plan, worked out anew. From each stream's release on the first two frames that keep a link at a common instant are put
in one order and then in the other; the least offsets by some orders are the first schedule that keeps them.
"""

import argparse
import json
import sys

from instants import longest_open, slack
from plainly import Gates, flowspan, overlaps, read, used_links

SHARES = (("scheduled", 0x80), ("guard", 0x00), ("open", 0x7F))


def least_offsets(streams, arcs):
    """The least offsets by some arcs, each of which puts a stream so far behind another one; none where some stream isn't done in time."""
    offsets, changed = [it.release for it in streams], True
    while changed:
        changed = False
        for first, second, weight in arcs:
            if offsets[first] + weight > offsets[second]:
                offsets[second], changed = offsets[first] + weight, True
        if any(offset > min(it.period - it.span, it.latest - it.arrival) for offset, it in zip(offsets, streams)):
            return None
    return offsets


def first_conflict(network, offsets):
    """The first two streams whose frames keep a link at a common instant, with the link and their lag."""
    for j in range(len(offsets)):
        for i in range(j):
            found = min(overlaps(network, i, j, (offsets[i], offsets[j])), default=None)
            if found:
                return i, j, *found
    return None


def weight(network, first, second, link, lag):
    """How far the second stream starts behind the first one, where its frame comes after the other's by the lag and goes behind it."""
    before, after = ({hop.link: hop for hop in network.streams[it].hops}[link] for it in (first, second))
    return before.start + before.kept - after.start - lag


class Orders:
    def __init__(self, network):
        self.network, self.best = network, None
        self.go([])

    def go(self, arcs):
        offsets = least_offsets(self.network.streams, arcs)
        if offsets is None or self.best and (flowspan(self.network, offsets), offsets) >= self.best:
            return
        found = first_conflict(self.network, offsets)
        if not found:
            self.best = flowspan(self.network, offsets), offsets
            return
        i, j, link, lag = found
        self.go(arcs + [(i, j, weight(self.network, i, j, link, lag))])
        self.go(arcs + [(j, i, weight(self.network, j, i, link, -lag))])


# ---- what is printed of a plan


def joined(entries):
    """Entries of which no two neighbours have one octet."""
    found = []
    for octet, interval in entries:
        if found and found[-1][0] == octet:
            found[-1][1] += interval
        else:
            found.append([octet, interval])
    return found


def gate_list(network, offsets, link):
    """The entries of a link's gate control list."""
    gates = Gates(network, offsets, link)
    changes = sorted(gates.changes())
    return joined((gates.octet(at), after - at) for at, after in zip(changes, changes[1:] + [network.cycle]))


def gates_text(network, offsets):
    for link in used_links(network):
        entries = gate_list(network, offsets, link)
        yield f"link {link} {network.links[link].origin} {network.links[link].end} {len(entries)}"
        yield from (f"{octet:02X} {interval}" for octet, interval in entries)


def replay_text(network, offsets, cycles):
    for cycle in range(cycles):
        for it, offset in zip(network.streams, offsets):
            for shift in it.shifts:
                for place, hop in enumerate(it.hops):
                    at = cycle * network.cycle + offset + shift + hop.start
                    yield f"{it.name} {cycle} {place} {at} {at}"
    yield "late 0"


def streams_text(network, offsets):
    """The lines of the streams, listeners and links, without what several frames of a stream add to them."""
    for it, offset in zip(network.streams, offsets):
        arrival = offset + it.arrival
        said = f"stream {it.name} offset {offset} latency {it.latency} arrival {arrival} to_latest {it.latest - arrival}"
        yield f"{said} span {it.span} to_period_end {it.period - offset - it.span}"
        for hop in it.heard() if len(it.heard()) > 1 else []:
            arrival, end = offset + it.spread + hop.arrival, network.links[hop.link].end
            yield f"listener {end} stream {it.name} link {hop.link} latency {hop.arrival} arrival {arrival} to_latest {it.latest - arrival}"
    for link in used_links(network):
        entries = gate_list(network, offsets, link)
        some = " ".join(f"{name} {sum(it for octet, it in entries if octet == its)}" for name, its in SHARES)
        end = f"longest_open {longest_open(entries)} slack {slack(network, offsets, link)}"
        yield f"link {link} {network.links[link].origin} {network.links[link].end} {some} {end}"
    yield f"slack {min(slack(network, offsets, link) for link in used_links(network))}"


def main():
    parser = argparse.ArgumentParser(description=__doc__, formatter_class=argparse.RawDescriptionHelpFormatter)
    parser.add_argument("--text", choices=("gates", "replay", "streams"))
    parser.add_argument("--cycles", type=int, default=1)
    parser.add_argument("networks", nargs="+")
    given = parser.parse_args()
    sys.setrecursionlimit(100_000)
    for path in given.networks:
        network = read(path)
        best = Orders(network).best
        end, offsets = best if best else (None, None)
        print(f"{path}: " + json.dumps({"flowspan": end, "offsets": offsets}, separators=(",", ":")))
        if best and given.text:
            texts = {"gates": gates_text, "streams": streams_text, "replay": lambda *it: replay_text(*it, given.cycles)}
            print("\n".join(texts[given.text](network, offsets)))


if __name__ == "__main__":
    main()
