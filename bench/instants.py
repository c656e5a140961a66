#!/usr/bin/env python3
"""Gate lists, replays and times of plans against the definitions, instant by instant.

Usage: bench/instants.py [FOLDER..] [--tiny N] [--seed N] [--only REGEX] [--bin PROGRAM]

Of each network of the folders (else bench/periods) that has a plan in its first_plans.json, or, where the folder has no such file, that
`plan` decides, and of N tiny ones (bench/tiny.py) that it decides: on each link the octets that `gates` prints are held against those
that the windows and guards ask for (bench/plainly.py), at each instant where either may change and beside it, so at all of the cycle.
The three formats have to say the same. Merged lists (--merge) have to last as long as they are asked to, open class 7 wherever the
others do, and the other classes nowhere else. `replay` with greedy background has to tell each start as it is planned, by merged lists
too, and `streams` what a count of the lists and of the starts gives. The status is 1 where something differs.
"""

import argparse
import json
import os
import random
import re
import subprocess
import sys
import tempfile

import tiny
from plainly import Gates, read, used_links

ROOT = os.path.dirname(os.path.dirname(os.path.abspath(__file__)))
MERGES = (1, 500, 5000, 50000)
CYCLES = 2


def differ(found, wanted):
    raise AssertionError(f"{found}, and not {wanted}")


def same(found, wanted):
    if found != wanted:
        differ(found, wanted)


def borders(entries):
    """The instants at which the entries of a list begin."""
    at, found = 0, set()
    for _, interval in entries:
        found.add(at)
        at += interval
    return found


def instants(gates, entries):
    """Instants between which nothing changes: each where something does, and those beside it."""
    return sorted({(it + beside) % gates.cycle for it in gates.changes() | borders(entries) for beside in (-1, 0, 1)})


def octets_at(entries, sorted_instants):
    """The octets of a list at some instants, in order."""
    found, at, place = [], 0, 0
    for instant in sorted_instants:
        while instant >= at + entries[place][1]:
            at += entries[place][1]
            place += 1
        found.append(entries[place][0])
    return found


class Look:
    def __init__(self, program):
        self.program, self.lists, self.starts, self.instants = program, 0, 0, 0

    def said(self, *words):
        ended = subprocess.run([self.program, *words], stdin=subprocess.DEVNULL, capture_output=True, text=True)
        same((words[0], ended.returncode), (words[0], 0))
        return ended.stdout

    def gate_lists(self, net, plan, *words):
        lists = [json.loads(line) for line in self.said("gates", net, plan, "--format", "json", *words).splitlines()]
        return {it["link"]: it for it in lists}, [it["link"] for it in lists]

    def wanted(self, network, offsets, net, plan):
        """Tries the lists that the plan asks for, and gives them."""
        lists, order = self.gate_lists(net, plan)
        same(order, used_links(network))
        for link, it in lists.items():
            gates, entries = Gates(network, offsets, link), it["entries"]
            same((it["from"], it["to"], it["cycle"]), (network.links[link].origin, network.links[link].end, network.cycle))
            same(sum(interval for _, interval in entries), network.cycle)
            same([pair for pair in zip(entries, entries[1:]) if pair[0][0] == pair[1][0]] + [entry for entry in entries if entry[1] < 1], [])
            at = instants(gates, entries)
            same(octets_at(entries, at), [gates.octet(instant) for instant in at])
            self.lists += 1
            self.instants += len(at)
        return lists

    def formats(self, net, plan, lists):
        """The table and the script have the same lists."""
        entries = {link: [(f"{octet:02X}", str(interval)) for octet, interval in it["entries"]] for link, it in lists.items()}
        table = []
        for link, it in lists.items():
            table += [f"link {link} {it['from']} {it['to']} {len(it['entries'])}"] + [" ".join(entry) for entry in entries[link]]
        same(self.said("gates", net, plan).splitlines(), table)
        script = re.sub(r"[ \\]*\n +", " ", self.said("gates", net, plan, "--format", "taprio"))
        commands = re.findall(r'^\[ -z "\$DEV_(\d+)" \].*?(sched-entry.*)$', script, re.M)
        same({int(link): re.findall(r"sched-entry S ([0-9A-F]{2}) (\d+)", words) for link, words in commands}, entries)

    def merged(self, network, offsets, net, plan, lists, least):
        merged, order = self.gate_lists(net, plan, "--merge", str(least))
        same(order, list(lists))
        for link, it in merged.items():
            entries, asked = it["entries"], lists[link]["entries"]
            same(sum(interval for _, interval in entries), network.cycle)
            if all(interval >= least for _, interval in asked) or len(asked) == 1:
                same(entries, asked)
            same([entry for entry in entries if entry[1] < least and len(entries) > 1], [])
            gates = Gates(network, offsets, link)
            at = instants(gates, entries)
            for instant, octet in zip(at, octets_at(entries, at)):
                wanted = gates.octet(instant)
                if octet not in (0x80, 0x00, 0x7F) or wanted == 0x80 and octet != 0x80 or octet == 0x7F and wanted != 0x7F:
                    differ(f"link {link} merged by {least} has {octet:02X} at {instant}", f"what keeps {wanted:02X}")

    def replayed(self, network, offsets, net, plan, *words):
        planned = []
        for cycle in range(CYCLES):
            for it, offset in zip(network.streams, offsets):
                for shift in it.shifts:
                    for place, hop in enumerate(it.hops):
                        start = cycle * network.cycle + offset + shift + hop.start
                        planned.append(f"{it.name} {cycle} {place} {start} {start}")
        self.starts += len(planned)
        same(self.said("replay", net, plan, "--cycles", str(CYCLES), "--greedy", *words).splitlines(), planned + ["late 0"])

    def counted(self, network, offsets, net, plan, lists):
        several = any(len(it.shifts) > 1 for it in network.streams)
        wanted = []
        for it, offset in zip(network.streams, offsets):
            line = {"stream": it.name, "offset": offset, "latency": it.latency, "arrival": offset + it.arrival}
            line |= {"to_latest": it.latest - offset - it.arrival, "span": it.span, "to_period_end": it.period - offset - it.span}
            line |= {"period": it.period, "frames": len(it.shifts) * it.period // network.cycle} if several else {}
            wanted.append(line | ({"listeners": listeners(network, it, offset)} if len(it.heard()) > 1 else {}))
        for link, it in lists.items():
            lasts = {octet: sum(interval for other, interval in it["entries"] if other == octet) for octet in (0x80, 0x00, 0x7F)}
            line = {"link": link, "from": it["from"], "to": it["to"], "scheduled": lasts[0x80], "guard": lasts[0x00], "open": lasts[0x7F]}
            line |= {"longest_open": longest_open(it["entries"]), "slack": slack(network, offsets, link)}
            wanted.append(line | ({"windows": len(Gates(network, offsets, link).windows)} if several else {}))
        wanted.append({"slack": min(line["slack"] for line in wanted if "slack" in line)})
        same([json.loads(line) for line in self.said("streams", net, plan, "--format", "json").splitlines()], wanted)

    def plan(self, net, plan):
        network = read(net)
        with open(plan, encoding="utf-8") as file:
            offsets = json.load(file)["offsets"]
        lists = self.wanted(network, offsets, net, plan)
        self.formats(net, plan, lists)
        self.counted(network, offsets, net, plan, lists)
        self.replayed(network, offsets, net, plan)
        for least in MERGES:
            self.merged(network, offsets, net, plan, lists, least)
        self.replayed(network, offsets, net, plan, "--merge", str(MERGES[-2]))


def listeners(network, stream, offset):
    """What the listeners of a stream get, each by its own link."""
    found = []
    for hop in stream.heard():
        arrival = offset + hop.arrival + stream.spread
        line = {"listener": network.links[hop.link].end, "link": hop.link, "latency": hop.arrival, "arrival": arrival}
        found.append(line | {"to_latest": stream.latest - arrival})
    return found


def longest_open(entries):
    """The longest open time of a list that goes on for ever, at most its cycle."""
    if len(entries) == 1:
        return entries[0][1] if entries[0][0] == 0x7F else 0
    rests = [interval for octet, interval in entries if octet == 0x7F]
    if entries[0][0] == entries[-1][0] == 0x7F:
        rests.append(entries[0][1] + entries[-1][1])
    return max(rests, default=0)


def slack(network, offsets, link):
    """How much sooner than planned frames may be ready for a link: less than each is planned after another, and than each took to get there."""
    begins = Gates(network, offsets, link).begins
    spaces = [after - begin for begin, after in zip(begins, begins[1:] + [begins[0] + network.cycle])]
    onward = [(it, hop) for it in network.streams for hop in it.hops if hop.link == link and hop.before is not None]
    delays = [hop.start - it.hops[hop.before].start for it, hop in onward]
    return min(spaces + delays) - 1


def plans_of(folder):
    """The plan of each network of a folder by its name; none where the folder has no file of plans."""
    path = os.path.join(folder, "first_plans.json")
    if not os.path.exists(path):
        return {}
    with open(path, encoding="utf-8") as file:
        return json.load(file)


def planned(folders, only, program, room):
    """The networks of some folders with their plans; those that `plan` decides, where a folder has no plans."""
    path = os.path.join(room, "plan.json")
    for folder in folders:
        plans = plans_of(folder)
        for name in sorted(it.removesuffix(".toml") for it in os.listdir(folder) if it.endswith(".toml")):
            net, plan = os.path.join(folder, name + ".toml"), plans.get(name, {})
            if not re.search(only, name):
                continue
            if plan.get("offsets"):
                with open(path, "w", encoding="utf-8") as file:
                    json.dump({"flowspan": plan["flowspan"], "offsets": plan["offsets"]}, file)
            if plan.get("offsets") or not plans and is_planned(program, net, path):
                yield name, net, path


def is_planned(program, net, plan):
    """Whether `plan` finds the best schedule, and writes it."""
    words = [program, "plan", net, "--plan", plan]
    return subprocess.run(words, stdin=subprocess.DEVNULL, stdout=subprocess.DEVNULL, stderr=subprocess.DEVNULL).returncode == 0


def drawn(count, seed, program, room):
    """Tiny networks that have a plan, with it."""
    net, plan = os.path.join(room, "net.toml"), os.path.join(room, "plan.json")
    for at in range(count):
        said, _ = tiny.drawn(random.Random(f"{seed} {at}"))
        tiny.written(said, net)
        if is_planned(program, net, plan):
            yield f"tiny {seed} {at}", net, plan


def main():
    parser = argparse.ArgumentParser(description=__doc__, formatter_class=argparse.RawDescriptionHelpFormatter)
    parser.add_argument("folders", nargs="*")
    parser.add_argument("--tiny", type=int, default=0)
    parser.add_argument("--seed", default="1")
    parser.add_argument("--only", default="")
    parser.add_argument("--bin", default=os.path.join(ROOT, "crates", "tsn", "out", "tsn"))
    given = parser.parse_args()
    look, plans, wrong = Look(given.bin), 0, 0
    folders = given.folders or ([] if given.tiny else [os.path.join(ROOT, "bench", "periods")])
    with tempfile.TemporaryDirectory() as room:
        for source in (planned(folders, given.only, given.bin, room), drawn(given.tiny, given.seed, given.bin, room)):
            for name, net, plan in source:
                plans += 1
                try:
                    look.plan(net, plan)
                except AssertionError as fault:
                    wrong += 1
                    print(f"{name}: {str(fault)[:2000]}", flush=True)
    print(f"{plans} plans, {look.lists} lists at {look.instants} instants, {look.starts} starts replayed, {wrong} plans differ")
    sys.exit(1 if wrong else 0)


if __name__ == "__main__":
    main()
