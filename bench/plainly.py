"""Networks, schedules and gates by the definitions of tsn_model and docs/formats.md, once more and slowly, for a second look.

Nothing of the program is used. Instants and lengths are nanoseconds.
"""

import tomllib
from bisect import bisect_right
from dataclasses import dataclass, field

OCTET_TIME = {10: 800, 100: 80, 1000: 8}


@dataclass(frozen=True)
class Link:
    origin: str
    end: str
    octet_time: int


@dataclass(frozen=True)
class Hop:
    """A link of a route, and the place of the hop that it continues, none where the talker sends. Counted from when the talker starts a
    frame: when the frame starts here, how long it occupies and keeps the link, and when it is at its end."""

    link: int
    before: int | None
    start: int
    occupancy: int
    kept: int
    arrival: int


@dataclass
class Stream:
    name: str
    release: int
    latest: int
    period: int
    hops: list
    shifts: list
    spread: int
    latency: int
    arrival: int
    span: int

    def onward(self, place):
        """The places of the hops that continue one."""
        return [other for other, it in enumerate(self.hops) if it.before == place]

    def heard(self):
        """The hops that none continues: each ends at a listener."""
        return [it for place, it in enumerate(self.hops) if not self.onward(place)]


@dataclass
class Network:
    cycle: int
    slack: int
    links: list
    streams: list = field(default_factory=list)


def read(path):
    """The network of a file that is known to be right."""
    with open(path, "rb") as file:
        return network_of(tomllib.load(file))


def network_of(said):
    """The network of a document that is known to be right."""
    cycle, slack = said["cycle"], said.get("slack", 0)
    proc = {it["name"]: it.get("proc", 0) for it in said["node"]}
    number, links, delay = {}, [], []
    for it in said["link"]:
        for ends in ((it["a"], it["b"]), (it["b"], it["a"])):
            number[ends] = len(links)
            links.append(Link(*ends, OCTET_TIME[it["mbps"]]))
            delay.append(it["prop"])
    network = Network(cycle, slack, links)
    for it in said["stream"]:
        route = [number[pair] for pair in pairs_of(it)]
        network.streams.append(stream_of(it, cycle, slack, route, links, delay, proc))
    return network


def routes_of(said):
    """The routes of a stream in a document: the one of `route`, or those of `routes`."""
    return said["routes"] if "routes" in said else [said["route"]]


def pairs_of(said):
    """The neighbours on a stream's routes, each pair once, in the order in which they are named first: the links of its tree."""
    return list(dict.fromkeys(pair for route in routes_of(said) for pair in zip(route, route[1:])))


def hops_of(octets, slack, route, links, delay, proc):
    """The hops of a tree, each of which begins at the talker or where one before it ends."""
    hops, entered = [], {links[route[0]].origin: None}
    for place, link in enumerate(route):
        octet_time, before = links[link].octet_time, entered[links[link].origin]
        start = 0 if before is None else hops[before].arrival + proc[links[link].origin]
        occupancy = (octets + 20) * octet_time
        hops.append(Hop(link, before, start, occupancy, max(occupancy, slack + 1), start + (octets + 8) * octet_time + delay[link]))
        entered.setdefault(links[link].end, place)
    return hops


def stream_of(said, cycle, slack, route, links, delay, proc):
    """A stream with its times."""
    hops = hops_of(said["octets"], slack, route, links, delay, proc)
    period, burst = said.get("period", cycle), said.get("frames", 1)
    pace = max(it.kept for it in hops)
    spread = (burst - 1) * pace
    latency = max(it.arrival for it in hops)
    release, latest = said.get("release", 0), said.get("latest", cycle)
    if "offset" in said:
        release, latest = said["offset"], said["offset"] + latency + spread
    return Stream(
        name=said["name"],
        release=release,
        latest=latest,
        period=period,
        hops=hops,
        shifts=[turn * period + place * pace for turn in range(cycle // period) for place in range(burst)],
        spread=spread,
        latency=latency,
        arrival=latency + spread,
        span=max([latency] + [it.start + it.kept for it in hops]) + spread,
    )


# ---- schedules


def flowspan(network, offsets):
    return max(offset + it.arrival for offset, it in zip(offsets, network.streams))


def frames_on(stream, offset, link, kept=False):
    """The shift, the begin and the end of each of a stream's frames on a link; kept: the end of the time that it keeps others away."""
    return [
        (shift, offset + shift + hop.start, offset + shift + hop.start + (hop.kept if kept else hop.occupancy))
        for hop in stream.hops
        if hop.link == link
        for shift in stream.shifts
    ]


def overlaps(network, i, j, offsets):
    """The link and the lag of each two frames of two streams, at these two offsets, that keep a link at a common instant."""
    left, right = network.streams[i], network.streams[j]
    for hop in left.hops:
        for shift, begin, end in frames_on(left, offsets[0], hop.link, kept=True):
            for other, other_begin, other_end in frames_on(right, offsets[1], hop.link, kept=True):
                if begin < other_end and other_begin < end:
                    yield hop.link, other - shift


def judged(network, offsets):
    """What `tsn valid` has to say of a list of offsets."""
    streams = network.streams
    if len(offsets) != len(streams):
        return "not valid V1"
    for i, it in enumerate(streams):
        if offsets[i] + it.span > it.period:
            return f"not valid V2 stream {i}"
    for i in range(len(streams)):
        for j in range(i + 1, len(streams)):
            found = min(overlaps(network, i, j, (offsets[i], offsets[j])), default=None)
            if found:
                link, lag = found
                return f"not valid V3 {i} {j} {link}" + (f" {lag}" if lag else "")
    for i, it in enumerate(streams):
        if offsets[i] < it.release:
            return f"not valid V4 stream {i}"
    for i, it in enumerate(streams):
        if offsets[i] + it.arrival > it.latest:
            return f"not valid V5 stream {i}"
    return f"valid flowspan {flowspan(network, offsets)}"


# ---- gates


def used_links(network):
    return sorted({hop.link for it in network.streams for hop in it.hops})


class Gates:
    """The gates that a valid list of offsets asks for on a link."""

    def __init__(self, network, offsets, link):
        self.cycle, self.guard = network.cycle, 1542 * network.links[link].octet_time
        self.windows = sorted((begin, end) for it, offset in zip(network.streams, offsets) for _, begin, end in frames_on(it, offset, link))
        self.begins = [begin for begin, _ in self.windows]

    def octet(self, instant):
        """The octet at an instant of the cycle."""
        after = bisect_right(self.begins, instant)
        if after and instant < self.windows[after - 1][1]:
            return 0x80
        # (the first window that begins after the instant, of this cycle or the next one)
        ahead = self.begins[after] if after < len(self.begins) else self.begins[0] + self.cycle
        return 0x00 if ahead <= instant + self.guard else 0x7F

    def changes(self):
        """The instants of the cycle at which the octet may change."""
        return {it % self.cycle for begin, end in self.windows for it in (begin, end, begin - self.guard)} | {0}
