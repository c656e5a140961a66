#!/usr/bin/env python3
"""Checks an argument (a certificate of format 3) slowly and plainly, written apart from the program, from what arguments mean.

check_argument.py NET PLAN CERT    prints the line that `tsn check` prints of these files, and ends with its status

The network has to be one that isn't refused. Its streams may have `routes`, a `period`, `frames` and an `offset`, as docs/definitions.md
has them.
Certificates of formats 1 and 2 aren't judged here, and end with status 2.
docs/formats.md and docs/definitions.md say what arguments are; bench/arguments/mutate.py runs both checkers side by side.
"""

import json
import math
import re
import sys
import tomllib

ACCEPTED, REFUSED, NOT_SHOWN, NOT_JUDGED = 0, 3, 6, 2
MOST_TIME = 2_000_000_000
MOST_NUMBER = 4_294_967_295
MOST_LAG = 999_999_999
MOST_U64 = 18_446_744_073_709_551_615
LEAST_I64 = -9_223_372_036_854_775_808
MOST_FRAMES, MOST_ORDERS = 65_536, 128
MOST_UNITS = 4_096
MOST_NESTED = 127
GOALS = ("first", "least", "none")


# Networks.


def frame_of(frame):
    """A frame as it stands in a file, a stream or a stream and a shift: its stream and its shift."""
    return (frame, 0) if isinstance(frame, int) else tuple(frame)


def order_of(order):
    """An order as it stands in a file, with a lag or without one: its streams, its link and its lag."""
    return tuple(order) if len(order) == 4 else (*order, 0)


def written_frame(stream, shift):
    """A frame as it stands in a file."""
    return [stream, shift] if shift else stream


def written_order(i, j, link, lag):
    """An order as it stands in a file."""
    return [i, j, link, lag] if lag else [i, j, link]


class Network:
    """What an argument needs of a network: the cycle, and of each stream its frames, when they start on its links and for how long."""

    def __init__(self, data):
        text = tomllib.loads(data.decode())
        self.cycle = text["cycle"]
        nodes = {node["name"]: node for node in text["node"]}
        links = {}
        for number, cable in enumerate(text["link"]):
            way = {10: 800, 100: 80, 1000: 8}[cable["mbps"]], cable["prop"]
            links[cable["a"], cable["b"]] = 2 * number, *way
            links[cable["b"], cable["a"]] = 2 * number + 1, *way
        self.streams = [Stream(it, nodes, links, self.cycle, text.get("slack", 0)) for it in text["stream"]]

    def fault(self, offsets):
        """Whether these offsets are no valid schedule."""
        if len(offsets) != len(self.streams):
            return True
        on = {}
        for offset, stream in zip(offsets, self.streams):
            if offset < stream.release or offset + stream.span > stream.period or offset + stream.arrival > stream.latest:
                return True
            for link, start in stream.start.items():
                for shift in stream.shifts:
                    begin = offset + shift + start
                    on.setdefault(link, []).append((begin, begin + stream.kept[link]))
        for windows in on.values():
            windows.sort()
            if any(before[1] > after[0] for before, after in zip(windows, windows[1:])):
                return True
        return False

    def flowspan(self, offsets):
        return max(offset + stream.arrival for offset, stream in zip(offsets, self.streams))

    def has_stream(self, i):
        return i < len(self.streams)

    def uses(self, i, link):
        return self.has_stream(i) and link in self.streams[i].start

    def sends(self, frame, link):
        """Whether the frame's stream sends it, and uses the link."""
        stream, shift = frame
        return self.uses(stream, link) and shift in self.streams[stream].shifts

    def lags(self, i, j):
        """By how much frames of the greater stream are behind those of the lesser one, of which their periods don't keep the two apart."""
        left, right = self.streams[min(i, j)], self.streams[max(i, j)]
        every = {there - here for here in left.shifts for there in right.shifts}
        return sorted(lag for lag in every if -right.period < lag < left.period)

    def is_conflict(self, i, j, link, lag=0):
        return i != j and self.uses(i, link) and self.uses(j, link) and lag in self.lags(i, j)

    def weight(self, i, j, link, lag=0):
        """By how much j starts behind i at least, where i goes before j on the link. The lag is the greater stream's less the lesser's."""
        behind = self.streams[i].start[link] + self.streams[i].kept[link] - self.streams[j].start[link]
        return behind - lag if i < j else behind + lag

    def begin(self, frame, link):
        """When the frame starts on the link, counted from its stream's offset."""
        stream, shift = frame
        return shift + self.streams[stream].start[link]

    def end(self, frame, link):
        """Until when it keeps the link."""
        return self.begin(frame, link) + self.streams[frame[0]].kept[link]


def links_named(text):
    """The pairs of neighbours on a stream's routes, each once, as the routes come to them. A bridge is entered by one of them."""
    found = []
    for route in text.get("routes", [text.get("route")]):
        found += [pair for pair in zip(route, route[1:]) if pair not in found]
    return found


class Stream:
    def __init__(self, text, nodes, links, cycle, slack):
        self.release, self.latest = text.get("release", 0), text.get("latest", cycle)
        self.period, burst = text.get("period", cycle), text.get("frames", 1)
        self.start, self.kept = {}, {}
        ready, ends, heard = {}, [], []
        for here, there in links_named(text):
            link, octet, prop = links[here, there]
            at = ready.get(here, 0)
            self.start[link], self.kept[link] = at, max((text["octets"] + 20) * octet, slack + 1)
            ends.append(at + self.kept[link])
            heard.append(at + (text["octets"] + 8) * octet + prop)
            ready.setdefault(there, heard[-1] + nodes[there].get("proc", 0))
        self.arrival = max(heard)
        pace = max(self.kept.values())
        spread = (burst - 1) * pace
        self.shifts = {turn + place * pace for turn in range(0, cycle, self.period) for place in range(burst)}
        self.arrival += spread
        if "offset" in text:
            self.release, self.latest = text["offset"], text["offset"] + self.arrival
        self.span = max([end + spread for end in ends] + [self.arrival])


# Files.


class FileFault(Exception):
    """A file that is refused, with its code."""


class NotHere(Exception):
    """A certificate of another format."""


def number_of(text):
    """A number as it is read: one that isn't whole or has more than 64 bits is a float, whatever it is, and so is -0."""
    if abs(float(text)) == float("inf"):
        raise ValueError("out of range")
    whole = text.removeprefix("-").isdigit() and len(text) <= 20 and LEAST_I64 <= int(text) <= MOST_U64 and text != "-0"
    return int(text) if whole else 0.5


def nesting(text):
    """How deep arrays and objects stand in each other at most."""
    depth = deepest = 0
    for mark in re.sub(r'"(\\.|[^"\\])*"', "", text, flags=re.DOTALL):
        if mark in "[{":
            depth += 1
            deepest = max(deepest, depth)
        elif mark in "]}":
            depth -= 1
    return deepest


def refuse_halves(value):
    """Refuses half a pair of surrogates, which is no character. (Objects were looked at when they were made.)"""
    if isinstance(value, str) and any("\ud800" <= it <= "\udfff" for it in value):
        raise ValueError("half a character")
    if isinstance(value, list):
        for it in value:
            refuse_halves(it)


def made(pairs):
    """An object: a key that stands twice has its last value."""
    for key, value in pairs:
        refuse_halves(key)
        refuse_halves(value)
    return dict(pairs)


def no_number(_):
    raise ValueError("no number")


def value_of(data):
    """The value that a text of JSON is."""
    try:
        text = data.decode()
        if nesting(text) > MOST_NESTED:
            raise ValueError("too deep")
        value = json.loads(text, parse_int=number_of, parse_float=number_of, parse_constant=no_number, object_pairs_hook=made)
        refuse_halves(value)
    except (ValueError, RecursionError):
        raise FileFault("C1") from None
    return value


def is_signed(value):
    return isinstance(value, int) and not isinstance(value, bool)


def is_number(value):
    return is_signed(value) and value >= 0


def need(condition, code="C2"):
    if not condition:
        raise FileFault(code)


def plan_of(data):
    """The flowspan and the offsets of a plan, or None where it is that there is no schedule."""
    value = value_of(data)
    need(isinstance(value, dict) and set(value) == {"flowspan", "offsets"})
    flowspan, offsets = value["flowspan"], value["offsets"]
    if flowspan is None and offsets is None:
        return None
    need(is_number(flowspan) and isinstance(offsets, list) and all(is_number(it) for it in offsets))
    need(max([flowspan, *offsets]) <= MOST_TIME, "C3")
    return flowspan, offsets


# The parts of facts and moves: n a number, t a time (a number v), l a lag, which is left out where it is 0, f a frame, s frames, c any number of
# frames, e an edge (a frame or none), p an order, o orders.
FACTS = {"from": "nt", "until": "nt", "order": "nnnl", "done_from": "t", "done_until": "t"}
MOVES = {
    "go": "nnnl", "turn": "nnnl", "use": "n", "arrive": "n", "last": "nfss", "first": "nfss", "pack": "ns", "round": "o",
    "follow": "pp", "fill": "nfseet", "fill_back": "nfseet", "waste": "nsc",
}


class Shape:
    """Whether an argument is in the grammar, and whether a number in it is above its limit."""

    def __init__(self):
        self.is_above = False

    def number(self, value, limit=MOST_NUMBER):
        need(is_number(value))
        self.is_above |= value > limit

    def lag(self, value):
        need(is_signed(value) and value != 0)
        self.is_above |= abs(value) > MOST_LAG

    def frame(self, value):
        if isinstance(value, list):
            need(len(value) == 2)
            self.number(value[0])
            self.number(value[1])
            need(value[1] > 0)
        else:
            self.number(value)

    def listed(self, value, most):
        need(isinstance(value, list) and 1 <= len(value) <= most)
        return value

    def part(self, kind, value):
        if kind == "n":
            self.number(value)
        elif kind == "t":
            self.number(value, MOST_TIME)
        elif kind == "l":
            self.lag(value)
        elif kind == "f":
            self.frame(value)
        elif kind == "s":
            for frame in self.listed(value, MOST_FRAMES):
                self.frame(frame)
        elif kind == "c":
            need(isinstance(value, list))
            for frame in value:
                self.frame(frame)
        elif kind == "e":
            if value != []:
                self.frame(value)
        elif kind == "p":
            need(isinstance(value, list))
            self.parts("nnnl", value)
        else:
            for order in self.listed(value, MOST_ORDERS):
                self.part("p", order)

    def parts(self, kinds, values):
        if kinds.endswith("l") and len(values) < len(kinds):
            kinds = kinds[:-1]
        need(len(values) == len(kinds))
        for kind, value in zip(kinds, values):
            self.part(kind, value)

    def named(self, forms, value):
        need(isinstance(value, list) and value and isinstance(value[0], str) and value[0] in forms)
        self.parts(forms[value[0]], value[1:])

    def steps(self, value):
        need(isinstance(value, list))
        for step in value:
            need(isinstance(step, list) and len(step) == 2 and isinstance(step[0], list) and isinstance(step[1], list))
            for fact in step[0]:
                self.named(FACTS, fact)
            for move in step[1]:
                self.named(MOVES, move)


def argument_of(data):
    """The goal, the steps and the target of an argument."""
    value = value_of(data)
    need(isinstance(value, dict))
    if set(value) == {"format", "nodes", "target"} and is_number(value["format"]) and value["format"] in (1, 2):
        raise NotHere
    need(set(value) == {"format", "goal", "steps", "target"})
    need(is_number(value["format"]) and value["format"] == 3)
    need(isinstance(value["goal"], str) and value["goal"] in GOALS)
    shape = Shape()
    shape.number(value["target"], MOST_TIME)
    shape.steps(value["steps"])
    need(not shape.is_above, "C3")
    return value["goal"], value["steps"], value["target"]


# What is argued.


class Fault(Exception):
    """What refuses an argument: its code, and of a step's fault the step."""

    def __init__(self, code, step=None):
        super().__init__(code)
        self.code, self.step = code, step


class View:
    """What is known of offsets: the least and the greatest of each stream, some decisions, and the least and greatest flowspan."""

    def __init__(self, low, high, orders, done_low, done_high):
        self.low, self.high, self.orders = list(low), list(high), set(orders)
        self.done_low, self.done_high = done_low, done_high

    def copy(self):
        return View(self.low, self.high, self.orders, self.done_low, self.done_high)

    def is_impossible(self):
        return self.done_low > self.done_high or any(low > high for low, high in zip(self.low, self.high))

    def learn(self, fact):
        kind, *of = fact
        if kind == "from":
            self.low[of[0]] = max(self.low[of[0]], of[1])
        elif kind == "until":
            self.high[of[0]] = min(self.high[of[0]], of[1])
        elif kind == "order":
            self.orders.add(order_of(of))
        elif kind == "done_from":
            self.done_low = max(self.done_low, of[0])
        else:
            self.done_high = min(self.done_high, of[0])

    def contradicts(self, fact):
        kind, *of = fact
        if kind == "from":
            return self.high[of[0]] < of[1]
        if kind == "until":
            return self.low[of[0]] > of[1]
        if kind == "order":
            return order_of([of[1], of[0], *of[2:]]) in self.orders
        if kind == "done_from":
            return self.done_high < of[0]
        return self.done_low > of[0]


def opposite(fact):
    """What holds of a valid schedule of which the fact doesn't hold."""
    kind, *of = fact
    if kind == "from":
        return ["until", of[0], of[1] - 1]
    if kind == "until":
        return ["from", of[0], of[1] + 1]
    if kind == "order":
        return ["order", of[1], of[0], *of[2:]]
    if kind == "done_from":
        return ["done_until", of[0] - 1]
    return ["done_from", of[0] + 1]


class Checker:
    def __init__(self, network, plan, goal):
        self.network, self.goal = network, goal
        self.clauses = []
        if goal == "none":
            self.flowspan, self.offsets, greatest = None, None, network.cycle
        else:
            self.flowspan, self.offsets = plan
            greatest = self.flowspan if goal == "first" else self.flowspan - 1
        streams = network.streams
        low = [it.release for it in streams]
        high = [min(it.period - it.span, it.latest - it.arrival) for it in streams]
        self.ground = View(low, high, (), 0, greatest)
        self.settle()

    def settle(self):
        """What the ground learns besides, when it has changed."""
        if self.goal != "first" or self.ground.done_low < self.flowspan:
            return
        for k, offset in enumerate(self.offsets):
            self.ground.high[k] = min(self.ground.high[k], offset)
            if self.ground.low[k] < offset:
                break

    def is_shown(self):
        """Whether the end has what the goal asks."""
        if self.ground.is_impossible():
            return True
        ground = self.ground
        if self.goal != "first" or ground.done_low < self.flowspan:
            return False
        return all(low >= offset for low, offset in zip(ground.low, self.offsets))

    def check(self, steps):
        for number, (clause, moves) in enumerate(steps):
            try:
                self.step(clause, moves)
            except Fault as fault:
                raise Fault(fault.code, number) from None
        if not self.is_shown():
            raise Fault("K3", len(steps))

    def step(self, clause, moves):
        if self.ground.is_impossible():
            raise Fault("K4")
        for fact in clause:
            self.try_fact(fact)
        view = self.ground.copy()
        for fact in clause:
            view.learn(opposite(fact))
        for move in moves:
            if view.is_impossible():
                raise Fault("K4")
            self.move(view, move)
        if not clause:
            self.ground = view
        else:
            if not view.is_impossible():
                raise Fault("K7")
            self.clauses.append(clause)
            if len(clause) == 1:
                self.ground.learn(clause[0])
        self.settle()

    def try_fact(self, fact):
        """The streams of a fact are there, and its decision is on a conflict."""
        if fact[0] == "order":
            self.try_conflict(*fact[1:])
        elif fact[0] in ("from", "until") and not self.network.has_stream(fact[1]):
            raise Fault("K9")

    def try_conflict(self, *order):
        if not self.network.is_conflict(*order):
            raise Fault("K5")

    def move(self, view, move):
        kind, *of = move
        getattr(self, "move_" + kind)(view, *of)

    def shut(self, view):
        """Makes a view impossible."""
        view.done_low = view.done_high + 1

    def end(self, view):
        """The end of a move that narrowed a view: where that is impossible now, its flowspan says so too."""
        if view.is_impossible():
            self.shut(view)

    def move_go(self, view, i, j, *on):
        if order_of([i, j, *on]) not in view.orders:
            raise Fault("K6")
        weight = self.network.weight(i, j, *on)
        low, high = view.low[i] + weight, view.high[j] - weight
        view.learn(["from", j, low])
        view.learn(["until", i, high])
        self.end(view)

    def move_turn(self, view, i, j, *on):
        self.try_conflict(i, j, *on)
        if not view.low[j] + self.network.weight(j, i, *on) > view.high[i]:
            raise Fault("K7")
        view.learn(["order", i, j, *on])

    def move_use(self, view, k):
        if k >= len(self.clauses):
            raise Fault("K6")
        left = [fact for fact in self.clauses[k] if not view.contradicts(fact)]
        if len(left) > 1:
            raise Fault("K7")
        if not left:
            self.shut(view)
        else:
            view.learn(left[0])
            self.end(view)

    def move_arrive(self, view, i):
        if not self.network.has_stream(i):
            raise Fault("K9")
        arrival = self.network.streams[i].arrival
        done, high = view.low[i] + arrival, view.done_high - arrival
        view.learn(["done_from", done])
        view.learn(["until", i, high])
        self.end(view)

    def try_users(self, link, frames):
        """The frames are on the link, and different."""
        for k, frame in enumerate(frames):
            if not self.network.sends(frame, link):
                raise Fault("K9")
            if frame in frames[:k]:
                raise Fault("K8")

    def try_some(self, all_of, some):
        """Some frames of these, each once."""
        for k, frame in enumerate(some):
            if frame not in all_of:
                raise Fault("K6")
            if frame in some[:k]:
                raise Fault("K8")

    def least_head(self, view, link, frames):
        return min(view.low[frame[0]] + self.network.begin(frame, link) for frame in frames)

    def greatest_end(self, view, link, frames):
        return max(view.high[frame[0]] + self.network.end(frame, link) for frame in frames)

    def work(self, link, frames):
        return sum(self.network.streams[stream].kept[link] for stream, _ in frames)

    def placed(self, link, frame, others, some):
        """A frame, others and some of these, which are all right."""
        frame, others, some = frame_of(frame), [frame_of(it) for it in others], [frame_of(it) for it in some]
        self.try_users(link, [frame, *others])
        self.try_some(others, some)
        return frame, others, some

    def move_last(self, view, link, *sets):
        frame, others, some = self.placed(link, *sets)
        every = [frame, *others]
        if not self.least_head(view, link, every) + self.work(link, every) > self.greatest_end(view, link, others):
            raise Fault("K7")
        ready = self.least_head(view, link, some) + self.work(link, some)
        view.learn(["from", frame[0], ready - self.network.begin(frame, link)])
        self.end(view)

    def move_first(self, view, link, *sets):
        frame, others, some = self.placed(link, *sets)
        every = [frame, *others]
        if not self.greatest_end(view, link, every) - self.work(link, every) < self.least_head(view, link, others):
            raise Fault("K7")
        begun = self.greatest_end(view, link, some) - self.work(link, some)
        view.learn(["until", frame[0], begun - self.network.end(frame, link)])
        self.end(view)

    def move_pack(self, view, link, frames):
        frames = [frame_of(it) for it in frames]
        self.try_users(link, frames)
        if not self.least_head(view, link, frames) + self.work(link, frames) > self.greatest_end(view, link, frames):
            raise Fault("K7")
        self.shut(view)

    def move_round(self, view, orders):
        if any(order_of(order) not in view.orders for order in orders):
            raise Fault("K6")
        if any(here[1] != there[0] for here, there in zip(orders, orders[1:] + orders[:1])):
            raise Fault("K6")
        if not sum(self.network.weight(*order) for order in orders) > 0:
            raise Fault("K7")
        self.shut(view)

    def move_follow(self, view, known, weaker):
        if order_of(known) not in view.orders:
            raise Fault("K6")
        self.try_conflict(*weaker)
        if known[:2] != weaker[:2] or not self.network.weight(*weaker) <= self.network.weight(*known):
            raise Fault("K7")
        view.learn(["order", *weaker])


    def hall(self, view, link, frames):
        """Frames on a link, all of them right, with what they come to there."""
        return Hall(frames, {frame: self.row(view, link, frame) for frame in frames})

    def row(self, view, link, frame):
        """The earliest head of a frame on a link, its latest end and its work."""
        network, stream = self.network, frame[0]
        head, end = view.low[stream] + network.begin(frame, link), view.high[stream] + network.end(frame, link)
        return max(0, head), max(0, end), network.streams[stream].kept[link]

    def try_fixed(self, view, among, frame):
        """The frame is one of these, and can't move."""
        if frame not in among:
            raise Fault("K6")
        if view.high[frame[0]] > view.low[frame[0]]:
            raise Fault("K7")

    def filled_up(self, view, link, frame, others, edges, places):
        """A frame that may begin at none of the places, so far as sums of works tell."""
        frame, others = frame_of(frame), [frame_of(it) for it in others]
        edges = [None if it == [] else frame_of(it) for it in edges]
        self.try_users(link, [frame, *others])
        for edge in edges:
            if edge is not None:
                self.try_fixed(view, others, edge)
        hall = self.hall(view, link, [frame, *others])
        head, end, work = hall.rows[frame]
        low = hall.first if edges[0] is None else hall.rows[edges[0]][1]
        high = hall.last if edges[1] is None else hall.rows[edges[1]][0]
        left, right = hall.left(low, high), hall.right(low, high)
        for place in places(head, end, work):
            after = place + work
            if not (low <= place and after <= high and hall.idle < left.wasted(place - low) + right.wasted(high - after)):
                raise Fault("K7")
        return frame

    def move_fill(self, view, link, frame, others, before, after, start):
        frame = self.filled_up(view, link, frame, others, (before, after), lambda head, end, work: range(head, start))
        view.learn(["from", frame[0], start - self.network.begin(frame, link)])
        self.end(view)

    def move_fill_back(self, view, link, frame, others, before, after, finish):
        ends = lambda head, end, work: range(max(0, finish + 1 - work), max(0, end + 1 - work))
        frame = self.filled_up(view, link, frame, others, (before, after), ends)
        view.learn(["until", frame[0], finish - self.network.end(frame, link)])
        self.end(view)

    def move_waste(self, view, link, frames, fixed):
        frames, fixed = [frame_of(it) for it in frames], [frame_of(it) for it in fixed]
        self.try_users(link, frames)
        hall = self.hall(view, link, frames)
        low, lost = hall.first, 0
        for frame in fixed:
            self.try_fixed(view, frames, frame)
            head, end, _ = hall.rows[frame]
            if head < low:
                raise Fault("K7")
            lost += hall.left(low, head).wasted(head - low)
            low = end
        if not lost + hall.left(low, hall.last).wasted(max(0, hall.last - low)) > hall.idle:
            raise Fault("K7")
        self.shut(view)


class Hall:
    """Frames on a link between their first head and their last end."""

    def __init__(self, frames, rows):
        self.frames, self.rows = frames, rows
        self.first = min(head for head, _, _ in rows.values())
        self.last = max(end for _, end, _ in rows.values())
        works = [work for _, _, work in rows.values()]
        self.unit = math.gcd(*works)
        self.idle = max(0, self.last - (self.first + sum(works)))

    def sums(self, low, high, key):
        """The sums of works of the frames that may lie in a room; the key says how far from where it begins each is at least."""
        there = [row for row in self.rows.values() if low + row[2] <= row[1] and row[0] + row[2] <= high]
        return Sums(self.unit, self.idle, sorted((max(0, key(row)), row[2]) for row in there))

    def left(self, low, high):
        return self.sums(low, high, lambda row: row[0] - low)

    def right(self, low, high):
        return self.sums(low, high, lambda row: high - row[1])


class Sums:
    """Which multiples of a unit works add up to, as bits; one with a key asks that those with no greater keys add up to that but for the idle time."""

    def __init__(self, unit, idle, rows):
        self.unit, self.bits = unit, 1
        for key, work in rows:
            least = -(-max(0, key - idle) // unit)
            self.bits |= (self.bits >> least << least << work // unit) & ((1 << MOST_UNITS + 1) - 1)

    def wasted(self, room):
        """What they leave at least of a room."""
        if room > MOST_UNITS * self.unit:
            return 0
        units = room // self.unit
        return room - self.unit * ((self.bits & ((1 << units + 1) - 1)).bit_length() - 1)


def verdict(network, plan, argument, checker):
    goal, steps, target = argument
    if plan is not None:
        flowspan, offsets = plan
        if network.fault(offsets):
            raise Fault("K1")
        if flowspan != network.flowspan(offsets):
            raise Fault("K2")
    if target != (network.cycle + 1 if plan is None else plan[0]) or (goal == "none") != (plan is None):
        raise Fault("K2")
    checker(network, plan, goal).check(steps)
    return {"first": f"accepted first {target}", "least": f"accepted optimal {target}", "none": "accepted no schedule"}[goal]


def judged(network, plan, cert, checker=Checker):
    """The line and the status of a network, and of the bytes of a plan and a certificate."""
    name = "plan"
    try:
        plan = plan_of(plan)
        name = "cert"
        argument = argument_of(cert)
        return verdict(network, plan, argument, checker), ACCEPTED
    except NotHere:
        return "another format", NOT_JUDGED
    except FileFault as fault:
        return f"refused {name} {fault}", REFUSED
    except Fault as fault:
        place = "" if fault.step is None else f" node {fault.step}"
        return f"certificate refused {fault.code}{place}", NOT_SHOWN


def read(path):
    with open(path, "rb") as file:
        return file.read()


def main():
    if len(sys.argv) != 4:
        sys.exit(__doc__)
    line, status = judged(Network(read(sys.argv[1])), read(sys.argv[2]), read(sys.argv[3]))
    print(line)
    sys.exit(status)


if __name__ == "__main__":
    main()
