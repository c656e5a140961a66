#!/usr/bin/env python3
"""Works out anew each number that `explain` tells of the certificates of networks.

Usage: bench/explained.py [FOLDER..] [--tiny N] [--seed N] [--only REGEX] [--steps N] [--bin PROGRAM] [--keep FOLDER]

Of each network of the folders (bench/suite and bench/periods, unless others are given; or of N tiny ones, drawn at random) that is
decided, the certificate that the conflict-driven search finds and the tree that the search in file order finds within --steps nodes
are explained. What the text has to say, each number, name and step of it, is worked out from the network's file, the plan and the
certificate alone, by the definitions: of arguments by the views of bench/arguments/check_argument.py, and by which facts each move
needs; of trees by the weights of their paths, or where they are large by the argument that `prove` finds. A sentence whose words are as expected, but a number isn't, is told as wrong; any other
that isn't as expected as not understood. The texts and the certificates are kept (--keep). The status is 0 only if all sentences of
all texts are so.
"""

import argparse
import json
import os
import random
import re
import subprocess
import sys
import tempfile
from collections import Counter

ROOT = os.path.dirname(os.path.dirname(os.path.abspath(__file__)))
FOLDERS = [os.path.join(ROOT, "bench", it) for it in ("suite", "periods")]
sys.path.insert(0, os.path.join(ROOT, "bench", "arguments"))

import plainly  # noqa: E402
import tiny  # noqa: E402
from check_argument import Checker, Network, frame_of, opposite, order_of, read  # noqa: E402

# How many steps, nodes, links, streams of a link and names of a set are told at most.
MOST_STEPS, MOST_NODES, MOST_LINKS, MOST_STREAMS, MOST_NAMED = 12, 12, 5, 6, 12
# How many moves are all told, and how many from each end of a step if there are more.
MOST_MOVES, ENDS = 100, 8
# How many conflicts may find the argument that is told in place of a large tree.
MOST_CONFLICTS = 1000


# ---- names and words


def grouped(number):
    return f"{number:,}"


def counted(number, one, more):
    return f"{grouped(number)} {one if number == 1 else more}"


def listed(items, word):
    *others, last = items
    return f"{', '.join(others)} {word} {last}" if others else last


def most(counts):
    """The places of the greatest counts first, of equal ones the least place."""
    return sorted(counts, key=lambda place: (-counts[place], place))


class Words:
    """A network's names and times, and what is said with them."""

    def __init__(self, path):
        plain = plainly.read(path)
        self.network = Network(read(path))
        self.names = [it.name for it in plain.streams]
        self.ends = [(it.origin, it.end) for it in plain.links]
        self.listeners = [[self.ends[hop.link][1] for hop in it.heard()] for it in plain.streams]

    def stream(self, i):
        return f"stream {self.names[i]}"

    def place(self, i):
        """Where a stream arrives, in words, if that is at several ends."""
        ends = self.listeners[i]
        return "" if len(ends) == 1 else " at its last listener" if len(set(ends)) > 1 else " by the slower way"

    def link(self, link):
        return "link {}, {} to {}".format(link, *self.ends[link])

    def frames(self, frames):
        names = [self.names[i] + (f" ({grouped(shift)} ns later)" if shift else "") for i, shift in frames]
        if len(names) > MOST_NAMED:
            said = f"{', '.join(names[:MOST_NAMED])} and {len(names) - MOST_NAMED} more"
        else:
            said = listed(names, "and")
        return f"the frame{'s' if len(frames) > 1 else ''} of {said}"

    def order(self, order):
        i, j, link, lag = order_of(order)
        later = lag if i < j else -lag
        which = f"'s frame {grouped(abs(later))} ns {'later' if later > 0 else 'sooner'}" if later else ""
        return "{} goes before {}{} on link {} ({} to {})".format(self.stream(i), self.stream(j), which, link, *self.ends[link])

    def fact(self, fact):
        kind, *of = fact
        if kind == "order":
            return self.order(of)
        if kind == "done_from":
            return f"nothing is done before {grouped(of[0])}"
        if kind == "done_until":
            return f"all is done by {grouped(of[0])}"
        return f"{self.stream(of[0])} starts at {grouped(of[1])} or {'later' if kind == 'from' else 'earlier'}"

    def latest_offset(self, i):
        it = self.network.streams[i]
        return min(it.period - it.span, it.latest - it.arrival)

    def last_frame(self, i):
        it = self.network.streams[i]
        return i, max(shift for shift in it.shifts if shift < it.period)

    def work(self, link, frames):
        return sum(self.network.streams[i].kept[link] for i, _ in frames)

    def tail(self, link, frames):
        return min(self.network.streams[frame[0]].arrival - self.network.end(frame, link) for frame in frames)

    def begin(self, link, frames, head):
        """How long frames take on a link, and from when on."""
        take, first = ("takes", "ns; it") if len(frames) == 1 else ("take", "ns together; the first")
        return f"{self.link(link)}, {self.frames(frames)} {take} {grouped(self.work(link, frames))} {first} can't start before {grouped(head)}"

    def load(self, link, frames, head):
        """Before when nothing is done because of frames on a link, in words."""
        it, tail = "it" if len(frames) == 1 else "the last one", self.tail(link, frames)
        said = self.begin(link, frames, head)
        if tail > 0:
            said += f", and after {it} {grouped(tail)} ns pass"
        elif tail < 0:
            said += f", and {it} has arrived {grouped(-tail)} ns before the gap behind it ends"
        return f"{said}: so nothing is done before {grouped(head + self.work(link, frames) + tail)}"

    def no_room(self, i, offset):
        """That a stream that can't start before an offset isn't done in time."""
        it = self.network.streams[i]
        said = f"{self.stream(i)} can't start before {grouped(offset)}, and would"
        if offset + it.span <= it.period:
            return f"{said} arrive{self.place(i)} at {grouped(offset + it.arrival)}, past its latest instant {grouped(it.latest)}"
        whose = "the cycle's" if it.period == self.network.cycle else "its period's"
        return f"{said} end at {grouped(offset + it.span)}, past {whose} end at {grouped(it.period)}"

    def round(self, orders, is_said):
        weight = sum(self.network.weight(*order_of(it)) for it in orders)
        said = "" if is_said else listed([self.order(it) for it in orders], "and") + ": "
        return f"{said}by these orders {self.stream(orders[0][0])} would start {grouped(weight)} ns later than it does, so they can't all hold"


# ---- arguments


def knows(view, fact):
    kind, *of = fact
    if kind == "from":
        return of[1] <= view.low[of[0]]
    if kind == "until":
        return view.high[of[0]] <= of[1]
    if kind == "order":
        return order_of(of) in view.orders
    return of[0] <= view.done_low if kind == "done_from" else view.done_high <= of[0]


def part_of(fact):
    """Of what a fact speaks."""
    kind, *of = fact
    return (kind, of[0]) if kind in ("from", "until") else (kind, *order_of(of)) if kind == "order" else (kind,)


def against(fact):
    """What contradicts a fact, if it is contradicted."""
    return part_of(opposite(fact))


def is_refuted(view, fact):
    return fact[0] != "order" and view.contradicts(fact)


class Recorder(Checker):
    """Notes from where each fact is known, which facts each one needs, and the views of some of the steps.

    A fact is shown at a step and a place: at 0 is what the step supposes, at 2k + 1 and 2k + 2 what its k-th move shows.
    """

    def __init__(self, network, plan, goal, wanted):
        super().__init__(network, plan, goal)
        self.wanted, self.views = wanted, {}
        self.at, self.showing = (0, 0), None
        self.sources, self.sources_here, self.needs = {}, {}, []
        self.step_of_clause = []

    def source(self, part):
        return self.sources_here.get(part, self.sources.get(part))

    def need(self, part):
        if self.source(part):
            self.needs.append((self.at, self.source(part)))

    def note(self, view, fact):
        """A fact is shown here, if the view doesn't know it."""
        if knows(view, fact):
            return
        self.sources_here[part_of(fact)] = self.at
        if is_refuted(view, fact):
            self.need(against(fact))

    def step(self, clause, moves):
        number = self.at[0]
        ground, self.sources_here, self.at = self.ground, {}, (number, 0)
        if number in self.wanted:
            self.views[number] = (ground.copy(), clause, [])
        for fact in clause:
            self.note(ground, opposite(fact))
        kept = len(clause) == 1 and not knows(ground, clause[0])
        refuted = kept and is_refuted(ground, clause[0])
        super().step(clause, moves)
        if clause:
            self.sources_here = {}
            self.sources[("clause", len(self.step_of_clause))] = self.at
            self.step_of_clause.append(number)
            if kept:
                self.sources_here[part_of(clause[0])] = self.at
                if refuted:
                    self.need(against(clause[0]))
        self.sources.update(self.sources_here)
        self.sources_here = {}
        if self.showing is None and (len(clause) <= 1):
            if self.ground.is_impossible():
                self.showing = self.at
            elif self.goal == "first" and self.ground.done_low >= self.flowspan:
                self.showing = self.source(("done_from",))
        self.at = (number + 1, 0)

    def move(self, view, move):
        number, place = self.at
        facts = self.shown(view, move)
        if number in self.wanted:
            self.views[number][2].append((view.copy(), move, facts))
        place += place % 2
        for fact, used in zip(facts, self.used(view, move)):
            place += 1
            self.at = (number, place)
            if not knows(view, fact):
                for part in used:
                    self.need(part)
                self.note(view, fact)
            if is_refuted(view, fact):
                break
        if place % 2 and not any(is_refuted(view, fact) for fact in facts[:1]):
            self.at = (number, place + 1)
        super().move(view, move)

    def shown(self, view, move):
        """The facts that a move shows, one or two."""
        kind, *of = move
        if kind == "go":
            weight = self.network.weight(*of)
            return [["from", of[1], view.low[of[0]] + weight], ["until", of[0], view.high[of[1]] - weight]]
        if kind == "arrive":
            arrival = self.network.streams[of[0]].arrival
            return [["done_from", view.low[of[0]] + arrival], ["until", of[0], view.done_high - arrival]]
        if kind == "turn":
            return [["order", *of]]
        if kind == "follow":
            return [["order", *of[1]]]
        if kind in ("last", "first"):
            link, frame, some = of[0], frame_of(of[1]), [frame_of(it) for it in of[3]]
            if kind == "last":
                return [["from", frame[0], self.least_head(view, link, some) + self.work(link, some) - self.network.begin(frame, link)]]
            return [["until", frame[0], self.greatest_end(view, link, some) - self.work(link, some) - self.network.end(frame, link)]]
        if kind in ("fill", "fill_back"):
            link, frame = of[0], frame_of(of[1])
            if kind == "fill":
                return [["from", frame[0], of[5] - self.network.begin(frame, link)]]
            return [["until", frame[0], of[5] - self.network.end(frame, link)]]
        if kind == "use":
            left = [fact for fact in self.clauses[of[0]] if not view.contradicts(fact)]
            if left:
                return left
        return [["done_from", view.done_high + 1]]

    def used(self, view, move):
        """What each fact that a move shows rests on."""
        kind, *of = move
        if kind == "go":
            order = ("order", *order_of(of))
            return [[order, ("from", of[0])], [order, ("until", of[1])]]
        if kind == "arrive":
            return [[("from", of[0])], [("done_until",)]]
        if kind == "turn":
            return [[("from", of[1]), ("until", of[0])]]
        if kind == "follow":
            return [[("order", *order_of(of[0]))]]
        if kind == "use":
            return [[("clause", of[0])] + [against(it) for it in self.clauses[of[0]] if view.contradicts(it)]]
        if kind == "round":
            return [[("order", *order_of(it)) for it in of[0]]]
        if kind in ("fill", "fill_back", "waste"):
            streams = [frame_of(it)[0] for it in (of[1] if kind == "waste" else [of[1], *of[2]])]
            return [[(side, i) for i in streams for side in ("from", "until")]]
        streams = [frame_of(it)[0] for it in (of[1] if kind == "pack" else of[2])]
        own = [] if kind == "pack" else [("from" if kind == "last" else "until", frame_of(of[1])[0])]
        return [own + [(side, i) for i in streams for side in ("from", "until")]]

    def needed(self):
        """Where the facts are shown that what is to be shown needs."""
        found = {self.showing} if self.showing else set()
        for at, source in reversed(self.needs):
            if at in found:
                found.add(source)
        return found


def clash(words, view, fact):
    """Which number of the view contradicts a fact, in words; nothing if none does."""
    kind, *of = fact
    if not is_refuted(view, fact):
        return ""
    if kind == "from":
        return f", but it can't start after {grouped(view.high[of[0]])}"
    if kind == "until":
        return f", but it can't start before {grouped(view.low[of[0]])}"
    return f", but all has to be done by {grouped(of[0] if kind == 'done_until' else view.done_high)}"


def moves_told(number, moves, needed):
    """The places of the moves of a step that are told by themselves: by when streams have to arrive is told of all at once."""
    halves = [((number, 2 * place + 1) in needed, (number, 2 * place + 2) in needed) for place in range(len(moves))]
    return [place for place, half in enumerate(halves) if half[0] or (half[1] and moves[place][0] != "arrive")]


class StepWords:
    """What is said of a step: its parts, between which stands '. Then '."""

    def __init__(self, words, checker, number, needed, target, is_long):
        self.words, self.checker, self.number, self.needed, self.target = words, checker, number, needed, target
        self.ground, self.clause, self.moves = checker.views[number]
        self.parts, self.limited, self.said = [], [], None
        told = moves_told(number, [move for _, move, _ in self.moves], needed)
        self.left_out = told[ENDS : len(told) - ENDS] if is_long else []

    def text(self):
        begin = self.begin()
        for place, (view, move, facts) in enumerate(self.moves):
            halves = [(self.number, 2 * place + at) in self.needed for at in (1, 2)]
            if place in self.left_out[:1]:
                self.tell_limited(view)
                self.parts.append(counted(len(self.left_out), "more move follows that isn't", "more moves follow that aren't") + " told")
            if any(halves) and place not in self.left_out:
                self.move(view, move, facts, halves)
        view = self.last_view()
        self.tell_limited(view)
        last = self.end(view)
        if self.clause:
            return f"Step {grouped(self.number)}: " + ". Then ".join([begin] + self.parts) + last + "."
        return f"Step {grouped(self.number)}: {begin}" + ". Then ".join(self.parts) + last + "."

    def last_view(self):
        """The view after the last move."""
        view = self.moves[-1][0].copy() if self.moves else self.ground.copy()
        if not self.moves:
            for fact in self.clause:
                view.learn(opposite(fact))
        else:
            for fact in self.moves[-1][2]:
                view.learn(fact)
        return view

    def begin(self):
        if not self.clause:
            if self.checker.goal == "none":
                return "In any schedule, "
            return f"In a schedule that is done by {grouped(self.ground.done_high)}, "
        supposed = [opposite(it) for it in self.clause]
        said = "Suppose that " + listed([self.words.fact(it) for it in supposed], "and")
        return said + next((it for it in (clash(self.words, self.ground, fact) for fact in supposed) if it), "")

    def end(self, view):
        if not self.clause:
            if view.is_impossible():
                return ". So there is none"
            is_first = self.checker.goal == "first" and view.done_low >= self.target
            return f". So nothing is done before {grouped(self.target)}" if is_first else ""
        if self.clause == [["done_from", self.said]]:
            return ""
        return ". So " + listed([self.words.fact(it) for it in self.clause], "or")

    def tell_limited(self, view):
        if self.limited:
            have = "has" if len(self.limited) == 1 else "have"
            self.parts.append(f"{self.words.frames(self.limited)} {have} to arrive by {grouped(view.done_high)}")
            self.limited = []

    def move(self, view, move, facts, halves):
        kind, *of = move
        if kind != "arrive":
            self.tell_limited(view)
        is_told = [half and not knows(view, fact) for half, fact in zip(halves, facts)]
        if kind in ("turn", "follow", "last", "first", "fill", "fill_back") and not is_told[0]:
            return
        names = {"last": "placing", "first": "placing", "fill_back": "fill"}
        getattr(self, "tell_" + names.get(kind, kind))(view, move, facts, is_told)

    def tell_arrive(self, view, move, facts, is_told):
        frame = self.words.last_frame(move[1])
        if is_told[0]:
            self.tell_limited(view)
            said = f"{self.words.frames([frame])} arrives{self.words.place(move[1])} at {grouped(facts[0][1])} or later"
            self.parts.append(said + clash(self.words, view, facts[0]))
        if view.contradicts(facts[0]):
            return
        if is_told[1]:
            self.limited.append(frame)
        if view.contradicts(facts[1]):
            self.tell_limited(view)
            self.parts[-1] += clash(self.words, view, facts[1])

    def tell_go(self, view, move, facts, is_told):
        said = [self.words.fact(fact) for fact, told in zip(facts, is_told) if told]
        end = clash(self.words, view, facts[0]) or clash(self.words, view, facts[1])
        if said:
            self.parts.append(", and ".join(said))
        if end:
            self.parts[-1] += end

    def tell_turn(self, view, move, facts, is_told):
        i, j, link, lag = order_of(move[1:])
        start = view.low[j] + self.checker.network.weight(j, i, link, lag)
        self.parts.append(
            f"{self.words.fact(facts[0])}, since the other order would put {self.words.stream(i)} at {grouped(start)} or later, "
            f"past its latest start {grouped(view.high[i])}"
        )

    def tell_follow(self, view, move, facts, is_told):
        self.parts.append(f"{self.words.fact(facts[0])}, since {self.words.order(move[1])}")

    def tell_use(self, view, move, facts, is_told):
        step = grouped(self.checker.step_of_clause[move[1]])
        if all(view.contradicts(it) for it in self.checker.clauses[move[1]]):
            self.parts.append(f"none of what step {step} says can hold")
        else:
            end = clash(self.words, view, facts[0]) if facts[0][0] in ("from", "until") else ""
            self.parts.append(f"by step {step}, {self.words.fact(facts[0])}{end}")

    def tell_placing(self, view, move, facts, is_told):
        kind, link, frame, others, some = move
        words, checker, is_last = self.words, self.checker, kind == "last"
        frame, others, some = frame_of(frame), [frame_of(it) for it in others], [frame_of(it) for it in some]
        every = sorted([frame, *others])
        work, one = words.work(link, every), "one of " if len(others) > 1 else ""
        said = f"on {words.link(link)}, {words.frames(every)} take {grouped(work)} ns together and "
        if is_last:
            head, end = checker.least_head(view, link, every), checker.greatest_end(view, link, others)
            said += f"can't start before {grouped(head)}. If {one}{words.frames(others)} went last, "
            said += f"it would be through at {grouped(head + work)} or later, past {grouped(end)}"
        else:
            head, end = checker.least_head(view, link, others), checker.greatest_end(view, link, every)
            said += f"have to be through by {grouped(end)}. If {one}{words.frames(others)} went first, "
            said += f"they would start at {grouped(head)} or later and take until {grouped(head + work)}"
        said += f". So {words.frames([frame])} goes {kind}"
        if len(some) < len(others):
            told = f"{grouped(words.work(link, some))} ns of {words.frames(some)}"
            if is_last:
                said += f", after {told} from {grouped(checker.least_head(view, link, some))} on"
            else:
                said += f", before {told} until {grouped(checker.greatest_end(view, link, some))}"
        self.parts.append(f"{said}, and {words.fact(facts[0])}{clash(words, view, facts[0])}")

    def tell_pack(self, view, move, facts, is_told):
        link, frames = move[1], [frame_of(it) for it in move[2]]
        words, head, work = self.words, self.checker.least_head(view, link, frames), self.words.work(link, frames)
        bound = head + work + words.tail(link, frames)
        if bound > view.done_high:
            self.said = bound
            self.parts.append("on " + words.load(link, frames, head))
        else:
            end, last = self.checker.greatest_end(view, link, frames), "" if len(frames) == 1 else "the last one "
            self.parts.append(
                f"on {words.begin(link, frames, head)}, and {last}has to be through by {grouped(end)}, "
                f"which is {grouped(head + work - end)} ns too soon"
            )

    def tell_fill(self, view, move, facts, is_told):
        kind, link, frame, others, _, _, bound = move
        words = self.words
        place = "begins before" if kind == "fill" else "ends after"
        self.parts.append(
            f"on {words.link(link)}, where {words.frames([frame_of(frame)])} {place} {grouped(bound)}, sums of works of it and "
            f"{words.frames([frame_of(it) for it in others])} leave more before and behind it than they may. "
            f"So {words.fact(facts[0])}{clash(words, view, facts[0])}"
        )

    def tell_waste(self, view, move, facts, is_told):
        link, frames = move[1], [frame_of(it) for it in move[2]]
        self.parts.append(
            f"on {self.words.link(link)}, sums of works of {self.words.frames(frames)} leave more between those that can't move than they may"
        )

    def tell_round(self, view, move, facts, is_told):
        supposed = {order_of(opposite(it)[1:]) if it[0] == "order" else None for it in self.clause}
        self.parts.append(self.words.round(move[1], supposed == {order_of(it) for it in move[1]}))


def named_by(clause, moves):
    """The streams that a step names in its clause and in some of its moves, and the links on which it does."""
    orders, found = [fact[1:] for fact in clause if fact[0] == "order"], set()
    for kind, *of in moves:
        if kind in ("go", "turn"):
            orders.append(of)
        elif kind == "round":
            orders += of[0]
        elif kind == "follow":
            orders += of
        elif kind in ("last", "first", "fill", "fill_back"):
            found |= {(of[0], frame_of(it)[0]) for it in [of[1], *of[2]]}
        elif kind in ("pack", "waste"):
            found |= {(of[0], frame_of(it)[0]) for it in of[1]}
    return found | {(order[2], i) for order in orders for i in order[:2]}


def busy_lines(words, steps, needed, told, until):
    """The links that most of the steps name, and what the streams that they name most come to there."""
    yield f"The links that most of these are about, if all is to be done by {grouped(until)}:"
    links, streams = Counter(), {}
    for number in told:
        clause, moves = steps[number]
        some = [move for place, move in enumerate(moves) if {(number, 2 * place + 1), (number, 2 * place + 2)} & needed]
        found = named_by(clause, some)
        links.update({link for link, _ in found})
        for link, i in found:
            streams.setdefault(link, Counter())[i] += 1
    for link in most(links)[:MOST_LINKS]:
        counts = streams[link]
        first = most(counts)[:MOST_STREAMS]
        frames = [(i, 0) for i in sorted(it for it in first if counts[it] >= counts[first[0]] // 2)]
        head = min(words.network.streams[i].release + words.network.begin((i, 0), link) for i, _ in frames)
        end = max(words.latest_offset(i) + words.network.end((i, 0), link) for i, _ in frames)
        end = min(end, until - words.tail(link, frames))
        steps_said = counted(links[link], "step", "steps")
        yield f"{steps_said}: on {words.begin(link, frames, head)}, and the last one has to be through by {grouped(end)}."


def argument_lines(words, plan, cert, text):
    """What is to be said of an argument."""
    goal, steps, target = cert["goal"], cert["steps"], cert["target"]
    wanted = {int(it.replace(",", "")) for it in re.findall(r"^Step ([\d,]+):", text, re.MULTILINE)}
    checker = Recorder(words.network, plan, goal, wanted)
    checker.check(steps)
    needed = checker.needed()
    told = sorted({number for number, _ in needed})
    if not told:
        i = next(i for i, it in enumerate(words.network.streams) if it.release > words.latest_offset(i))
        yield f"No step is needed: {words.no_room(i, words.network.streams[i].release)}."
    else:
        some = f", of which {counted(len(told), 'shows', 'show')} this" if len(told) < len(steps) else ""
        end = ":" if len(told) <= MOST_STEPS else "."
        yield f"The argument has {counted(len(steps), 'step', 'steps')}{some}{end}"
        if len(told) <= MOST_STEPS:
            is_long = len(words.network.streams) > 128 and sum(len(moves_told(number, steps[number][1], needed)) for number in told) > MOST_MOVES
            for number in told:
                is_there = number in checker.views
                yield StepWords(words, checker, number, needed, target, is_long).text() if is_there else f"Step {grouped(number)}: .."
        else:
            until = {"first": target, "least": target - 1, "none": words.network.cycle}[goal]
            yield from busy_lines(words, steps, needed, told, until)
    if goal == "first":
        first, last = told[-1] + 1 if told else 0, len(steps) - 1
        if first > last:
            rest = "nothing else is left"
        else:
            rest = f"step {grouped(first)} shows it" if first == last else f"steps {grouped(first)} to {grouped(last)} show it"
        yield f"Of the schedules of this flowspan the plan is the first in list order: {rest}."


# ---- trees


class Tree:
    """A tree of decisions, and what its leaves come to."""

    def __init__(self, words, nodes):
        self.words, self.network, self.nodes = words, words.network, nodes

    def walk(self):
        """Each node, and the orders of the path to it."""
        path, is_left = [], []
        for node in self.nodes:
            yield node, path
            if node[0] == "branch":
                path, is_left = path + [order_of(node[1:])], is_left + [True]
                continue
            while is_left and not is_left[-1]:
                path, is_left = path[:-1], is_left[:-1]
            if is_left:
                i, j, link, lag = path[-1]
                path, is_left = path[:-1] + [(j, i, link, lag)], is_left[:-1] + [False]

    def offset(self, path, i, chain):
        """The least offset of a stream, by a chain to it."""
        first = path[chain[0]][0] if chain else i
        return self.network.streams[first].release + sum(self.network.weight(*path[depth]) for depth in chain)

    def load(self, path, node):
        """The link, the frames and the head of a leaf on a link."""
        link, entries = node[1], node[2]
        frames = [(it[0], it[1] if len(it) == 3 else 0) for it in entries]
        head = min(self.offset(path, it[0], it[-1]) + self.network.begin(frame, link) for it, frame in zip(entries, frames))
        return link, frames, head

    def shown(self, path, node):
        kind, words = node[0], self.words
        if kind in ("late", "tie"):
            offset = self.offset(path, node[1], node[2])
            arrival = offset + self.network.streams[node[1]].arrival
            said = f"{words.stream(node[1])} can't start before {grouped(offset)} "
            said += f"and arrives{words.place(node[1])} at {grouped(arrival)} or later"
        elif kind in ("load", "tieload"):
            said = "on " + words.load(*self.load(path, node))
        elif kind == "overrun":
            said = words.no_room(node[1], self.offset(path, node[1], node[2]))
        elif kind == "overload":
            link, frames, head = self.load(path, node)
            end, cycle = grouped(head + words.work(link, frames)), grouped(self.network.cycle)
            said = f"on {words.begin(link, frames, head)}: so the link is taken up until {end}, past the cycle's end at {cycle}"
        else:
            said = words.round([path[depth] for depth in node[1]], set(path) <= {path[depth] for depth in node[1]})
        if kind.startswith("tie"):
            said += "; of the schedules done then, none comes before the plan in list order"
        return said + "."

    def leaves(self):
        for node, path in self.walk():
            if node[0] != "branch":
                begin = f"If {listed([self.words.order(it) for it in path], 'and')}: " if path else "In any order: "
                yield begin + self.shown(path, node)

    def summary(self):
        kinds = {
            "late": "a frame that arrives too late",
            "load": "the load of a link",
            "overrun": "a frame that is past the cycle's end or its latest instant",
            "overload": "a link that is taken up past the cycle's end",
            "cycle": "orders that can't all hold",
            "tie": "the list order",
        }
        counts = Counter("tie" if node[0] == "tieload" else node[0] for node in self.nodes if node[0] != "branch")
        said = ", ".join(f"{grouped(counts[it])} by {name}" for it, name in kinds.items() if counts[it])
        yield f"{grouped(sum(counts.values()))} ways to order frames are ruled out: {said}."
        links = Counter(node[1] for node in self.nodes if node[0] in ("load", "tieload", "overload"))
        for link in most(links)[:MOST_LINKS]:
            yield f"The load of {self.words.link(link)}, rules out {grouped(links[link])}."
        least = None
        for node, path in self.walk():
            if node[0] in ("load", "tieload"):
                link, frames, head = self.load(path, node)
                bound = head + self.words.work(link, frames) + self.words.tail(link, frames)
                if least is None or bound < least[0]:
                    least = bound, self.words.load(link, frames, head)
        if least:
            yield f"In the tightest of these ways, on {least[1]}."


def tree_lines(words, plan, cert, argument, text):
    """What is to be said of a tree: by an argument, where there is one for it."""
    tree = Tree(words, cert["nodes"])
    if argument:
        yield f"The certificate is a tree of {grouped(len(tree.nodes))} nodes. An argument as prove finds it shows the same."
        yield from argument_lines(words, plan, argument, text)
    else:
        yield from tree.leaves() if len(tree.nodes) <= MOST_NODES else tree.summary()
    if cert["format"] == 2 and plan is not None:
        yield "Of the schedules of this flowspan the plan is the first in list order."


# ---- texts


def lines_of(words, plan, cert, argument, text):
    """What is to be said of a certificate that is accepted, for which an argument may be told."""
    if plan is None:
        yield f"There is no schedule within the cycle of {grouped(words.network.cycle)} ns."
    else:
        yield f"No schedule is done before {grouped(words.network.flowspan(plan[1]))} ns."
    is_argument = cert["format"] == 3
    yield from argument_lines(words, plan, cert, text) if is_argument else tree_lines(words, plan, cert, argument, text)


def skeleton(sentence):
    return re.sub(r"\d[\d,]*", "#", sentence)


def faults(text, expected):
    """The sentences of a text that aren't what is expected."""
    said = text.splitlines()
    if len(said) != len(expected):
        yield f"{len(said)} lines instead of {len(expected)}"
    for line, other in zip(said, expected):
        if line == other:
            continue
        here, there = line.split(". "), other.split(". ")
        for place, sentence in enumerate(here):
            wanted = there[place] if place < len(there) else ""
            if sentence != wanted:
                why = "isn't so" if skeleton(sentence) == skeleton(wanted) else "isn't understood"
                yield f"{why}: {sentence}\n    expected: {wanted}"
        if len(here) < len(there):
            yield f"left out: {there[len(here)]}"


def run(words):
    return subprocess.run(words, stdin=subprocess.DEVNULL, stdout=subprocess.PIPE, stderr=subprocess.DEVNULL, text=True)


def certificates(program, path, steps, room):
    """The plan and the certificate of each search that decides a network, of different kinds: their names and files."""
    known = set()
    for how, limit in (("learn", []), ("file", ["--steps", str(steps)])):
        plan, cert = (os.path.join(room, f"{how}.{it}") for it in ("plan", "cert"))
        words = [program, "plan", path, "--plan", plan, "--cert", cert, "--search", how, *limit]
        if run(words).returncode not in (0, 4):
            continue
        data = read(cert)
        if data not in known:
            known.add(data)
            yield how, plan, cert


def argument_for(program, path, plan_path, cert_path, cert):
    """The argument that is told in place of a large tree, if it is found soon."""
    if cert["format"] == 3 or len(cert["nodes"]) <= MOST_NODES:
        return None
    found = cert_path + ".argument"
    ended = run([program, "prove", path, plan_path, "--cert", found, "--steps", str(MOST_CONFLICTS)])
    return None if ended.returncode or not ended.stdout.startswith("proved") else json.loads(read(found))


def explained(program, path, plan_path, cert_path):
    """The text of a certificate, and what isn't as expected of it."""
    ended = run([program, "explain", path, plan_path, cert_path])
    if ended.returncode:
        return ended.stdout, [f"ended with {ended.returncode}: {ended.stdout}"]
    with open(plan_path, encoding="utf-8") as file:
        plan = json.load(file)
    with open(cert_path, encoding="utf-8") as file:
        cert = json.load(file)
    plan = None if plan["flowspan"] is None else (plan["flowspan"], plan["offsets"])
    argument = argument_for(program, path, plan_path, cert_path, cert)
    return ended.stdout, list(faults(ended.stdout, list(lines_of(Words(path), plan, cert, argument, ended.stdout))))


def drawn(count, seed, room):
    """The files of tiny networks, drawn at random."""
    rng = random.Random(seed)
    os.makedirs(room, exist_ok=True)
    for number in range(count):
        path = os.path.join(room, f"tiny-{number}.toml")
        tiny.written(tiny.drawn(rng)[0], path)
        yield path


def main():
    parser = argparse.ArgumentParser(description=__doc__, formatter_class=argparse.RawDescriptionHelpFormatter)
    parser.add_argument("folders", nargs="*", default=FOLDERS)
    parser.add_argument("--tiny", type=int)
    parser.add_argument("--seed", type=int, default=1)
    parser.add_argument("--only", default="")
    parser.add_argument("--steps", type=int, default=100_000)
    parser.add_argument("--bin", default=os.path.join(ROOT, "crates", "tsn", "out", "tsn"))
    parser.add_argument("--keep")
    given = parser.parse_args()
    networks = [os.path.join(it, name) for it in given.folders for name in sorted(os.listdir(it)) if name.endswith(".toml")]
    texts = wrong = 0
    with tempfile.TemporaryDirectory() as scratch:
        for path in networks if given.tiny is None else drawn(given.tiny, given.seed, given.keep or scratch):
            name = os.path.basename(path).removesuffix(".toml")
            if not re.search(given.only, name):
                continue
            room = os.path.join(given.keep or scratch, name)
            os.makedirs(room, exist_ok=True)
            for how, plan, cert in certificates(given.bin, path, given.steps, room):
                text, found = explained(given.bin, path, plan, cert)
                with open(os.path.join(room, f"{how}.txt"), "w", encoding="utf-8") as file:
                    file.write(text)
                texts, wrong = texts + 1, wrong + bool(found)
                print(f"{name} {how}: {len(text.splitlines())} lines, {len(found)} wrong", flush=True)
                for it in found:
                    print("  " + it)
    print(f"{texts} texts, {wrong} of them wrong")
    return 1 if wrong or not texts else 0


if __name__ == "__main__":
    sys.exit(main())
