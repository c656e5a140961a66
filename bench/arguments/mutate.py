#!/usr/bin/env python3
"""Changes arguments (certificates of format 3) at random, and runs the slow checker (check_argument.py) and `tsn check` side by side.

mutate.py NETWORKS KEPT   NETWORKS has networks NAME.toml; KEPT has a plan NAME.plan and an argument NAME.cert of each, or of some
                          of them, as make.py keeps them; each has to be accepted, so its plan is known to be right
    --tsn PROGRAM         a built `tsn`; without it the slow checker runs alone
    --seed N              1 unless given; a run with the same words does the same
    --count N             how many changed arguments, 1,000 unless given
    --bytes N             arguments of more bytes are left out, 100,000 unless given
    --only PATTERN        the networks whose names have this (a regular expression)
    --wrong FOLDER        where the files of a run that differs are kept

One to three changes of the kinds below are made at a time, to the argument, to its text, or to the plan. It tells each run whose
line or status differs between the two, and each that is accepted though what is said isn't so: by the unchanged plan the first
optimal schedule, the least flowspan, and whether there is a schedule at all are known. Besides, each step that the slow checker
lets pass has to be so of some schedules that are in question. At the end it tells of each kind of change how often it was made
and how that was answered. Ends with 1 where something is wrong.
"""

import argparse
import collections
import copy
import json
import os
import random
import re
import subprocess
import sys
import tempfile

import check_argument

KINDS = []
LARGE = [127, 128, 129, 2_000_000_000, 2_000_000_001, 4_294_967_295, 4_294_967_296, 18_446_744_073_709_551_615, 18_446_744_073_709_551_616]
LAGS = [0, 1, -1, 672, -672, 999_999_999, -999_999_999, 1_000_000_000, -1_000_000_000, -9_223_372_036_854_775_808, 0.5, None]
SHIFTS = [0, 1, 672, 4_294_967_295, 4_294_967_296, -1, 0.5, None]
LINKED = ("last", "first", "pack")


def kind(change):
    """A kind of change. It answers whether there was something to change."""
    KINDS.append(change)
    return change


class Case:
    """A network, a plan and an argument that are changed. `text` is the argument's text, once that is changed itself."""

    def __init__(self, chance, network, plan, cert, known):
        self.chance, self.network, self.known = chance, network, known
        self.plan, self.cert = copy.deepcopy(plan), copy.deepcopy(cert)
        self.text = None
        self.links = sorted({link for stream in network.streams for link in stream.start})

    @property
    def steps(self):
        return self.cert["steps"]

    def pick(self, some):
        """One of these, or None where there is none."""
        some = list(some)
        return self.chance.choice(some) if some else None

    def stream(self):
        """A number of a stream, or now and then of none."""
        count = len(self.network.streams)
        return count + self.chance.randrange(3) if self.chance.random() < 0.05 else self.chance.randrange(count)

    def frame(self):
        """A frame, or now and then none of its stream's."""
        stream = self.stream()
        count = len(self.network.streams)
        shifts = sorted(self.network.streams[stream].shifts) if stream < count else [0]
        shift = self.chance.choice(shifts)
        return check_argument.written_frame(stream, shift + 1 if self.chance.random() < 0.05 else shift)

    def frames(self, streams):
        """All frames of these streams, or some of them where they are many."""
        every = [check_argument.written_frame(i, shift) for i in streams for shift in sorted(self.network.streams[i].shifts)]
        return every if len(every) <= 40 else self.chance.sample(every, 40)

    def order(self, i, j, link):
        """An order of these streams on the link, by one of their lags, or now and then by none."""
        lag = self.chance.choice(self.network.lags(i, j) or [0])
        return check_argument.written_order(i, j, link, lag + 1 if self.chance.random() < 0.05 else lag)

    def link(self):
        return 999 if self.chance.random() < 0.05 else self.chance.choice(self.links)

    def conflict(self):
        """An order on a link, of streams that both use it, where the first few tries find one."""
        for _ in range(20):
            link = self.chance.choice(self.links)
            users = [i for i, it in enumerate(self.network.streams) if link in it.start]
            if len(users) > 1:
                return self.order(*self.chance.sample(users, 2), link)
        return [self.stream(), self.stream(), self.link()]

    def time(self):
        ends = [0, 1, self.network.cycle] + ([self.plan["flowspan"], *self.plan["offsets"]] if self.has_schedule() else [])
        return max(0, self.chance.choice(ends) + self.chance.choice([-1, 0, 0, 1]))

    def has_schedule(self):
        return isinstance(self.plan["offsets"], list) and isinstance(self.plan["flowspan"], int)

    def fact(self):
        word = self.chance.choice(["from", "until", "order", "done_from", "done_until"])
        if word == "order":
            return [word, *self.conflict()]
        return [word, self.time()] if word.startswith("done") else [word, self.stream(), self.time()]

    def move(self):
        word = self.chance.choice(list(check_argument.MOVES))
        kinds = check_argument.MOVES[word]
        if kinds == "nnnl":
            return [word, *self.conflict()]
        if kinds == "n":
            return [word, self.chance.randrange(len(self.steps) + 1) if word == "use" else self.stream()]
        if kinds == "o":
            return [word, [self.conflict() for _ in range(self.chance.randint(1, 3))]]
        if kinds == "pp":
            return [word, self.conflict(), self.conflict()]
        link = self.chance.choice(self.links)
        users = self.frames(i for i, it in enumerate(self.network.streams) if link in it.start)
        some = self.chance.sample(users, self.chance.randint(1, len(users)))
        if kinds == "ns":
            return [word, link, some]
        if kinds == "nsc":
            return [word, link, some, self.chance.sample(some, self.chance.randint(0, len(some)))]
        others = some[1:] or [self.frame()]
        if kinds == "nfseet":
            return [word, link, some[0], others, self.chance.choice([[], *others]), self.chance.choice([[], *others]), self.time()]
        return [word, link, some[0], others, self.chance.sample(others, self.chance.randint(1, len(others)))]

    def step(self, needs=lambda step: True):
        return self.pick(it for it in self.steps if needs(it))

    def list_of_moves(self, count=1):
        step = self.step(lambda it: len(it[1]) >= count)
        return step and step[1]

    def made_move(self, needs=lambda move: True):
        """A move that meets a need."""
        return self.pick(move for step in self.steps for move in step[1] if needs(move))

    def made_fact(self):
        return self.pick(fact for step in self.steps for fact in step[0])

    def numbers(self):
        """Where numbers are, as lists and places in them."""
        found = []

        def look(value):
            for k, it in enumerate(value):
                if isinstance(it, list):
                    look(it)
                elif isinstance(it, int):
                    found.append((value, k))

        look(self.steps)
        return found

    def number(self):
        return self.pick(self.numbers())

    def dumped(self):
        """The argument's text: as it is written, where it isn't changed."""
        return self.text if self.text is not None else json.dumps(self.cert, separators=(",", ":"), sort_keys=True) + "\n"

    def relaid(self):
        """The text, now and then in another layout: programs may read what is laid out as it is written in another way."""
        if self.text is None and self.chance.random() < 0.25:
            keys = list(self.cert)
            self.chance.shuffle(keys)
            return json.dumps({key: self.cert[key] for key in keys})
        return self.dumped()


# Numbers.


def changed_number(case, change):
    place = case.number()
    if place is None:
        return False
    place[0][place[1]] = change(place[0][place[1]])
    return True


@kind
def a_number_one_more(case):
    return changed_number(case, lambda it: it + 1)


@kind
def a_number_one_less(case):
    return changed_number(case, lambda it: it - 1)


@kind
def a_large_number(case):
    return changed_number(case, lambda it: case.chance.choice(LARGE))


@kind
def no_whole_number(case):
    return changed_number(case, lambda it: case.chance.choice([-1, -it, it + 0.5, float(it), str(it), None, True, [it], {}]))


@kind
def another_number_of_the_file(case):
    places = case.numbers()
    return changed_number(case, lambda it: (lambda at: at[0][at[1]])(case.chance.choice(places)))


# Moves.


@kind
def a_move_of_a_like_kind(case):
    move = case.made_move(lambda it: it[0] in ("go", "turn", "last", "first", "use", "arrive"))
    if move:
        move[0] = {"go": "turn", "turn": "go", "last": "first", "first": "last", "use": "arrive", "arrive": "use"}[move[0]]
    return bool(move)


@kind
def a_move_of_any_word(case):
    move = case.made_move()
    if move:
        move[0] = case.chance.choice([*check_argument.MOVES, *check_argument.FACTS, "Go", "", "least"])
    return bool(move)


@kind
def a_stream_of_a_move(case):
    move = case.made_move(lambda it: it[0] in ("go", "turn", "arrive", "last", "first"))
    if move:
        at = {"arrive": [1], "last": [2], "first": [2]}.get(move[0], [1, 2])
        move[case.chance.choice(at)] = case.frame() if move[0] in LINKED else case.stream()
    return bool(move)


@kind
def a_link_of_a_move(case):
    move = case.made_move(lambda it: it[0] in ("go", "turn", *LINKED))
    if move:
        move[1 if move[0] in LINKED else 3] = case.link()
    return bool(move)


@kind
def an_order_of_a_move_swapped(case):
    move = case.made_move(lambda it: it[0] in ("go", "turn"))
    if move:
        move[1], move[2] = move[2], move[1]
    return bool(move)


@kind
def a_round_changed(case):
    move = case.made_move(lambda it: it[0] == "round" and it[1])
    if not move:
        return False
    orders, way = move[1], case.chance.randrange(6)
    at = case.chance.randrange(len(orders))
    if way == 0:
        del orders[at]
    elif way == 1:
        orders[at][0], orders[at][1] = orders[at][1], orders[at][0]
    elif way == 2:
        orders.append(orders.pop(0))
    elif way == 3:
        orders += orders
    elif way == 4:
        case.chance.shuffle(orders)
    else:
        orders[at] = case.conflict()
    return True


def changed_list(case, which, change):
    """Changes S (3, or of a pack 2) or R (4) of a move on a link."""
    move = case.made_move(lambda it: it[0] in ("last", "first") or (it[0] == "pack" and which == 3))
    if not move:
        return False
    some = move[2] if move[0] == "pack" else move[which]
    if not some:
        return False
    change(move, some)
    return True


@kind
def a_frame_of_the_set_dropped(case):
    return changed_list(case, 3, lambda move, some: some.pop(case.chance.randrange(len(some))))


@kind
def a_frame_of_the_set_added(case):
    return changed_list(case, 3, lambda move, some: some.insert(case.chance.randint(0, len(some)), case.frame()))


@kind
def a_frame_of_the_set_twice(case):
    return changed_list(case, 3, lambda move, some: some.insert(case.chance.randint(0, len(some)), case.chance.choice(some)))


@kind
def a_frame_of_the_set_in_place_of_another(case):
    return changed_list(case, 3, lambda move, some: some.__setitem__(case.chance.randrange(len(some)), case.frame()))


@kind
def a_frame_of_the_ready_dropped(case):
    return changed_list(case, 4, lambda move, some: some.pop(case.chance.randrange(len(some))))


@kind
def a_frame_of_the_ready_added(case):
    return changed_list(case, 4, lambda move, some: some.append(case.frame() if case.chance.random() < 0.3 else case.chance.choice(move[3] or [0])))


@kind
def work_of_the_ready_counted_twice(case):
    return changed_list(case, 4, lambda move, some: some.insert(case.chance.randint(0, len(some)), case.chance.choice(some)))


@kind
def the_one_among_the_set(case):
    return changed_list(case, 4, lambda move, some: move[case.chance.choice([3, 4])].append(move[2]))


@kind
def the_one_and_one_of_the_set_swapped(case):
    def change(move, some):
        at = case.chance.randrange(len(move[3])) if move[3] else None
        if at is not None:
            move[2], move[3][at] = move[3][at], move[2]

    return changed_list(case, 4, change)


@kind
def all_of_the_set_ready(case):
    return changed_list(case, 4, lambda move, some: move.__setitem__(4, list(move[3])))


@kind
def sets_in_another_order(case):
    def change(move, some):
        case.chance.shuffle(move[3])
        case.chance.shuffle(move[4])

    return changed_list(case, 4, change)


@kind
def a_set_that_is_packed(case):
    def change(move, some):
        move[:] = ["pack", move[1], [move[2], *move[3]] if case.chance.random() < 0.7 else list(move[3])]

    return changed_list(case, 4, change)


@kind
def a_long_set(case):
    return changed_list(case, 3, lambda move, some: some.extend(case.frame() for _ in range(case.chance.choice([127, 128, 65535, 65536]))))


@kind
def an_empty_set(case):
    return changed_list(case, case.chance.choice([3, 4]), lambda move, some: some.clear())


# Lags and shifts.


def changed_lag(case, order, at):
    """Another lag of an order, from this place of a list on, or none."""
    del order[at + 3:]
    lags = [*LAGS, None, case.chance.choice(LARGE)]
    if case.chance.random() < 0.5 and isinstance(order[at], int) and isinstance(order[at + 1], int) and order[at] != order[at + 1]:
        lags = case.network.lags(order[at], order[at + 1])
    lag = case.chance.choice(lags)
    if lag is not None:
        order.append(lag)


@kind
def a_lag_of_a_fact(case):
    fact = case.pick(it for step in case.steps for it in step[0] if it[0] == "order")
    if fact:
        changed_lag(case, fact, 1)
    return bool(fact)


@kind
def a_lag_of_a_move(case):
    move = case.made_move(lambda it: it[0] in ("go", "turn"))
    if move:
        changed_lag(case, move, 1)
    return bool(move)


@kind
def a_lag_of_a_round(case):
    move = case.made_move(lambda it: it[0] == "round" and it[1])
    if move:
        changed_lag(case, case.chance.choice(move[1]), 0)
    return bool(move)


def with_shift(case, frame):
    """The frame with another shift, which may be none of its stream's, or one of 0 that is written."""
    stream = frame[0] if isinstance(frame, list) else frame
    return [stream, *([] if case.chance.random() < 0.05 else [case.chance.choice([*SHIFTS, *LARGE])])]


@kind
def a_shift_of_the_one(case):
    move = case.made_move(lambda it: it[0] in ("last", "first"))
    if move:
        move[2] = with_shift(case, move[2])
    return bool(move)


@kind
def a_shift_of_the_set(case):
    def change(move, some):
        at = case.chance.randrange(len(some))
        some[at] = with_shift(case, some[at])

    return changed_list(case, case.chance.choice([3, 4]), change)


# Facts.


@kind
def a_fact_dropped(case):
    step = case.step(lambda it: it[0])
    if step:
        del step[0][case.chance.randrange(len(step[0]))]
    return bool(step)


@kind
def a_fact_twice(case):
    step = case.step(lambda it: it[0])
    if step:
        step[0].append(case.chance.choice(step[0]))
    return bool(step)


@kind
def a_fact_added(case):
    step = case.step()
    if step:
        step[0].insert(case.chance.randint(0, len(step[0])), case.fact())
    return bool(step)


@kind
def the_opposite_of_a_fact(case):
    fact = case.made_fact()
    if fact:
        fact[:] = check_argument.opposite(fact)
    return bool(fact)


@kind
def a_fact_moved_by_one(case):
    fact = case.pick(it for step in case.steps for it in step[0] if it[0] != "order")
    if fact:
        fact[-1] += case.chance.choice([-1, 1])
    return bool(fact)


@kind
def a_fact_of_another_stream(case):
    fact = case.pick(it for step in case.steps for it in step[0] if not it[0].startswith("done"))
    if fact:
        fact[case.chance.choice([1, 2]) if fact[0] == "order" else 1] = case.stream()
    return bool(fact)


@kind
def a_fact_on_another_link(case):
    fact = case.pick(it for step in case.steps for it in step[0] if it[0] == "order")
    if fact:
        fact[3] = case.link()
    return bool(fact)


@kind
def facts_in_another_order(case):
    step = case.step(lambda it: len(it[0]) > 1)
    if step:
        case.chance.shuffle(step[0])
    return bool(step)


@kind
def a_fact_from_another_clause(case):
    fact, step = case.made_fact(), case.step()
    if fact:
        step[0].append(list(fact))
    return bool(fact)


# Steps.


@kind
def steps_swapped(case):
    if len(case.steps) < 2:
        return False
    at = case.chance.randrange(len(case.steps) - 1)
    to = at + 1 if case.chance.random() < 0.5 else case.chance.randrange(len(case.steps))
    case.steps[at], case.steps[to] = case.steps[to], case.steps[at]
    return True


@kind
def a_step_dropped(case):
    if case.steps:
        del case.steps[case.chance.randrange(len(case.steps))]
        return True
    return False


@kind
def a_step_twice(case):
    if case.steps:
        at = case.chance.randrange(len(case.steps))
        case.steps.insert(case.chance.choice([at, len(case.steps)]), copy.deepcopy(case.steps[at]))
        return True
    return False


@kind
def the_last_steps_dropped(case):
    if case.steps:
        del case.steps[case.chance.randrange(len(case.steps)):]
        return True
    return False


@kind
def a_clause_emptied(case):
    step = case.step(lambda it: it[0])
    if step:
        step[0].clear()
    return bool(step)


@kind
def a_clause_for_what_the_ground_had(case):
    step = case.step(lambda it: not it[0])
    if step:
        step[0].append(case.fact())
    return bool(step)


@kind
def two_steps_joined(case):
    if len(case.steps) < 2:
        return False
    at = case.chance.randrange(len(case.steps) - 1)
    clause, moves = case.steps.pop(at + 1)
    case.steps[at][0] += clause
    case.steps[at][1] += moves
    return True


@kind
def a_step_parted(case):
    step = case.step(lambda it: len(it[1]) > 1)
    if step:
        at = case.chance.randint(1, len(step[1]) - 1)
        case.steps.insert(case.steps.index(step) + 1, [copy.deepcopy(step[0]), step[1][at:]])
        del step[1][at:]
    return bool(step)


@kind
def a_step_at_the_end(case):
    case.steps.append(case.chance.choice([[[], []], [[case.fact()], []], [[], [case.move()]]]))
    return True


@kind
def a_step_of_another_form(case):
    if not case.steps:
        return False
    at = case.chance.randrange(len(case.steps))
    case.steps[at] = case.chance.choice([[], [[]], [*case.steps[at], []], {}, 0, "step", [[], [[]]], [[[]], []], [{}, []], [[], {}]])
    return True


def facts_against(case, offsets, streams, link):
    """Facts that aren't so of a schedule, or just are: their opposites hold it fast."""
    chance, slack, found = case.chance, lambda: case.chance.choice([0, 0, 0, 0, 1, -1, 5]), []
    for i in streams:
        found += [["until", i, max(0, offsets[i] - 1 - slack())], ["from", i, max(0, offsets[i] + 1 + slack())]]
        for j in streams:
            for lag in case.network.lags(i, j) if i != j else ():
                if offsets[j] >= offsets[i] + case.network.weight(i, j, link, lag) and chance.random() < 0.5:
                    found.append(["order", *check_argument.written_order(j, i, link, lag)])
    flowspan = case.network.flowspan(offsets)
    found += [["done_until", flowspan - 1 - slack()], ["done_from", flowspan + 1 + slack()]]
    chance.shuffle(found)
    return found[: chance.randint(1, len(found))] if chance.random() < 0.5 else found


def one_or_the_other(case, offsets, streams, link):
    """A step whose clause always holds: a fact and what stands against it, near a schedule."""
    chance, i = case.chance, case.chance.choice(streams)
    near = max(0, offsets[i] + chance.choice([-1, 0, 0, 1]))
    done = max(0, case.network.flowspan(offsets) + chance.choice([-1, 0, 0, 1]))
    one, two, *on = case.order(*chance.sample(streams, 2), link)
    clause, moves = chance.choice([
        ([["from", i, near + 1], ["until", i, near]], []),
        ([["done_from", done + 1], ["done_until", done]], []),
        ([["order", one, two, *on], ["order", two, one, *on]], [["round", [[one, two, *on], [two, one, *on]]]]),
    ])
    chance.shuffle(clause)
    if chance.random() < 0.2:
        clause.append(chance.choice(clause))
    return [clause, moves]


def move_among(case, view, clauses, streams, link):
    """A move of these streams or their frames on their link, mostly of a right form."""
    chance = case.chance
    frames = case.frames(streams)

    def some(of):
        found = chance.sample(of, chance.randint(1, len(of)))
        if chance.random() < 0.15:
            found.insert(chance.randint(0, len(found)), chance.choice(frames))
        return found

    word = chance.choice(["go", "go", "turn", "turn", "use", "arrive", "last", "last", "first", "first", "pack", "round"])
    if word == "use":
        return [word, len(clauses) - 1 - chance.randrange(3) if len(clauses) > 2 else chance.randrange(len(clauses) + 1)]
    if word == "arrive":
        return [word, chance.choice(streams)]
    if word == "pack":
        return [word, link, some(frames)]
    orders = sorted(view.orders)
    if word in ("go", "round") and not orders:
        word = "turn"
    if word == "go":
        return [word, *check_argument.written_order(*chance.choice(orders))]
    if word == "turn":
        return [word, *case.order(*chance.sample(streams, 2), link)]
    if word == "round":
        found = [chance.choice(orders)]
        while len(found) < 4 and found[-1][1] != found[0][0]:
            found.append(chance.choice([it for it in orders if it[0] == found[-1][1]] or orders))
        return [word, [check_argument.written_order(*it) for it in found]]
    frame = chance.choice(frames)
    others = some([it for it in frames if it != frame])
    return [word, link, frame, others, some(others)]


@kind
def a_step_against_a_schedule(case):
    """A clause that a schedule contradicts, or just doesn't, and moves on one link that are allowed, but for the last one perhaps."""
    chance = case.chance
    shared = [link for link in case.links if sum(link in it.start for it in case.network.streams) > 1]
    if not case.known or not shared:
        return False
    at, link, offsets = chance.randint(0, len(case.steps)), chance.choice(shared), chance.choice(case.known)
    users = [i for i, it in enumerate(case.network.streams) if link in it.start]
    streams = chance.sample(users, min(len(users), chance.randint(2, 6)))
    plan = (case.plan["flowspan"], case.plan["offsets"]) if case.has_schedule() else None
    try:
        checker = check_argument.Checker(case.network, plan, case.cert["goal"])
        for clause, moves in case.steps[:at]:
            checker.step(clause, moves)
        for _ in range(chance.choice([0, 0, 1, 3])):
            case.steps.insert(at, one_or_the_other(case, offsets, streams, link))
            checker.step(*case.steps[at])
            at += 1
        clause = facts_against(case, offsets, streams, link)
        view = checker.ground.copy()
        for fact in clause:
            view.learn(check_argument.opposite(fact))
    except check_argument.Fault:
        return False
    moves = []
    for _ in range(25):
        if view.is_impossible():
            break
        move, tried = move_among(case, view, checker.clauses, streams, link), view.copy()
        try:
            checker.move(tried, move)
        except check_argument.Fault:
            if chance.random() < 0.04:
                moves.append(move)
                break
            continue
        view = tried
        moves.append(move)
    case.steps.insert(at, [clause, moves])
    return True


# The moves of a step.


@kind
def a_move_dropped(case):
    moves = case.list_of_moves()
    if moves:
        del moves[case.chance.randrange(len(moves))]
    return bool(moves)


@kind
def the_last_moves_dropped(case):
    moves = case.list_of_moves()
    if moves:
        del moves[case.chance.randrange(len(moves)):]
    return bool(moves)


@kind
def a_move_twice(case):
    moves = case.list_of_moves()
    if moves:
        at = case.chance.randrange(len(moves))
        moves.insert(case.chance.choice([at, len(moves)]), copy.deepcopy(moves[at]))
    return bool(moves)


@kind
def moves_swapped(case):
    moves = case.list_of_moves(2)
    if moves:
        at = case.chance.randrange(len(moves) - 1)
        moves[at], moves[at + 1] = moves[at + 1], moves[at]
    return bool(moves)


@kind
def moves_in_another_order(case):
    moves = case.list_of_moves(2)
    if moves:
        case.chance.shuffle(moves)
    return bool(moves)


@kind
def a_move_from_another_step(case):
    move, step = case.made_move(), case.step()
    if move:
        step[1].insert(case.chance.randint(0, len(step[1])), copy.deepcopy(move))
    return bool(move)


@kind
def a_move_added(case):
    step = case.step()
    if step:
        step[1].insert(case.chance.randint(0, len(step[1])), case.move())
    return bool(step)


@kind
def some_moves_added(case):
    for _ in range(case.chance.randint(2, 8)):
        step = case.step()
        if not step:
            return False
        step[1].insert(case.chance.randint(0, len(step[1])), case.move())
    return True


@kind
def a_use_of_another_clause(case):
    move = case.made_move(lambda it: it[0] == "use")
    if move:
        shown = sum(1 for step in case.steps if step[0])
        move[1] = case.chance.choice([max(0, move[1] - 1), move[1] + 1, case.chance.randint(0, shown), shown])
    return bool(move)


@kind
def a_use_of_the_clause_itself(case):
    step = case.step(lambda it: it[0])
    if step:
        number = sum(1 for it in case.steps[: case.steps.index(step)] if it[0])
        step[1].insert(0, ["use", number])
    return bool(step)


# The goal, the target and the plan.


@kind
def another_goal(case):
    case.cert["goal"] = case.chance.choice(["first", "least", "none", "least", "First", "", "optimal"])
    return True


@kind
def another_target(case):
    case.cert["target"] = case.chance.choice([case.cert["target"] - 1, case.cert["target"] + 1, 0, *LARGE, -1])
    return True


@kind
def another_flowspan(case):
    if not case.has_schedule():
        return False
    more = case.chance.choice([-1, 1])
    case.plan["flowspan"] += more
    if case.chance.random() < 0.5:
        case.cert["target"] += more
    return True


def with_offsets(case, offsets):
    """The plan of these offsets, with their own flowspan, which is the target too."""
    case.plan = {"flowspan": case.network.flowspan(offsets), "offsets": offsets}
    case.cert["target"] = case.plan["flowspan"]


@kind
def an_offset_by_one(case):
    if not case.has_schedule():
        return False
    offsets = list(case.plan["offsets"])
    at = case.chance.randrange(len(offsets))
    offsets[at] = max(0, offsets[at] + case.chance.choice([-1, 1]))
    with_offsets(case, offsets)
    return True


@kind
def another_valid_plan(case):
    """A stream later, by little or by much, where that is valid."""
    if not case.has_schedule():
        return False
    for _ in range(30):
        offsets = list(case.plan["offsets"])
        at = case.chance.randrange(len(offsets))
        offsets[at] += case.chance.choice([1, 2, 672, case.chance.randint(1, case.network.cycle)])
        if not case.network.fault(offsets):
            with_offsets(case, offsets)
            return True
    return False


@kind
def all_offsets_later(case):
    if not case.has_schedule():
        return False
    with_offsets(case, [offset + 1 for offset in case.plan["offsets"]])
    return True


@kind
def two_offsets_swapped(case):
    if not case.has_schedule() or len(case.plan["offsets"]) < 2:
        return False
    offsets = list(case.plan["offsets"])
    at, to = case.chance.sample(range(len(offsets)), 2)
    offsets[at], offsets[to] = offsets[to], offsets[at]
    with_offsets(case, offsets)
    return True


@kind
def no_schedule_after_all(case):
    case.plan = {"flowspan": None, "offsets": None}
    case.cert["goal"], case.cert["target"] = "none", case.network.cycle + 1
    return True


@kind
def a_plan_of_another_count(case):
    if not case.has_schedule():
        return False
    offsets = case.plan["offsets"]
    case.plan["offsets"] = case.chance.choice([offsets[:-1], [*offsets, 0], []])
    return True


# The text.


@kind
def blanks(case):
    case.text = re.sub("[,:]", lambda it: it[0] + case.chance.choice(["", " ", "\t", "\n", "\r\n  "]), case.dumped())
    return True


@kind
def keys_in_another_order(case):
    keys = list(case.cert.items())
    case.chance.shuffle(keys)
    case.text = json.dumps(dict(keys), separators=(",", ":"))
    return True


@kind
def a_key_twice(case):
    key = case.chance.choice(list(case.cert))
    value = case.chance.choice([json.dumps(case.cert[key]), "0", "3", "[]", '"least"'])
    text = case.dumped().strip()
    case.text = f'{{"{key}":{value},{text[1:]}' if case.chance.random() < 0.5 else f'{text[:-1]},"{key}":{value}}}'
    return True


@kind
def a_key_more_or_less(case):
    if case.chance.random() < 0.5:
        case.cert[case.chance.choice(["nodes", "", "Goal", "step"])] = []
    else:
        del case.cert[case.chance.choice(list(case.cert))]
    return True


@kind
def another_format(case):
    case.cert["format"] = case.chance.choice([0, 1, 2, 4, 3.0, "3", None, -3, 4_294_967_299, [3]])
    return True


@kind
def a_byte_dropped(case):
    text = case.dumped()
    at = case.chance.randrange(len(text))
    case.text = text[:at] + text[at + 1:]
    return True


@kind
def a_byte_changed(case):
    text = case.dumped()
    at = case.chance.randrange(len(text))
    case.text = text[:at] + case.chance.choice('0123456789-+.eE[]{},:"\\ntu \x00\x7f') + text[at + 1:]
    return True


@kind
def a_byte_added(case):
    text = case.dumped()
    at = case.chance.randrange(len(text))
    case.text = text[:at] + case.chance.choice('0123456789-+.eE[]{},:"\\ntu \x00\x7f\u00e9') + text[at:]
    return True


@kind
def a_word_in_escapes(case):
    text = case.dumped()
    at = case.pick(it.start() for it in re.finditer("[a-z_]", text))
    if at is not None:
        case.text = text[:at] + f"\\u{ord(text[at]):04x}" + text[at + 1:]
    return at is not None


@kind
def a_beginning_of_the_text(case):
    text = case.dumped()
    case.text = text[: case.chance.randrange(len(text))]
    return True


# Runs.


class Unsound(Exception):
    """A step shows what isn't so."""


def holds(network, fact, offsets):
    kind, *of = fact
    if kind == "from":
        return offsets[of[0]] >= of[1]
    if kind == "until":
        return offsets[of[0]] <= of[1]
    if kind == "order":
        return offsets[of[1]] >= offsets[of[0]] + network.weight(*of)
    return network.flowspan(offsets) >= of[0] if kind == "done_from" else network.flowspan(offsets) <= of[0]


class Watched(check_argument.Checker):
    """The slow checker, which asks after each step whether what it shows is so of the schedules in question that are known."""

    known = []

    def __init__(self, network, plan, goal):
        super().__init__(network, plan, goal)
        self.asked = [offsets for offsets in self.known if self.is_in_question(offsets)]

    def is_in_question(self, offsets):
        if self.goal == "none":
            return True
        flowspan = self.network.flowspan(offsets)
        return flowspan < self.flowspan or (self.goal == "first" and flowspan == self.flowspan and offsets <= self.offsets)

    def fits_ground(self, offsets):
        ground = self.ground
        return (
            all(low <= offset <= high for low, offset, high in zip(ground.low, offsets, ground.high))
            and ground.done_low <= self.network.flowspan(offsets) <= ground.done_high
            and all(holds(self.network, ["order", *order], offsets) for order in ground.orders)
        )

    def step(self, clause, moves):
        super().step(clause, moves)
        for offsets in self.asked:
            if not self.fits_ground(offsets) or (clause and not any(holds(self.network, fact, offsets) for fact in clause)):
                raise Unsound


def some_schedules(chance, network, plan):
    """The plan and some other valid schedules, of which the most are of a later flowspan."""
    if plan["offsets"] is None:
        return []
    known = [plan["offsets"]]
    for _ in range(100):
        offsets = list(chance.choice(known))
        for _ in range(chance.choice([1, 1, 2, 5])):
            at = chance.randrange(len(offsets))
            offsets[at] = max(0, offsets[at] + chance.choice([-1, 1, 1, chance.randint(-network.cycle, network.cycle) // chance.choice([1, 10, 100])]))
        if not network.fault(offsets):
            known.append(offsets)
    return known


def is_so(line, plan, changed):
    """Whether an accepted line says what is so, by the plan that is known."""
    if line == "accepted no schedule":
        return plan["offsets"] is None
    if plan["offsets"] is None:
        return False
    if line.startswith("accepted first"):
        return line == f"accepted first {plan['flowspan']}" and changed["offsets"] == plan["offsets"]
    return line == f"accepted optimal {plan['flowspan']}"


class Run:
    def __init__(self, words):
        self.words = words
        self.chance = random.Random(words.seed)
        self.folder = tempfile.TemporaryDirectory()
        self.answers = collections.defaultdict(collections.Counter)
        self.wrong = 0

    def tsn(self, network, plan, cert):
        paths = [network, os.path.join(self.folder.name, "plan"), os.path.join(self.folder.name, "cert")]
        for path, text in zip(paths[1:], (plan, cert)):
            with open(path, "wb") as file:
                file.write(text)
        try:
            found = subprocess.run([self.words.tsn, "check", *paths], capture_output=True, text=True, timeout=60)
        except subprocess.TimeoutExpired:
            return "no end within 60 seconds", None
        return found.stdout.removesuffix("\n"), found.returncode

    def complain(self, number, name, kinds, said, plan, cert):
        self.wrong += 1
        print(f"{number} {name}: {', '.join(it.__name__ for it in kinds)}: {said}", flush=True)
        if self.words.wrong:
            os.makedirs(self.words.wrong, exist_ok=True)
            for end, text in ("plan", plan), ("cert", cert):
                with open(os.path.join(self.words.wrong, f"{number}-{name}.{end}"), "wb") as file:
                    file.write(text)

    def one(self, number, name, path, network, plan, cert, known):
        case = Case(self.chance, network, plan, cert, known)
        kinds = []
        for _ in range(self.chance.choice([1, 1, 1, 2, 3])):
            change = a_step_against_a_schedule if self.chance.random() < 0.2 else self.chance.choice(KINDS)
            try:
                if case.text is None and change(case):
                    kinds.append(change)
            except (LookupError, TypeError, AttributeError, ValueError):
                # (a change before this one left another form than it changes)
                pass
        plan_text, cert_text = (json.dumps(case.plan, separators=(",", ":")) + "\n").encode(), case.relaid().encode()
        Watched.known = known
        try:
            line, status = check_argument.judged(network, plan_text, cert_text, Watched)
        except Unsound:
            self.complain(number, name, kinds, "a step shows what isn't so", plan_text, cert_text)
            return
        short = line if status != check_argument.ACCEPTED else "accepted"
        for change in kinds:
            self.answers[change][re.sub(r"certificate | node \d+|refused ", "", short)] += 1
        if status == check_argument.ACCEPTED and not is_so(line, plan, case.plan):
            self.complain(number, name, kinds, f"{line}, and that isn't so", plan_text, cert_text)
        if self.words.tsn and status != check_argument.NOT_JUDGED:
            found = self.tsn(path, plan_text, cert_text)
            if found != (line, status):
                self.complain(number, name, kinds, f"slow: {status} {line}; tsn: {found[1]} {found[0]}", plan_text, cert_text)


def main():
    words = argparse.ArgumentParser(description=__doc__, formatter_class=argparse.RawDescriptionHelpFormatter)
    words.add_argument("networks")
    words.add_argument("kept")
    words.add_argument("--tsn")
    words.add_argument("--seed", type=int, default=1)
    words.add_argument("--count", type=int, default=1000)
    words.add_argument("--bytes", type=int, default=100_000)
    words.add_argument("--only", default="")
    words.add_argument("--wrong")
    words = words.parse_args()
    words.tsn = words.tsn and os.path.abspath(words.tsn)
    run = Run(words)
    cases = []
    for name in sorted(it.removesuffix(".cert") for it in os.listdir(words.kept) if it.endswith(".cert")):
        path = os.path.join(words.networks, name + ".toml")
        cert = check_argument.read(os.path.join(words.kept, name + ".cert"))
        if not os.path.exists(path) or len(cert) > words.bytes or not re.search(words.only, name):
            continue
        network = check_argument.Network(check_argument.read(path))
        plan = check_argument.read(os.path.join(words.kept, name + ".plan"))
        line, status = check_argument.judged(network, plan, cert)
        if status != check_argument.ACCEPTED:
            sys.exit(f"{name} isn't accepted as it is: {line}")
        plan = json.loads(plan)
        cases.append((name, path, network, plan, json.loads(cert), some_schedules(run.chance, network, plan)))
    if not cases:
        sys.exit("there are no arguments")
    for number in range(words.count):
        run.one(number, *run.chance.choice(cases))
    for change in sorted(KINDS, key=lambda it: it.__name__):
        said = ", ".join(f"{line} {count}" for line, count in run.answers[change].most_common())
        print(f"{change.__name__:42} {said}")
    print(f"{words.count} changed arguments of {len(cases)} networks, {len(KINDS)} kinds; {run.wrong} are wrong")
    sys.exit(run.wrong > 0)


if __name__ == "__main__":
    main()
