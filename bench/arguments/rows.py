#!/usr/bin/env python3
"""Writes crates/tsn_rows/data/arguments.rows: arguments that are accepted and refused, each with the line of `tsn check`.

rows.py           writes the table
rows.py --told    tells how many rows there are of each answer, and writes nothing

The line of each row is that of the slow checker (check_argument.py). Where a row has an answer here, it was found by hand, from
what arguments mean, and has to be the slow checker's. docs/rows.md says how a table is written.
"""

import collections
import json
import os
import re
import sys

import check_argument

ROOT = os.path.dirname(os.path.dirname(os.path.dirname(os.path.abspath(__file__))))
DATA = os.path.join(ROOT, "crates", "tsn_rows", "data")
TABLE = os.path.join(DATA, "arguments.rows")


# How a table is read (docs/rows.md).


def expanded(text):
    """The bytes of a text with its marks."""
    found = b""
    for k, part in enumerate(text.split("<")):
        if k == 0:
            found += part.encode()
            continue
        mark, behind = part.split(">", 1)
        if "*" in mark:
            count, again = mark.split("*", 1)
            found += "".join(again.replace("#", str(number)) for number in range(int(count))).encode()
        elif mark:
            found += bytes([int(mark, 16)])
        found += behind.encode()
    return found


def changed(text, changes):
    for change in changes:
        old, new = (it.strip() for it in change.split("=>", 1))
        assert text.count(old) == 1, f"{old} stands {text.count(old)} times"
        text = text.replace(old, new)
    return text


def text_of(content):
    source, *changes = content.split(" | ")
    if source.startswith("@"):
        with open(os.path.join(DATA, source[1:])) as file:
            text = file.read()
    else:
        text = source + "\n"
    return changed(text, changes)


class Rows:
    """The lines of the table, and how many rows have each answer."""

    def __init__(self):
        self.lines = ["# Arguments, which are certificates of format 3. bench/arguments/rows.py writes this table; the lines are those of a slow checker"]
        self.lines += ["# that is written apart (bench/arguments/check_argument.py)."]
        self.answers, self.by_hand, self.wrong = collections.Counter(), 0, 0
        self.files, self.varied, self.base = {}, None, None

    def note(self, *lines):
        self.lines += ["# " + line for line in lines]

    def table(self, title, vary, **files):
        """A table of rows that differ in one file: `vary` is the name and the content of it."""
        self.lines += ["", *("# " + it for it in title.split("\n")), "table check net plan cert"]
        self.files = {name: expanded(text_of(content)) for name, content in files.items()}
        self.lines += [f"file {name} = {content}" for name, content in files.items()]
        self.varied, content = vary
        self.base = text_of(content)
        self.lines.append(f"vary {self.varied} = {content}")

    def answer(self, data):
        files = {**self.files, self.varied: data}
        network = check_argument.Network(files["net"])
        line, status = check_argument.judged(network, files["plan"], files["cert"])
        assert status != check_argument.NOT_JUDGED
        return f"{status} {line}"

    def row(self, hand, *changes):
        """A row, and its answer where it was found by hand: `first 2924`, `C2`, `plan C1`, `K2` or `K7 3`."""
        assert all("=>" in it and " | " not in it for it in changes), changes
        found = self.answer(expanded(changed(self.base, changes)))
        if hand is not None:
            self.by_hand += 1
            wanted = self.in_full(hand)
            if wanted != found:
                self.wrong += 1
                print(f"{' | '.join(changes)[:400]}\n  {wanted} by hand, and {found}")
        self.answers[re.sub(r"node \d+|\d{3,}", "", found[2:]).strip()] += 1
        self.lines.append(" | ".join([f"- {found}", *changes]).rstrip())

    def in_full(self, hand):
        if hand.startswith(("first", "optimal", "no schedule")):
            return f"0 accepted {hand}"
        if hand.startswith("K"):
            code, _, step = hand.partition(" ")
            return f"6 certificate refused {code}" + (f" node {step}" if step else "")
        return f"3 refused {hand if hand.startswith('plan') else 'cert ' + hand}"

    def cut(self, less, hand):
        whole = expanded(self.base)
        answers = {self.answer(whole[:count]) for count in range(len(whole) - less + 1)}
        assert answers == {self.in_full(hand)}, answers
        self.answers[self.in_full(hand)[2:]] += 1
        self.lines.append(f"cut {less} {self.in_full(hand)}")


# Arguments, as texts.


def text(value):
    return json.dumps(value, separators=(",", ":"))


def f(i, v):
    return ["from", i, v]


def u(i, v):
    return ["until", i, v]


def o(i, j, link, *lag):
    return ["order", i, j, link, *lag]


def df(v):
    return ["done_from", v]


def du(v):
    return ["done_until", v]


def go(i, j, link, *lag):
    return ["go", i, j, link, *lag]


def turn(i, j, link, *lag):
    return ["turn", i, j, link, *lag]


def use(k):
    return ["use", k]


def arrive(i):
    return ["arrive", i]


def last(link, j, others, some):
    return ["last", link, j, others, some]


def first(link, j, others, some):
    return ["first", link, j, others, some]


def pack(link, some):
    return ["pack", link, some]


def fill(link, frame, others, before, after, v):
    return ["fill", link, frame, others, before, after, v]


def fill_back(link, frame, others, before, after, v):
    return ["fill_back", link, frame, others, before, after, v]


def waste(link, some, fixed):
    return ["waste", link, some, fixed]


def round_of(*orders):
    return ["round", [list(it) for it in orders]]


def step(clause, *moves):
    return text([list(clause), list(moves)])


def steps(*some):
    return ",".join(some)


# The two streams share link 4, from S to C: both start there 1626 ns after their offsets, for 672 ns, and arrive 2252 ns after
# them. The offsets 0 and 672 are the first best plan, of flowspan 2924. The greatest offset is 997702.
TWO = "@two-streams.toml"
PLAN = "@two-streams.plan"
BOUND = step([df(2924)], arrive(0), arrive(1), first(4, 0, [1], [1]))
ENDED = step([], last(4, 1, [0], [0]))
PROOF = steps(BOUND, ENDED)
WHOLE = f'{{"format":3,"goal":"first","steps":[{PROOF}],"target":2924}}'
NONE = '{"flowspan":null,"offsets":null}'


def whole_files(rows):
    rows.table("Whole files.", ("cert", "@whole"), net=TWO, plan=PLAN)
    rows.row("first 2924", f"WHOLE => {WHOLE}")
    rows.note("What isn't JSON.")
    for content in (
        "", "<0a>", WHOLE + "{}", WHOLE + "1", WHOLE + "]", "<ef><bb><bf>" + WHOLE, WHOLE + "<00>", WHOLE[:-1], WHOLE[:-1] + ",}",
        WHOLE.replace("[[[", "[[[,", 1), WHOLE.replace("]]]]", "]]],]", 1), WHOLE.replace('"', "'"), "// an argument<0a>" + WHOLE,
        WHOLE.replace(":3", ":03"), WHOLE.replace(":3", ":+3"), WHOLE.replace(":3", ":3."), WHOLE.replace(":3", ":.3"), WHOLE.replace(":3", ":-"),
        WHOLE.replace(":3", ":0x3"), WHOLE.replace(":3", ":NaN"), WHOLE.replace(":3", ":Infinity"), WHOLE.replace(":3", ":-Infinity"),
        WHOLE.replace(":3", ":1e400"), WHOLE.replace(":3", ":-1e400"), WHOLE.replace(":3", ":1<400*0>"), WHOLE.replace(":3", ":True"),
        WHOLE.replace(":3", ":3<0c>"), WHOLE.replace(":3", ":3<0b>"), WHOLE.replace(":3", ":3<c2><a0>"), WHOLE.replace(":3", "=3"),
        WHOLE.replace("first", "fi<09>rst", 1), WHOLE.replace("first", "fi<0a>rst", 1), WHOLE.replace("first", "fi<1f>rst", 1),
        WHOLE.replace("first", "fi<00>rst", 1), WHOLE.replace("first", "<ff>", 1), WHOLE.replace("first", "<c0><80>", 1),
        WHOLE.replace("first", "<ed><a0><80>", 1), WHOLE.replace("first", "\\x66irst", 1), WHOLE.replace("first", "\\u66irst", 1),
        WHOLE.replace("first", "\\ud800", 1), WHOLE.replace("first", "\\udc00", 1), WHOLE.replace("first", "\\ud800\\u0041", 1),
        WHOLE.replace("goal", "\\ud800", 1), WHOLE.replace("arrive", "\\ud800", 1), WHOLE.replace("arrive", "\\", 1),
        WHOLE.replace('"first"', "first", 1), WHOLE.replace('"goal"', "goal"), WHOLE.replace(",", ";", 1), "[" + WHOLE, "{" + WHOLE,
    ):
        rows.row("C1", f"WHOLE => {content}")
    rows.note("JSON that is no argument.")
    for content in (
        "null", "true", "3", '"first"', "[]", "{}", f"[{WHOLE}]", '{"format":3}', WHOLE.replace('"format":3,', ""),
        WHOLE.replace('"goal":"first",', ""), re.sub(r'"steps":.*,"target"', '"target"', WHOLE), WHOLE.replace(',"target":2924', ""),
        WHOLE.replace("goal", "Goal"), WHOLE.replace('"format"', '"Format"'), WHOLE.replace("steps", "step"), WHOLE.replace('"target"', '"Target"'),
        WHOLE.replace("steps", "nodes"), WHOLE[:-1] + ',"nodes":[]}', WHOLE[:-1] + ',"":0}', WHOLE[:-1] + ',"more":null}',
        WHOLE.replace("goal", "go<7f>al", 1), WHOLE.replace("goal", "\\u0000", 1), WHOLE.replace("goal", "go\\u0061l ", 1),
    ):
        rows.row("C2", f"WHOLE => {content}")
    rows.note("Trees of format 1 and 2 have no steps, and an argument has no nodes.")
    for content in (
        '{"format":3,"nodes":[],"target":2924}', '{"format":3,"nodes":[["late",1,[]]],"target":2924}',
        '{"format":3,"goal":"first","nodes":[],"target":2924}', '{"format":1,"goal":"first","steps":[],"target":2924}',
        '{"format":2,"goal":"first","steps":[],"target":2924}', '{"format":2,"nodes":[],"steps":[],"target":2924}',
        '{"format":2,"goal":"first","nodes":[],"target":2924}',
    ):
        rows.row("C2", f"WHOLE => {content}")
    for number in ("0", "1", "2", "4", "-3", "3.0", "3e0", '"3"', "null", "[3]", "4294967299", "18446744073709551619"):
        rows.row("C2", f"WHOLE => {WHOLE.replace(':3', ':' + number, 1)}")
    for goal in (
        '"First"', '"first "', '""', '"optimal"', '"firsts"', "null", "3", '["first"]', '"f\\u0131rst"',
    ):
        rows.row("C2", f"WHOLE => {WHOLE.replace(chr(34) + 'first' + chr(34), goal, 1)}")
    for target in ("-1", "2924.0", "null", '"2924"', "[2924]", "18446744073709551616"):
        rows.row("C2", f"WHOLE => {WHOLE.replace(':2924', ':' + target, 1)}")
    for target in ("2000000001", "18446744073709551615"):
        rows.row("C3", f"WHOLE => {WHOLE.replace(':2924', ':' + target, 1)}")
    for target in ("2000000000", "0", "2923", "2925"):
        rows.row("K2", f"WHOLE => {WHOLE.replace(':2924', ':' + target, 1)}")
    for some in ("null", "0", "{}"):
        rows.row("C2", "WHOLE => " + re.sub(r'"steps":.*,"target"', f'"steps":{some},"target"', WHOLE))
    rows.note("Arrays and objects nest 127 deep at most: the object, the steps and 125 more, or 126.")
    deep = '{"format":3,"goal":"first","steps":[<%d*[><%d*]>],"target":2924}'
    rows.row("C2", "WHOLE => " + deep % (125, 125))
    rows.row("C1", "WHOLE => " + deep % (126, 126))
    rows.row("C1", "WHOLE => " + deep % (5000, 5000))
    rows.row("C1", "WHOLE => <200000*[>")
    rows.note("Brackets in a text aren't arrays.")
    rows.row("C2", f"WHOLE => {WHOLE.replace('arrive', '<200*[>', 1)}")
    rows.note("Another layout: blanks, no line feed or many, keys in any order, escapes.")
    four = re.match(r'\{("format":3),("goal":"first"),("steps":.*),("target":2924)\}', WHOLE).groups()
    for order in ("3210", "1032", "2301", "0321", "3012", "2013"):
        rows.row("first 2924", "WHOLE => {" + ",".join(four[int(it)] for it in order) + "}")
    rows.row("first 2924", "WHOLE => <0d><0a> { <09>" + WHOLE[1:].replace(",", " , ").replace(":", " :<0a>").replace("[", "[ ") + "<0a><0a><20>")
    rows.row("first 2924", "WHOLE => " + WHOLE.replace("goal", "\\u0067o\\u0061l", 1))
    rows.row("first 2924", "WHOLE => " + WHOLE.replace("first", "\\u0066\\u0069rs\\u0074", 1))
    rows.row("first 2924", "WHOLE => " + WHOLE.replace("done_from", "done\\u005ffrom", 1))
    rows.row("first 2924", "WHOLE => " + WHOLE.replace("done_from", "done\\u005Ffrom", 1))
    rows.row("first 2924", "WHOLE => " + WHOLE.replace("arrive", "\\u0061\\u0072\\u0072\\u0069\\u0076\\u0065", 1))
    for word in ("arr\\/ive", "arrive\\u0000", "arriv\\u0435", "\\ud83d\\ude00", "<f0><9f><98><80>"):
        rows.row("C2", "WHOLE => " + WHOLE.replace("arrive", word, 1))
    rows.note("A key that stands twice has its last value; what the first one says isn't looked at, but for being JSON.")
    rows.row("first 2924", f'WHOLE => {{"format":1,{WHOLE[1:]}')
    rows.row("first 2924", f'WHOLE => {{"format":null,{WHOLE[1:]}')
    rows.row("C2", f'WHOLE => {WHOLE[:-1]},"format":1}}')
    rows.row("C2", f'WHOLE => {WHOLE[:-1]},"format":2}}')
    rows.row("first 2924", f'WHOLE => {{"goal":"none",{WHOLE[1:]}')
    rows.row("first 2924", f'WHOLE => {{"goal":7,{WHOLE[1:]}')
    rows.row("K2", f'WHOLE => {WHOLE[:-1]},"goal":"none"}}')
    rows.row("K4 1", f'WHOLE => {WHOLE[:-1]},"goal":"least"}}')
    rows.row("C2", f'WHOLE => {WHOLE[:-1]},"goal":"last"}}')
    rows.row("first 2924", f'WHOLE => {{"steps":[],{WHOLE[1:]}')
    rows.row("first 2924", f'WHOLE => {{"steps":[[[["from",4294967296,0]],[]]],{WHOLE[1:]}')
    rows.row("first 2924", f'WHOLE => {{"steps":{{}},{WHOLE[1:]}')
    rows.row("K3 0", f'WHOLE => {WHOLE[:-1]},"steps":[]}}')
    rows.row("first 2924", f'WHOLE => {{"target":2000000001,{WHOLE[1:]}')
    rows.row("K2", f'WHOLE => {WHOLE[:-1]},"target":2923}}')
    rows.row("C3", f'WHOLE => {WHOLE[:-1]},"target":2000000001}}')
    rows.row("C1", f'WHOLE => {{"target":1e400,{WHOLE[1:]}')
    rows.row("C1", f'WHOLE => {{"goal":"\\ud800",{WHOLE[1:]}')
    rows.row("first 2924", f'WHOLE => {{"go\\u0061l":"none",{WHOLE[1:]}')
    rows.table("Each beginning of a file that lacks its last brace.", ("cert", WHOLE), net=TWO, plan=PLAN)
    rows.cut(2, "C1")


def lags(rows, form, name, hand):
    """Rows of a form at each kind of lag, L: at those within the limit the answer is this."""
    for lag in ("1", "-1", "672", "999999999", "-999999999"):
        rows.row(hand, f"{name} => {form.replace('L', lag)}")
    for lag in ("1000000000", "-1000000000", "18446744073709551615", "-9223372036854775808"):
        rows.row("C3", f"{name} => {form.replace('L', lag)}")
    for lag in ("0", "-0", "0.0", "5.0", "-0.5", "1e3", '"5"', "null", "true", "[]", "18446744073709551616", "-9223372036854775809"):
        rows.row("C2", f"{name} => {form.replace('L', lag)}")
    for lag in ("+5", "--5", "05", "-05", "-"):
        rows.row("C1", f"{name} => {form.replace('L', lag)}")


def shifts(rows, form, hand):
    """Rows of a move at each kind of shift, T: at those within the limit the answer is this."""
    for shift in ("1", "672", "4294967295"):
        rows.row(hand, f"MOVE => {form.replace('T', shift)}")
    for shift in ("4294967296", "18446744073709551615"):
        rows.row("C3", f"MOVE => {form.replace('T', shift)}")
    for shift in ("0", "-0", "-1", "5.0", '"5"', "null", "true", "[5]", "5,6", "18446744073709551616"):
        rows.row("C2", f"MOVE => {form.replace('T', shift)}")


def forms(rows):
    template = '{"format":3,"goal":"first","steps":[STEPS],"target":2924}'
    rows.table("Steps: a clause and moves. Those that are in the grammar are judged; no step shows the least flowspan here.", ("cert", template), net=TWO, plan=PLAN)
    rows.row("K3 0", "STEPS =>")
    rows.row("K3 1", "STEPS => [[],[]]")
    rows.row("K3 2", "STEPS => [[],[]],[[],[]]")
    rows.row("K7 0", 'STEPS => [[["from",0,1]],[]]')
    for some in (
        "0", '"step"', "null", "{}", "[]", "[[]]", "[[],[],[]]", "[{},[]]", "[[],{}]", "[0,[]]", "[[],null]", "[[0],[]]", "[[],[null]]", "[[[]],[]]", "[[],[[]]]",
        "[[{}],[]]", '[["from",0,1],[]]', '[[],["arrive",0]]', '[[["from",0,1]]]', "[[],[]],[]", "[[],[]],0", '{"clause":[],"moves":[]}', "[[[0]],[]]", "[[],[[[]]]]",
    ):
        rows.row("C2", f"STEPS => {some}")

    rows.table("Facts.", ("cert", template.replace("STEPS", "[[FACT],[]]")), net=TWO, plan=PLAN)
    rows.note("Each form, with a part less and a part more. From 0 on each offset and flowspan is, so the first of each is shown at once.")
    for fact, hand in (
        (f(0, 0), "K3 1"), (u(0, 2000000000), "K3 1"), (o(0, 1, 4), "K7 0"), (o(1, 0, 4), "K7 0"), (df(0), "K3 1"), (du(2924), "K3 1"),
    ):
        rows.row(hand, f"FACT => {text(fact)}")
        rows.row("C2", f"FACT => {text(fact[:-1])}")
        rows.row("C2", f"FACT => {text([*fact, 0])}")
    for word in ("From", "", "from ", "done from", "late", "go", "arrive"):
        rows.row("C2", f"FACT => {text([word, 0, 0])}")
    rows.row("C2", 'FACT => [0,0,"from"]')
    rows.row("C2", 'FACT => [["from"],0,0]')
    rows.row("C2", "FACT => [null,0,0]")
    rows.row("C2", 'FACT => {"from":[0,0]}')
    rows.note("Numbers at their limits: 2000000000 of a time, 4294967295 of streams and links.")
    for fact, hand in ((["from", 0, "V"], "K7 0"), (["until", 0, "V"], "K3 1"), (["done_from", "V"], "K7 0"), (["done_until", "V"], "K3 1")):
        rows.row(hand, "FACT => " + text(fact).replace('"V"', "2000000000"))
        for number in ("2000000001", "4294967296"):
            rows.row("C3", "FACT => " + text(fact).replace('"V"', number))
        for number in ("-1", "1.0", '"0"'):
            rows.row("C2", "FACT => " + text(fact).replace('"V"', number))
    for number in ("18446744073709551616", "-0", "0.5", "1e3", "null", "true", "[0]", "{}"):
        rows.row("C2", f'FACT => ["from",0,{number}]')
    rows.row("C3", 'FACT => ["from",0,18446744073709551615]')
    for number in ("1e400", "01", "-", "+1", "0x1", "1_000"):
        rows.row("C1", f'FACT => ["from",0,{number}]')
    for fact, hand in (
        (["from", "I", 0], "K9 0"), (["until", "I", 0], "K9 0"), (["order", "I", 1, 4], "K5 0"), (["order", 0, "I", 4], "K5 0"), (["order", 0, 1, "I"], "K5 0"),
    ):
        rows.row(hand, "FACT => " + text(fact).replace('"I"', "4294967295"))
        rows.row("C3", "FACT => " + text(fact).replace('"I"', "4294967296"))
        rows.row("C2", "FACT => " + text(fact).replace('"I"', "-1"))
    rows.note("Lags. One of 0 isn't written. Of streams that send one frame a cycle no two frames have another one, above 0 or below.")
    lags(rows, '["order",0,1,4,L]', "FACT", "K5 0")
    rows.row("K5 0", 'FACT => ["order",1,0,4,5]')
    rows.row("K5 0", 'FACT => ["order",1,0,4,-5]')
    rows.row("K5 0", 'FACT => ["order",0,0,4,5]')
    for fact in ('["order",0,1,4,5,6]', '["order",0,1,4,[5]]', '["order",0,1,-4]', '["order",0,1,-4,5]', '["from",0,-5]', '["from",0,1,5]', '["from",[0,1],1]',
                 '["until",0,-1]', '["done_from",-1]', '["done_until",1,5]', '["order",[0,1],1,4]', '["order",0,[1,1],4,5]'):
        rows.row("C2", f"FACT => {fact}")

    rows.table("Moves.", ("cert", template.replace("STEPS", "[[],[MOVE]]")), net=TWO, plan=PLAN)
    rows.note("Each form, with a part less and a part more.")
    for move, hand in (
        (go(0, 1, 4), "K6 0"), (turn(0, 1, 4), "K7 0"), (use(0), "K6 0"), (arrive(0), "K3 1"), (last(4, 1, [0], [0]), "K7 0"), (first(4, 1, [0], [0]), "K7 0"),
        (pack(4, [0, 1]), "K7 0"), (round_of([0, 1, 4]), "K6 0"),
    ):
        rows.row(hand, f"MOVE => {text(move)}")
        rows.row("C2", f"MOVE => {text(move[:-1])}")
        rows.row("C2", f"MOVE => {text([*move, 0])}")
    for word in ("Go", "apply", "", "turn ", "order", "done_from", "branch"):
        rows.row("C2", f"MOVE => {text([word, 0, 1, 4])}")
    rows.row("C2", 'MOVE => [0,1,4,"go"]')
    rows.row("C2", 'MOVE => {"use":0}')
    rows.note("Numbers at their limits. The moves are judged only where all of the file is in the grammar and within them.")
    for move, hand in (
        (["go", "I", 1, 4], "K6 0"), (["go", 0, "I", 4], "K6 0"), (["go", 0, 1, "I"], "K6 0"), (["turn", "I", 1, 4], "K5 0"), (["turn", 0, "I", 4], "K5 0"),
        (["turn", 0, 1, "I"], "K5 0"), (["use", "I"], "K6 0"), (["arrive", "I"], "K9 0"), (["last", "I", 1, [0], [0]], "K9 0"), (["last", 4, "I", [0], [0]], "K9 0"),
        (["last", 4, 1, ["I"], [0]], "K9 0"), (["last", 4, 1, [0], ["I"]], "K6 0"), (["first", "I", 1, [0], [0]], "K9 0"), (["first", 4, "I", [0], [0]], "K9 0"),
        (["first", 4, 1, ["I"], [0]], "K9 0"), (["first", 4, 1, [0], ["I"]], "K6 0"), (["pack", "I", [0]], "K9 0"), (["pack", 4, ["I"]], "K9 0"),
        (["round", [["I", 1, 4]]], "K6 0"), (["round", [[0, "I", 4]]], "K6 0"), (["round", [[0, 1, "I"]]], "K6 0"),
    ):
        rows.row(hand, "MOVE => " + text(move).replace('"I"', "4294967295"))
        rows.row("C3", "MOVE => " + text(move).replace('"I"', "4294967296"))
    for move in ('["go",-1,1,4]', '["turn",0,1.0,4]', '["use",-0]', '["arrive","0"]', '["last",4,null,[0],[0]]', '["first",4,1,[0.5],[0]]', '["pack",4,[0,true]]',
                 '["round",[[0,1,[4]]]]', '["last",4,1,[0],[-1]]'):
        rows.row("C2", f"MOVE => {move}")
    rows.row("C3", 'MOVE => ["use",18446744073709551615]')
    rows.row("C2", 'MOVE => ["use",18446744073709551616]')
    rows.row("C2", 'MOVE => ["use","0"]')
    rows.row("C2", 'MOVE => ["use",[0]]')
    rows.note("Lags of moves, as of facts. An order that the view doesn't have is told before anything of its lag.")
    lags(rows, '["go",0,1,4,L]', "MOVE", "K6 0")
    lags(rows, '["turn",0,1,4,L]', "MOVE", "K5 0")
    lags(rows, '["round",[[0,1,4,L]]]', "MOVE", "K6 0")
    lags(rows, '["round",[[0,1,4],[1,0,4,L]]]', "MOVE", "K6 0")
    for move in ('["go",0,1,4,5,6]', '["turn",0,1,4,[5]]', '["round",[[0,1,4,5,6]]]', '["go",0,1,-4,5]', '["use",-1]', '["use",0,5]', '["arrive",-1]'):
        rows.row("C2", f"MOVE => {move}")
    rows.note("Frames. A shift of 0 isn't written. Streams that send one frame a cycle have no other one: not of j, nor in S, and in R none that isn't in S.")
    shifts(rows, '["last",4,[1,T],[0],[0]]', "K9 0")
    shifts(rows, '["last",4,1,[[0,T]],[0]]', "K9 0")
    shifts(rows, '["last",4,1,[0],[[0,T]]]', "K6 0")
    shifts(rows, '["first",4,[1,T],[0],[0]]', "K9 0")
    shifts(rows, '["first",4,1,[[0,T]],[0]]', "K9 0")
    shifts(rows, '["first",4,1,[0],[[0,T]]]', "K6 0")
    shifts(rows, '["pack",4,[[0,T]]]', "K9 0")
    shifts(rows, '["pack",4,[0,1,[1,T]]]', "K9 0")
    for move in ('["arrive",[0,5]]', '["use",[0,5]]', '["go",[0,5],1,4]', '["turn",0,[1,5],4]', '["last",[4,5],1,[0],[0]]', '["last",4,[[1,5]],[0],[0]]', '["pack",4,[0,5],1]',
                 '["pack",4,[[0,5,1]]]', '["pack",4,[[]]]', '["pack",4,[[0]]]', '["pack",4,[[[0],5]]]', '["pack",4,[["0",5]]]', '["pack",4,[[-1,5]]]', '["pack",4,[{}]]',
                 '["round",[[[0,5],1,4]]]'):
        rows.row("C2", f"MOVE => {move}")
    rows.row("C3", 'MOVE => ["pack",4,[[4294967296,5]]]')
    rows.note("A frame that isn't the stream's goes before one that stands twice, and the first of the two in S is told; a stream that isn't there, and a link, are told likewise.")
    rows.row("K9 0", 'MOVE => ["last",4,1,[[0,5],[0,5]],[0]]')
    rows.row("K8 0", 'MOVE => ["last",4,1,[0,0,[0,5]],[0]]')
    rows.row("K9 0", 'MOVE => ["last",4,1,[0,[0,5],0],[0]]')
    rows.row("K9 0", 'MOVE => ["pack",4,[[0,5],0,0]]')
    rows.row("K8 0", 'MOVE => ["pack",4,[0,0,[0,5]]]')
    rows.row("K9 0", 'MOVE => ["pack",4,[[2,5]]]')
    rows.row("K9 0", 'MOVE => ["pack",4,[[128,5]]]')
    rows.row("K9 0", 'MOVE => ["pack",0,[[1,5]]]')
    rows.row("K9 0", 'MOVE => ["last",4,1,[0,[1,5]],[0]]')
    rows.row("K8 0", 'MOVE => ["last",4,1,[0,1],[0]]')
    rows.row("K6 0", 'MOVE => ["last",4,1,[0],[[1,5]]]')
    rows.row("K6 0", 'MOVE => ["last",4,1,[0],[[128,5]]]')
    rows.row("K8 0", 'MOVE => ["last",4,1,[0],[0,0,[0,5]]]')
    rows.row("K6 0", 'MOVE => ["last",4,1,[0],[0,[0,5],0]]')
    rows.note("S and R have 1 to 65,536 frames, and a round has 1 to 128 orders. (A frame that stands in S again is a fault of the argument, K8.)")
    for move in ('["last",4,1,[X],[0]]', '["first",4,1,[X],[0]]', '["pack",4,[X]]', '["last",4,1,[0],[X]]', '["first",4,1,[0],[X]]'):
        rows.row("C2", "MOVE => " + move.replace("X", ""))
        for count in (127, 128, 65535):
            rows.row("K8 0", "MOVE => " + move.replace("X", f"<{count}*0,>0"))
        rows.row("C2", "MOVE => " + move.replace("X", "<65536*0,>0"))
        rows.row("C2", "MOVE => " + move.replace("X", "<65536*[0,1#],>0"))
        rows.row("C2", "MOVE => " + move.replace("[X]", "0"))
        rows.row("C2", "MOVE => " + move.replace("X", "[]"))
    rows.row("K9 0", 'MOVE => ["pack",4,[<65535*[0,1#],>0]]')
    rows.row("K9 0", 'MOVE => ["last",4,1,[0,<65534*[0,1#],>0],[0]]')
    rows.row("K6 0", 'MOVE => ["last",4,1,[0],[0,<65534*[0,1#],>0]]')
    rows.row("C2", 'MOVE => ["round",[]]')
    rows.row("K6 0", 'MOVE => ["round",[<127*[0,1,4],>[0,1,4]]]')
    rows.row("C2", 'MOVE => ["round",[<128*[0,1,4],>[0,1,4]]]')
    rows.row("C2", 'MOVE => ["round",0]')
    rows.row("C2", 'MOVE => ["round",[[]]]')
    for order in ("[0,1]", "[0,1,4,0]", "0", "[[0,1,4]]", '["order",0,1,4]', "[0,1,4],[0,1]"):
        rows.row("C2", f'MOVE => ["round",[{order}]]')
    rows.row("C2", 'MOVE => ["round",[0,1,4]]')
    rows.row("C2", 'MOVE => ["round",0,1,4]')
    rows.row("C2", 'MOVE => ["last",[0],1,4,[0]]')
    rows.row("C2", 'MOVE => ["pack",[0],4]')

    rows.table("What isn't JSON goes before what isn't in the grammar, and that before numbers that are too large, over the whole file.", ("cert", template), net=TWO, plan=PLAN)
    rows.row("C2", 'STEPS => [[["from",4294967296,0]],[]],[[],[["go"]]]')
    rows.row("C2", 'STEPS => [[],[["go"]]],[[["from",4294967296,0]],[]]')
    rows.row("C3", 'STEPS => [[["from",9,0]],[["use",9]]],[[["from",4294967296,0]],[]]')
    rows.row("C3", 'STEPS => [[["from",0,2000000001]],[]]', "2924 => 2000000001")
    rows.row("C2", 'STEPS => [[["from",0]],[]]', "2924 => 2000000001")
    rows.row("C1", 'STEPS => [[["from",0]],[["use",4294967296]]],[[],[["use",1e400]]]')
    rows.row("C3", "STEPS => [[],[]]", "2924 => 2000000001")
    rows.row("C2", "STEPS => [[],[0]]", '"format":3 => "format":5000000000')
    rows.note("Clauses and moves have any length.")
    rows.row("K3 20001", "STEPS => <20000*[[],[]],>[[],[]]")
    rows.row("K3 1", 'STEPS => [[],[<19999*["arrive",1],>["arrive",0]]]')
    rows.row("K9 0", 'STEPS => [[],[<100*["arrive",#],>["arrive",0]]]')
    rows.row("K3 1", 'STEPS => [[<9999*["until",0,1000#],>["from",0,0]],[]]')
    rows.row("K7 0", 'STEPS => [[<9999*["until",0,1000],>["from",1,1]],[]]')
    rows.row("K9 0", 'STEPS => [[<9999*["until",0,1000],>["from",2,0]],[]]')
    rows.row("C2", 'STEPS => [[<9999*["until",0,1000],>["from",0]],[]]')


def plans(rows):
    rows.table("The plan is judged before the argument, and its file before the argument's.", ("plan", PLAN), net=TWO, cert=WHOLE)
    rows.row("first 2924")
    rows.row("K2", "2924 => 2923")
    rows.row("K2", "2924 => 2925")
    rows.row("K1", "672 => 671")
    rows.row("K1", "2924 => 2923", "672 => 671")
    rows.row("K1", "[0,672] => [0]")
    rows.row("K1", "[0,672] => [0,672,0]")
    rows.row("K1", "[0,672] => []")
    rows.row("K1", "[0,672] => [2000000000,672]")
    rows.row("plan C3", "[0,672] => [2000000001,672]")
    rows.row("plan C2", "[0,672] => [-1,672]")
    rows.row("plan C2", "[0,672] => null")
    rows.row("plan C1", "[0,672] => [0,672")
    rows.row("K2", "2924 => null", "[0,672] => null")
    rows.note("The other best plan isn't the first: the second step would need stream 0 to go first. A later plan isn't the best.")
    rows.row("K7 1", "[0,672] => [672,0]")
    rows.row("K2", "[0,672] => [0,673]")
    rows.row("K2", "[0,672] => [0,673]", "2924 => 2925")
    cert = WHOLE.replace('"target":2924', '"target":2925')
    rows.table("A valid plan that isn't the best: of the first step 2924 alone is so.", ("plan", PLAN), net=TWO, cert=cert)
    rows.row("K7 1", "[0,672] => [0,673]", "2924 => 2925")
    rows.row("K2", "[0,672] => [0,672]")
    rows.row("K1", "[0,672] => [1,672]", "2924 => 2925")
    rows.table("The plan is refused before a certificate that is wrong, and a certificate's file before the plan's own faults.", ("cert", WHOLE), net=TWO,
               plan='{"flowspan":2923,"offsets":[0,671]}')
    rows.row("K1")
    rows.row("K1", ":2924 => :2923")
    rows.row("C2", '"goal":"first" => "goal":"fist"')
    rows.row("C3", ":2924 => :2000000001")
    rows.row("C1", '"goal":"first" => "goal":"first')
    rows.table("The target, and the goal that fits the plan.", ("cert", '{"format":3,"goal":GOAL,"steps":[],"target":TARGET}'), net=TWO, plan=PLAN)
    for goal, target, hand in (
        ("first", 2924, "K3 0"), ("least", 2924, "K3 0"), ("none", 2924, "K2"), ("none", 1000001, "K2"), ("first", 1000001, "K2"), ("least", 2923, "K2"),
        ("least", 2925, "K2"), ("first", 0, "K2"), ("first", 2000000000, "K2"),
    ):
        rows.row(hand, f'GOAL => "{goal}"', f"TARGET => {target}")
    rows.table("That there is no schedule: of the goal `none` alone.", ("cert", '{"format":3,"goal":GOAL,"steps":[],"target":TARGET}'), net=TWO, plan=NONE)
    for goal, target, hand in (
        ("none", 1000001, "K3 0"), ("none", 1000000, "K2"), ("none", 1000002, "K2"), ("first", 1000001, "K2"), ("least", 1000001, "K2"), ("none", 2924, "K2"),
        ("none", 0, "K2"),
    ):
        rows.row(hand, f'GOAL => "{goal}"', f"TARGET => {target}")
    rows.note("What is wrong behind the target isn't looked at, but the file is.")
    rows.row("K2", 'GOAL => "none"', "TARGET => 1", '"steps":[] => "steps":[[[["from",9,9]],[["use",9]]]]')
    rows.row("C2", 'GOAL => "none"', "TARGET => 1", '"steps":[] => "steps":[[]]')


def facts(rows):
    """A step before the proof of two streams: with two facts or more it leaves the ground as it is, so that the proof follows."""
    rows.table(
        "A step before the two streams' proof. Where it is shown, the proof follows, and ends with the plan.\n"
        "A clause is shown where the opposites of its facts can't hold together.",
        ("cert", '{"format":3,"goal":"first","steps":[STEP,PROOF],"target":2924}'.replace("PROOF", PROOF)), net=TWO, plan=PLAN,
    )

    def row(hand, *step_of):
        rows.row(hand, f"STEP => {step(*step_of)}")

    rows.note("Nothing is below the release, 0, or above the greatest offset, 997702: 1000000 - 2298. The flowspan in question is at most 2924.")
    row("first 2924", [f(0, 0)])
    row("K7 0", [f(0, 1)])
    row("first 2924", [u(0, 997702)])
    row("K7 0", [u(0, 997701)])
    row("first 2924", [u(1, 2000000000)])
    row("K7 0", [f(1, 2000000000)])
    row("first 2924", [df(0)])
    row("K7 0", [df(1)])
    row("first 2924", [du(2924)])
    row("K7 0", [du(2923)])
    row("first 2924", [du(2000000000)])
    row("K7 0", [df(2000000000)])
    rows.note("A fact and its opposite, a number apart. Two streams' numbers say nothing of each other.")
    row("first 2924", [f(0, 672), u(0, 671)])
    row("first 2924", [u(0, 671), f(0, 672)])
    row("K7 0", [f(0, 673), u(0, 671)])
    row("first 2924", [f(0, 671), u(0, 671)])
    row("K7 0", [f(0, 672), u(1, 671)])
    row("first 2924", [df(2600), du(2599)])
    row("K7 0", [df(2601), du(2599)])
    row("first 2924", [f(0, 1), f(1, 1), u(1, 0)])
    rows.note("Of one stream the strongest opposites count.")
    row("first 2924", [f(0, 672), f(0, 500), u(0, 499)])
    row("first 2924", [f(0, 500), f(0, 672), u(0, 499)])
    row("K7 0", [f(0, 501), f(0, 672), u(0, 499)])
    row("first 2924", [df(2600), df(2500), du(2499)])
    row("first 2924", [du(2599), du(2499), df(2500)])
    rows.note("Either goes first: both opposites go round. The same order twice is one.")
    row("first 2924", [o(0, 1, 4), o(1, 0, 4)], round_of([0, 1, 4], [1, 0, 4]))
    row("K6 0", [o(0, 1, 4), o(0, 1, 4)], round_of([0, 1, 4], [1, 0, 4]))
    row("K7 0", [o(0, 1, 4), o(1, 0, 4)])
    row("K6 0", [o(0, 1, 4), o(1, 0, 4)], round_of([0, 1, 4, 5], [1, 0, 4, 5]))
    row("K6 0", [o(0, 1, 4), o(1, 0, 4)], round_of([0, 1, 4], [1, 0, 4, 5]))
    rows.note("The opposite of an order is the other one on the same link: stream 0 goes first, so stream 1 starts 672 ns later.")
    row("first 2924", [o(1, 0, 4), f(1, 672)], go(0, 1, 4))
    row("first 2924", [f(1, 672), o(1, 0, 4)], go(0, 1, 4))
    row("K7 0", [o(1, 0, 4), f(1, 673)], go(0, 1, 4))
    row("K6 0", [o(0, 1, 4), f(1, 672)], go(0, 1, 4))
    row("first 2924", [o(0, 1, 4), f(0, 672)], go(1, 0, 4))
    row("K7 0", [o(0, 1, 4), f(0, 673)], go(1, 0, 4))
    rows.note("Facts of streams that aren't there, and orders on no conflict: one stream twice, a link that one alone or none uses.")
    for fact, hand in (
        (f(2, 0), "K9 0"), (u(2, 2000000000), "K9 0"), (f(127, 0), "K9 0"), (f(128, 0), "K9 0"), (o(0, 0, 4), "K5 0"), (o(1, 1, 4), "K5 0"), (o(0, 1, 0), "K5 0"),
        (o(0, 1, 2), "K5 0"), (o(1, 0, 2), "K5 0"), (o(0, 1, 5), "K5 0"), (o(0, 1, 6), "K5 0"), (o(0, 2, 4), "K5 0"), (o(2, 0, 4), "K5 0"), (o(2, 3, 4), "K5 0"),
        (o(0, 1, 99), "K5 0"), (o(0, 1, 4, 1), "K5 0"), (o(0, 1, 4, -1), "K5 0"), (o(1, 0, 4, 672), "K5 0"), (o(0, 1, 4, 999999999), "K5 0"), (o(0, 2, 4, 5), "K5 0"),
    ):
        row(hand, [fact])
        row(hand, [f(0, 0), fact])
    rows.note("All facts are looked at before the moves, in their order, also where the ground contradicts one before.")
    row("K9 0", [f(2, 0), o(0, 0, 4)])
    row("K5 0", [o(0, 0, 4), f(2, 0)])
    row("K9 0", [f(0, 0), f(2, 0)], use(7))
    row("K5 0", [f(0, 672), u(0, 671), o(0, 1, 2)])


def moves(rows):
    rows.table(
        "A step before the two streams' proof: each move at its edge.",
        ("cert", '{"format":3,"goal":"first","steps":[STEP,PROOF],"target":2924}'.replace("PROOF", PROOF)), net=TWO, plan=PLAN,
    )

    def row(hand, *step_of):
        rows.row(hand, f"STEP => {step(*step_of)}")

    rows.note("go: the second starts 672 ns later at the soonest, and the first 672 ns sooner at the latest.")
    row("first 2924", [o(1, 0, 4), u(0, 99), f(1, 772)], go(0, 1, 4))
    row("K7 0", [o(1, 0, 4), u(0, 99), f(1, 773)], go(0, 1, 4))
    row("first 2924", [o(1, 0, 4), f(1, 772), u(0, 99)], go(0, 1, 4))
    row("first 2924", [o(1, 0, 4), u(0, 997030)], go(0, 1, 4))
    row("K7 0", [o(1, 0, 4), u(0, 997029)], go(0, 1, 4))
    row("first 2924", [o(0, 1, 4), u(1, 997030)], go(1, 0, 4))
    row("K7 0", [o(0, 1, 4), u(1, 997029)], go(1, 0, 4))
    row("first 2924", [o(1, 0, 4), f(1, 672), u(0, 997029)], go(0, 1, 4))
    rows.note("An order that the view doesn't have, whatever it is of.")
    for order in ((0, 1, 4), (1, 0, 4), (0, 0, 4), (0, 1, 0), (0, 1, 99), (0, 2, 4), (7, 8, 9)):
        row("K6 0", [f(0, 1)], go(*order))
    row("K6 0", [o(1, 0, 4), f(1, 672)], go(1, 0, 4))
    row("K6 0", [o(1, 0, 4), f(1, 672)], go(0, 1, 2))
    for lag in (1, -1, 672, -672, 999999999):
        row("K6 0", [o(1, 0, 4), f(1, 672)], go(0, 1, 4, lag))
    rows.note("turn: the other order is out of reach. With both offsets below 672 neither can go first; below 673 stream 1 can.")
    row("first 2924", [f(0, 672), f(1, 672)], turn(0, 1, 4), go(0, 1, 4))
    row("K7 0", [f(0, 673), f(1, 672)], turn(0, 1, 4), go(0, 1, 4))
    row("K7 0", [f(0, 672), f(1, 673)], turn(0, 1, 4), go(0, 1, 4))
    row("K7 0", [f(0, 673), f(1, 672)], turn(1, 0, 4), go(1, 0, 4))
    row("first 2924", [f(0, 672), f(1, 672)], turn(1, 0, 4), go(1, 0, 4))
    row("first 2924", [f(0, 700), u(1, 28), f(1, 672)], turn(0, 1, 4), go(0, 1, 4))
    row("first 2924", [f(0, 701), u(1, 28), f(1, 672)], turn(0, 1, 4), go(0, 1, 4))
    row("K7 0", [f(0, 702), u(1, 28), f(1, 672)], turn(0, 1, 4), go(0, 1, 4))
    rows.note("The order is the view's from then on, once or twice.")
    row("first 2924", [f(0, 672), f(1, 672)], turn(0, 1, 4), turn(0, 1, 4), go(0, 1, 4))
    row("first 2924", [f(0, 672), f(1, 672)], turn(0, 1, 4), turn(1, 0, 4), round_of([0, 1, 4], [1, 0, 4]))
    row("K6 0", [f(0, 672), f(1, 672)], turn(0, 1, 4), go(1, 0, 4))
    for order in ((0, 0, 4), (0, 1, 0), (0, 1, 2), (0, 1, 5), (0, 1, 99), (0, 2, 4), (2, 0, 4), (9, 9, 9)):
        row("K5 0", [f(0, 672), f(1, 672)], turn(*order))
    for lag in (1, -1, 672, -672, 999999, -999999, 999999999):
        row("K5 0", [f(0, 672), f(1, 672)], turn(0, 1, 4, lag))
    rows.note("arrive: the flowspan is 2252 ns behind the offset at least; the offset is at most 2924 - 2252 = 672.")
    row("first 2924", [df(2252), f(0, 1)], arrive(0))
    row("K7 0", [df(2253), f(0, 1)], arrive(0))
    row("first 2924", [df(2352), u(0, 99)], arrive(0))
    row("K7 0", [df(2353), u(0, 99)], arrive(0))
    row("first 2924", [u(0, 672), f(1, 1)], arrive(0))
    row("K7 0", [u(0, 671), f(1, 1)], arrive(0))
    row("first 2924", [u(1, 672), f(0, 1)], arrive(1))
    row("K7 0", [u(1, 672), f(0, 1)], arrive(0))
    row("first 2924", [df(2600), u(0, 347)], arrive(0))
    row("K7 0", [df(2600), u(0, 346)], arrive(0))
    rows.note("The greatest offset is learned too: stream 1 at most at 672, so stream 0 goes first at 0 at the latest.")
    row("first 2924", [o(1, 0, 4), u(0, 0)], arrive(1), go(0, 1, 4))
    row("K7 0", [o(1, 0, 4), u(0, 0)], go(0, 1, 4))
    row("K7 0", [o(1, 0, 4), f(0, 1), f(1, 2000)], arrive(1), go(0, 1, 4))
    for stream in (2, 3, 127, 128, 4294967295):
        row("K9 0", [f(0, 1)], arrive(stream))
    rows.note("last: with stream 0 done on link 4 by 671 + 2298, stream 1 can't be done before it, and starts 672 ns after the soonest.")
    row("first 2924", [f(0, 672), f(1, 672)], last(4, 1, [0], [0]))
    row("K7 0", [f(0, 673), f(1, 672)], last(4, 1, [0], [0]))
    row("K7 0", [f(0, 672), f(1, 673)], last(4, 1, [0], [0]))
    row("first 2924", [f(0, 672), u(0, 99), f(1, 772)], last(4, 1, [0], [0]))
    row("K7 0", [f(0, 672), u(0, 99), f(1, 773)], last(4, 1, [0], [0]))
    rows.note("Of the least head stream 1 has a part: from 100 on, stream 0 may be done by 771 + 2298; and with stream 0 at 0 it may not.")
    row("first 2924", [f(0, 772), f(1, 772), u(0, 99), u(1, 99)], last(4, 1, [0], [0]))
    row("K7 0", [f(0, 773), f(1, 772), u(0, 99), u(1, 99)], last(4, 1, [0], [0]))
    row("K7 0", [f(0, 772), f(1, 772), u(0, 99)], last(4, 1, [0], [0]))
    row("K7 0", [f(0, 772), f(1, 772), u(1, 99)], last(4, 1, [0], [0]))
    rows.note("first: from 997030 on stream 1 can't be done behind stream 0 by 1000000; so stream 0 is first, at most at 997030.")
    row("first 2924", [u(1, 997030), u(0, 997030)], first(4, 0, [1], [1]))
    row("K7 0", [u(1, 997029), u(0, 997030)], first(4, 0, [1], [1]))
    row("K7 0", [u(1, 997030), u(0, 997029)], first(4, 0, [1], [1]))
    row("first 2924", [u(1, 997030), f(1, 997102), u(0, 996429)], first(4, 0, [1], [1]))
    row("K7 0", [u(1, 997030), f(1, 997102), u(0, 996428)], first(4, 0, [1], [1]))
    rows.note("Of the greatest end stream 0 has a part: that at most at 997101 stream 1 may be behind it from 996430 on.")
    row("first 2924", [u(1, 996429), f(1, 997102), f(0, 997102), u(0, 996429)], first(4, 0, [1], [1]))
    row("K7 0", [u(1, 996428), f(1, 997102), f(0, 997102), u(0, 996429)], first(4, 0, [1], [1]))
    row("K7 0", [u(1, 996429), f(1, 997102), u(0, 996429)], first(4, 0, [1], [1]))
    row("K7 0", [u(1, 996429), f(0, 997102), u(0, 996429)], first(4, 0, [1], [1]))
    rows.note("pack: both by 2298 + 671 is 1 ns too soon.")
    row("first 2924", [f(0, 672), f(1, 672)], pack(4, [0, 1]))
    row("first 2924", [f(0, 672), f(1, 672)], pack(4, [1, 0]))
    row("K7 0", [f(0, 673), f(1, 672)], pack(4, [0, 1]))
    row("K7 0", [f(0, 672), f(1, 673)], pack(4, [0, 1]))
    row("first 2924", [f(0, 772), f(1, 772), u(0, 99), u(1, 99)], pack(4, [0, 1]))
    row("K7 0", [f(0, 772), f(1, 772), u(0, 99)], pack(4, [0, 1]))
    row("K7 0", [f(0, 672), f(1, 672)], pack(4, [0]))
    row("K7 0", [f(0, 672), f(1, 672)], pack(0, [0]))
    rows.note("fill: between 1626 and 2969 there is no idle time for two frames of 672 ns, and what one leaves, 671 ns, no other fills.")
    near = [f(0, 672), f(1, 672)]
    row("first 2924", near, fill(4, 1, [0], [], [], 2298))
    row("first 2924", near, fill(4, 0, [1], [], [], 2298))
    row("K7 0", near, fill(4, 1, [0], [], [], 2299))
    row("K7 0", near, fill(4, 1, [0], [], [], 2297))
    row("K7 0", near, fill(4, 1, [0], [], [], 1626))
    row("K7 0", [f(0, 673), f(1, 672)], fill(4, 1, [0], [], [], 2298))
    row("first 2924", near, fill_back(4, 1, [0], [], [], 2297))
    row("first 2924", near, fill_back(4, 0, [1], [], [], 2297))
    row("K7 0", near, fill_back(4, 0, [1], [], [], 2296))
    row("K7 0", near, fill_back(4, 0, [1], [], [], 2298))
    row("K7 0", [f(0, 672), f(1, 673)], fill_back(4, 0, [1], [], [], 2297))
    rows.note("waste: behind stream 0, which starts at 0, 671 ns stay empty, with 1 ns more none.")
    row("first 2924", [f(0, 1), f(1, 672)], waste(4, [0, 1], [0]))
    row("first 2924", [f(0, 1), f(1, 672)], waste(4, [1, 0], []))
    row("K7 0", [f(0, 1), f(1, 673)], waste(4, [0, 1], [0]))
    row("K7 0", [f(0, 2), f(1, 672)], waste(4, [0, 1], [0]))
    row("K7 0", [f(0, 1), f(1, 672)], waste(4, [0, 1], [1]))
    row("K7 0", [f(0, 1), f(1, 672)], waste(4, [0, 1], [0, 0]))
    rows.note("round: an order and the other one, in a row that closes; 1344 more each time round.")
    both = [o(0, 1, 4), o(1, 0, 4)]
    row("first 2924", both, round_of([1, 0, 4], [0, 1, 4]))
    row("first 2924", both, round_of([1, 0, 4], [0, 1, 4], [1, 0, 4], [0, 1, 4]))
    row("first 2924", both, round_of(*[[1, 0, 4], [0, 1, 4]] * 64))
    for orders in (
        [[1, 0, 4]], [[0, 1, 4]], [[1, 0, 4], [1, 0, 4]], [[1, 0, 4], [0, 1, 4], [1, 0, 4]], [[0, 1, 4], [0, 1, 4], [1, 0, 4], [1, 0, 4]], [[0, 1, 4], [1, 0, 2]],
        [[0, 0, 4]], [[0, 1, 4], [1, 2, 4], [2, 0, 4]], [[0, 1, 0], [1, 0, 0]], [[0, 1, 99], [1, 0, 99]],
    ):
        row("K6 0", both, round_of(*orders))
    row("K6 0", [o(0, 1, 4), f(1, 1)], round_of([0, 1, 4], [1, 0, 4]))

    rows.table("Moves on links: j and S are tried for a stream that isn't there or doesn't use the link, and for one that stands before; then R for one that isn't of S,\n"
               "and for one that stands before; last the inequality.",
               ("cert", '{"format":3,"goal":"first","steps":[[[["from",0,672],["from",1,672]],[MOVE]],PROOF],"target":2924}'.replace("PROOF", PROOF)), net=TWO, plan=PLAN)
    for word in ("last", "first"):
        for link, j, others, some, hand in (
            (4, 1, [0], [0], "first 2924"), (4, 0, [1], [1], "first 2924"),
            (0, 1, [0], [0], "K9 0"), (2, 1, [0], [0], "K9 0"), (1, 1, [0], [0], "K9 0"), (99, 1, [0], [0], "K9 0"), (4, 2, [0], [0], "K9 0"), (4, 1, [2], [2], "K9 0"),
            (4, 1, [0, 2], [0], "K9 0"), (4, 1, [1], [1], "K8 0"), (4, 1, [0, 1], [0], "K8 0"), (4, 1, [0, 0], [0], "K8 0"), (4, 1, [0], [1], "K6 0"),
            (4, 1, [0], [2], "K6 0"), (4, 1, [0], [0, 0], "K8 0"), (4, 1, [0], [0, 1], "K6 0"), (4, 1, [0, 0, 2], [0], "K8 0"), (4, 1, [0, 2, 0], [0], "K9 0"),
            (4, 2, [2], [2], "K9 0"), (4, 1, [1, 2], [1], "K8 0"), (4, 1, [2, 1], [1], "K9 0"), (4, 1, [0, 0], [7], "K8 0"), (4, 1, [0], [0, 0, 7], "K8 0"),
            (4, 1, [0], [0, 7, 0], "K6 0"), (4, 1, [0], [7, 7], "K6 0"), (0, 0, [0], [0], "K8 0"), (0, 0, [1], [1], "K9 0"), (4, 1, [2], [0, 0], "K9 0"),
        ):
            rows.row(hand, f"MOVE => {text([word, link, j, others, some])}")
    for link, some, hand in (
        (4, [0, 1], "first 2924"), (4, [0, 2], "K9 0"), (4, [0, 0], "K8 0"), (4, [0, 1, 0], "K8 0"), (4, [0, 1, 2], "K9 0"), (4, [0, 0, 2], "K8 0"), (4, [2, 0, 0], "K9 0"),
        (0, [0, 1], "K9 0"), (0, [0, 0], "K8 0"), (0, [1], "K9 0"), (1, [0], "K9 0"), (5, [0], "K9 0"), (6, [0], "K9 0"), (4294967295, [0], "K9 0"), (0, [0], "K7 0"),
        (4, [1], "K7 0"),
    ):
        rows.row(hand, f"MOVE => {text(pack(link, some))}")
    for link, j, others, before, after, hand in (
        (4, 1, [0], [], [], "first 2924"), (4, 1, [0], 1, [], "K6 0"), (4, 1, [0], [], 1, "K6 0"), (4, 1, [0], 2, 0, "K6 0"), (4, 1, [0], 0, 2, "K7 0"),
        (4, 1, [0], [], 0, "K7 0"), (4, 1, [0], [0, 1], [], "K6 0"), (4, 2, [0], [], [], "K9 0"), (4, 1, [2], 7, [], "K9 0"), (0, 1, [0], [], [], "K9 0"),
        (4, 1, [1], 7, [], "K8 0"), (4, 1, [0, 0], [], [], "K8 0"),
    ):
        rows.row(hand, f"MOVE => {text(fill(link, j, others, before, after, 2298))}")
        rows.row(hand, f"MOVE => {text(fill_back(link, j, others, before, after, 2297))}")
    for link, some, fixed, hand in (
        (4, [0, 1], [], "first 2924"), (4, [0, 1], [0], "K7 0"), (4, [0, 1], [2], "K6 0"), (4, [0, 1], [2, 0], "K6 0"), (4, [0, 1], [0, 2], "K7 0"),
        (4, [0, 1], [[0, 1]], "K6 0"), (4, [0, 0], [], "K8 0"), (4, [0, 2], [7], "K9 0"), (0, [0], [], "K7 0"), (0, [1], [], "K9 0"),
    ):
        rows.row(hand, f"MOVE => {text(waste(link, some, fixed))}")
    for word in ("fill", "fill_back"):
        for of in ("4,1,[0],[],[]", "4,1,[],[],[],9", "4,1,[0],[[]],[],9", "4,1,[0],[0,0],[],9", "4,1,[0],null,[],9", "4,1,[0],[],[],-1", "4,1,[0],[],[],9,9",
                   "4,1,0,[],[],9", "4,[],[0],[],[],9", "4,1,[0],[],[0],9", "4,1,[0],[],[1,2,3],9", '4,1,[0],[],[],"9"'):
            rows.row("C2", f'MOVE => ["{word}",{of}]')
        for of in ("4,1,[0],[],[],2000000001", "4,1,[0],4294967296,[],9", "4,1,[0],[],[1,4294967296],9", "4294967296,1,[0],[],[],9"):
            rows.row("C3", f'MOVE => ["{word}",{of}]')
    for of in ("4,[0,1]", "4,[],[]", "4,[0,1],0", "4,[0,1],[[]]", "4,[0,1],[[0,0]]", "4,[0,1],[0],[0]", "[4],[0,1],[0]"):
        rows.row("C2", f'MOVE => ["waste",{of}]')
    rows.row("C3", 'MOVE => ["waste",4,[0,1],[4294967296]]')

    rows.table("Moves on a view that is impossible, whatever they are, and moves behind one that is refused.",
               ("cert", '{"format":3,"goal":"first","steps":[STEP,PROOF],"target":2924}'.replace("PROOF", PROOF)), net=TWO, plan=PLAN)
    shut = [f(0, 672), u(0, 671)]
    row("first 2924", shut)
    for move in (arrive(0), arrive(9), go(0, 1, 4), turn(0, 1, 4), turn(0, 0, 9), use(9), pack(4, [0, 1]), last(9, 9, [9], [9]), first(4, 1, [0], [0]), round_of([0, 1, 4])):
        row("K4 0", shut, move)
    row("K4 0", [f(0, 672), f(1, 672)], pack(4, [0, 1]), pack(4, [0, 1]))
    row("K4 0", [f(0, 672), f(1, 672)], pack(4, [0, 1]), arrive(9))
    row("K4 0", [f(0, 672), f(1, 672)], last(4, 1, [0], [0]), arrive(0))
    row("K4 0", [o(0, 1, 4), o(1, 0, 4)], round_of([0, 1, 4], [1, 0, 4]), go(0, 1, 4))
    row("K4 0", [df(2252), f(0, 1)], arrive(0), arrive(0))
    row("K7 0", [df(2253), f(0, 1)], arrive(0), arrive(0))
    row("K6 0", [f(0, 1)], use(0), arrive(9))
    row("K9 0", [f(0, 1)], arrive(9), use(0))
    row("K7 0", [f(0, 673), f(1, 672)], pack(4, [0, 1]), arrive(9))
    row("K4 0", [df(0), f(0, 1)], arrive(0))
    row("K9 0", [df(0), f(9, 1)], arrive(0))


def uses(rows):
    rows.table("Clauses are numbered from 0 where they aren't empty, and are used behind their own step.",
               ("cert", '{"format":3,"goal":"first","steps":[STEPS,PROOF],"target":2924}'.replace("PROOF", PROOF)), net=TWO, plan=PLAN)

    def row(hand, *some):
        rows.row(hand, f"STEPS => {steps(*some)}")

    after = step([o(1, 0, 4), f(1, 672)], go(0, 1, 4))
    rows.note("Clause 0 says: stream 1 goes first, or starts at 672 or later. From 671 on nothing of it is left; below 672 its second fact is.")
    row("first 2924", after, step([o(1, 0, 4), f(1, 672)], use(0)))
    row("first 2924", after, step([o(1, 0, 4), f(1, 500)], use(0)))
    row("K7 1", after, step([o(1, 0, 4), f(1, 673)], use(0)))
    row("first 2924", after, step([o(1, 0, 4), f(1, 673), df(2924)], use(0), arrive(1)))
    row("K7 1", after, step([o(1, 0, 4), f(1, 673), df(2925)], use(0), arrive(1)))
    row("K7 1", after, step([f(1, 673)], use(0)))
    row("K7 1", after, step([o(0, 1, 4), f(1, 673)], use(0)))
    rows.note("Its first fact is left where stream 1 starts before 672: then stream 0 starts at 672 or later.")
    row("first 2924", after, step([f(1, 672), f(0, 672)], use(0), go(1, 0, 4)))
    row("K7 1", after, step([f(1, 672), f(0, 673)], use(0), go(1, 0, 4)))
    row("K7 1", after, step([f(1, 673), f(0, 672)], use(0), go(1, 0, 4)))
    row("K6 1", after, step([f(1, 672), f(0, 672)], use(0), go(0, 1, 4)))
    rows.note("Number 1 isn't shown before step 1 is, and no number that is larger. Steps with an empty clause have no number.")
    row("K6 0", step([o(1, 0, 4), f(1, 672)], use(0)))
    row("K6 1", after, step([o(1, 0, 4), f(1, 672)], use(1)))
    row("K6 1", after, step([o(1, 0, 4), f(1, 672)], use(2)))
    row("K6 1", after, step([o(1, 0, 4), f(1, 672)], use(4294967295)))
    row("first 2924", step([]), after, step([]), step([o(1, 0, 4), f(1, 672)], use(0)), step([o(1, 0, 4), f(1, 672)], use(1)))
    row("K6 2", step([]), after, step([o(1, 0, 4), f(1, 672)], use(1)))
    row("K6 1", step([]), step([], use(0)), after)
    row("K6 3", after, step([]), step([]), step([o(1, 0, 4), f(1, 672)], use(1)))
    rows.note("A clause of one fact has a number too.")
    row("first 2924", step([df(2252)], arrive(0)), step([df(2252), f(0, 1)]))
    row("first 2924", step([df(2252)], arrive(0)), after, step([o(1, 0, 4), f(1, 672)], use(1)))
    row("K7 2", step([f(0, 0)]), step([u(0, 997702)]), step([f(0, 1)], use(0), use(1)))
    rows.note("A fact that the clause has twice counts twice where it is left, and not where it is contradicted.")
    twice = step([o(1, 0, 4), f(1, 672), f(1, 672)], go(0, 1, 4))
    row("K7 1", twice, step([o(1, 0, 4), f(1, 673), df(2924)], use(0), arrive(1)))
    row("first 2924", twice, step([o(1, 0, 4), f(1, 672)], use(0)))
    row("first 2924", twice, step([f(1, 672), f(0, 672)], use(0), go(1, 0, 4)))
    row("K7 1", step([o(1, 0, 4), o(1, 0, 4), f(1, 672)], go(0, 1, 4)), step([f(1, 672), f(0, 672)], use(0), go(1, 0, 4)))
    row("first 2924", step([o(1, 0, 4), o(1, 0, 4), f(1, 672)], go(0, 1, 4)), step([o(1, 0, 4), f(1, 673), df(2924)], use(0), arrive(1)))
    rows.note("An `until` is contradicted from one more on; a flowspan's facts likewise.")
    high = step([o(1, 0, 4), u(0, 997030)], go(0, 1, 4))
    row("first 2924", high, step([o(1, 0, 4), u(0, 997030)], use(0)))
    row("K7 1", high, step([o(1, 0, 4), u(0, 997029)], use(0)))
    row("first 2924", high, step([u(0, 997030), u(1, 997030)], use(0), go(1, 0, 4)))
    row("K7 1", high, step([u(0, 997029), u(1, 997030)], use(0), go(1, 0, 4)))
    done = step([df(2600), u(0, 347)], arrive(0))
    row("first 2924", done, step([df(2600), u(0, 347)], use(0)))
    row("first 2924", done, step([df(2600), u(0, 500)], use(0)))
    row("K7 1", done, step([df(2601), u(0, 347)], use(0)))
    row("K7 1", done, step([df(2601), u(0, 346)], use(0)))
    row("K7 1", done, step([df(2600), u(0, 346)], use(0)))
    row("K7 1", done, step([df(2600), u(0, 346), f(0, 348)], use(0)))
    until = step([du(2600), df(2601)])
    row("first 2924", until, step([du(2600), u(0, 673)], use(0), arrive(0)))
    row("K7 1", until, step([du(2599), u(0, 673)], use(0), arrive(0)))
    row("first 2924", until, step([df(2601), u(0, 348)], use(0), arrive(0)))
    row("K7 1", until, step([df(2602), u(0, 348)], use(0), arrive(0)))
    rows.note("An order is contradicted by the other one on the same link alone, and what is left of it is the view's.")
    row("K6 1", after, step([f(1, 673), f(0, 672)], go(1, 0, 4)))
    row("K4 1", after, step([o(1, 0, 4), f(1, 672)], use(0), use(0)))
    row("K4 1", after, step([o(1, 0, 4), f(1, 672)], use(0), use(7)))


def ground(rows):
    rows.table("The two streams' proof, and what the ground knows.", ("cert", '{"format":3,"goal":"first","steps":[STEPS],"target":2924}'), net=TWO, plan=PLAN)

    def row(hand, *some):
        rows.row(hand, f"STEPS => {steps(*some)}")

    row("first 2924", BOUND, ENDED)
    row("K3 1", BOUND)
    row("K7 0", ENDED)
    row("K7 0", ENDED, BOUND)
    row("first 2924", BOUND, step([]), ENDED)
    rows.note("Nothing has to follow, and something may: with the goal `first` the plan itself stays in question.")
    row("first 2924", BOUND, ENDED, step([]))
    row("first 2924", BOUND, ENDED, step([], arrive(0), arrive(1)))
    row("first 2924", BOUND, ENDED, step([f(1, 672)]))
    row("K7 2", BOUND, ENDED, step([f(1, 673)]))
    row("K7 2", BOUND, ENDED, step([df(2925)]))
    row("K9 2", BOUND, ENDED, step([], arrive(2)))
    rows.note("The moves of a clause that isn't empty don't change the ground, and a step of an empty one does.")
    row("K3 2", BOUND, step([f(1, 673), u(1, 672)]))
    row("K3 2", BOUND, step([df(2924)]))
    row("first 2924", BOUND, step([f(1, 672)], last(4, 1, [0], [0])))
    row("K3 2", BOUND, step([f(1, 671)], last(4, 1, [0], [0])))
    row("K7 1", BOUND, step([f(1, 673)], last(4, 1, [0], [0])))
    row("K3 2", BOUND, step([f(1, 672), f(0, 1)], last(4, 1, [0], [0])))
    row("K3 2", BOUND, step([f(1, 672), f(1, 672)], last(4, 1, [0], [0])))
    rows.note("The flowspan's least has to be the plan's, to the nanosecond.")
    row("K7 0", step([df(2925)], arrive(0), arrive(1), first(4, 0, [1], [1])), ENDED)
    row("K7 1", step([df(2923)], arrive(0), arrive(1), first(4, 0, [1], [1])), ENDED)
    row("K7 0", step([df(2924)], arrive(0), first(4, 0, [1], [1])), ENDED)
    row("K7 0", step([df(2924)], arrive(1), first(4, 0, [1], [1])), ENDED)
    row("K7 0", step([df(2924)], arrive(0), arrive(1)), ENDED)
    row("first 2924", step([df(2924)], arrive(1), arrive(0), pack(4, [1, 0])), ENDED)
    row("first 2924", step([df(2924)], arrive(0), arrive(1), first(4, 1, [0], [0])), ENDED)
    row("first 2924", step([df(2924)], arrive(0), arrive(1), last(4, 1, [0], [0])), ENDED)
    row("first 2924", step([df(2924)], arrive(0), arrive(1), last(4, 0, [1], [1])), ENDED)
    row("first 2924", step([df(2924)], arrive(0), arrive(1), turn(0, 1, 4), go(0, 1, 4)), ENDED)
    row("first 2924", step([df(2924)], arrive(0), arrive(1), turn(1, 0, 4), go(1, 0, 4)), ENDED)
    row("K3 1", step([df(2924), df(2924)], arrive(0), arrive(1), pack(4, [0, 1])))
    row("K7 1", step([df(2924), df(2924)], arrive(0), arrive(1), pack(4, [0, 1])), step([], use(0)))
    row("K3 2", BOUND, step([], use(0)))
    rows.note("With the least flowspan the ground learns that stream 0 is at most at 0, where the plan has it, and so stream 1 at most at 672.")
    row("first 2924", BOUND, step([], turn(0, 1, 4), go(0, 1, 4)))
    row("K3 2", BOUND, step([], turn(0, 1, 4)))
    row("K6 1", BOUND, step([], go(0, 1, 4)))
    row("K7 1", BOUND, step([], turn(1, 0, 4)))
    row("first 2924", BOUND, step([], turn(0, 1, 4)), step([], go(0, 1, 4)))
    row("first 2924", BOUND, step([o(0, 1, 4)], go(1, 0, 4)), step([], go(0, 1, 4)))
    row("K7 1", BOUND, step([o(1, 0, 4)], go(0, 1, 4)))
    row("first 2924", BOUND, step([u(0, 0)]), ENDED)
    row("K7 1", BOUND, step([f(0, 1)]), ENDED)
    row("first 2924", BOUND, step([u(1, 672)]), ENDED)
    row("K7 1", BOUND, step([u(1, 671)]), ENDED)
    row("K7 0", step([u(0, 0)]), BOUND, ENDED)
    rows.note("A step that shows the least flowspan itself is the ground's own too.")
    row("K3 1", step([], arrive(0), arrive(1)))
    row("K7 1", step([], arrive(0), arrive(1)), ENDED)
    row("first 2924", step([], arrive(0), arrive(1)), step([df(2924)], arrive(0), arrive(1), pack(4, [0, 1])), ENDED)
    rows.note("Orders and numbers that the ground has stay with it.")
    row("first 2924", BOUND, step([o(0, 1, 4)], go(1, 0, 4)), step([]), step([f(1, 672)], go(0, 1, 4)))
    row("K6 2", BOUND, step([o(0, 1, 4), f(0, 1)], go(1, 0, 4)), step([], go(0, 1, 4)))
    row("K6 2", BOUND, step([f(1, 672)], turn(0, 1, 4), go(0, 1, 4)), step([], go(0, 1, 4)))

    rows.table("The goal `least`: schedules of a flowspan of 2923 at most are in question. The end is that there is none.",
               ("cert", '{"format":3,"goal":"least","steps":[STEPS],"target":2924}'), net=TWO, plan=PLAN)
    row("optimal 2924", step([], arrive(0), arrive(1), pack(4, [0, 1])))
    row("optimal 2924", step([], arrive(0), arrive(1), last(4, 1, [0], [0])))
    row("optimal 2924", step([], arrive(0), arrive(1), first(4, 0, [1], [1])))
    row("optimal 2924", step([], arrive(0), arrive(1), turn(0, 1, 4), go(0, 1, 4)))
    row("optimal 2924", step([df(2924)], arrive(0), arrive(1), pack(4, [0, 1])))
    row("K3 1", step([df(2923)], arrive(0), arrive(1), pack(4, [0, 1])))
    row("optimal 2924", step([df(2925)], arrive(0), arrive(1), pack(4, [0, 1])))
    row("optimal 2924", step([], arrive(0)), step([], arrive(1)), step([], pack(4, [0, 1])))
    row("K7 0", step([], arrive(0), pack(4, [0, 1])))
    row("K3 0")
    row("K3 1", step([], arrive(0), arrive(1)))
    row("K4 1", BOUND, ENDED)
    rows.note("No step may follow where nothing is in question, whatever it has.")
    shut = step([], arrive(0), arrive(1), pack(4, [0, 1]))
    row("K4 1", shut, step([]))
    row("K4 1", shut, step([f(9, 9)], use(9)))
    row("K4 1", shut, step([], arrive(0)))
    row("K4 1", shut, shut)
    row("K4 1", step([df(2924)], arrive(0), arrive(1), pack(4, [0, 1])), step([]))
    row("K4 1", shut, step([]), step([f(9, 9)]))
    rows.note("A clause of one fact that the ground contradicts leaves nothing in question: offsets of at most 671 each, and from 672 on.")
    row("optimal 2924", step([], arrive(0), arrive(1)), step([f(0, 672)], last(4, 1, [0], [0])))
    row("K3 2", step([], arrive(0), arrive(1)), step([f(0, 672), f(1, 672)], pack(4, [0, 1])))
    row("optimal 2924", step([], arrive(0), arrive(1)), step([f(0, 672), f(1, 672)], pack(4, [0, 1])), step([], use(0)))
    row("K4 2", step([], arrive(0), arrive(1)), step([f(0, 672), f(1, 672)], pack(4, [0, 1])), step([], use(0), use(0)))
    row("K4 3", step([], arrive(0), arrive(1)), step([f(0, 672), f(1, 672)], pack(4, [0, 1])), step([], use(0)), step([]))
    row("optimal 2924", step([], arrive(0), arrive(1)), step([o(0, 1, 4)], turn(0, 1, 4), go(0, 1, 4)), step([], go(0, 1, 4)))
    rows.note("The greatest flowspan is 2923: its opposites begin there.")
    row("optimal 2924", step([du(2923), f(0, 1)]), shut)
    row("K7 0", step([du(2922), f(0, 1)]), shut)

    rows.table("The goal `none`: each valid schedule is in question. In a cycle of 2969 ns both would have to start by 671.",
               ("cert", '{"format":3,"goal":"none","steps":[STEPS],"target":2970}'), net=TWO + " | cycle = 1000000 => cycle = 2969", plan=NONE)
    row("no schedule", step([], pack(4, [0, 1])))
    row("no schedule", step([], last(4, 1, [0], [0])))
    row("no schedule", step([], first(4, 1, [0], [0])))
    row("no schedule", step([], turn(0, 1, 4), go(0, 1, 4)))
    row("no schedule", step([f(0, 672)], pack(4, [0, 1])))
    row("no schedule", step([f(1, 2000000000)], pack(4, [0, 1])))
    row("K3 1", step([du(0)], pack(4, [0, 1])))
    row("no schedule", step([o(0, 1, 4)], pack(4, [0, 1])), step([], pack(4, [0, 1])))
    row("no schedule", step([o(0, 1, 4)], pack(4, [0, 1])), step([], go(0, 1, 4)))
    row("K3 0")
    row("K3 1", step([], arrive(0), arrive(1)))
    row("K3 1", step([o(0, 1, 4)], pack(4, [0, 1])))
    row("K4 1", step([], pack(4, [0, 1])), step([]))
    row("K7 0", step([], pack(4, [0])))
    rows.note("The flowspan is at most the cycle.")
    row("no schedule", step([du(2969)]), step([], pack(4, [0, 1])))
    row("K7 0", step([du(2968)]), step([], pack(4, [0, 1])))
    rows.table("A nanosecond more, and there is a schedule.", ("cert", '{"format":3,"goal":"none","steps":[[[],[["pack",4,[0,1]]]]],"target":2971}'),
               net=TWO + " | cycle = 1000000 => cycle = 2970", plan=NONE)
    for move in (pack(4, [0, 1]), last(4, 1, [0], [0]), first(4, 1, [0], [0]), turn(0, 1, 4)):
        rows.row("K7 0", f'["pack",4,[0,1]] => {text(move)}')
    rows.row("K2", "2971 => 2970")
    rows.table("Cycles: no step is needed where a stream alone doesn't fit.", ("net", TWO), plan=NONE, cert='{"format":3,"goal":"none","steps":[],"target":2298}')
    rows.row("no schedule", "cycle = 1000000 => cycle = 2297")
    rows.row("K2", "cycle = 1000000 => cycle = 2298")
    rows.row("K2", "cycle = 1000000 => cycle = 2296")
    rows.table("Cycles: with 2298 both fit alone.", ("net", TWO), plan=NONE, cert='{"format":3,"goal":"none","steps":[],"target":2299}')
    rows.row("K3 0", "cycle = 1000000 => cycle = 2298")
    rows.row("no schedule", "cycle = 1000000 => cycle = 2298", "octets = 64, route = ['A' => octets = 65, route = ['A'")
    rows.table("Cycles: where a stream alone doesn't fit, no step may come.", ("net", TWO), plan=NONE, cert='{"format":3,"goal":"none","steps":[[[],[]]],"target":2298}')
    rows.row("K4 0", "cycle = 1000000 => cycle = 2297")


def networks(rows):
    rows.table("A release and a latest instant: stream 1 has to arrive by 2252, so it starts at 0, and stream 0 can't start before 672.",
               ("cert", '{"format":3,"goal":GOAL,"steps":[STEPS],"target":2924}'),
               net=TWO + " | {name = 'one', octets = 64 => {name = 'one', octets = 64, release = 672 | {name = 'two', octets = 64 => {name = 'two', octets = 64, latest = 2252",
               plan='{"flowspan":2924,"offsets":[672,0]}')

    def row(hand, goal, *some):
        rows.row(hand, f'GOAL => "{goal}"', f"STEPS => {steps(*some)}")

    row("first 2924", "first", step([], arrive(0)))
    row("optimal 2924", "least", step([], arrive(0)))
    row("K3 1", "first", step([], arrive(1)))
    row("first 2924", "first", step([f(0, 672)]), step([], arrive(0)))
    row("K7 0", "first", step([f(0, 673)]))
    row("first 2924", "first", step([u(1, 0)]), step([], arrive(0)))
    row("K3 1", "first", step([u(1, 0)]))
    row("K7 0", "first", step([u(0, 997701)]))
    row("first 2924", "first", step([u(0, 997702)]), step([], arrive(0)))
    rows.table("A latest instant before the soonest arrival, and a release above the greatest offset: no step is needed.", ("net", TWO), plan=NONE,
               cert='{"format":3,"goal":"none","steps":[],"target":1000001}')
    for changes, hand in (
        ("latest = 2251", "no schedule"), ("latest = 1", "no schedule"), ("latest = 2252", "K3 0"), ("release = 997702", "K3 0"), ("release = 997703", "no schedule"),
        ("release = 1000000000", "no schedule"), ("release = 1, latest = 2252", "no schedule"), ("release = 1, latest = 2253", "K3 0"), ("latest = 1000000000", "K3 0"),
        ("release = 1000000000, latest = 1", "no schedule"),
    ):
        rows.row(hand, "{name = 'two', octets = 64 => {name = 'two', octets = 64, " + changes)
    rows.table("Latest instants: the greatest offset is the lesser of what the cycle and the latest instant leave.", ("net", TWO), plan=PLAN,
               cert=f'{{"format":3,"goal":"first","steps":[{steps(step([u(1, 5000)]), PROOF)}],"target":2924}}')
    for changes, hand in (("latest = 7252", "first 2924"), ("latest = 7253", "K7 0"), ("latest = 1000000", "K7 0"), ("latest = 2924", "first 2924"), ("latest = 2923", "K1")):
        rows.row(hand, "{name = 'two', octets = 64 => {name = 'two', octets = 64, " + changes)
    rows.table("Cycles: the greatest offset is the cycle less the span, 2298.", ("net", TWO), plan=PLAN,
               cert=f'{{"format":3,"goal":"first","steps":[{steps(step([u(1, 5000)]), PROOF)}],"target":2924}}')
    rows.row("first 2924", "cycle = 1000000 => cycle = 7298")
    rows.row("K7 0", "cycle = 1000000 => cycle = 7299")
    rows.row("first 2924", "cycle = 1000000 => cycle = 2970")
    rows.row("K1", "cycle = 1000000 => cycle = 2969")

    rows.table("A short and a long frame: the weight of stream 0 before stream 1 is 1626 + 672 - 13290, and the other way 13290 + 12336 - 1626.",
               ("cert", '{"format":3,"goal":GOAL,"steps":[STEPS],"target":25580}'), net=TWO + " | {name = 'two', octets = 64 => {name = 'two', octets = 1522",
               plan='{"flowspan":25580,"offsets":[0,0]}')
    row("first 25580", "first", step([], arrive(1)))
    row("optimal 25580", "least", step([], arrive(1)))
    row("K3 1", "first", step([], arrive(0)))
    row("K7 0", "first", step([df(25581)], arrive(1)))
    row("K3 1", "first", step([df(25579)], arrive(1)))
    row("first 25580", "first", step([df(25580)], arrive(1)))
    rows.note("Behind the long one stream 0 starts 24000 ns later; before it it may start 10992 ns later at most.")
    row("first 25580", "first", step([o(0, 1, 4), f(0, 24000)], go(1, 0, 4)), step([], arrive(1)))
    row("K7 0", "first", step([o(0, 1, 4), f(0, 24001)], go(1, 0, 4)), step([], arrive(1)))
    row("first 25580", "first", step([o(1, 0, 4), u(0, 12000), f(1, 1009)], go(0, 1, 4)), step([], arrive(1)))
    row("K7 0", "first", step([o(1, 0, 4), u(0, 12000), f(1, 1010)], go(0, 1, 4)), step([], arrive(1)))
    row("K7 0", "first", step([o(1, 0, 4), u(0, 11999), f(1, 1009)], go(0, 1, 4)), step([], arrive(1)))
    rows.note("What the ground learns besides, that stream 0 is at most at 0, it has behind a step and not within it.")
    row("first 25580", "first", step([], arrive(1)), step([u(0, 0)]))
    row("K7 0", "first", step([u(0, 0)], arrive(1)))
    row("first 25580", "first", step([df(25580)], arrive(1)), step([u(0, 0)]), step([u(1, 0)]))
    row("K4 1", "least", step([], arrive(1)), step([u(0, 0)]))

    rows.table("A last link of a tenth of the rate: 6720 ns there, and arrivals 7436 ns behind the offsets.", ("cert", '{"format":3,"goal":GOAL,"steps":[STEPS],"target":14156}'),
               net=TWO + " | 'C', mbps = 1000 => 'C', mbps = 100", plan='{"flowspan":14156,"offsets":[0,6720]}')
    slow = step([df(14156)], arrive(0), arrive(1), turn(0, 1, 4), go(0, 1, 4))
    row("first 14156", "first", slow, step([], turn(0, 1, 4), go(0, 1, 4)))
    row("K7 0", "first", slow.replace("14156", "14157"), step([], turn(0, 1, 4), go(0, 1, 4)))
    row("optimal 14156", "least", slow)
    row("K3 1", "first", step([f(0, 6720), f(1, 6720)], pack(4, [0, 1])))
    row("K7 0", "first", step([f(0, 6721), f(1, 6720)], pack(4, [0, 1])))
    row("K3 1", "first", step([o(1, 0, 4), f(1, 6720)], go(0, 1, 4)))
    row("K7 0", "first", step([o(1, 0, 4), f(1, 6721)], go(0, 1, 4)))
    row("K3 1", "first", step([df(7436), f(0, 1)], arrive(0)))
    row("K7 0", "first", step([df(7437), f(0, 1)], arrive(0)))

    rows.table("Both from A to C, by way of S: on link 0 672 ns, on link 4 of a tenth of the rate 6720 ns.", ("cert", '{"format":3,"goal":GOAL,"steps":[STEPS],"target":14156}'),
               net=TWO + " | 'C', mbps = 1000 => 'C', mbps = 100 | ['B', 'S', 'C'] => ['A', 'S', 'C']", plan='{"flowspan":14156,"offsets":[0,6720]}')
    row("first 14156", "first", slow, step([], turn(0, 1, 4), go(0, 1, 4)))
    row("K7 0", "first", slow.replace("0,1,4", "0,1,0"), step([], turn(0, 1, 4), go(0, 1, 4)))
    row("K3 1", "first", step([o(1, 0, 0), f(1, 672)], go(0, 1, 0)))
    row("K7 0", "first", step([o(1, 0, 0), f(1, 673)], go(0, 1, 0)))
    row("K6 0", "first", step([o(1, 0, 0), f(1, 672)], go(0, 1, 4)))
    row("K3 1", "first", step([o(1, 0, 0), o(0, 1, 4)], round_of([0, 1, 0], [1, 0, 4])))
    row("K3 1", "first", step([o(0, 1, 0), o(1, 0, 4)], round_of([0, 1, 4], [1, 0, 0])))
    row("K6 0", "first", step([o(0, 1, 0), o(1, 0, 4)], round_of([0, 1, 0], [1, 0, 4])))
    row("K3 1", "first", step([f(0, 672), f(1, 672)], pack(0, [0, 1])))
    row("K7 0", "first", step([f(0, 673), f(1, 672)], pack(0, [0, 1])))
    row("K3 1", "first", step([f(0, 673), f(1, 672)], pack(4, [0, 1])))

    rows.table("The longest cycle, 1000000000 ns, and a frame that is released late in it.", ("cert", '{"format":3,"goal":"first","steps":[STEPS],"target":1000000000}'),
               net=TWO + " | cycle = 1000000 => cycle = 1000000000 | {name = 'two', octets = 64 => {name = 'two', octets = 64, release = 999997702 | 'C', mbps = 1000, prop = 50 => 'C', mbps = 1000, prop = 96",
               plan='{"flowspan":1000000000,"offsets":[0,999997702]}')
    for some, hand in (
        (step([], arrive(1)), "first 1000000000"), (step([], arrive(0)), "K3 1"), (step([df(1000000000)], arrive(1)), "first 1000000000"), (step([df(1000000001)], arrive(1)), "K7 0"),
        (step([f(1, 999997702)]), "K3 1"), (step([f(1, 999997703)]), "K7 0"), (step([u(1, 999997702)]), "K3 1"), (step([u(1, 999997701)]), "K7 0"),
        (step([u(0, 999997702)]), "K3 1"), (step([u(0, 999997701)]), "K7 0"), (step([o(1, 0, 4)], go(0, 1, 4)), "K7 0"), (step([o(0, 1, 4)], go(1, 0, 4)), "K3 1"),
        (steps(step([], turn(0, 1, 4)), step([u(0, 999997030)], go(0, 1, 4))), "K3 2") , (steps(step([], turn(0, 1, 4)), step([u(0, 999997029)], go(0, 1, 4))), "K7 1"),
        (step([f(0, 999997030)], turn(0, 1, 4)), "K7 0"), (step([u(0, 2000000000), f(1, 2000000000)]), "K3 1"), (step([], turn(1, 0, 4)), "K7 0"),
    ):
        rows.row(hand, f"STEPS => {some}")

    rows.table("Two links that both use: first on link 4, 672 ns behind; first on link 12 the other way, 672 ns before. A round of both adds up to 0.",
               ("cert", '{"format":3,"goal":"first","steps":[STEPS],"target":3648}'), net="@two-shared-links.toml", plan='{"flowspan":3648,"offsets":[0,672]}')

    def two(hand, *some):
        rows.row(hand, f"STEPS => {steps(*some)}")

    two("first 3648", step([], arrive(0)), step([], turn(0, 1, 4), go(0, 1, 4)))
    two("first 3648", step([df(3648)], arrive(0)), step([f(1, 672)], turn(0, 1, 4), go(0, 1, 4)))
    both = [o(1, 0, 4), o(0, 1, 12)]
    two("K7 0", step(both, round_of([0, 1, 4], [1, 0, 12])), step([], arrive(0)))
    two("K7 0", step(both, round_of([1, 0, 12], [0, 1, 4])), step([], arrive(0)))
    two("K6 0", step(both, round_of([0, 1, 4], [0, 1, 4])))
    two("K6 0", step(both, round_of([0, 1, 12], [1, 0, 4])))
    two("K3 1", step([o(0, 1, 4), o(1, 0, 12)], round_of([1, 0, 4], [0, 1, 12])))
    two("K3 1", step([o(0, 1, 4), o(1, 0, 4)], round_of([1, 0, 4], [0, 1, 4])))
    two("K5 0", step([o(0, 1, 0)]))
    two("K5 0", step([o(0, 1, 8)]))
    two("K5 0", step([], turn(0, 1, 6)))
    rows.note("An order contradicts the other one of its own link alone.")
    shown = step([o(0, 1, 4), o(1, 0, 12)], round_of([1, 0, 4], [0, 1, 12]))
    two("K7 1", shown, step([f(1, 672)], use(0)))
    two("K7 1", shown, step([o(0, 1, 12), f(1, 1)], use(0)))
    two("K7 1", shown, step([o(0, 1, 4), u(0, 1), f(1, 1)], use(0), go(1, 0, 12)))
    two("K3 2", shown, step([o(1, 0, 12), u(0, 1), f(1, 1)], use(0), go(0, 1, 4)))
    two("K6 1", shown, step([o(1, 0, 12), u(0, 1), f(1, 1)], go(0, 1, 4)))
    two("K6 1", shown, step([o(0, 1, 4), u(0, 1), f(1, 1)], use(0), go(0, 1, 4)))
    rows.table("The propagation from T to V decides what the round adds up to: with 767 it is 1, and there is no way between.", ("net", "@two-shared-links.toml"),
               plan='{"flowspan":3648,"offsets":[0,672]}',
               cert=f'{{"format":3,"goal":"first","steps":[{steps(step(both, round_of([0, 1, 4], [1, 0, 12])), step([], arrive(0)), step([], turn(0, 1, 4), go(0, 1, 4)))}],"target":3648}}')
    rows.row("K7 0")
    rows.row("K1", "prop = 768 => prop = 767")
    rows.table("With a propagation of 767 one of them goes first on both links, so that 4319 is the least flowspan: 0 and 2015, or 672 and 0.",
               ("cert", '{"format":3,"goal":GOAL,"steps":[STEPS],"target":4319}'),
               net="@two-shared-links.toml | prop = 768 => prop = 767", plan='{"flowspan":4319,"offsets":[0,2015]}')
    closed = step(both, round_of([0, 1, 4], [1, 0, 12]))
    least = step([df(4319)], arrive(0), arrive(1), turn(0, 1, 4), use(0), go(0, 1, 12))
    end = step([], turn(0, 1, 4), use(0), go(0, 1, 12))
    row("first 4319", "first", closed, least, end)
    row("optimal 4319", "least", closed, least)
    row("K4 2", "least", closed, least, end)
    row("K3 1", "first", closed)
    row("K3 2", "first", closed, least)
    row("K7 1", "first", closed, end)
    row("K6 0", "first", least, end)
    row("K6 1", "first", closed, least.replace('["use",0],', ""), end)
    row("K6 1", "first", closed, least.replace('["use",0]', '["use",1]'), end)
    row("K7 1", "first", closed, least.replace('["turn",0,1,4],', ""), end)
    row("K7 1", "first", closed, least.replace('["arrive",0],', ""), end)
    row("K7 1", "first", closed, least.replace('["arrive",1],', ""), end)
    row("K7 1", "first", closed, least.replace("[0,1,12]", "[0,1,4]").replace('"go",0,1,12', '"go",0,1,4'), end)
    row("K7 1", "first", closed, least.replace("4319", "4320"), end)
    row("K6 2", "first", closed, least, step([], go(0, 1, 12)))
    row("K3 3", "first", closed, least, step([], turn(0, 1, 4), go(0, 1, 4)))

    rows.table("Streams that share no link: an order is on no conflict, and each has its own bounds.",
               ("cert", '{"format":3,"goal":"first","steps":[STEPS],"target":2252}'), net=TWO + " | ['B', 'S', 'C'] => ['C', 'S', 'B']", plan='{"flowspan":2252,"offsets":[0,0]}')
    rows.row("first 2252", f"STEPS => {step([], arrive(0))}")
    rows.row("first 2252", f"STEPS => {step([], arrive(1))}")
    rows.row("K3 0", "STEPS =>")
    rows.row("K7 0", f"STEPS => {step([df(2253)], arrive(1))}")
    for link in range(6):
        rows.row("K5 0", f"STEPS => {step([o(0, 1, link), o(1, 0, link)])}")
    rows.row("K9 0", f"STEPS => {step([], pack(4, [0, 1]))}")
    rows.row("K9 0", f"STEPS => {step([], last(5, 0, [1], [1]))}")

    rows.table("One stream, alone and on a link without a bridge.", ("cert", '{"format":3,"goal":"first","steps":[STEPS],"target":122401}'), net="@direct.toml",
               plan='{"flowspan":122401,"offsets":[0]}')
    for some, hand in (
        (step([], arrive(0)), "first 122401"), (step([df(122401)], arrive(0)), "first 122401"), (step([df(122402)], arrive(0)), "K7 0"), (step([], pack(0, [0])), "K7 0"),
        (step([f(0, 1), u(0, 0)], arrive(0)), "K4 0"), (step([u(0, 876640)]), "K3 1"), (step([u(0, 876639)]), "K7 0"), (step([], last(0, 0, [0], [0])), "K8 0"),
        (step([o(0, 0, 0)]), "K5 0"), (step([], turn(0, 0, 0)), "K5 0"), (step([], pack(1, [0])), "K9 0"), (step([], last(0, 0, [1], [1])), "K9 0"),
    ):
        rows.row(hand, f"STEPS => {some}")


def sets(rows):
    """Ten streams of 64 octets that share link 20: from 1626 on, 672 ns each."""
    every = list(range(10))
    plan = '{"flowspan":8300,"offsets":[0,672,1344,2016,2688,3360,4032,4704,5376,6048]}'
    bound = step([df(8300)], *[arrive(i) for i in every], pack(20, every))
    rows.table("Ten streams on link 20. With a flowspan of at most 8299 all would be done by 8345, and need until 8346.",
               ("cert", '{"format":3,"goal":GOAL,"steps":[STEPS],"target":8300}'), net="@ten-streams.toml", plan=plan)

    def row(hand, goal, *some):
        rows.row(hand, f'GOAL => "{goal}"', f"STEPS => {steps(*some)}")

    row("optimal 8300", "least", step([], *[arrive(i) for i in every], pack(20, every)))
    row("K7 0", "least", step([], *[arrive(i) for i in every], pack(20, every[1:])))
    row("K7 0", "least", step([], *[arrive(i) for i in every[1:]], pack(20, every)))
    row("K7 0", "least", step([], *[arrive(i) for i in every[:9]], pack(20, every)))
    row("optimal 8300", "least", step([], *[arrive(i) for i in reversed(every)], pack(20, every[5:] + every[:5])))
    row("K8 0", "least", step([], *[arrive(i) for i in every], pack(20, [*every, 0])))
    row("K8 0", "least", step([], *[arrive(i) for i in every], pack(20, [*every[:9], 0])))
    row("K9 0", "least", step([], *[arrive(i) for i in every], pack(20, [*every, 10])))
    row("K9 0", "least", step([], *[arrive(i) for i in every], pack(18, every)))
    rows.note("With the flowspan known, one goes after another, from the plan's first stream on: all but the first of the rest go later.")
    whole = [bound]
    for k in range(9):
        whole.append(step([], *[turn(k, j, 20) for j in every[k + 1:]], *[go(k, j, 20) for j in every[k + 1:]]))
    row("first 8300", "first", *whole)
    for k in range(1, 10):
        row("K3 9" if k == 9 else f"K7 {k}", "first", *whole[:k], *whole[k + 1:])
    row("K3 10", "first", *whole[:9], step([], turn(8, 9, 20)))
    rows.note("With a flowspan of at most 8299 stream 9 is the last, behind as many of the others as R has.")
    for k in range(1, 10):
        row("K3 1", "first", step([f(9, 672 * k), df(8300)], *[arrive(i) for i in every[:9]], last(20, 9, every[:9], every[:k])))
    for k in range(1, 10):
        row("K7 0", "first", step([f(9, 672 * k + 1), df(8300)], *[arrive(i) for i in every[:9]], last(20, 9, every[:9], every[:k])))

    small = '{"flowspan":3596,"offsets":[0,672,1344]}'
    rows.table("Three of them. In a window that ends at 4 ns more than two need, the third can't be before the last of them.",
               ("cert", '{"format":3,"goal":"first","steps":[STEP],"target":3596}'),
               net="@ten-streams.toml" + "".join(f" | {{name = 's{i}', octets = 64, route = ['A{i}', 'S', 'C']}}, =>" for i in range(3, 10)), plan=small)

    def three(hand, *step_of):
        rows.row(hand, f"STEP => {step(*step_of)}")

    rows.note("Streams 0 and 1 at most at 1343, stream 2 from 0 on: 1626 + 2016 is above 1343 + 2298. So stream 2 is last: from 1344 on by both, from 672 on by one.")
    ends = [f(0, 1344), f(1, 1344)]
    three("K3 1", [*ends, f(2, 1344)], last(20, 2, [0, 1], [0, 1]))
    three("K3 1", [*ends, f(2, 1344)], last(20, 2, [1, 0], [0, 1]))
    three("K3 1", [*ends, f(2, 1344)], last(20, 2, [1, 0], [1, 0]))
    three("K7 0", [*ends, f(2, 1345)], last(20, 2, [0, 1], [0, 1]))
    three("K3 1", [*ends, f(2, 672)], last(20, 2, [0, 1], [0]))
    three("K7 0", [*ends, f(2, 673)], last(20, 2, [0, 1], [0]))
    three("K7 0", [*ends, f(2, 673)], last(20, 2, [0, 1], [1]))
    three("K7 0", [f(0, 1345), f(1, 1344), f(2, 1)], last(20, 2, [0, 1], [0, 1]))
    three("K7 0", [f(0, 1344), f(1, 1345), f(2, 1)], last(20, 2, [0, 1], [0, 1]))
    three("K7 0", [*ends, f(2, 1344)], last(20, 2, [0], [0]))
    three("K3 1", [*ends, f(2, 1344)], last(20, 1, [0, 2], [0, 2]))
    three("K7 0", [*ends, f(2, 1345)], last(20, 1, [0, 2], [0, 2]))
    rows.note("A later one of S is ready later: of it alone stream 2 has more. The work of a stream counts once.")
    three("K3 1", [*ends, u(1, 699), f(2, 1372)], last(20, 2, [0, 1], [1]))
    three("K7 0", [*ends, u(1, 699), f(2, 1373)], last(20, 2, [0, 1], [1]))
    three("K3 1", [*ends, u(1, 699), f(2, 1344)], last(20, 2, [0, 1], [0, 1]))
    three("K7 0", [*ends, u(1, 699), f(2, 1345)], last(20, 2, [0, 1], [0, 1]))
    three("K8 0", [*ends, f(2, 1344)], last(20, 2, [0, 1], [0, 0]))
    three("K8 0", [*ends, f(2, 1344)], last(20, 2, [0, 1], [0, 1, 0]))
    three("K8 0", [*ends, f(2, 1344)], last(20, 2, [0, 1, 0], [0, 1]))
    three("K6 0", [*ends, f(2, 1344)], last(20, 2, [0, 1], [0, 2]))
    three("K8 0", [*ends, f(2, 1344)], last(20, 2, [0, 1, 2], [0, 1]))
    three("K9 0", [*ends, f(2, 1344)], last(20, 2, [0, 1, 3], [0, 1]))
    rows.note("And the other way: streams 0 and 1 from 996359 on can't both be behind stream 2 unless it is first, at most at 996358.")
    starts = [u(0, 996358), u(1, 996358)]
    three("K3 1", [*starts, u(2, 996358)], first(20, 2, [0, 1], [0, 1]))
    three("K7 0", [*starts, u(2, 996357)], first(20, 2, [0, 1], [0, 1]))
    three("K3 1", [*starts, u(2, 997030)], first(20, 2, [0, 1], [0]))
    three("K7 0", [*starts, u(2, 997029)], first(20, 2, [0, 1], [0]))
    three("K7 0", [u(0, 996357), u(1, 996358), u(2, 997000)], first(20, 2, [0, 1], [0, 1]))
    three("K7 0", [u(0, 996358), u(1, 996357), u(2, 997000)], first(20, 2, [0, 1], [0, 1]))
    three("K3 1", [*starts, f(1, 997003), u(2, 996330)], first(20, 2, [0, 1], [1]))
    three("K7 0", [*starts, f(1, 997003), u(2, 996329)], first(20, 2, [0, 1], [1]))
    three("K8 0", [*starts, u(2, 996358)], first(20, 2, [0, 1], [0, 1, 1]))
    three("K6 0", [*starts, u(2, 996358)], first(20, 2, [0, 1], [2]))
    rows.note("pack: three by 1343 + 2298.")
    three("K3 1", [f(0, 1344), f(1, 1344), f(2, 1344)], pack(20, [0, 1, 2]))
    three("K7 0", [f(0, 1344), f(1, 1344), f(2, 1345)], pack(20, [0, 1, 2]))
    three("K7 0", [f(0, 1344), f(1, 1344), f(2, 1344)], pack(20, [0, 2]))
    three("K8 0", [f(0, 1344), f(1, 1344), f(2, 1344)], pack(20, [0, 2, 2]))
    rows.note("Rounds of three, and of two that don't close.")
    orders = [o(1, 0, 20), o(2, 1, 20), o(0, 2, 20)]
    three("K3 1", orders, round_of([0, 1, 20], [1, 2, 20], [2, 0, 20]))
    three("K3 1", orders, round_of([1, 2, 20], [2, 0, 20], [0, 1, 20]))
    three("K6 0", orders, round_of([0, 1, 20], [2, 0, 20], [1, 2, 20]))
    three("K6 0", orders, round_of([0, 1, 20], [1, 2, 20]))
    three("K6 0", orders, round_of([0, 1, 20], [1, 0, 20]))
    three("K6 0", orders, round_of([1, 0, 20], [0, 2, 20], [2, 1, 20]))
    three("K6 0", orders[:2], round_of([0, 1, 20], [1, 2, 20], [2, 0, 20]))

    streams = "{name = 'one', octets = 64, route = ['A', 'S', 'C']}, =>"
    rows.table("128 streams, all over links 0 and 4: sets of 127, of 128 and of more frames.", ("cert", '{"format":3,"goal":"none","steps":[[CLAUSE,[MOVE]]],"target":87642}'),
               net=TWO + " | cycle = 1000000 => cycle = 87641 | " + streams + " | {name = 'two', octets = 64, route = ['B', 'S', 'C']}, => <128*{name = 's#', octets = 64, route = ['A', 'S', 'C']}, >",
               plan=NONE)
    listed = "[" + ",".join(map(str, range(128))) + "]"
    rows.note("They take 128 * 672 on link 4 from 1626 on, until 87642, and the cycle ends at 87641.")
    rows.row("no schedule", "CLAUSE => []", f'MOVE => ["pack",4,{listed}]')
    rows.row("no schedule", "CLAUSE => []", f'MOVE => ["pack",0,{listed}]')
    rows.row("K9 0", "CLAUSE => []", f'MOVE => ["pack",2,{listed}]')
    rows.row("K7 0", "CLAUSE => []", f'MOVE => ["pack",4,{listed.replace(",127", "")}]')
    rows.row("K9 0", "CLAUSE => []", f'MOVE => ["pack",4,{listed.replace(",127", ",127,128")}]')
    rows.row("K8 0", "CLAUSE => []", f'MOVE => ["pack",4,{listed.replace(",127", ",127,127")}]')
    rows.row("K9 0", "CLAUSE => []", 'MOVE => ["pack",4,[<65535*#,>65535]]')
    rows.row("C2", "CLAUSE => []", 'MOVE => ["pack",4,[<65536*#,>65536]]')
    rows.row("K8 0", "CLAUSE => []", 'MOVE => ["pack",4,[<128*#,><65407*0,>0]]')
    rows.row("C2", "CLAUSE => []", 'MOVE => ["pack",4,[<128*#,><65408*0,>0]]')
    rows.row("no schedule", "CLAUSE => []", f'MOVE => ["last",4,127,{listed.replace(",127", "")},{listed.replace(",127", "")}]')
    rows.row("no schedule", "CLAUSE => []", f'MOVE => ["first",4,0,{listed.replace("[0,", "[")},{listed.replace("[0,", "[")}]')
    rows.row("K8 0", "CLAUSE => []", f'MOVE => ["last",4,127,{listed},{listed}]')
    rows.row("K9 0", "CLAUSE => []", f'MOVE => ["last",4,127,{listed.replace(",127", ",128")},[0]]')
    rows.row("K6 0", "CLAUSE => []", f'MOVE => ["last",4,127,{listed.replace(",127", "")},{listed}]')
    rows.row("K9 0", 'CLAUSE => [["from",128,0]]', 'MOVE => ["use",0]')
    rows.row("K6 0", 'CLAUSE => [["from",127,1]]', 'MOVE => ["use",0]')


def main():
    rows = Rows()
    for part in (whole_files, forms, plans, facts, moves, uses, ground, networks, sets):
        part(rows)
    total = sum(rows.answers.values())
    print(f"{total} rows, {rows.by_hand} of them with an answer by hand")
    for answer, count in sorted(rows.answers.items()):
        print(f"{count:5} {answer}")
    if rows.wrong:
        sys.exit(f"{rows.wrong} answers by hand are others")
    if "--told" not in sys.argv[1:]:
        with open(TABLE, "w") as file:
            file.write("\n".join([*rows.lines, "", f"rows {total}"]) + "\n")


if __name__ == "__main__":
    main()
