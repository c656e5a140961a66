#!/usr/bin/env python3
"""Checks README.md, docs/proved.md, docs/architecture.md and docs/crates.md against the sources: that what they quote stands where their
links lead, and that each function among it is reached from the program's `main` (tools/reached.py), is a law, or is said to be for users
of the crates; that each crate has its row in the map, the definitions and files that rows name are there, and its picture shows what
crates.txt says. And that they tell right within a twentieth how many functions have a contract: those of the program and of the crates
below it that have an `ensures` at their head.

Usage: bench/claims.py [--list [CRATE..] | --mend]. With --list it prints what is promised: each public function that has a contract, by
crate, with its line, its comment and the clauses of its `ensures`. With --mend it writes the lines of links anew where their words have
moved, and the counts of functions to the nearest 50. It looks at the crates below the program, which is what a user's call goes through,
and at the shared search without threads. It reads texts and proves nothing: `rt ci` does.
"""

import glob
import os
import re
import sys

ROOT = os.path.dirname(os.path.dirname(os.path.abspath(__file__)))
sys.path.insert(0, os.path.join(ROOT, "tools"))

from lanes import below, minutes, uses
from reached import Reached

PAGE = os.path.join(ROOT, "docs", "proved.md")
MAP = os.path.join(ROOT, "docs", "crates.md")
PAGES = [PAGE, os.path.join(ROOT, "README.md"), MAP, os.path.join(ROOT, "docs", "architecture.md")]
# What a line says of calls that no command makes.
FOR_USERS = "for users of the crates"
# Crates that promise something and that the program is built without.
APART = ("tsn_core", "tsn_laws", "tsn_planner", "tsn_runs")
LEARNS = ("tsn_bounds", "tsn_solver", "tsn_translate", "tsn_learn")

# What stands around the counts of functions in each page, and which counts these are.
COUNTS = {
    PAGE: (r"Some ([\d,]+) of ([\d,]+) functions have no contract", ("without", "all")),
    PAGES[1]: (r"Some ([\d,]+) functions have a contract\. Some ([\d,]+), of which ([\d,]+) are the conflict-driven search", ("with", "without", "learns")),
}


def read(path):
    with open(path, encoding="utf-8") as file:
        return file.read()


def is_open(crate, path, name):
    """Whether a caller of the crate can name it: its module is public, or the item is handed out by the root file."""
    root = read(os.path.join(ROOT, "crates", crate, "src", "lib.rt"))
    module = path.removeprefix("src/").removesuffix(".rt").replace("/", "::")
    if module == "lib" or re.search(rf"^pub mod {module.partition('::')[0]};", root, re.M):
        return True
    parts = module.split("::")
    # (the root may hand it out by the module that its own stands in)
    inside = "|".join("::".join(parts[:count]) for count in range(1, len(parts) + 1))
    handed = re.findall(rf"^pub use (?:{inside})::(?:\{{([^}}]*)\}}|(\w+));", root, re.M)
    return name.partition("::")[0] in re.split(r"\W+", " ".join(a or b for a, b in handed))


def functions(crate):
    """Each public function of a crate that has an `ensures`: its name with its type, its file, the clauses, its line and its comment."""
    found = []
    for path in sorted(glob.glob(os.path.join(ROOT, "crates", crate, "src", "**", "*.rt"), recursive=True)):
        kind, is_trait, name, clauses, at, words, comment = "", False, None, [], 0, "", []
        for number, line in enumerate(read(path).splitlines() + ["fn"], 1):
            begun = re.match(r"(?:unsafe )?impl\b(?:<.*?>)?\s+(.*?)\s*(?:\bwhere\b.*)?\{?$", line) or re.match(r"pub trait (\w+)", line)
            if begun:
                is_trait = line.startswith("pub trait") or " for " in line
                kind = re.sub(r"<.*", "", begun[1].split(" for ")[-1]).split("::")[-1].split(":")[0].strip()
            elif line.startswith("}"):
                kind = ""
            if re.match(r"\s*(pub(\(\w+\))? )?(const )?fn\b", line) or begun:
                inside = os.path.relpath(path, os.path.join(ROOT, "crates", crate))
                if name and clauses and is_open(crate, inside, name):
                    found.append((name, inside, clauses, at, words))
                name, clauses, at, words = None, [], number, " ".join(comment)
                head = re.match(r"\s*(pub )?(?:const )?fn (\w+)", line)
                if head and (head[1] or is_trait and line.startswith("    ")):
                    name = f"{kind}::{head[2]}" if kind else head[2]
            said = re.match(r"\s*/// ?(.*)", line)
            comment = [*comment, said[1]] if said else comment if line.strip().startswith("#[") else []
            clause = re.match(r"\s+ensures(?:\s+(\w+))?\s*[({*]", line)
            if clause:
                clauses.append(clause[1] or "")
    return found


def contracts(crate):
    """For each function of a crate whether an `ensures` stands at its head."""
    found, is_head = [], False
    for path in glob.glob(os.path.join(ROOT, "crates", crate, "src", "**", "*.rt"), recursive=True):
        for line in read(path).splitlines():
            if re.match(r"\s*(pub(\(\w+\))? )?(const )?(unsafe )?fn \w", line):
                found.append(False)
                is_head = True
            is_clause = re.match(r"\s+(requires|ensures)\b", line)
            if is_head and is_clause and is_clause[1] == "ensures":
                found[-1] = True
            is_head = is_head and (bool(is_clause) or not line.endswith(("{", ";")))
    return found


def counts(crates):
    """How many functions there are, and how many of them have a contract, or none, or are of the conflict-driven search without one."""
    found = {crate: contracts(crate) for crate in crates}
    every, proved = sum(map(len, found.values())), sum(map(sum, found.values()))
    return {"all": every, "with": proved, "without": every - proved, "learns": sum(found[it].count(False) for it in LEARNS)}


def wrong_counts(path, counted, mend):
    """Counts of functions that a page tells wrong; with `mend` they are written."""
    pattern, names = COUNTS[path]
    page = os.path.relpath(path, ROOT)
    text = read(path)
    found = re.search(pattern, text)
    if not found:
        return [f"{page}: no counts of functions"]
    if not mend:
        told = ((name, int(it.replace(",", ""))) for name, it in zip(names, found.groups()))
        return [f"{page}: {it} functions {name}, and there are {counted[name]}" for name, it in told if abs(it - counted[name]) * 20 > counted[name]]
    right = iter(f"{round(counted[name] / 50) * 50:,}" for name in names)
    with open(path, "w", encoding="utf-8") as file:
        file.write(text.replace(found[0], re.sub(r"\d[\d,]*\d", lambda _: next(right), found[0])))
    return []


def definitions(crate):
    """The names that the definitions of a crate give, and the fields of their records."""
    texts = (read(it) for it in glob.glob(os.path.join(ROOT, "crates", crate, "specs", "**", "*.antt"), recursive=True))
    return {it for text in texts for it in re.findall(r"^(?:abbrev pub|unfoldable pub|pub record|pub data|pub|  pub) (\w+)", text, re.M)}


def rows(text):
    """The row of each crate in the map, with its line."""
    found = {}
    for number, line in enumerate(text.splitlines(), 1):
        head = re.match(r"\| `(tsn\w*)`", line)
        if head:
            found[head[1]] = (number, [it.strip() for it in re.split(r"(?<!\\)\|", line.strip("|"))])
    return found


def wrong_picture(text, used):
    """What the map's picture shows otherwise than crates.txt: on which crates one stands, but for those that it reaches by another."""
    drawn = text.partition("```")[2].partition("```")[0]
    shown = {it[0]: set(it[1].split(", ")) for it in re.findall(r"(\w+) > (\w+(?:, \w+)*)", drawn)}
    wrong = []
    for crate in used:
        lower = set(used[crate]) - set().union(*(below(it, used) - {it} for it in used[crate]))
        name, wanted = crate.removeprefix("tsn_"), {it.removeprefix("tsn_") for it in lower}
        if shown.get(name, set()) != wanted or not re.search(rf"\b{name}\b", drawn):
            wrong.append(f"docs/crates.md: {name} stands on {', '.join(sorted(wanted)) or 'nothing'}")
    return wrong


def wrong_in_row(crate, cells, words):
    """What a row names that isn't there: a file, or a definition of whatever crate."""
    wrong = []
    for word in re.findall(r"`([^`]+)`", " ".join(cells[1:])):
        if word.endswith((".rt", ".antt")):
            places = [os.path.join("crates", crate, word), os.path.join("crates", word)]
            if not any(os.path.isfile(os.path.join(ROOT, it)) for it in places):
                wrong.append(f"no file {word}")
        elif re.fullmatch(r"[A-Z]\w+", word) and word not in words:
            wrong.append(f"no definition {word}")
    return wrong


def first_sentence(text):
    """The first sentence of a comment."""
    return re.split(r"(?<=\.) ", text)[0] if text else "(no comment)"


def tell(listed, named):
    """Prints what is promised, by crate."""
    for crate, found in listed.items():
        if named and crate not in named or not found:
            continue
        print(f"{crate}: {len(found)}")
        for name, path, clauses, at, words in found:
            told = " ".join(it for it in clauses if it)
            print(f"  {name}  {path}:{at}\n    {first_sentence(words)}" + (f"\n    [{told}]" if told else ""))


def wrong_links(path, mend):
    """Links of a page to a line that hasn't the word, or that lead nowhere; with `mend` the line is looked for and written."""
    text, wrong = read(path), []

    def looked_at(found):
        word, target, line = found[1], found[2], found[3]
        file = os.path.normpath(os.path.join(os.path.dirname(path), target))
        lines = read(file).splitlines() if os.path.isfile(file) else []
        begins = re.compile(rf"(?:pub |abbrev |unfoldable |record |data |fn |trait |struct |enum )+{re.escape(word)}\b")
        at = next((number for number, it in enumerate(lines, 1) if begins.match(it.strip())), 0)
        if mend and at:
            return f"[`{word}`]({target}#L{at})"
        if str(at) != line:
            wrong.append(f"{os.path.relpath(path, ROOT)}: `{word}` is in line {at} of {target}, and not in {line}")
        return found[0]

    changed = re.sub(r"\[`([\w:]+)`\]\(([^)#]+)#L(\d+)\)", looked_at, text)
    if mend and changed != text:
        with open(path, "w", encoding="utf-8") as file:
            file.write(changed)
    for target in re.findall(r"\]\(([^)#:]+)(?:#[^)]*)?\)", text):
        if not os.path.exists(os.path.join(os.path.dirname(path), target)):
            wrong.append(f"{os.path.relpath(path, ROOT)}: no file {target}")
    return wrong


def unreached(path, reached):
    """Functions to which links of a page lead, and to which no way leads from `main`: laws aside, and where the line says for whom they are."""
    wrong = []
    for line in read(path).splitlines():
        for word, target, at in re.findall(r"\[`([\w:]+)`\]\(([^)#]+\.rt)#L(\d+)\)", line):
            file = os.path.relpath(os.path.normpath(os.path.join(os.path.dirname(path), target)), os.path.join(ROOT, "crates"))
            crate, _, inside = file.partition(os.sep)
            is_law = crate == "tsn_laws" or os.path.basename(inside) == "laws.rt"
            if not is_law and FOR_USERS not in line and not reached.is_reached(crate, inside, int(at)):
                wrong.append(f"{os.path.relpath(path, ROOT)}: nothing reaches `{word}` from main, and the line doesn't say that it is {FOR_USERS}")
    return wrong


def code_lines(path):
    """The lines of a file without their indentation, but for empty ones and comments."""
    return [line.strip() for line in read(path).splitlines() if line.strip() and not line.strip().startswith(("//", "--"))]


def is_within(piece, lines):
    """Whether these lines stand in the file one after another."""
    return any(lines[at : at + len(piece)] == piece for at in range(len(lines)))


def wrong_quotes(path):
    """Pieces of code blocks of a page that don't stand so in a file to which a link led since the block before, if one did; an empty line
    or `..` ends a piece."""
    wrong, files, quoted = [], [], None
    for line in read(path).splitlines():
        if quoted is None:
            files += re.findall(r"\]\(((?:\.\./)?crates/[^)#]+)", line)
        if line.startswith("```"):
            if quoted is None:
                quoted = [[]]
                continue
            texts = [code_lines(os.path.join(os.path.dirname(path), it)) for it in files]
            wrong += [f"not in {', '.join(files)}: {it[0]} .." for it in quoted if files and it and not any(is_within(it, lines) for lines in texts)]
            files, quoted = [], None
        elif quoted is not None and line.strip() in ("..", ""):
            quoted.append([])
        elif quoted is not None:
            quoted[-1].append(line.strip())
    return wrong


def main():
    used = uses()
    crates = [it for it in used if it in below("tsn", used) or it in APART]
    listed = {crate: functions(crate) for crate in crates}
    if sys.argv[1:2] == ["--list"]:
        tell(listed, sys.argv[2:])
        return 0
    mend = sys.argv[1:] == ["--mend"]
    wrong = [it for page in PAGES for it in [*wrong_links(page, mend), *wrong_quotes(page)]]
    reached = Reached(ROOT, [*(it for it in crates if it not in APART), "tsn"])
    wrong += [it for page in PAGES for it in unreached(page, reached)]
    counted = counts([*crates, "tsn"])
    wrong += [it for page in COUNTS for it in wrong_counts(page, counted, mend)]
    words = set().union(*(definitions(it) for it in used))
    told = rows(read(MAP))
    for crate, (number, cells) in told.items():
        wrong += [f"docs/crates.md:{number}: {it}" for it in wrong_in_row(crate, cells, words)]
    wrong += [f"docs/crates.md and crates.txt differ in {it}" for it in set(told) ^ set(used)] + wrong_picture(read(MAP), used)
    proved_with = re.search(r'VERSION: &str = "[^"]*proved with ([^"]*)"', read(os.path.join(ROOT, "crates", "tsn_words", "src", "words.rt")))
    if not proved_with or f"\n{proved_with[1]} (the line" not in read(PAGES[1]):
        wrong.append("README.md and tsn_words/src/words.rt name different toolchains")
    wrong += [f"minutes.txt and crates.txt differ in {it}" for it in set(minutes()) ^ set(used)]
    wrong += [f"crates.txt: {it} stands before {low}" for it in used for low in used[it] if list(used).index(low) > list(used).index(it)]
    print("\n".join(wrong) or f"{sum(map(len, listed.values()))} public calls have a contract, and what the pages quote and name is there")
    return 1 if wrong else 0


sys.exit(main())
