#!/usr/bin/env python3
"""Counts what has to be believed of a statement: the definitions that it stands on, their lines and their files.

closure.py [CRATE NAME..]   the definition NAME in a spec of CRATE, and all that their texts name; without names, the statements below

A definition is a block of a spec file (crates/*/specs/*.antt): its signature and its clauses. Its comment isn't counted, nor a blank
line. Names are followed by the file's imports and within the file. What is imported from the toolchain (`Rattle.std` and its like) is
its own, and types of the code (`specs.declared`) are followed by the declaration in the source. Private definitions count, too.
"""

import os
import re
import sys

ROOT = os.path.dirname(os.path.dirname(os.path.abspath(__file__)))
CRATES = os.path.join(ROOT, "crates")
STATEMENTS = [
    ("the first optimal schedule, and that there is none", "tsn_model", ["IsFirst", "HasNoSchedule"]),
    ("... with what a network is", "tsn_model", ["IsFirst", "HasNoSchedule", "IsWellFormed"]),
    ("that what the search of `plan` finds is the optimum", "tsn_answer", ["FindsOptimum"]),
    ("a certificate shows it", "tsn_argue", ["Certifies"]),
    ("what shows the planner's answer", "tsn_answer", ["IsAnswerShown"]),
    ("what its file says", "tsn_answer", ["IsAnswerReadAgain"]),
    ("what `plan` has written by its status", "tsn_cli", ["WritesFirst", "WritesNone"]),
    ("... with the certificate", "tsn_cli", ["WritesAsSaid"]),
    ("... of any run, with what it read", "tsn_command", ["RanAsSaid"]),
    ("what `plan` prints and writes", "tsn_cli", ["PlanAnswers"]),
    ("frames start on time", "tsn_model", ["FramesStartOnTime"]),
    ("... that are ready early, too", "tsn_model", ["EarlyFramesStartOnTime"]),
]
NAME = re.compile(r"[^\s(){}\[\],;:.λ∷→×⊎≡≢≤<↔¬∙+*=|&-]+")


class Spec:
    """A spec file: where its names come from, and its definitions."""

    def __init__(self, path):
        self.path, self.imports, self.whole, self.blocks = path, {}, {}, {}
        with open(path) as file:
            lines = file.read().split("\n")
        block = None
        for line in lines:
            used = re.match(r"use ([\w.]+?)(?:\.\{(.*)\})?(?: as (\w+))?$", line.strip()) if line.startswith("use ") else None
            if used:
                module, names, alias = used.groups()
                if alias:
                    self.whole[alias] = module
                for name in (names or "").split(","):
                    name = name.strip().split(" as ")
                    if name[0]:
                        self.imports[name[-1].strip()] = (module, name[0].strip())
                block = None
                continue
            if not line.strip() or line.startswith("--"):
                block = None if line.startswith("--") or not line.strip() else block
                continue
            if line[0] not in " \t":
                named = re.match(r"(?:abbrev |unfoldable |foreign )?(?:pub )?(?:record |data )?([^\s:(]+)\s*[:({]", line)
                if named and (": " in line or line.startswith(("pub record", "record", "pub data", "data"))):
                    block = named.group(1)
                elif block is None or not line.startswith(block):
                    block = line.split()[0] if line.split()[0] in self.blocks else block
            if block:
                self.blocks.setdefault(block, []).append(line)


SPECS = {}


def spec_of(module):
    """The spec file of a module, as Rattle.tsn_model.specs.Schedule."""
    parts = module.split(".")
    if len(parts) < 4 or parts[0] != "Rattle" or not parts[1].startswith("tsn_") or parts[2] != "specs":
        return None
    path = os.path.join(CRATES, parts[1], "specs", *parts[3:]) + ".antt"
    if path not in SPECS:
        SPECS[path] = Spec(path) if os.path.exists(path) else None
    return SPECS[path]


def declared(module):
    """The lines of a type of the code, and its file, by its module, as Rattle.tsn_check.specs.declared.verdict.Verdict."""
    parts = module.split(".")
    if len(parts) < 5 or parts[3] != "declared" or not parts[1].startswith("tsn_"):
        return None
    # (a type of the crate's root has no module before it)
    file, kind = (parts[4], parts[5]) if len(parts) > 5 else ("lib", parts[4])
    path = os.path.join(CRATES, parts[1], "src", file + ".rt")
    if not os.path.exists(path):
        return None
    with open(path) as file:
        lines = file.read().split("\n")
    for number, line in enumerate(lines):
        if re.match(rf"(pub |pub\(crate\) )?(struct|enum) {kind}\b", line):
            end = number
            while not lines[end].startswith("}") and not lines[end].rstrip().endswith(";"):
                end += 1
            kept = [it for it in lines[number : end + 1] if it.strip() and not it.strip().startswith("//")]
            return path, kind, kept
    return None


def closure(crate, names):
    """The definitions that these stand on: by file and name, their lines."""
    found, open_ones = {}, []
    folder = os.path.join(CRATES, crate, "specs")
    for name in names:
        for file in sorted(os.listdir(folder)):
            spec = spec_of(f"Rattle.{crate}.specs.{file[:-5]}") if file.endswith(".antt") else None
            if spec and name in spec.blocks:
                open_ones.append((spec, name))
                break
        else:
            sys.exit(f"closure.py: {crate} has no definition {name}")
    while open_ones:
        spec, name = open_ones.pop()
        if (spec.path, name) in found:
            continue
        lines = spec.blocks[name]
        found[spec.path, name] = lines
        for used in set(NAME.findall(" ".join(lines))):
            if used in spec.blocks:
                open_ones.append((spec, used))
            elif used in spec.imports:
                module, real = spec.imports[used]
                other = spec_of(module)
                if other and real in other.blocks:
                    open_ones.append((other, real))
                elif declared(module):
                    path, named, kept = declared(module)
                    found[path, named] = kept
    return found


def told(what, found):
    files = {path for path, _ in found}
    lines = sum(len(it) for it in found.values())
    print(f"{what}: {len(found)} definitions, {lines} lines, {len(files)} files")


def main():
    if len(sys.argv) > 2:
        found = closure(sys.argv[1], sys.argv[2:])
        for path, name in sorted(found):
            print(f"{os.path.relpath(path, ROOT)}: {name}, {len(found[path, name])}")
        told(" ".join(sys.argv[2:]), found)
        return
    for what, crate, names in STATEMENTS:
        told(what, closure(crate, names))


main()
