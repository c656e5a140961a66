#!/usr/bin/env python3
"""Runs the sources with a checker that refuses every argument, over the rows of refusing.rows: what is said is then what the search
in the order of the file shows, and nothing else.

Usage: bench/refusing/refusing.py

A copy of the sources takes no argument for accepted, in the three places that ask (`SEEN`). `rt try` runs it without any proof, in
some ten minutes. Such a body meets its contract, which says what follows where an argument is accepted, so no edit can show this.
"""

import os
import shutil
import subprocess
import sys
import tempfile

HERE = os.path.dirname(os.path.abspath(__file__))
ROOT = os.path.dirname(os.path.dirname(HERE))
DATA = os.path.join(ROOT, "crates", "tsn_rows", "data")
SEEN = {
    ("tsn_worker", "learned.rt"): [
        ("        Ok(Verdict::First) => steps <= question.limit,", "        Ok(Verdict::First) => steps > question.limit,"),
        ("        Ok(Verdict::NoSchedule) => steps <= question.limit,", "        Ok(Verdict::NoSchedule) => steps > question.limit,"),
        ("        Ok(Verdict::Optimal)\n", "        Err(CheckFault::Memory)\n"),
        ("use tsn_check::Verdict;", "use tsn_check::{CheckFault, Verdict};"),
    ],
    ("tsn_answer", "proving.rt"): [
        ("        Ok(Verdict::Optimal) => Ok(steps <= task.limit),", "        Ok(Verdict::Optimal) => Ok(steps > task.limit),"),
        ("        Ok(Verdict::NoSchedule) => Ok(steps <= task.limit),", "        Ok(Verdict::NoSchedule) => Ok(steps > task.limit),"),
    ],
}


def turn(folder):
    """Turns the places of the copy in which an argument is accepted."""
    for (crate, name), turns in SEEN.items():
        path = os.path.join(folder, "crates", crate, "src", name)
        with open(path, encoding="utf-8") as file:
            text = file.read()
        for old, new in turns:
            if text.count(old) != 1:
                sys.exit(f"{name} doesn't have this once: {old}")
            text = text.replace(old, new)
        with open(path, "w", encoding="utf-8") as file:
            file.write(text)


def main():
    if sys.argv[1:]:
        sys.exit(__doc__)
    with tempfile.TemporaryDirectory(prefix="tsn-refusing-") as folder:
        shutil.copytree(os.path.join(ROOT, "crates"), os.path.join(folder, "crates"), ignore=shutil.ignore_patterns("out", "must-fail"))
        for name in ("crates.txt", "HANDLES"):
            shutil.copy(os.path.join(ROOT, name), folder)
        turn(folder)
        files = {"refusing.rows": os.path.join(HERE, "refusing.rows")}
        files |= {it: os.path.join(DATA, it) for it in ("two-streams-by-headers.toml", "two-streams.toml", "ten-streams.toml")}
        tree = "tree-020-gig-wild-hot-tight-2.toml"
        files[tree] = os.path.join(ROOT, "bench", "suite", tree)
        words = [word for name, path in files.items() for word in ("--data", f"{name}={path}")]
        ended = subprocess.run(["rt", "try", "--seconds", "900", *words, "--", "refusing.rows"], cwd=os.path.join(folder, "crates", "tsn_rows"))
    sys.exit(ended.returncode)


main()
