#!/usr/bin/env python3
"""Where a crate's proof spends its time: processor seconds by function, by kind of work, and by module.

Usage: bench/profile.py CRATE [--most N]. Proves the crate from nothing, alone, over the libraries that ./build or ./check left of the
crates below it, which have to be as they are. The prover keeps each module that it has proved in a folder (--incremental), and when it
did so tells what that module cost; what several processes of it did at once is shared out between them. N rows are printed of each
kind, 40 if not given.

Of a function `Lts` describes its body by step and local, `Proof` is the search for answers, `Answers` are those given by hand; what has
no kind are lemmas, and the first module that names a library has its loading too. The kept work makes a run a tenth dearer.
"""

import argparse
import bisect
import collections
import os
import subprocess
import sys
import tempfile
import time

ROOT = os.path.dirname(os.path.dirname(os.path.abspath(__file__)))
sys.path.insert(0, os.path.join(ROOT, "tools"))

from lanes import below, path_in, uses

KIT = os.path.dirname(os.path.dirname(os.path.realpath(subprocess.run(["which", "rattle"], capture_output=True, text=True, check=True).stdout.strip())))
TICKS = os.sysconf("SC_CLK_TCK")
KINDS = {"Mir", "Code", "Kinds", "Layout", "Lts", "Met", "Proof", "Reads", "Statement", "Symbol", "TheLink", "Tie", "Named", "Goals", "Answers",
         "Invariants", "Key", "Goal"}


def listed(name):
    """The libraries that the list of crates names for this one, the kit's among them."""
    with open(os.path.join(ROOT, "crates.txt"), encoding="utf-8") as file:
        for line in file:
            head, colon, used = line.partition("#")[0].partition(":")
            if colon and head.split()[0] == name:
                return used.split()
    sys.exit(f"tsn: crates.txt has no {name}")


def command(name, used, kept):
    """The check of a crate from nothing."""
    words = ["rattle", "check", "--crate-name", name, "src/main.rt" if os.path.isfile(path_in(ROOT, name, "src", "main.rt")) else "src/lib.rt"]
    for it in ["std", *listed(name)]:
        rlib = path_in(ROOT, it, "out", "rlib", f"{it}.rlib") if it in used else os.path.join(KIT, "rlibs", f"{it}.rlib")
        if not os.path.isdir(rlib):
            sys.exit(f"tsn: {it} isn't proved: ./check {it} comes first")
        words += ["--extern", f"{it}={rlib}"]
    for folder in [os.path.join(KIT, "rlibs"), *(path_in(ROOT, it, "out", "rlib") for it in below(name, used))]:
        words += ["-L", f"dependency={folder}"]
    return [*words, "--antt-project", os.path.join(KIT, "rattle", "logic", "antt-project.json"), "--logic-built", os.path.join(KIT, "logic_built"),
            "--jobs", "1", "--links", f"{name}=", "--incremental", kept]


def seconds_of(leader):
    """The processor seconds of a process, of those that it started, and of those that it waited for."""
    parents, spent = {}, {}
    for number in filter(str.isdigit, os.listdir("/proc")):
        try:
            with open(f"/proc/{number}/stat", encoding="utf-8", errors="replace") as file:
                words = file.read().rpartition(")")[2].split()
        except OSError:
            continue
        parents.setdefault(int(words[1]), []).append(int(number))
        spent[int(number)] = sum(map(int, words[11:15])) / TICKS
    total, left = 0, [leader]
    while left:
        it = left.pop()
        total += spent.get(it, 0)
        left += parents.get(it, [])
    return total


def run(words, folder):
    """The status of the check, what it printed, and at which instants it had used how many processor seconds."""
    instants, seconds = [time.time()], [0.0]
    with tempfile.TemporaryFile("w+", encoding="utf-8", errors="replace") as printed:
        with subprocess.Popen(words, cwd=folder, stdin=subprocess.DEVNULL, stdout=printed, stderr=subprocess.STDOUT) as started:
            while started.poll() is None:
                spent = seconds_of(started.pid)
                if spent > seconds[-1]:
                    instants.append(time.time())
                    seconds.append(spent)
                time.sleep(0.1)
        printed.seek(0)
        return started.returncode, printed.read(), (instants, seconds)


def spent_at(instant, spent):
    """The processor seconds used by an instant."""
    instants, seconds = spent
    at = bisect.bisect(instants, instant)
    if at == 0 or at == len(instants):
        return seconds[min(at, len(seconds) - 1)]
    share = (instant - instants[at - 1]) / (instants[at] - instants[at - 1])
    return seconds[at - 1] + (seconds[at] - seconds[at - 1]) * share


def modules(kept, spent):
    """What each module cost, by its name."""
    stamps = []
    for folder, _, files in os.walk(kept):
        if not folder.endswith("records"):
            stamps += [(os.stat(os.path.join(folder, it)).st_mtime, it) for it in files if it.endswith(".oantt")]
    last = 0
    for instant, file in sorted(stamps):
        now = spent_at(instant, spent)
        yield file.removeprefix("Rattle-").removesuffix(".oantt"), now - last
        last = now


def main():
    parser = argparse.ArgumentParser(description=__doc__, formatter_class=argparse.RawDescriptionHelpFormatter)
    parser.add_argument("crate", metavar="CRATE")
    parser.add_argument("--most", type=int, default=40, metavar="N")
    given = parser.parse_args()
    by_function, by_kind, by_module = collections.Counter(), collections.Counter(), collections.Counter()
    with tempfile.TemporaryDirectory(prefix="tsn-profile-") as kept:
        status, printed, spent = run(command(given.crate, uses(), kept), path_in(ROOT, given.crate))
        for module, cost in modules(kept, spent):
            words, kind = module.split("."), []
            while words and words[-1] in KINDS:
                kind.insert(0, words.pop())
            by_function[".".join(words)] += cost
            by_kind[".".join(kind) or "lemmas, types"] += cost
            by_module[module] += cost
    for title, found in (("function", by_function), ("kind", by_kind), ("module", by_module)):
        print(f"seconds by {title}")
        for name, cost in found.most_common(given.most):
            print(f"{cost:8.1f} {name}")
    print(f"{spent[1][-1]:.0f} seconds in all")
    if status != 0:
        print("\n".join(printed.splitlines()[-20:]), file=sys.stderr)
    return status


if __name__ == "__main__":
    sys.exit(main())
