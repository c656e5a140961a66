"""What the scripts that measure `tsn` share: the program, and a run of it with its time and memory."""

import ctypes
import os
import subprocess
import sys
import time

ROOT = os.path.dirname(os.path.dirname(os.path.abspath(__file__)))
PROGRAM = os.path.join(ROOT, "crates", "tsn", "out", "tsn")
PR_SET_CHILD_SUBREAPER = 36


def build():
    """Proves and builds the program, where a source is newer."""
    words = [os.path.join(ROOT, "tsn"), "valid", os.path.join(ROOT, "examples", "two-streams.toml"), "0", "672"]
    subprocess.run(words, check=True, capture_output=True)


def peak(words):
    """The peak bytes of one run of a program. A process begins with the peak of the one that it was forked from, so a small shell forks
    it; that ends, and this process waits for it in its place."""
    ctypes.CDLL(None).prctl(PR_SET_CHILD_SUBREAPER, 1, 0, 0, 0)
    started = subprocess.run(["sh", "-c", '"$@" >/dev/null 2>&1 </dev/null & echo $!', "sh", *words], check=True, stdout=subprocess.PIPE, text=True)
    _, _, usage = os.wait4(int(started.stdout), 0)
    return usage.ru_maxrss * 1024


def run(words):
    """What one run prints, its status, its seconds, and the peak bytes of a second one."""
    begin = time.perf_counter()
    ended = subprocess.run([PROGRAM, *words], stdout=subprocess.PIPE, text=True)
    taken = time.perf_counter() - begin
    return ended.stdout.strip(), ended.returncode, taken, peak([PROGRAM, *words])


if __name__ == "__main__":
    print(f"{peak(sys.argv[1:]) / 1e6:.1f} MB")
