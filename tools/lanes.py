"""What `build` and `check` share: which crate uses which, what each costs, and lanes in which crates are proved side by side.

`rt` lets one run at a time into a crate and into all crates below it, so each lane works in a copy of the sources, in a folder of
its own for temporary files. What a crate's proof leaves is copied back: its library, and the work that lets the next check begin
where this one ended.
"""

import functools
import hashlib
import os
import resource
import shutil
import signal
import subprocess
import sys
import tempfile
import time
from concurrent.futures import FIRST_COMPLETED, ThreadPoolExecutor, wait

ROOT = os.path.dirname(os.path.dirname(os.path.abspath(__file__)))
RT = [sys.executable, os.path.join(ROOT, "tools", "rt_once.py")]
STARTED = set()


def uses():
    """The repository's crates that each crate uses, by its name."""
    found = {}
    with open(os.path.join(ROOT, "crates.txt"), encoding="utf-8") as file:
        for line in file:
            name, colon, used = line.partition("#")[0].partition(":")
            if colon:
                found[name.split()[0]] = used.split()
    return {name: [it for it in used if it in found] for name, used in found.items()}


def below(name, used):
    """All crates below a crate."""
    found = set()
    for it in used[name]:
        found |= {it} | below(it, used)
    return found


def above(name, used):
    """All crates that stand on a crate."""
    return {it for it in used if name in below(it, used)}


def minutes():
    """The processor minutes of each crate's proof."""
    with open(os.path.join(ROOT, "minutes.txt"), encoding="utf-8") as file:
        lines = (line.partition("#")[0].split() for line in file)
        return {words[0]: float(words[1]) for words in lines if words}


def end_by_signal():
    """A request to end (SIGTERM) ends what was started too, as one from the keyboard does."""
    def interrupt(number, frame):
        raise KeyboardInterrupt

    signal.signal(signal.SIGTERM, interrupt)


def lanes_for_memory():
    """As many lanes as processors, but no more than memory allows at 4 GB each."""
    memory = os.sysconf("SC_PAGE_SIZE") * os.sysconf("SC_PHYS_PAGES")
    return max(1, min(len(os.sched_getaffinity(0)), memory // 4_000_000_000))


def say(text):
    print(f"tsn: {text}", file=sys.stderr, flush=True)


def told(seconds):
    return f"{int(seconds) // 60} min {int(seconds) % 60} s" if seconds >= 60 else f"{seconds:.0f} s"


def path_in(root, name, *parts):
    return os.path.join(root, "crates", name, *parts)


def link_or_copy(source, target):
    """One file stands at both paths, where both are on one device; but a stamp is copied, since `rt` writes that in place."""
    if os.path.basename(source) == "stamp":
        shutil.copy2(source, target)
        return
    try:
        os.link(source, target)
    except OSError:
        shutil.copy2(source, target)


def hand_out(name, kept, source, target):
    """Puts one folder of a crate's `out` from one root to another too, where it is there; the old one is replaced whole. (But for
    the stamp a check writes a file anew and not into the old one, so it changes none that stands at two paths.)"""
    there, here = path_in(source, name, "out", kept), path_in(target, name, "out", kept)
    if not os.path.isdir(there):
        return
    shutil.rmtree(here + ".new", ignore_errors=True)
    shutil.copytree(there, here + ".new", copy_function=link_or_copy)
    shutil.rmtree(here, ignore_errors=True)
    os.rename(here + ".new", here)


@functools.cache
def toolchain():
    return subprocess.run(["rt", "version"], capture_output=True, check=True).stdout


def digest(name, used, known):
    """What a crate's proof depends on, as one number: its files, those of the crates below it, and the toolchain."""
    if name not in known:
        hashed = hashlib.sha256(toolchain() + " ".join(used[name]).encode())
        for it in used[name]:
            hashed.update(digest(it, used, known))
        for folder, folders, files in os.walk(path_in(ROOT, name)):
            folders[:] = sorted(it for it in folders if it not in ("out", "must-fail"))
            for file in sorted(files):
                with open(os.path.join(folder, file), "rb") as opened:
                    hashed.update(file.encode() + b"\0" + hashlib.sha256(opened.read()).digest())
        known[name] = hashed.digest()
    return known[name]


def record(name, number):
    """What is written down of a crate that is proved: what its proof depended on, and which library it left."""
    stamp = path_in(ROOT, name, "out", "rlib", "stamp")
    if kind_of(name) != "lib":
        return number.hex()
    if not os.path.isfile(stamp):
        return None
    with open(stamp, encoding="utf-8") as file:
        return number.hex() + file.read()


def is_proved(name, number):
    """Whether the crate was proved as it is. What stands on it is proved over its library, which `rt` looks at again."""
    path = path_in(ROOT, name, "out", "proved")
    if kind_of(name) == "run" and not os.path.isfile(path_in(ROOT, name, "out", name)) or not os.path.isfile(path):
        return False
    with open(path, encoding="utf-8") as file:
        return file.read() == record(name, number)


def keep_record(name, number):
    os.makedirs(path_in(ROOT, name, "out"), exist_ok=True)
    with open(path_in(ROOT, name, "out", "proved"), "w", encoding="utf-8") as file:
        file.write(record(name, number) or "")


def make_lane(folder, names):
    """A copy of the sources of these crates."""
    for name in names:
        shutil.copytree(path_in(ROOT, name), path_in(folder, name), ignore=shutil.ignore_patterns("out", "must-fail"))
    with open(os.path.join(ROOT, "crates.txt"), encoding="utf-8") as listed, open(os.path.join(folder, "crates.txt"), "w", encoding="utf-8") as kept:
        kept.writelines(line for line in listed if line.partition(":")[0].split()[:1] in ([it] for it in names))
    # (rt looks for this file to know where the repository begins)
    if os.path.isfile(os.path.join(ROOT, "HANDLES")):
        shutil.copy(os.path.join(ROOT, "HANDLES"), folder)


def run(words, folder, given=subprocess.DEVNULL):
    """The status of a command, all that it printed, and its processor seconds. It is ended with this program."""
    with tempfile.TemporaryFile("w+", encoding="utf-8", errors="replace") as printed:
        with subprocess.Popen(words, cwd=folder, stdin=given, stdout=printed, stderr=subprocess.STDOUT, start_new_session=True) as started:
            STARTED.add(started)
            try:
                _, status, used = os.wait4(started.pid, 0)
                started.returncode = os.waitstatus_to_exitcode(status)
            finally:
                STARTED.discard(started)
        printed.seek(0)
        return started.returncode, printed.read(), used.ru_utime + used.ru_stime


def end_all():
    for started in list(STARTED):
        try:
            os.killpg(started.pid, signal.SIGTERM)
        except ProcessLookupError:
            pass


def kind_of(name):
    """What `rt` is asked for: a program is built, tests are run, and a library is proved for those above it."""
    if os.path.isfile(path_in(ROOT, name, "src", "main.rt")):
        return "run"
    return "test" if "_tests_" in name else "lib"


def rows_of(name, lane):
    """Runs a program on its words in its folder `data`, where it has both. What went wrong, if anything."""
    words, wanted = path_in(lane, name, "args"), path_in(lane, name, "stdout")
    if not os.path.isdir(path_in(lane, name, "data")) or not os.path.isfile(wanted):
        return None
    args = []
    if os.path.isfile(words):
        with open(words, encoding="utf-8") as file:
            args = file.read().splitlines()
    with open(wanted, encoding="utf-8") as file:
        expected = file.read()
    given = path_in(lane, name, "stdin")
    with open(given if os.path.isfile(given) else os.devnull, encoding="utf-8") as file:
        _, printed, _ = run([path_in(lane, name, "out", name), *args], path_in(lane, name, "data"), file)
    say(f"{name}: {(printed.splitlines() or [''])[-1]}")
    return None if printed == expected else printed + f"\n{name} was to print what {os.path.relpath(path_in(ROOT, name, 'stdout'), ROOT)} has"


def words_for(name, jobs, keeps):
    """How a crate is proved. Where work is kept for its next check, or was kept before, a library has its proofs; else it has what
    other crates can cite of it alone, and costs those above it less."""
    kind = kind_of(name)
    if kind != "lib":
        return [*RT, kind]
    is_kept = keeps or os.path.isdir(path_in(ROOT, name, "out", "incremental"))
    return [*RT, *([] if is_kept else ["--statements"]), kind, "--jobs", str(jobs)]


def prove(name, lane, used, jobs, keeps):
    """Proves one crate in a lane, and runs its rows. What was said where it failed, and its processor seconds."""
    for it in sorted(below(name, used)):
        if not os.path.isdir(path_in(lane, it, "out", "rlib")):
            hand_out(it, "rlib", ROOT, lane)
    # What is kept from an earlier run is taken again.
    for kept in ("rlib", "incremental"):
        if not os.path.isdir(path_in(lane, name, "out", kept)):
            hand_out(name, kept, ROOT, lane)
    kind = kind_of(name)
    status, printed, seconds = run(words_for(name, jobs, keeps), path_in(lane, name))
    program = path_in(lane, name, "out", name)
    if kind == "run":
        # (a program may end with another status than 0 where it has no words)
        status = 0 if os.path.exists(program) else 1
    for kept in ("rlib", "incremental") if status == 0 else ("incremental",):
        hand_out(name, kept, lane, ROOT)
    if kind == "run" and status == 0:
        shutil.copy(program, path_in(ROOT, name, "out", name))
    if status:
        return printed, seconds
    return (rows_of(name, lane) if kind == "run" else None), seconds


def prove_all(names, lanes, used, kept=frozenset()):
    """Proves these crates, each once those below it among them are proved, and keeps work for the next check of some. Ends the
    program where one can't be proved."""
    numbers, begin = {}, time.monotonic()
    names = {it for it in names if not is_proved(it, digest(it, used, numbers))}
    if not names:
        return
    with tempfile.TemporaryDirectory(prefix="tsn-build-") as room, ThreadPoolExecutor(lanes) as pool:
        free = [os.path.join(room, str(number)) for number in range(lanes)]
        for lane in free:
            make_lane(lane, names.union(*(below(it, used) for it in names)))
        try:
            spent = prove_in(free, pool, names, used, kept, lambda name: keep_record(name, numbers[name]))
        except BaseException:
            end_all()
            raise
    most = resource.getrusage(resource.RUSAGE_CHILDREN).ru_maxrss / 1e6
    say(f"{told(spent)} of a processor in {told(time.monotonic() - begin)}; the greatest memory of one process {most:.1f} GB")


def chains(names, used):
    """Of each of these crates the minutes of the longest chain that begins with it and goes up."""
    cost, found = minutes(), {}
    # (crates.txt has each crate behind those that it uses)
    for name in reversed([it for it in used if it in names]):
        found[name] = cost.get(name, 2) + max((found[up] for up in found if name in used[up]), default=0)
    return found


def prove_in(free, pool, names, used, kept, keep):
    """Proves them in these lanes. The processor seconds of all."""
    begin, behind, done, running, spent, lanes = time.monotonic(), chains(names, used), set(), {}, 0.0, len(free)
    while len(done) < len(names):
        at_work = {name for name, _ in running.values()}
        ready = [it for it in names - done - at_work if set(used[it]) & names <= done]
        # First those for which the longest chain waits.
        ready.sort(key=lambda it: -behind[it])
        for name in ready[: len(free)]:
            lane = free.pop()
            jobs = max(1, lanes // max(1, len(ready) + len(running)))
            running[pool.submit(prove, name, lane, used, jobs, name in kept)] = name, lane
        at_work = sorted(name for name, _ in running.values())
        say(f"at work: {' '.join(at_work)}; behind them: {len(names) - len(done) - len(at_work)}")
        for it in wait(running, return_when=FIRST_COMPLETED).done:
            name, lane = running.pop(it)
            failed, seconds = it.result()
            if failed is not None:
                print(failed, file=sys.stderr)
                sys.exit(f"tsn: {name} could not be proved and run as it should")
            keep(name)
            done.add(name)
            free.append(lane)
            spent += seconds
            say(f"{name} is proved in {told(seconds)} of a processor; {len(done)} of {len(names)} after {told(time.monotonic() - begin)}")
    return spent
