#!/usr/bin/env python3
"""Runs the built program over real files, by the table bench/real-files/real-files.rows, and tells each line that doesn't hold.

real_files.py [PROGRAM..]   the program as each of the two compilers builds it, unless programs are given

Each program runs in a folder of its own: a copy of bench/real-files, with an empty folder `made`, copies of `examples`, of
bench/suite (as `suite`) and of bench/periods (as `periods`), and `long.toml`, a network that takes long. Standard input is the two
streams' network.
docs/rows.md says how a table is written.
"""

import os
import re
import resource
import shutil
import signal
import stat
import subprocess
import sys
import tempfile
import time

from measure import PROGRAM, ROOT, build

DATA = os.path.join(ROOT, "bench", "real-files")
TABLE = "real-files.rows"
INPUT = "two-streams.toml"
LONG = os.path.join(ROOT, "bench", "networks", "random-40.toml")
COPIED = {"examples": os.path.join(ROOT, "examples"), **{it: os.path.join(ROOT, "bench", it) for it in ("suite", "periods")}}
NOBODY = 65534
# (seconds that a command may take: the longest needs eight of a processor)
PATIENCE = 600


class Wrong(Exception):
    pass


def expanded(text):
    """The text with `<3*text #>` written out: three times, with the numbers 0, 1 and 2 for `#`."""
    return re.sub(r"<(\d+)\*([^>]*)>", lambda it: "".join(it[2].replace("#", str(i)) for i in range(int(it[1]))), text)


class Setting:
    """How a command is started: the words in braces behind it, `{>&- limit=0}`."""

    def __init__(self, words):
        self.closed, self.input, self.output = [], None, None
        self.limit, self.dies, self.plain = None, False, False
        for word in words:
            if word in ("<&-", ">&-", "2>&-"):
                self.closed.append({"<&-": 0, ">&-": 1, "2>&-": 2}[word])
            elif word.startswith(("<", ">")):
                setattr(self, "input" if word[0] == "<" else "output", word[1:])
            elif word.startswith(("limit=", "killed=")):
                self.limit, self.dies = int(word.split("=")[1]), word.startswith("killed")
            elif word == "plain":
                self.plain = True
            else:
                raise Wrong(f"no setting {word}")

    def prepare(self):
        """What the process does before it is the program."""
        if self.limit is not None:
            signal.signal(signal.SIGXFSZ, signal.SIG_DFL if self.dies else signal.SIG_IGN)
            resource.setrlimit(resource.RLIMIT_FSIZE, (self.limit, self.limit))
        if self.plain and os.geteuid() == 0:
            os.setgroups([])
            os.setgid(NOBODY)
            os.setuid(NOBODY)
        for number in self.closed:
            os.close(number)


class Session:
    """A table that is followed line by line, in the folder that the process stands in."""

    def __init__(self, program, given):
        self.program, self.given = program, given
        self.ended = None

    def text_of(self, content):
        """`@NAME` is a file of the data, and any other text is a line, or lines with `<0a>` between them."""
        if not content.startswith("@"):
            return expanded(content.replace("<0a>", "\n") + "\n")
        with open(content[1:]) as file:
            return file.read()

    def follow(self, line):
        """Follows a line. Whether it compares something."""
        mark, _, rest = line.partition(" ")
        if mark in ("", "#"):
            return False
        makes = {
            "put": self.put, "size": self.size, "link": self.link, "twin": self.twin, "mode": self.mode, "own": self.own,
            "folder": self.folder, "chain": self.chain, "$": self.run,
        }
        compares = {
            "=": self.compare_end, "!": self.compare_told, "?": self.compare_part, ">": self.compare_file, "absent": self.compare_absent,
            "files": self.compare_files, "has": self.compare_mode, "owned": self.compare_owner, "leads": self.compare_link, "threads": self.compare_threads,
        }
        steps = {**makes, **compares}
        if mark not in steps:
            raise Wrong("a line of no kind")
        steps[mark](rest.strip())
        return mark in compares

    def put(self, rest):
        name, content = rest.split(" = ", 1)
        with open(name, "w") as file:
            file.write(self.text_of(content))

    def size(self, rest):
        name, count = rest.split(" = ", 1)
        with open(name, "wb") as file:
            file.truncate(int(count))

    def twin(self, rest):
        name, target = rest.split(" = ", 1)
        os.link(target, name)

    def own(self, rest):
        name, ids = rest.split(" = ", 1)
        if os.geteuid() == 0:
            os.chown(name, *map(int, ids.split()))

    def link(self, rest):
        name, target = rest.split(" = ", 1)
        os.symlink(target, name)

    def chain(self, rest):
        """So many symbolic links, each to the next: the first has the name, and the last leads to the target."""
        words, target = rest.split(" = ", 1)
        count, name = words.split(" ", 1)
        names = [name, *(f"{name}-{k}" for k in range(1, int(count)))]
        for link, to in zip(names, [*map(os.path.basename, names[1:]), target]):
            os.symlink(to, link)

    def mode(self, rest):
        name, mode = rest.split(" = ", 1)
        os.chmod(name, int(mode, 8))

    def folder(self, name):
        os.mkdir(name)

    def started(self, rest):
        """The words of a command, and how it is started."""
        words, brace, settings = rest.partition(" {")
        setting = Setting(settings.removesuffix("}").split() if brace else [])
        given = open(setting.input) if setting.input else self.given
        taken = open(setting.output, "w") if setting.output else subprocess.PIPE
        told = None if 2 in setting.closed else subprocess.PIPE
        words = [self.program, *("" if word == "<>" else expanded(word) for word in words.split(" "))]
        return subprocess.Popen(words, stdin=given, stdout=taken, stderr=told, text=True, preexec_fn=setting.prepare)

    def run(self, rest):
        if self.ended is not None:
            raise Wrong("nothing compares what the command before this tells")
        process = self.started(rest)
        output, told = process.communicate(timeout=PATIENCE)
        self.ended = process.returncode, output or "", told or ""

    def compare_end(self, rest):
        status, _, content = rest.partition(" ")
        if self.ended is None:
            raise Wrong("no command to compare")
        ended, output, _ = self.ended
        if ended != int(status):
            raise Wrong(f"it ends with {ended}")
        part = content.replace("<0a>", "\n")
        if part.startswith("<..>"):
            holds = part[4:].removesuffix("<..>") in output
        elif part.endswith("<..>"):
            holds = output.startswith(part.removesuffix("<..>"))
        else:
            holds = output == (self.text_of(content) if content else "")
        if not holds:
            raise Wrong(f"it says {output!r}")

    def all_told(self):
        if self.ended is None:
            raise Wrong("no command to compare")
        told, self.ended = self.ended[2], None
        return told

    def compare_told(self, rest):
        told = self.all_told()
        if told != ("" if rest == "none" else f"tsn: {rest}\n"):
            raise Wrong(f"it tells {told!r}")

    def compare_part(self, rest):
        told = self.all_told()
        if rest not in told or not told.endswith("\n"):
            raise Wrong(f"it tells {told!r}")

    def compare_file(self, rest):
        name, content = rest.split(" = ", 1)
        with open(expanded(name)) as file:
            found = file.read()
        if found != self.text_of(content):
            raise Wrong(f"it holds {found!r}")

    def compare_absent(self, name):
        if os.path.lexists(name):
            raise Wrong("it is there")

    def compare_files(self, rest):
        name, _, wanted = rest.partition(" =")
        found = sorted(os.listdir(name))
        if found != wanted.split():
            raise Wrong(f"there are {found}")

    def compare_mode(self, rest):
        name, mode = rest.split(" = ", 1)
        found = stat.S_IMODE(os.stat(name).st_mode)
        if found != int(mode, 8):
            raise Wrong(f"its mode is {found:o}")

    def compare_owner(self, rest):
        name, ids = rest.split(" = ", 1)
        found = os.stat(name)
        if os.geteuid() == 0 and [found.st_uid, found.st_gid] != [int(it) for it in ids.split()]:
            raise Wrong(f"its owner is {found.st_uid}, its group {found.st_gid}")

    def compare_link(self, rest):
        name, target = rest.split(" = ", 1)
        if not os.path.islink(name) or os.readlink(name) != target:
            raise Wrong("it is no link, or another")

    def compare_threads(self, rest):
        """How many threads a run has at a time at most. One that is looked at too seldom shows too few, so it is run up to ten times."""
        count, words = rest.split(" ", 1)
        most = 0
        for _ in range(10):
            most = max(most, self.threads_of(words))
            if most >= int(count):
                break
        if most != int(count):
            raise Wrong(f"it has {most}")

    def threads_of(self, words):
        """How many threads a run is seen to have at a time at most."""
        process = self.started(words)
        most = 0
        while process.poll() is None:
            try:
                most = max(most, len(os.listdir(f"/proc/{process.pid}/task")))
            except OSError:
                break
            time.sleep(0.002)
        process.communicate(timeout=60)
        return most


def follow_all(program):
    """How many lines hold, and how many don't."""
    held = wrong = 0
    with open(TABLE) as table, open(INPUT) as given:
        session = Session(program, given)
        for number, line in enumerate(table, 1):
            try:
                held += session.follow(line.strip())
            except (Wrong, OSError, ValueError, subprocess.SubprocessError) as fault:
                print(f"{TABLE}:{number}: {line.strip()}\n  {fault}")
                wrong += 1
        if session.ended is not None:
            print(f"{TABLE}: nothing compares what the last command tells")
            wrong += 1
    return held, wrong


def wrong_version(program):
    """Whether `--version` names another toolchain than the README. That another one is here is told alone: then both lines have
    to be changed once `.ci/run` has passed with it."""
    version = subprocess.run([program, "--version"], capture_output=True, text=True).stdout
    toolchain = version.split("proved with ")[-1].strip()
    if shutil.which("rt") is not None:
        here = subprocess.run(["rt", "version"], capture_output=True, text=True).stdout.split("\n")[0]
        if here != toolchain:
            print(f"--version says {toolchain!r}, and the toolchain here is {here!r}")
    with open(os.path.join(ROOT, "README.md")) as file:
        if f"\n{toolchain} (the line of `rt version`)" in file.read():
            return False
    print(f"--version says {toolchain!r}, and the README doesn't")
    return True


def main():
    programs = [os.path.abspath(it) for it in sys.argv[1:]]
    if not programs:
        build()
        programs = [it for it in (PROGRAM, PROGRAM + ".by-rattle") if os.path.exists(it)]
    failed = False
    for program in programs:
        with tempfile.TemporaryDirectory() as folder:
            os.umask(0o022)
            os.chmod(folder, 0o755)
            shutil.copytree(DATA, folder, dirs_exist_ok=True)
            shutil.copy(LONG, os.path.join(folder, "long.toml"))
            for name, source in COPIED.items():
                shutil.copytree(source, os.path.join(folder, name))
            # (whoever has no rights has to be able to start it)
            copy = os.path.join(folder, "program")
            shutil.copy(program, copy)
            os.mkdir(os.path.join(folder, "made"))
            os.chdir(folder)
            held, wrong = follow_all(copy)
            wrong += wrong_version(copy)
            os.chdir(ROOT)
        print(f"{os.path.basename(program)}: {held} lines over real files hold, {wrong} don't")
        failed |= wrong > 0 or held == 0
    sys.exit(failed)


main()
