"""Runs `rt` with its words, and spares it work.

To know what has changed `rt` reads a crate's files anew along each way by which it is used, and the program uses the lowest ones in some
thousand ways, which takes minutes. Here the files of each crate below the one in this folder are read once.

With the word `--statements` before the others a library is built as `rt ci` builds it: with what other crates can cite of it, and
without its proofs. Else each check above it loads them all, and for the program that takes minutes too. No work is kept then by which
the next check could begin where this one ended.
"""

import importlib.machinery
import importlib.util
import os
import shutil
import sys

RT = os.path.realpath(shutil.which("rt"))


def loaded():
    """What `rt` is, as a module."""
    loader = importlib.machinery.SourceFileLoader("rt", RT)
    made = importlib.util.module_from_spec(importlib.util.spec_from_loader("rt", loader))
    sys.modules["rt"] = made
    loader.exec_module(made)
    return made


def read_once(crates):
    """Has the sum of a crate's files made once, but for the crate in this folder, whose files may change while it is proved."""
    made, here, sum_of = {}, os.path.realpath(os.curdir), crates.stamp

    def stamp(self):
        folder = os.path.realpath(self.folder)
        if folder == here:
            return sum_of(self)
        if folder not in made:
            made[folder] = sum_of(self)
        return made[folder]

    crates.stamp = stamp


def without(words, option):
    """These words without an option and its value."""
    if option not in words:
        return words
    at = words.index(option)
    return words[:at] + words[at + 2 :]


def cut_libraries(crates, rattle):
    """Has libraries built with their statements alone."""
    call = crates.call

    def cut(self, *words):
        if words[:2] == (rattle, "build") and words[-2:] == ("-o", self.rlib):
            words = (*without(words, "--incremental")[:-2], "--statements", *words[-2:])
        return call(self, *words)

    crates.call = cut


if __name__ == "__main__":
    cuts = sys.argv[1:2] == ["--statements"]
    rt, sys.argv = loaded(), [RT, *sys.argv[1 + cuts :]]
    read_once(rt.rtlib.Crate)
    if cuts:
        cut_libraries(rt.rtlib.Crate, rt.rtlib.RATTLE)
    sys.exit(rt.main(sys.argv[1:]))
