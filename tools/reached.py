"""Which functions of the program are reached from its `main`, by their names.

A call is followed by what it is written as: a function of the same file or one that the file brings in, `Type::function`, a path through
modules, or a method, which may be that of any type. So more may be told as reached than is, and nothing that is called is left out.
"""

import glob
import os
import re

# A word that may begin a call, with what is before it and behind it; and where names of values are given.
CALL = re.compile(r"(\.)?\b((?:[A-Za-z_]\w*::)*)([a-z_]\w*)\b(?=\s*(\(|::<)?)")
BINDS = re.compile(r"\blet\b([^=]*)=|\bfor\b(.*?)\bin\b|\|([^|]*)\||^(.*)=>|\b(\w+)\s*:[^:]", re.M)


class Function:
    """A function: its crate, its file, the type or trait that it is of, its lines, and its body."""

    def __init__(self, crate, path, kind, name, line, is_of_trait):
        self.crate, self.path, self.kind, self.name, self.line, self.is_of_trait = crate, path, kind, name, line, is_of_trait
        self.head, self.body = [], []

    def __repr__(self):
        return f"{self.crate}/{self.path}:{self.line} {self.kind + '::' if self.kind else ''}{self.name}"


class File:
    """A source file: its functions, and from which crates it brings in which names."""

    def __init__(self, crate, path):
        self.crate, self.path, self.functions, self.brought = crate, path, [], {}


def brought_by(tree, before, found):
    """The names that a `use` brings in, each with its whole path and the name that it has there."""
    depth, part, parts = 0, "", []
    for sign in tree:
        depth += (sign == "{") - (sign == "}")
        if sign == "," and depth == 0:
            parts.append(part)
            part = ""
        else:
            part += sign
    for item in filter(None, (it.strip() for it in [*parts, part])):
        path, brace, inner = item.partition("{")
        if brace:
            brought_by(inner[: inner.rindex("}")], before + path.strip(), found)
            continue
        real, _, alias = item.partition(" as ")
        whole = before + real.strip()
        name = whole.removesuffix("::self").split("::")[-1]
        found[(alias or name).strip()] = whole.removesuffix("::self")


def file_of(root, crate, path):
    """Reads a source file."""
    found = File(crate, os.path.relpath(path, os.path.join(root, "crates", crate)))
    with open(path, encoding="utf-8") as source:
        text = source.read()
    text = re.sub(r'"(?:[^"\\\n]|\\.)*"', '""', re.sub(r"//.*", "", text))
    for tree in re.findall(r"^\s*(?:pub(?:\(\w+\))? )?use ([^;]+);", text, re.M):
        brought_by(re.sub(r"\s+", " ", tree), "", found.brought)
    kind, is_of_trait, function, is_body = "", False, None, False
    for number, line in enumerate(text.splitlines(), 1):
        begun = re.match(r"(?:unsafe )?impl\b(?:\s*<.*?>)?\s+(.*)", line) or re.match(r"pub(?:\(\w+\))? trait (\w+)|trait (\w+)", line)
        if begun:
            said = next(filter(None, begun.groups()))
            is_of_trait = " for " in said or "trait" in line.split("{")[0].split()[:2]
            kind = re.split(r"[<\s{:]", re.sub(r"^.* for &?(?:'\w+ )?", "", said).strip())[0]
            function = None
        elif line.startswith("}"):
            kind, is_of_trait, function = "", False, None
        head = re.match(r"\s*(?:pub(?:\(\w+\))? )?(?:const )?(?:unsafe )?fn (\w+)", line)
        if head:
            function = Function(crate, found.path, kind, head[1], number, is_of_trait)
            found.functions.append(function)
            is_body = False
        if function and (is_body or line.strip() == "{" or line.rstrip().endswith("{") and not re.match(r"\s*(requires|ensures|ghost)\b", line)):
            is_body = True
            function.body.append("" if head else line)
        elif function:
            function.head.append(line)
        if function and head:
            function.head.append(line)
    return found


class Reached:
    """The functions of some crates, and which of them are reached."""

    def __init__(self, root, crates):
        self.files = [
            file_of(root, crate, path)
            for crate in crates
            for path in sorted(glob.glob(os.path.join(root, "crates", crate, "src", "**", "*.rt"), recursive=True))
        ]
        self.all = [it for file in self.files for it in file.functions]
        self.named = {}
        for it in self.all:
            self.named.setdefault(it.name, []).append(it)
        # (what a trait asks for is called through its bound or by the language)
        waiting = [it for it in self.all if it.name == "main" and it.crate == "tsn" or it.is_of_trait]
        self.found, self.by_file = set(), {(it.crate, it.path): it for it in self.files}
        while waiting:
            function = waiting.pop()
            if function not in self.found:
                self.found.add(function)
                waiting += self.called(function)

    def called(self, function):
        """The functions that one may call."""
        file, called = self.by_file[function.crate, function.path], []
        body = "\n".join(function.body)
        values = set(re.findall(r"\w+", " ".join(word for it in BINDS.findall("\n".join(function.head) + "\n" + body) for word in it)))
        for dot, path, name, behind in CALL.findall(body):
            if behind or path or not dot and name not in values:
                called += [it for it in self.named.get(name, ()) if self.may_be(file, dot, path.removesuffix("::"), it)]
        return called

    def may_be(self, file, dot, path, other):
        """Whether a word of a file may mean a function."""
        if dot:
            return bool(other.kind)
        if not path:
            if (other.crate, other.path) == (file.crate, file.path):
                return not other.kind
            whole = file.brought.get(other.name)
            return whole is not None and not other.kind and self.is_at(file, whole.rpartition("::")[0], other)
        first, _, rest = path.partition("::")
        if other.kind:
            return path.split("::")[-1] in (other.kind, "Self") or file.brought.get(path.split("::")[-1], "").endswith("::" + other.kind)
        whole = file.brought.get(first, first) + ("::" + rest if rest else "")
        return self.is_at(file, whole, other)

    @staticmethod
    def is_at(file, path, other):
        """Whether a path, seen from a file, may lead to where a function stands: to its crate, or to its file if it names one."""
        first, _, rest = path.partition("::")
        if first.startswith("tsn_"):
            # (a crate's root hands out what stands in its modules)
            return first == other.crate
        module = other.path.removeprefix("src/").removesuffix(".rt").replace("/", "::")
        within = rest if first in ("crate", "self", "super") else path
        return file.crate == other.crate and (not within or module == within or module.endswith("::" + within))

    def is_reached(self, crate, path, line):
        """Whether the function in this line of a file is reached; true of what is no function there."""
        here = [it for it in self.all if (it.crate, it.path, it.line) == (crate, path, line)]
        return not here or any(it in self.found for it in here)
