#!/usr/bin/env python3
"""Finds sentences of more than 45 words in README.md and docs/*.md, which may be easier to read in two.

Usage: bench/sentences.py [FILE..] [--count]. Each is told with its file, line and number of words; with --count only the words of
each file, and how many such sentences it has. Code blocks are left out, a cell of a table is a text of its own, a list's item too,
and a name between backticks is one word.
"""

import argparse
import glob
import os
import re

ROOT = os.path.dirname(os.path.dirname(os.path.abspath(__file__)))
MOST = 45


def texts(path):
    """The paragraphs, items and cells of a file, each with its line."""
    found, paragraph, begin, in_code = [], [], 0, False

    def close():
        if paragraph:
            found.append((begin, " ".join(paragraph)))
            paragraph.clear()

    with open(path, encoding="utf-8") as file:
        for number, line in enumerate(file, 1):
            text = line.strip()
            if text.startswith("```"):
                in_code = not in_code
                close()
            elif in_code:
                continue
            elif text.startswith("|"):
                close()
                found += [(number, cell) for cell in re.split(r"(?<!\\)\|", text.strip("|"))]
            elif not text or text.startswith(("#", "- ", "* ", "<!--")) or re.match(r"\d+\. ", text):
                close()
                if text and not text.startswith(("#", "<!--")):
                    begin, _ = number, paragraph.append(re.sub(r"^([-*]|\d+\.) ", "", text))
            else:
                begin = begin if paragraph else number
                paragraph.append(text)
    close()
    return found


def sentences(text):
    """The sentences of a text, each with its number of words."""
    text = re.sub(r"`[^`]*`", "NAME", text)
    text = re.sub(r"!?\[([^\]]*)\]\([^)]*\)", r"\1", text)
    for it in re.split(r"(?<=[.!?;:])(?:\*\*)?\s+(?=[A-Z0-9(*\"])", text):
        yield it, len(re.findall(r"[^\s|]*\w[^\s|]*", it))


def words_of(path):
    with open(path, encoding="utf-8") as file:
        return len(file.read().split())


def main():
    parser = argparse.ArgumentParser(description=__doc__, formatter_class=argparse.RawDescriptionHelpFormatter)
    parser.add_argument("files", nargs="*")
    parser.add_argument("--count", action="store_true")
    given = parser.parse_args()
    files = given.files or [os.path.join(ROOT, "README.md"), *sorted(glob.glob(os.path.join(ROOT, "docs", "*.md")))]
    total, words = 0, 0
    for path in files:
        name = os.path.relpath(path, ROOT)
        long = [(line, count, it) for line, text in texts(path) for it, count in sentences(text) if count > MOST]
        total, words = total + len(long), words + words_of(path)
        if given.count:
            print(f"{name:<24} {words_of(path):>6} words {len(long):>4} sentences of more than {MOST}, the longest {max([it[1] for it in long], default=0)}")
            continue
        for line, count, it in long:
            print(f"{name}:{line}: {count} words: {it}")
    print(f"{words} words, {total} sentences of more than {MOST} words")


main()
