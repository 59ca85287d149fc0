#!/usr/bin/env python3
"""Spells the repository's own definitions and lemmas as the library spells its own: words in snake case, types and facts in camel case.

usage: tools/respell.py    at the top of the repository, once, after /opt/rattle/port/port.py and before any edit by hand

respelled.tsv beside this script has a row for each name: its kind, the old spelling, the new one. A `lemma` would meet a definition that is respelled, so it
goes first, in texts of proofs and definitions alone, where it is not the step of a walk; a `name` goes everywhere below crates/ and in the papers.
"""

import os
import re

HERE = os.path.dirname(os.path.realpath(__file__))
PAPERS = ["README.md", "docs"]
EDGE = r"[\w'-]"


def rows():
    with open(os.path.join(HERE, "respelled.tsv"), encoding="utf-8") as table:
        return [line.rstrip("\n").split("\t") for line in table if line.strip()]


def texts():
    for top in ["crates", *PAPERS]:
        if os.path.isfile(top):
            yield top
        for folder, dirs, files in os.walk(top):
            dirs[:] = sorted(d for d in dirs if d != "out")
            for name in sorted(files):
                if name.endswith((".antt", ".rt", ".edit", ".md")):
                    yield os.path.join(folder, name)


def turner(table, keeps_steps):
    words = "|".join(re.escape(old) for old in sorted(table, key=len, reverse=True))
    pattern = re.compile(rf"(?<!{EDGE})({words})(?!{EDGE})")

    def turned(found):
        head = re.search(r"([\w'-]+)\.$", found.string[max(0, found.start() - 80) : found.start()])
        # behind a module's name stands a definition or a lemma, behind any other the step of a walk
        if keeps_steps and head and not head[1][0].isupper():
            return found[1]
        return table[found[1]]

    return lambda text: pattern.sub(turned, text)


def main():
    lemmas = {old: new for kind, old, new in rows() if kind == "lemma"}
    names = {old: new for kind, old, new in rows() if kind == "name"}
    lemma, name = turner(lemmas, True), turner(names, False)
    changed = 0
    for path in texts():
        with open(path, encoding="utf-8") as file:
            old = file.read()
        new = old
        if path.endswith(".antt"):
            new = lemma(new)
        new = name(new)
        if new != old:
            changed += 1
            with open(path, "w", encoding="utf-8") as file:
                file.write(new)
    print(f"respell: {changed} files changed")


if __name__ == "__main__":
    main()
