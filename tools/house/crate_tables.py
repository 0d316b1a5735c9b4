#!/usr/bin/env python3
"""Makes the tables of crates in docs/ARCHITECTURE.md, from crates.txt and the first words of each crate's page.

    crate_tables.py           tests whether they are current; the status is 1 if they aren't
    crate_tables.py --mark    writes them

A table follows a line `<!-- crates NAME -->`, NAME being `store` or `gate`, the two parts of crates.txt, up to the next blank line. Of a crate's
dependencies only those are named on which none of the others depends.
"""

import os
import re
import sys

if __name__ == "__main__":
    sys.path.insert(0, os.path.join(os.path.dirname(os.path.abspath(__file__)), "..", ".."))

from tools import ROOT, text_of

PAGE = os.path.join(ROOT, "docs", "ARCHITECTURE.md")
PARTS = ("store", "gate")
FEW = 4
# What may follow the first part of a sentence after a comma.
ADDED = re.compile(r", (?:over|with|by|from|beside|each|shared|and prints|and tells)\b")
MARK = re.compile(r"(?m)^(<!-- crates (\w+) -->\n)((?:\|.*\n)*)")


def graph():
    """By part the crates in their order, and by crate those of the repository on which it depends."""
    parts, below = [], {}
    for line in text_of(ROOT, "crates.txt").splitlines():
        if line.startswith("#"):
            parts.append([])
        elif ":" in line:
            name, _, names = line.partition(":")
            name = name.split(" ")[0]
            parts[-1].append(name)
            below[name] = [it for it in names.split() if it in below]
    return dict(zip(PARTS, parts, strict=True)), below


def all_below(name, below):
    found = set()
    for other in below[name]:
        found |= {other} | all_below(other, below)
    return found


def nearest(name, below):
    """Those on which it depends, except those on which others of them depend."""
    brought = set().union(*(all_below(other, below) for other in below[name]))
    return [other for other in below[name] if other not in brought]


def page_of(name):
    """What a crate says of itself: its first sentence, up to a colon or semicolon, or to what `ADDED` matches, with at least `FEW` words before it."""
    folder = os.path.join("crates", name, "src")
    file = "lib.rt" if os.path.exists(os.path.join(ROOT, folder, "lib.rt")) else "main.rt"
    lines = []
    for line in text_of(ROOT, folder, file).splitlines():
        if not line.startswith("//! "):
            break
        lines.append(line[4:])
    sentence = re.split(r"(?<=\.) ", " ".join(lines))[0]
    head = re.match(r"(?:[^ :;]+ ){%d,}?[^ :;]+(?=[:;] )" % (FEW - 1), sentence)
    sentence = head[0] + "." if head else sentence
    added = next((it for it in ADDED.finditer(sentence) if len(sentence[: it.start()].split()) >= FEW), None)
    return sentence[: added.start()] + "." if added else sentence


def table(names, below):
    yield "| crate | what it has | depends on |"
    yield "|---|---|---|"
    for name in names:
        yield f"| `{name}` | {page_of(name)} | {', '.join(f'`{it}`' for it in nearest(name, below))} |"


def main(words):
    if words not in ([], ["--mark"]):
        sys.exit(__doc__)
    parts, below = graph()
    text = text_of(PAGE)
    right = MARK.sub(lambda it: it[1] + "\n".join(table(parts[it[2]], below)) + "\n", text)
    if words:
        with open(PAGE, "w", encoding="utf-8") as it:
            it.write(right)
    elif right != text or len(MARK.findall(text)) != len(PARTS):
        print("docs/ARCHITECTURE.md: the tables of crates are stale: tools/house/crate_tables.py --mark")
        return 1
    return 0


if __name__ == "__main__":
    sys.exit(main(sys.argv[1:]))
