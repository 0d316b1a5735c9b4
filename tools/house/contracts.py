#!/usr/bin/env python3
"""Compares the contracts of two trees: of each public function its signature and clauses, word for word.

    contracts.py OLD NEW                    prints what differs between two commits; `.` is the working tree
    contracts.py OLD NEW --renames FILE     the same, with each word of OLD that begins a line of FILE replaced by the one after it
    contracts.py OLD NEW --all              private functions too

A function is known by its type and its name, in whatever crate or file it is; if two have one name, their texts are compared as a set. Reported are
functions that only one tree has, and the changed lines of those whose text differs. The status is 1 if anything is reported.
"""

import argparse
import difflib
import os
import re
import subprocess
import sys

if __name__ == "__main__":
    sys.path.insert(0, os.path.join(os.path.dirname(os.path.abspath(__file__)), "..", ".."))

from tools import ROOT, text_of
from tools.house import rt_source



def sources_of(commit):
    """The source files of a commit, by path."""
    if commit == ".":
        listed = subprocess.run(["git", "-C", ROOT, "ls-files", "--", "crates/*/src/*.rt"], check=True, capture_output=True, text=True).stdout.split("\n")
        for path in filter(None, listed):
            yield path, text_of(ROOT, path)
        return
    listed = subprocess.run(["git", "-C", ROOT, "ls-tree", "-r", "--name-only", commit, "--", "crates"], check=True, capture_output=True, text=True).stdout.split("\n")
    for path in listed:
        if re.match(r"crates/\w+/src/.*\.rt$", path):
            yield path, subprocess.run(["git", "-C", ROOT, "show", f"{commit}:{path}"], check=True, capture_output=True, text=True).stdout


def contracts_in(text, is_all):
    """Each function's signature with its clauses, by its type and name."""
    for item in rt_source.functions_in(text):
        if is_all or rt_source.is_public(item):
            yield rt_source.full_name(item), rt_source.signature_in(item)


def contracts_of(commit, is_all):
    found = {}
    for _, text in sources_of(commit):
        for name, contract in contracts_in(text, is_all):
            found.setdefault(name, []).append(contract)
    return {name: sorted(texts) for name, texts in found.items()}


def renamed(contracts, words):
    """The contracts with words replaced by these."""
    if not words:
        return contracts
    known = re.compile(r"(?<![\w])(?:%s)(?![\w])" % "|".join(map(re.escape, words)))
    other = lambda text: known.sub(lambda it: words[it[0]], text)
    return {other(name): sorted(map(other, texts)) for name, texts in contracts.items()}


def words_of(file):
    if file is None:
        return {}
    with open(file, encoding="utf-8") as it:
        return dict(line.split() for line in it if line.strip())


def differences(old, new):
    for name in sorted({*old, *new}):
        if name not in new:
            yield f"{name}: gone"
        elif name not in old:
            yield f"{name}: new"
        elif old[name] != new[name]:
            pair = ["\n".join(it).split("\n") for it in (old[name], new[name])]
            yield "\n".join([f"{name}:", *[line for line in [*difflib.unified_diff(*pair, lineterm="", n=0)][2:] if not line.startswith("@@")]])


def main():
    reader = argparse.ArgumentParser(description=__doc__, formatter_class=argparse.RawDescriptionHelpFormatter)
    reader.add_argument("old")
    reader.add_argument("new")
    reader.add_argument("--renames")
    reader.add_argument("--all", action="store_true")
    given = reader.parse_args()
    old, new = (contracts_of(commit, given.all) for commit in (given.old, given.new))
    found = [*differences(renamed(old, words_of(given.renames)), new)]
    print("\n".join([*found, f"{sum(map(len, old.values()))} and {sum(map(len, new.values()))} functions, {len(found)} differences"]))
    return 1 if found else 0


if __name__ == "__main__":
    sys.exit(main())
