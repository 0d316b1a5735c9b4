#!/usr/bin/env python3
"""Looks over the wrong bodies in crates/*/must-fail and crates/*/tried, in a second and without a proof: each must be able to
change something, and to name the promises that it breaks (listed by promises.py).

An edit is a file of lines `file: PATH`, `old: TEXT` and `new: TEXT`, and one `promise: NAME; NAME ..`. Each text is one line: what
is on further lines isn't read, so an edit that is spread over several lines may change nothing, and is then proved. Reported are a line
of another form, an old text that doesn't occur exactly once in its file, a new text that is the old one, and one that calls a function
which no source of its crate names, or a method of a name that no function has in the crate, in those on which it depends, or in
the kit's library: that is no body at all, and the gate doesn't accept such a refusal. (A method is looked up by its name alone, since
no types are known here.) The status is 1 if anything is reported.
"""

import functools
import glob
import os
import re
import shutil
import sys

if __name__ == "__main__":
    sys.path.insert(0, os.path.join(os.path.dirname(os.path.abspath(__file__)), "..", ".."))

from tools import ROOT, text_of
from tools.house import rt_source
from tools.house.gate_times import crates_of

CRATES = os.path.join(ROOT, "crates")
CALL = re.compile(r"(?<![\w.:])([a-z_]\w*)\(")
METHOD = re.compile(r"\.([a-z_]\w*)(?:::<[^()]*>)?\(")
FUNCTION = re.compile(r"\bfn ([a-z_]\w*)")
# The parts of the kit's library. Some of their functions are written by macros: their names are known by calls within it.
LIBRARY = ("core", "io", "libc", "os", "std", "std_alloc", "std_collections", "std_heap", "std_io")
PRELUDE = {"drop", "if", "match", "while", "in", "return"}


def faults_of(edit):
    """What is wrong with the edit, a line each."""
    folder = os.path.dirname(os.path.dirname(edit))
    text, source, old, changes = "", "", None, 0
    for line in text_of(edit).split("\n"):
        word, _, rest = line.partition(":")
        rest = rest.removeprefix(" ")
        if not line:
            continue
        if word == "file":
            text = text_of(os.path.join(folder, rest.strip()))
            source = sources_of(folder) if rest.strip().endswith(".rt") else ""
        elif word == "old":
            old = rest
            if text.count(old) != 1:
                yield "the old text occurs %d times in its file: %s" % (text.count(old), old)
        elif word == "new" and old is not None:
            changes += 1
            if rest == old:
                yield "the new text is the old one: %s" % old
            if source:
                yield from ("no source of the crate names %s" % it for it in unknown_calls(rest, source + text_of(edit)))
                yield from ("no source has a method %s" % it for it in unknown_methods(rest, os.path.basename(folder), text_of(edit)))
            text, old = text.replace(old, rest), None
        elif word == "promise":
            continue
        else:
            yield "a line of another form: %s" % line
    if changes == 0:
        yield "nothing is changed"


def unknown_calls(text, sources):
    """The functions that the text calls, and that these sources don't define, import or have as a closure."""
    known = r"\b(?:fn|let|mut) %s\b|\buse [^;]*\b%s\b|[(,] *%s:"
    return [it for it in dict.fromkeys(CALL.findall(text)) if it not in PRELUDE and not re.search(known % (it, it, it), sources)]


def unknown_methods(text, crate, edit):
    """The methods that the text calls, and whose names no function has in the edit, in the crate, or in what it depends on."""
    known = {*functions_near(crate), *FUNCTION.findall(edit)}
    return [it for it in dict.fromkeys(METHOD.findall(text)) if it not in known]


@functools.cache
def functions_near(crate):
    """The names of the functions of a crate, of those on which it depends, and of the kit's library."""
    command = shutil.which("rt")
    if command is None:
        sys.exit("the command rt, next to which the sources of the kit's library are, is not there")
    kit = os.path.join(os.path.dirname(os.path.dirname(os.path.realpath(command))), "rattle")
    named = {head.split(" ")[0]: names for head, _, names in (line.partition(":") for line in text_of(os.path.join(ROOT, "crates.txt")).splitlines())}
    own = [crate, *below()[crate]]
    libraries = {it for name in own for it in named[name].split() if it not in named}
    folders = [os.path.join(CRATES, name) for name in own] + [os.path.join(kit, name) for name in (*LIBRARY, *libraries)]
    return set().union(*map(names_in, folders))


@functools.cache
def below():
    return crates_of()


@functools.cache
def names_in(folder):
    """The names of a crate's functions; of one of the kit's also those of the methods that it calls."""
    text = sources_of(folder)
    calls = [] if folder.startswith(CRATES) else METHOD.findall(text)
    return {*FUNCTION.findall(text), *calls}


@functools.cache
def sources_of(folder):
    """The sources of a crate, without their comments."""
    return "\n".join(rt_source.without_comments(text_of(it)) for it in rt_source.sources(folder))


def edits():
    return sorted(it for folder in ("must-fail", "tried") for it in glob.glob(os.path.join(CRATES, "*", folder, "*.edit")))


def promises_of(edit):
    """The names of the promises that the edit breaks."""
    found = re.search(r"(?m)^promise: (.+)$", text_of(edit))
    return [it.strip() for it in found[1].split(";")] if found else []


def bodies():
    """By the name of a promise its edits: the crate and the name of each, and whether the gate tries it."""
    found = {}
    for edit in edits():
        folder, file = os.path.split(edit)
        for name in promises_of(edit):
            found.setdefault(name, {})[os.path.basename(os.path.dirname(folder)), file.removesuffix(".edit")] = folder.endswith("must-fail")
    return found


def main(words):
    if words:
        sys.exit(__doc__)
    faults = ["%s: %s" % (os.path.relpath(edit, CRATES), fault) for edit in edits() for fault in faults_of(edit)]
    faults += ["%s: it names no promise" % os.path.relpath(edit, CRATES) for edit in edits() if not promises_of(edit)]
    print("\n".join(faults + ["%d edits, %d faults" % (len(edits()), len(faults))]))
    return 1 if faults else 0


if __name__ == "__main__":
    sys.exit(main(sys.argv[1:]))
