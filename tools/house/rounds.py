"""Tries many wrong bodies of a crate by few checks.

A function is proved by itself, over the contracts of what it calls. So bodies that change different functions can be put into one text, and what one check
reports of each of these functions is the result of its body. `rounds_of` puts the bodies of a crate into as few such texts as it can; `try_round` writes one of them
into a copy of the repository, checks its functions, and returns the reason of each refusal:

    clause    a clause isn't proved: a search exhausted what it tries, and found no proof
    fits      a proof no longer fits its goal, or names what is gone, and no clause is reported
    limit     of each clause that isn't proved the search gave up at a limit
    none      the function is proved: the body is refused by nothing

A body that changes anything but functions, as a constant, isn't tried so (`alone`), nor is one that the check doesn't report.
"""

import os
import re
import subprocess

from tools.house.reach import changes_in
from tools.house.rt_source import owners_in

NOTE = re.compile(r"(?m)^note: (?:\./)?(src/[\w./]+):(\d+):\d+: (?:it is not proved that|no proof of the law|the law does not hold)(.*)$")
SAID = re.compile(r"(?m)^fn (\S+): (proved|not proved|no proof|could not tell)")
SEVERAL = re.compile(r"several functions are named `([^`]+)`: help: write one of (.*)")
NO_SUCH = re.compile(r"`\w+` has no function `([^`]+)`")
GAVE_UP = re.compile(r"; `\w+` gave up")


def functions_of(tree, crate, body_text):
    """The functions that an edit changes, each as its file, owner, trait and name; None if it changes anything else, or two of one file."""
    found = tree.changed(crate, body_text)
    if found is None or not found[0] or any(it.kind != "fn" for items in found for it in items):
        return None
    own = {(it.path.split("/", 2)[2], it.owner, it.trait, it.name) for it in found[0]}
    return own if own == {(it.path.split("/", 2)[2], it.owner, it.trait, it.name) for it in found[1]} else None


def rounds_of(functions):
    """Lists of bodies, no two of which in one list change one function; `functions` has those of each body."""
    rounds = []
    for body, own in functions.items():
        fitting = next((it for it in rounds if not any(own & functions[other] for other in it)), None)
        if fitting is None:
            rounds.append([body])
        else:
            fitting.append(body)
    return rounds


class Copy:
    """The sources of one crate in a copy of the repository, into which bodies are written."""

    def __init__(self, folder):
        self.folder, self.first = folder, {}

    def read(self, path):
        with open(os.path.join(self.folder, path), encoding="utf-8") as it:
            return it.read()

    def has(self, path):
        return os.path.exists(os.path.join(self.folder, path))

    def write(self, path, text):
        with open(os.path.join(self.folder, path), "w", encoding="utf-8") as it:
            it.write(text)

    def apply(self, text):
        """Writes the body in; returns False, without a change, if one of its old texts doesn't occur exactly once."""
        now = {}
        for path, old, new in changes_in(text):
            before = now.get(path) or self.read(path)
            if before.count(old) != 1:
                return False
            now[path] = before.replace(old, new)
        for path, changed in now.items():
            self.first.setdefault(path, self.read(path))
            self.write(path, changed)
        return True

    def restore(self):
        for path, text in self.first.items():
            self.write(path, text)
        self.first = {}


def is_of(full, function):
    """Whether the name that a check prints is that of the function: crate, modules, owner (of a trait's `impl` with more after it) and name."""
    _, owner, trait, name = function
    parts = full.split("::")
    if parts[-1] != name or len(parts) < 2:
        return False
    return (parts[-2] == owner or bool(trait) and parts[-2].startswith(owner)) if owner else parts[-2][0].islower()


def word_of(function):
    _, owner, trait, name = function
    return f"{owner}::{name}" if owner and not trait else name


def check(crate_folder, words):
    """What a check of these functions prints. The libraries below are built."""
    flags = [it for word in words for it in ("--only", word)]
    how = {"cwd": crate_folder, "stdout": subprocess.PIPE, "stderr": subprocess.STDOUT, "text": True}
    return subprocess.run(["rt", "check", "--jobs", "1", *flags], **how).stdout


def check_named(crate_folder, functions, run):
    """The same, with each name written out if several functions have it."""
    words = {it: [word_of(it)] for it in functions}
    said = ""
    while words:
        said = run(crate_folder, sorted({word for own in words.values() for word in own}))
        several, missing = SEVERAL.search(said), NO_SUCH.search(said)
        if not several and not missing:
            break
        fitting = re.findall(r"`([^`]+)`", several[2]) if several else []
        word = (several or missing)[1]
        again = {it: [full for full in fitting if is_of(full, it)] for it, own in words.items() if word in own}
        words = {it: own for it, own in {**words, **again}.items() if own}
    return said


def reasons_of(said, copy, functions):
    """Why each of the functions was refused, by what the check said; a function without a verdict is left out."""
    owners, notes = {}, {}
    for path, line, rest in NOTE.findall(said):
        if path not in owners:
            owners[path] = owners_in(copy.read(path)) if copy.has(path) else []
        if int(line) < len(owners[path]):  # otherwise it is of a library below
            notes.setdefault((path, owners[path][int(line)]), []).append(rest)
    crate = os.path.basename(copy.folder)
    verdicts = [(full, verdict) for full, verdict in SAID.findall(said) if full.startswith(f"{crate}::")]
    found = {}
    for function in functions:
        own = [verdict for full, verdict in verdicts if is_of(full, function)]
        if own:
            unproved = notes.get((function[0], (function[1], function[3])), [])
            by_limit = all(map(GAVE_UP.search, unproved))
            found[function] = "none" if {*own} == {"proved"} else "fits" if not unproved else "limit" if by_limit else "clause"
    return found


def try_round(copy, bodies, functions, texts, run=check):
    """The reason of each body of the round; a body that couldn't be tried is left out."""
    applied = [it for it in bodies if copy.apply(texts[it])]
    wanted = {it for body in applied for it in functions[body]}
    try:
        said = check_named(copy.folder, wanted, run)
        reasons = reasons_of(said, copy, wanted)
    finally:
        copy.restore()
    if not reasons and len(applied) > 1:
        # One of them doesn't compile, so the check says nothing of the others.
        half = len(applied) // 2
        return {**try_round(copy, applied[:half], functions, texts, run), **try_round(copy, applied[half:], functions, texts, run)}
    order = ("clause", "limit", "fits", "none")
    of_bodies = {it: [reasons[one] for one in functions[it] if one in reasons] for it in applied}
    return {it: min(own, key=order.index) for it, own in of_bodies.items() if own}
