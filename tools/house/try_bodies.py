#!/usr/bin/env python3
"""Tries the wrong bodies that the gate doesn't: crates/*/tried/*.edit, each of which the prover must refuse.

    try_bodies.py                   tries all of them
    try_bodies.py NAME..            those of these crates
    try_bodies.py NAME/BODY..       these alone
    try_bodies.py --since           those without a note of today's text
    try_bodies.py --list            prints for each crate how many were refused on today's text, how many notes are void, and how many bodies were never
                                    tried; then those to improve; the last line has the sums
    try_bodies.py --known           prints the bodies that were refused and not tried again after the function that they change has changed; the status
                                    is 1 if there is one; the last line has the sums

They are tried on a copy of the repository, on N copies at a time with --lanes N, once the libraries below
them are built: bodies that change different functions in one text, by one check of these functions (tools/house/rounds.py), and the others
one by one, by `rt must-fail`. What was refused is noted in tools/house/tried, a line for each crate, reason and date, in which a body has
three checksums: of its own text, of the items that it changes, and of what these reach (tools/house/reach.py). A note is void once one of
them differs. The reason is what `rt` says of the refusal:

    clause    a clause isn't proved, or a law: this alone counts as refused
    fits      a proof no longer fits its goal, or names what is gone: it refuses the shape of the code, and the body must be improved
    limit     the prover gave up at each clause that it didn't prove, so it must be improved too
    refused   noted before reasons were, and kept if the text had not changed: it counts as refused
    earlier   noted on an earlier text, without these checksums: it is void

A body is here, and not in must-fail/, if another one in the gate is refused by the same clause, if it is
neither named by a promise nor the only one of a public function, or if its check is expensive (docs/BENCHMARKS.md, the gate's budget).
"""

import argparse
import collections
import datetime
import functools
import glob
import hashlib
import os
import queue
import re
import shutil
import subprocess
import sys
import tempfile
from concurrent.futures import ThreadPoolExecutor, as_completed

if __name__ == "__main__":
    sys.path.insert(0, os.path.join(os.path.dirname(os.path.abspath(__file__)), "..", ".."))

from tools import ROOT
from tools.house import check_edits, reach, rounds
from tools.house.gate_times import crates_of

RECORD = os.path.join(ROOT, "tools", "house", "tried")
REFUSED, TO_IMPROVE = ("clause", "refused"), ("fits", "limit")
SAID = re.compile(r"must-fail (\w+)/([\w.-]+)\.edit: refused, as it must be(.*)")
GAVE_UP = re.compile(r"; `(?:search|grind)` gave up")
UNPROVED = re.compile(r"it is not proved that|no proof of the law|the law does not hold|`search` did not prove")
FIRST = "# CRATE REASON DATE: BODY:TEXT:CHANGED:REACHED.. of crates/CRATE/tried, by the checksums then; tools/house/try_bodies.py writes it, and says more.\n"


def path_of(name, body):
    return os.path.join(ROOT, "crates", name, "tried", f"{body}.edit")


def bodies_of(name):
    return sorted(os.path.basename(it).removesuffix(".edit") for it in glob.glob(path_of(name, "*")))


def crates():
    """The crates that have such bodies, lowest first, each with itself and all those of the repository below it."""
    return {name: [name, *below] for name, below in crates_of().items() if bodies_of(name)}


def edit_of(name, body):
    with open(path_of(name, body), encoding="utf-8") as it:
        return it.read()


def body_sum(name, body):
    """The checksum of what it changes: its promises are no part of it."""
    text = "".join(line for line in edit_of(name, body).splitlines(True) if not line.startswith("promise:"))
    return hashlib.sha256(text.encode()).hexdigest()[:6]


class Today:
    """The three checksums of each body, on the present text."""

    def __init__(self):
        self.tree = reach.tree_here()
        self.sums = functools.cache(self.sums)

    def sums(self, name, body):
        return body_sum(name, body), *(self.tree.sums(name, edit_of(name, body)) or ("", ""))


def reason_of(said):
    """Why a body was refused, by what `rt` says after `refused, as it must be`."""
    if said.startswith(" (only by a limit") or GAVE_UP.search(said):
        return "limit"
    place = re.match(r": (?:note: )?(?:\./)?(\w+)/", said)
    return "clause" if place and place[1] != "proofs" and UNPROVED.search(said) else "fits"


class Record:
    """What tools/house/tried says: of each body the reason, the date and the checksums of its last note."""

    LINE = re.compile(r"(?m)^(\w+) (\w+) (\d{4}-\d\d-\d\d): (.+)$")

    def __init__(self):
        text = ""
        if os.path.exists(RECORD):
            with open(RECORD, encoding="utf-8") as it:
                text = it.read()
        self.notes = {}
        for m in self.LINE.finditer(text):
            for word in m[4].split():
                body, *sums = word.split(":")
                self.notes[m[1], body] = m[2], m[3], tuple(sums)

    def state(self, name, body, today):
        """`never`, or `void`, or the reason of a refusal on today's text."""
        reason, _, sums = self.notes.get((name, body), ("never", "", ()))
        return reason if reason == "never" or reason != "earlier" and sums == today.sums(name, body) else "void"

    def is_forgotten(self, name, body, today):
        """Whether it was refused, and what it changes has changed since."""
        reason, _, sums = self.notes.get((name, body), ("never", "", ()))
        return reason in REFUSED and sums[1] != today.sums(name, body)[1]

    def note(self, name, body, reason, sums):
        self.notes[name, body] = reason, str(datetime.date.today()), sums

    def write(self):
        """Writes a line for each crate, reason and date; bodies that no longer exist are left out."""
        lines = {}
        for (name, body), (reason, date, sums) in sorted(self.notes.items()):
            if os.path.exists(path_of(name, body)):
                lines.setdefault((name, reason, date), []).append(":".join([body, *sums]))
        with open(RECORD, "w", encoding="utf-8") as it:
            it.write(FIRST)
            it.writelines(f"{name} {reason} {date}: {' '.join(bodies)}\n" for (name, reason, date), bodies in sorted(lines.items()))


def try_alone(copy, name, bodies):
    """The reason of each of these bodies that was refused, by `rt must-fail`."""
    for body in bodies:
        shutil.copy(path_of(name, body), f"{copy}/crates/{name}/must-fail/")
    ran = subprocess.run(["rt", "must-fail", name], cwd=copy, capture_output=True, text=True)
    return {body: reason_of(said) for crate, body, said in SAID.findall(ran.stdout) if crate == name and body in bodies}


def try_crate(copy, name, bodies, tree, check=rounds.check):
    """The reason of each body that was refused; those that no clause refused are printed."""
    texts = {it: edit_of(name, it) for it in bodies}
    functions = {it: rounds.functions_of(tree, name, texts[it]) for it in bodies}
    reasons = {}
    for together in rounds.rounds_of({it: own for it, own in functions.items() if own}):
        reasons.update(rounds.try_round(rounds.Copy(f"{copy}/crates/{name}"), together, functions, texts, check))
    alone = [it for it in bodies if it not in reasons]
    if alone:
        reasons.update(try_alone(copy, name, alone))
    refused = {it: reason for it, reason in reasons.items() if reason != "none"}
    count = sum(it == "clause" for it in refused.values())
    others = [f"{name}/{it}: {refused.get(it, 'NOT REFUSED')}" for it in bodies if refused.get(it) != "clause"]
    print(f"{name}: {count} of {len(bodies)} refused by a clause", *others, sep="\n", flush=True)
    return refused


def try_in(copies, name, bodies, tree):
    """The same in one of the copies that no other crate is tried in: an upper crate would be checked over a lower one's wrong body."""
    copy = copies.get()
    try:
        return try_crate(copy, name, bodies, tree)
    finally:
        copies.put(copy)


def needed_by(names):
    """The libraries below these crates, lowest first. They are built before the first body is tried."""
    below = {it for name in names for it in crates_of()[name]}
    return [it for it in crates_of() if it in below]


def linked(one, other):
    """Copies a file; one of a built library gets a second name, since `rt` never writes into such a file."""
    if ".rlib/" not in one:
        return shutil.copy2(one, other)
    try:
        os.link(one, other)
    except OSError:
        shutil.copy2(one, other)
    return other


def copy_in(folder):
    """A copy of the repository, in which no crate has a wrong body of the gate."""
    shutil.copytree(ROOT, folder, ignore=shutil.ignore_patterns(".git"), copy_function=linked)
    for name in crates():
        shutil.rmtree(f"{folder}/crates/{name}/must-fail", ignore_errors=True)
        os.makedirs(f"{folder}/crates/{name}/must-fail")


def copies_in(room, names, lanes):
    """As many copies, in which the libraries below these crates are built. The later ones are made of the first."""
    first, copies = os.path.join(room, "0"), queue.SimpleQueue()
    copy_in(first)
    for name in needed_by(names):
        subprocess.run(["rt", "lib"], cwd=f"{first}/crates/{name}", check=True, capture_output=True)
    copies.put(first)
    for lane in range(1, lanes):
        copies.put(shutil.copytree(first, os.path.join(room, str(lane)), copy_function=linked))
    return copies


def try_all(chosen, lanes):
    """Tries the chosen bodies, by crate, and notes the results of each crate once they are tried. The status is 1 if one wasn't refused by a clause."""
    today = Today()
    with tempfile.TemporaryDirectory(prefix="tried-") as room:
        copies = copies_in(room, chosen, min(lanes, len(chosen)))
        with ThreadPoolExecutor(lanes) as pool:
            runs = {pool.submit(try_in, copies, name, chosen[name], today.tree): name for name in chosen}
            are_refused = [note_crate(runs[it], chosen[runs[it]], it.result(), today) for it in as_completed(runs)]
    return 0 if all(are_refused) else 1


def note_crate(name, bodies, reasons, today):
    """Notes why these bodies of a crate were refused, and returns whether a clause refused each; one that wasn't refused loses its note."""
    record = Record()
    for body in bodies:
        if body in reasons:
            record.note(name, body, reasons[body], today.sums(name, body))
        else:
            record.notes.pop((name, body), None)
    record.write()
    return all(reasons.get(it) == "clause" for it in bodies)


def counted(states):
    """The numbers of bodies by their states, in words."""
    count = collections.Counter(states)
    refused = sum(count[it] for it in REFUSED)
    improved = "".join(f", {count[it]} {words}" for it, words in zip(TO_IMPROVE, ("refused by the shape of a proof", "by a limit")) if count[it])
    return f"{refused} refused on today's text ({count['clause']} seen by a clause), {count['void']} void, {count['never']} never tried{improved}"


def sum_line(states):
    return f"{len(states)} wrong bodies on demand: {counted(states.values())}"


def states_today(record, today):
    return {(name, body): record.state(name, body, today) for name in crates() for body in bodies_of(name)}


def list_states():
    states = states_today(Record(), Today())
    for name in crates():
        own = [state for (crate, _), state in states.items() if crate == name]
        print(f"{name}: {len(own)} bodies, {counted(own)}")
    for (name, body), state in states.items():
        if state in TO_IMPROVE:
            print(f"to improve ({state}): {name}/{body}")
    print(sum_line(states))
    return 0


def list_forgotten():
    record, today = Record(), Today()
    states = states_today(record, today)
    forgotten = [f"{name}/{body}" for name, body in states if record.is_forgotten(name, body, today)]
    for it in forgotten:
        print(f"{it}: what it changes has changed since it was refused, and it was not tried again: tools/house/try_bodies.py {it}")
    print(sum_line(states))
    return 1 if forgotten else 0


def chosen_of(words, is_since):
    """The bodies to try, by crate."""
    known = crates()
    chosen = {}
    for word in words or known:
        name, _, body = word.partition("/")
        if body not in ["", *bodies_of(name)]:
            sys.exit(f"no such body in tried/: {word}")
        chosen.setdefault(name, []).extend([body] if body else bodies_of(name))
    if is_since:
        record, today = Record(), Today()
        chosen = {name: [it for it in bodies if record.state(name, it, today) in ("void", "never")] for name, bodies in chosen.items()}
    return {name: bodies for name, bodies in chosen.items() if bodies}


def faults_in(chosen):
    """Why some of the chosen bodies can't be tried: an edit of another form, or one that changes nothing, isn't a body that was proved."""
    return [f"{name}/{it}: {fault}" for name, bodies in chosen.items() for it in bodies for fault in check_edits.faults_of(path_of(name, it))]


def main():
    reader = argparse.ArgumentParser(description=__doc__, formatter_class=argparse.RawDescriptionHelpFormatter)
    reader.add_argument("names", nargs="*")
    reader.add_argument("--since", action="store_true")
    reader.add_argument("--list", action="store_true")
    reader.add_argument("--known", action="store_true")
    reader.add_argument("--lanes", type=int, default=1)
    given = reader.parse_args()
    if given.list:
        return list_states()
    if given.known:
        return list_forgotten()
    chosen = chosen_of(given.names, given.since)
    faults = faults_in(chosen)
    if faults:
        sys.exit("\n".join(faults))
    return try_all(chosen, given.lanes)


if __name__ == "__main__":
    sys.exit(main())
