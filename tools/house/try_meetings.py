#!/usr/bin/env python3
"""Tries wrong bodies that no proof refuses, since nothing is promised of waiting, or since memory may always run out: those in
tools/house/meetings/*.edit, each of which must be seen in what the threads of crates/test_threads leave, in a run of a workload, or by a test.

    try_meetings.py            tries all of them
    try_meetings.py NAME..     these alone
    try_meetings.py --since    those that weren't tried on the present text of their crates
    try_meetings.py --list     prints when each was last tried; the status is 1 if one wasn't on this text
    try_meetings.py --known    the same, but the status is 1 only if one was never seen with its present text: the gate tests that

An edit is written as those of crates/*/must-fail are, with its files named from the folder crates/ on. One more line says where it must be seen:

- `meeting: NAME`: in the meeting's line in what the program prints, which must then have the text after `shows:`, which it doesn't have without the edit (if
  none is given, `met false`: the threads miss one another); or, with `ends: never`, by there being no such line once `rt try` stops the
  program, which prints one without the edit;
- `workload: NAME WORDS`: in a run of examples/NAME.pcw with these words, whose output must then differ from examples/NAME.out;
- `test: CRATE NAME`: by the test, which must then fail, and passes without the edit.

Each is tried on a copy of the repository with its built libraries, by `rt try` of the program or of the tests: a minute or more each. What was seen is noted in
tools/house/meetings/tried: the body, its checksum, that of the sources of the crates that it changes and of the crate in which it is seen, with the test crates on which
this one depends, and the date.
The status is 1 if a body changes nothing, ends without saying so, or isn't seen.
"""

import argparse
import datetime
import glob
import hashlib
import os
import shutil
import subprocess
import sys
import tempfile

if __name__ == "__main__":
    sys.path.insert(0, os.path.join(os.path.dirname(os.path.abspath(__file__)), "..", ".."))

from tools import ROOT, text_of
from tools.house.gate_times import crates_of
from tools.house.try_bodies import linked

FOLDER = os.path.join(ROOT, "tools", "house", "meetings")
RECORD = os.path.join(FOLDER, "tried")
MISSED = "met false"
NO_END = "the program did not end within the time limit"


def path_of(name):
    return os.path.join(FOLDER, f"{name}.edit")


def bodies():
    return sorted(os.path.basename(it).removesuffix(".edit") for it in glob.glob(path_of("*")))


def lines_of(name):
    """The edit's lines, each as its first word and the rest."""
    return [line.partition(": ")[::2] for line in text_of(path_of(name)).split("\n") if line]


def crate_of(lines):
    """The crate in which the edit is seen: the one with the meetings, that of the test, or the one that runs workloads."""
    given = dict(lines)
    return "test_threads" if "meeting" in given else given["test"].split(" ")[0] if "test" in given else "pcalc"


def sums_of(name):
    """The checksum of the edit, and that of the sources that it changes and in which it is seen."""
    lines, found = lines_of(name), hashlib.sha256()
    changed = {rest.split("/")[0] for word, rest in lines if word == "file"}
    seen = crate_of(lines)
    below = [it for it in crates_of().get(seen, ()) if it.startswith("test_")]
    for crate in sorted({*changed, seen, *below}):
        for file in sorted(glob.glob(os.path.join(ROOT, "crates", crate, "src", "**", "*.rt"), recursive=True)):
            found.update(repr((os.path.relpath(file, ROOT), text_of(file))).encode())
    return hashlib.sha256(text_of(path_of(name)).encode()).hexdigest()[:6], found.hexdigest()[:12]


def record():
    """By each body that was seen its two checksums at that time, and the date."""
    text = text_of(RECORD) if os.path.exists(RECORD) else ""
    words = [line.split(" ") for line in text.splitlines() if not line.startswith("#")]
    return {name: ((own, text), date) for name, own, text, date in words}


def note(name):
    noted = record()
    noted[name] = sums_of(name), str(datetime.date.today())
    with open(RECORD, "w", encoding="utf-8") as it:
        it.write("# BODY OWN TEXT DATE: this body was seen on the text of this checksum. Written by tools/house/try_meetings.py.\n")
        it.writelines(f"{body} {own} {text} {date}\n" for body, ((own, text), date) in sorted(noted.items()) if os.path.exists(path_of(body)))


def is_tried(name):
    return record().get(name, (None, None))[0] == sums_of(name)


def applied(lines, crates):
    """Makes the edit's changes in the copy."""
    path, text, old = None, "", None
    for word, rest in lines:
        if word == "file":
            path = os.path.join(crates, rest)
            text = text_of(path)
        elif word == "old":
            old = rest
            if text.count(old) != 1:
                sys.exit(f"{path}: the old text occurs {text.count(old)} times: {old}")
        elif word == "new":
            text = text.replace(old, rest)
            with open(path, "w", encoding="utf-8") as it:
                it.write(text)


def run_copy(lines, crate, *words):
    """The lines that `rt try` prints in the crate in a copy with the edit; and the end of all output."""
    with tempfile.TemporaryDirectory(prefix="meetings-") as room:
        copy = os.path.join(room, "copy")
        shutil.copytree(ROOT, copy, ignore=shutil.ignore_patterns(".git"), copy_function=linked)
        applied(lines, os.path.join(copy, "crates"))
        ran = subprocess.run(["rt", "try", *words], cwd=os.path.join(copy, "crates", crate), capture_output=True, text=True)
    return [line.removeprefix("| ") for line in ran.stdout.splitlines()], (ran.stdout + ran.stderr)[-600:]


def line_of(begin, printed):
    return next((line for line in printed if line.startswith(begin)), "")


def seen_in_meeting(lines):
    """What is wrong with the meeting with the edit, or nothing."""
    given = dict(lines)
    meeting, shows = given["meeting"], given.get("shows", MISSED)
    if shows in line_of(f"{meeting}: ", text_of(os.path.join(ROOT, "crates", "test_threads", "stdout")).splitlines()):
        return f"{meeting} shows it without the edit"
    printed, end = run_copy(lines, crate_of(lines))
    line = line_of(f"{meeting}: ", printed)
    return "" if shows in line else line or f"no line: {end}"


def seen_without_end(lines):
    """What is wrong with the meeting without the edit, when it must end, or with it, when it must not, or nothing."""
    begin, crate = f"{dict(lines)['meeting']}: ", crate_of(lines)
    printed, end = run_copy([], crate)
    if not line_of(begin, printed):
        return f"without the edit: no line: {end}"
    printed, end = run_copy(lines, crate)
    return line_of(begin, printed) if NO_END in end else f"with the edit: {end}"


def seen_in_workload(lines):
    """What is wrong with the run with the edit, or nothing."""
    name, *words = dict(lines)["workload"].split(" ")
    example = os.path.join(ROOT, "examples", name)
    wanted = text_of(f"{example}.out").splitlines()
    printed, end = run_copy(lines, crate_of(lines), "--data", f"{name}.pcw={example}.pcw", "--", "run", f"{name}.pcw", *words)
    if not any(line.startswith("commits ") for line in printed):
        return f"no run: {end}"
    return "the run prints what it must" if set(wanted) <= set(printed) else ""


def seen_by_test(lines):
    """What is wrong with the test without the edit, or with it, or nothing."""
    crate, name = dict(lines)["test"].split(" ")
    for edit, wanted in (([], "ok"), (lines, "FAILED")):
        printed, end = run_copy(edit, crate, "--test")
        line = line_of(f"test {name} ... ", printed)
        if not line.endswith(wanted):
            return f"{'with the edit' if edit else 'without the edit'}: {line or end}"
    return ""


def wrong_with(lines):
    given = dict(lines)
    if given.get("ends") == "never":
        return seen_without_end(lines)
    return seen_in_meeting(lines) if "meeting" in given else seen_by_test(lines) if "test" in given else seen_in_workload(lines)


def try_body(name):
    wrong = wrong_with(lines_of(name))
    print(f"{name}: {wrong or 'seen'}", flush=True)
    if not wrong:
        note(name)
    return not wrong


def is_known(name):
    """Whether it was seen with its present text, on any text of the crates."""
    return record().get(name, (("",), None))[0][0] == sums_of(name)[0]


def list_bodies(is_right):
    """Prints when each was last tried; the status is 1 if one isn't right."""
    for name in bodies():
        date = record().get(name, (None, "never"))[1]
        print(f"{name}: {'tried on this text' if is_tried(name) else 'not tried on this text'}, {date}")
    return int(not all(map(is_right, bodies())))


def main():
    reader = argparse.ArgumentParser(description=__doc__, formatter_class=argparse.RawDescriptionHelpFormatter)
    reader.add_argument("names", nargs="*")
    reader.add_argument("--since", action="store_true")
    reader.add_argument("--list", action="store_true")
    reader.add_argument("--known", action="store_true")
    given = reader.parse_args()
    if given.list or given.known:
        return list_bodies(is_tried if given.list else is_known)
    unknown = [name for name in given.names if name not in bodies()]
    if unknown:
        sys.exit(f"no such body in tools/house/meetings: {' '.join(unknown)}")
    chosen = [name for name in given.names or bodies() if not (given.since and is_tried(name))]
    return int(not all([try_body(name) for name in chosen]))


if __name__ == "__main__":
    sys.exit(main())
