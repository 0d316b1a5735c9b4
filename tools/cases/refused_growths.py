#!/usr/bin/env python3
"""Runs a workload into a folder, joins parts, recovers a folder, and runs the tests of the crates `TESTERS` that are named for it, once for each growth
of memory that they ask for, with that growth refused. `try_programs.py` does so in the gate; by hand this prints its counts.

The run, `pcalc run --dir`, must end whichever growth is refused: with status 1, nothing printed and one fault reported, by the name of a file or folder that it
is about, or with status 0, and then with all of its transactions, or with one given up and all others. So must the other commands, which print and write
everything. Only while the command line is read is no fault reported: such growths come first. No log is left where no base is. A test's name
ends in `at_each_refused_growth`: it asks again after an allocation failure, and checks that the end is the same as with ample memory, so it passes
whichever growth is refused. How many growths a run asks for varies with its threads.

All are programs of the gate, in out/ (`rt run` in the folder of pcalc, and `rt test` in that of each crate of tests, make them). `preload.py` builds the library that refuses.
"""

import os
import re
import shutil
import subprocess
import sys
import tempfile
from concurrent.futures import ThreadPoolExecutor

if __name__ == "__main__":
    sys.path.insert(0, os.path.join(os.path.dirname(os.path.abspath(__file__)), "..", ".."))

from tools import ROOT
from tools.cases import look_cases, preload
from tools.cases.case import written
from tools.oracle import plain_files
from tools.oracle.plain_store import keyed

CRATES = os.path.join(ROOT, "crates")
PROGRAM = os.path.join(CRATES, "pcalc", "out", "pcalc")
TESTERS = ("test_locks", "test_memory", "test_memory_files", "test_growths")
NAMES = (b"a", rb"\s7:a", b"c")
# of each client
COUNT = 20
WORKLOAD = b"points 2\n" + b"".join(b"client %d\nfill %s %d x\n" % (number + 1, name, COUNT) for number, name in enumerate(NAMES))
ALL = len(NAMES) * COUNT
CREW = ("--workers", "3", "--collapsers", "3")
MARK = "at_each_refused_growth"
REFUSED = b"a growth was refused\n"
FAULT = re.compile(rb"pcalc: ([\w./-]+): (?:OutOfMemory|NoThread)\n")
PART = re.compile(rb"part-\d{5}\.pcp")
MOST_GROWTHS = 10_000
LANES = os.cpu_count() or 1
SECONDS = 60


def printed_with(given_up):
    """What a run prints if this number of its transactions were given up."""
    left = ALL - given_up
    return b"commits %d\ngave up %d\npoints 2\ncollapsed 1-2 entries %d\nstate pairs %d\ncheck ok\n" % (left, given_up, left, left)


def refused(library, number, words, folder):
    """The status of a call in which the growth of this number is refused, both its outputs, and whether it asked for the growth."""
    env = {**os.environ, "LD_PRELOAD": library, "REFUSED_GROWTH": str(number)}
    try:
        ran = subprocess.run(words, env=env, cwd=folder, stdin=subprocess.DEVNULL, capture_output=True, timeout=SECONDS)
    except subprocess.TimeoutExpired:
        return None, b"", b"no end in %d s" % SECONDS, True
    return ran.returncode, ran.stdout, ran.stderr.replace(REFUSED, b""), REFUSED in ran.stderr


def refused_each(call):
    """The results of calls, of the first growth, the second and so on, as far as there are growths and calls end; some run concurrently."""
    with ThreadPoolExecutor(LANES) as pool:
        for first in range(1, MOST_GROWTHS, LANES):
            some = [(number, result) for number, result in enumerate(pool.map(call, range(first, first + LANES)), first) if result[3]]
            yield from some
            if len(some) < LANES or any(result[0] is None for _, result in some):
                return
    yield MOST_GROWTHS, (None, b"", b"no end of growths", True, False, False)


class Command:
    """Words of the program, the files that they need, what may be printed with status 0, and which file then has which text. With status 1 nothing
    is printed, or, of a command that prints as it goes, a beginning."""

    def __init__(self, name, words, files, printed, output=(os.devnull, b""), prints_as_it_goes=False):
        self.name, self.words, self.files, self.printed, self.output, self.prints_as_it_goes = name, words, files, printed, output, prints_as_it_goes

    def call(self, library, program, room, number):
        """The result with the growth of this number refused, in a folder of its own, and whether the output is right, and no log is left alone."""
        folder = os.path.join(room, str(number))
        os.makedirs(os.path.join(folder, "left"))
        for name, text in self.files.items():
            written(folder, name, text)
        result = refused(library, number, (program, *self.words), folder)
        path, text = os.path.join(folder, self.output[0]), None
        if os.path.exists(path):
            with open(path, "rb") as it:
                text = it.read()
        left = os.listdir(os.path.join(folder, "left"))
        shutil.rmtree(folder)
        return *result, text == self.output[1], "log.pcl" not in left or "base.pcb" in left

    def is_right(self, status, printed, err, is_written, is_clean):
        """Whether it has ended as it must, but that it may have reported nothing."""
        if status == 0:
            return printed in self.printed and not err and is_written
        is_begun = any(text.startswith(printed) for text in self.printed) if self.prints_as_it_goes else not printed
        return status == 1 and is_begun and is_clean and (not err or self.is_told(err)) and not (is_written and self.output[1])

    def is_told(self, err):
        """Whether a fault is reported, by a name that the command is about."""
        found = FAULT.fullmatch(err)
        about = [word.encode() for word in (*self.words, *map(os.path.basename, self.files), "base.pcb", "log.pcl")]
        return found is not None and (PART.fullmatch(found[1]) is not None or any(found[1] == word or found[1].startswith(word + b"/") for word in about))


PARTS = {f"{point}.pcp": plain_files.Part(1, [(point, point)], keyed({b"a key of many letters": (point, b"%d" % point), b"b": (point, None)})) for point in (1, 2, 3)}
# The second one is of format 01, as the base is.
TEXTS = {name: part.text(plain_files.FIRST if name == "2.pcp" else plain_files.SECOND) for name, part in PARTS.items()}
LOG = plain_files.Log(1)
PHASES = ("prepare", "resolve", "capture", "complete", "rest")
# What the parts have was committed before each point.
for POINT in (1, 2, 3):
    LOG.entries += [plain_files.commit(1, {b"a key of many letters": b"%d" % POINT, b"b": None}), *(("token", phase, POINT) for phase in PHASES)]
LOG.entries.append(plain_files.commit(1, {b"another key of many letters": b"x"}, 7))
FOLDER = {"base.pcb": plain_files.Base(1, 0, keyed({b"c": b"a value of many letters"})).text(plain_files.FIRST), "log.pcl": LOG.text(), **TEXTS}
FOUND = plain_files.recover(FOLDER["base.pcb"], [*TEXTS.items()], FOLDER["log.pcl"])
STATE, PAIRS = FOUND.text(), len(FOUND.pairs)
DUMPED = b"".join(STATE.splitlines(keepends=True)[-PAIRS:])
KINDS = (("base.pcb", "base"), *((name, "part") for name in TEXTS), ("log.pcl", "log"))
VERIFIED = b"".join(name.encode() + look_cases.found_in(kind, FOLDER[name])[0] for name, kind in KINDS) + STATE.removesuffix(DUMPED)
OLD = {"growths.pcw": b"client 1\n", **{f"old/{name}": text for name, text in FOLDER.items()}}
FROM_OLD = b"commits 0\ngave up 0\npoints 0\ncollapsed none\ncheck ok\n"
COMMANDS = (
    Command("a run into a folder", ("run", "growths.pcw", "--dir", "left", *CREW), {"growths.pcw": WORKLOAD}, [printed_with(0), printed_with(1)]),
    Command("a collapse", ("collapse", "all.pcp", *TEXTS), TEXTS, [b"points 1-3 entries 2\n"], ("all.pcp", plain_files.all_joined([*PARTS.values()]).text())),
    Command("a recovery", ("recover", "."), FOLDER, [STATE]),
    Command("a dump", ("dump", "."), FOLDER, [DUMPED]),
    Command("a run from a folder", ("run", "growths.pcw", "--from", "old", *CREW), OLD, [FROM_OLD]),
    Command("a load", ("load", "left", "lines"), {"lines": DUMPED}, [b""], ("left/log.pcl", plain_files.Log(1).text())),
    Command("a verification", ("verify", "old"), OLD, [VERIFIED], prints_as_it_goes=True),
    Command("a store that is served", ("serve", "left", "--create", "--run", "1"), {}, [b"ready run 1 pairs 0\n"], prints_as_it_goes=True),
    Command("an import", ("serve", "left", "--create", "--import", "old"), OLD, [b"ready run 2 pairs %d\n" % PAIRS], prints_as_it_goes=True),
)


def ended(library, program, room, command):
    """What is wrong with the calls of a command, a line each; the counts are printed."""
    ends, lines, silent = {0: 0, 1: 0}, [], 0
    for number, (status, printed, err, _, is_written, is_clean) in refused_each(lambda number: command.call(library, program, room, number)):
        ends[status] = ends.get(status, 0) + 1
        is_silent = status == 1 and not err
        if not command.is_right(status, printed, err, is_written, is_clean) or is_silent and number != silent + 1:
            lines.append("growth %d: status %s, printed %r and %r, written %s, clean %s" % (number, status, printed, err, is_written, is_clean))
        silent += is_silent
    counts = (command.name, sum(ends.values()), ends[1], silent, ends[0])
    print("%s: %d growths, refused in turn; status 1 at %d, the first %d of them without a line; status 0 at %d" % counts, flush=True)
    return lines if ends[1] else [*lines, "none ended with status 1"]


def tests_of(program):
    """The full names of the tests to run with refused growths."""
    listed = subprocess.run([program, "--list"], capture_output=True, text=True, check=True).stdout
    names = [line.removesuffix(": test") for line in listed.splitlines() if line.endswith(": test")]
    return [name for name in names if name.endswith(MARK)]


def test(library, program, room, name):
    """What is wrong with a test, a line for each growth at which it failed; the count is printed."""
    seen = [(number, status) for number, (status, *_) in refused_each(lambda number: refused(library, number, (program, name), room))]
    print("%s: %d growths, refused in turn" % (name, len(seen)), flush=True)
    return ["growth %d: status %s" % (number, status) for number, status in seen if status != 0] if seen else ["it asked for no growth"]


def tests_program(tester):
    return os.path.join(CRATES, tester, "out", f"{tester}_tests")


def tester_growths(library, tester, room):
    """What is wrong with the tests of a crate, by their names."""
    try:
        names = tests_of(tests_program(tester))
    except (OSError, subprocess.CalledProcessError) as error:
        yield f"{tester} has tests of growths", [str(error)]
        return
    yield f"{tester} has tests of growths", [] if names else [f"none has a name that ends in {MARK}"]
    for name in names:
        yield f"{tester} {name}", test(library, tests_program(tester), room, name)


def growths(program=PROGRAM, testers=TESTERS):
    """What is wrong, by the name of a case; the counts are printed."""
    with tempfile.TemporaryDirectory() as room:
        try:
            library = preload.built(room, preload.REFUSE)
            os.stat(program)
        except OSError as error:
            yield "growths that are refused", [str(error)]
            return
        for command in COMMANDS:
            yield f"{command.name}, each growth refused", ended(library, program, room, command)
        for tester in testers:
            yield from tester_growths(library, tester, room)


def main():
    failed = [(name, lines) for name, lines in growths() if lines]
    for name, lines in failed:
        print(f"{name}:", *lines, sep="\n")
    return 1 if failed else 0


if __name__ == "__main__":
    sys.exit(main())
