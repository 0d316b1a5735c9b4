#!/usr/bin/env python3
"""Runs the programs that the gate has built on stored and generated cases, and compares what they print: `.ci/run` calls it last.

    examples/NAME.pcs     `pcalc step` prints NAME.out; the status is that of NAME.status, or 0
    examples/NAME.pcw     `pcalc run` prints NAME.out
    examples/NAME/        a folder: `pcalc recover` prints NAME.out, or `pcalc collapse` of its files if it has no base
    bench/counts.txt      a line `$ WORDS` is a command of bench_calls, and the lines up to the next one what it prints
    program_cases.py      options, files that can't be read, long files, a full output, little memory
    look_cases.py         logs that are printed, and files and folders that are verified
    pair_cases.py         pairs that are printed, and folders that are made of lines
    run_cases.py          workloads that are run on threads, and the folders that they leave
    crash_cases.py        runs that are killed, and what is recovered from their folders
    kill_cases.py         commands killed at each call that changes files, and runs into one folder at the same time
    disk_cases.py         commands on a disk that gets full, and how often files are flushed to the disk
    serve_cases.py        stores that are served over pipes, and killed
    door_cases.py         loads and runs into the folder of a served store, folders that are moved while they are served, and lost bases
    edge_cases.py         what is in place of a served store's files, its last generation, removals that fail, and long lines
    tutorial_cases.py     the commands of docs/TUTORIAL.md
    client_cases.py       the client and the relay of clients/python over served stores: threads, kills, sockets
    embedding_cases.py    the library of pc_c in programs of C, C++ and Python, if there is a C compiler
    refused_growths.py    a run and the tests of its crates `TESTERS`, each growth of memory that they ask for refused in turn
    PAGES                 the pages made of the crates in docs/ are current, each promise names existing contracts, and each wrong
                          body is one, those of house/meetings as they were seen, and no refused one has to be tried again because the
                          function that it changes has changed since
    tests/                the tests of these tools, on made-up input

Differences are printed, and the counts of growths; the last line is 'N passed, M failed'; the status is 1 if one failed.
"""

import difflib
import glob
import itertools
import os
import resource
import shutil
import signal
import subprocess
import sys
import tempfile
import traceback
import unittest

if __name__ == "__main__":
    sys.path.insert(0, os.path.join(os.path.dirname(os.path.abspath(__file__)), "..", ".."))

from tools import ROOT
from tools.cases import (
    client_cases,
    crash_cases,
    disk_cases,
    door_cases,
    edge_cases,
    embedding_cases,
    kill_cases,
    look_cases,
    pair_cases,
    program_cases,
    refused_growths,
    run_cases,
    serve_cases,
    tutorial_cases,
)

SECONDS = 60
NOBODY = 65_534
PAGES = ("check_edits.py",), ("promises.py",), ("crate_tables.py",), ("spec_guide.py", "--check"), ("try_meetings.py", "--known"), ("try_bodies.py", "--known")
TESTS = os.path.join(ROOT, "tools", "tests")


def program_of(crate):
    return os.path.join(ROOT, "crates", crate, "out", crate)


def text_of(path, otherwise=None):
    if otherwise is not None and not os.path.exists(path):
        return otherwise
    with open(path, encoding="utf-8") as it:
        return it.read()


def ran(command, **settings):
    """The status, and what was printed on each of both streams."""
    try:
        done = subprocess.run(command, stdin=subprocess.DEVNULL, stderr=subprocess.PIPE, timeout=SECONDS, **{"stdout": subprocess.PIPE, **settings})
    except (OSError, subprocess.TimeoutExpired) as error:
        return -1, b"", str(error).encode()
    return done.returncode, done.stdout or b"", done.stderr


def examples():
    """The name, the command, the expected status and output of each example."""
    for script in sorted(glob.glob(os.path.join(ROOT, "examples", "*.pcs"))):
        name = script.removesuffix(".pcs")
        yield os.path.relpath(script, ROOT), (program_of("pcalc"), "step", script), int(text_of(name + ".status", "0")), text_of(name + ".out")
    for workload in sorted(glob.glob(os.path.join(ROOT, "examples", "*.pcw"))):
        yield os.path.relpath(workload, ROOT), (program_of("pcalc"), "run", workload), 0, text_of(workload.removesuffix(".pcw") + ".out")
    for folder in sorted(filter(os.path.isdir, glob.glob(os.path.join(ROOT, "examples", "*")))):
        words = ("recover", folder)
        if not os.path.exists(os.path.join(folder, "base.pcb")):
            words = ("collapse", os.devnull, *sorted(glob.glob(os.path.join(folder, "*.pcp"))))
        yield os.path.relpath(folder, ROOT), (program_of("pcalc"), *words), 0, text_of(folder + ".out")


def counts():
    """The same of each command of the measuring program."""
    command, wanted = None, ""
    for line in [*text_of(os.path.join(ROOT, "bench", "counts.txt")).splitlines(), "$ "]:
        if line.startswith("$ "):
            if command:
                yield f"bench_calls {command}", (program_of("bench_calls"), *command.split()), 0, wanted
            command, wanted = line[2:], ""
        elif not line.startswith("#"):
            wanted += line + "\n"


def stored():
    """What is wrong with each stored example, by its name."""
    for name, command, status, wanted in [*examples(), *counts()]:
        yield name, differences(ran(command, cwd=ROOT), status, wanted.encode(), b"")


def settings_of(case, folder):
    """How a case is run: where, with how much memory and how many open files, by whom, and with which streams closed."""
    settings = {"cwd": folder}
    if case.memory is not None:
        settings["preexec_fn"] = lambda: resource.setrlimit(resource.RLIMIT_AS, (case.memory, case.memory))
    if case.threads is not None:
        settings["preexec_fn"] = lambda: resource.setrlimit(resource.RLIMIT_NPROC, (1 + case.threads, 1 + case.threads))
    if case.open_files is not None:
        settings["preexec_fn"] = lambda: resource.setrlimit(resource.RLIMIT_NOFILE, (case.open_files, case.open_files))
    if case.file_size is not None:
        settings["preexec_fn"] = lambda: (signal.signal(signal.SIGXFSZ, signal.SIG_IGN), resource.setrlimit(resource.RLIMIT_FSIZE, (case.file_size, case.file_size)))
    if case.closed:
        settings["preexec_fn"] = lambda: [os.close(number) for number in case.closed]
    if case.is_other_user and os.geteuid() == 0:
        settings.update(user=NOBODY, group=NOBODY, extra_groups=[])
    return settings


def cases():
    """What is wrong with each case of `program_cases.py`, `look_cases.py`, `pair_cases.py` and `run_cases.py`, by its name. The program is copied, so that any user may run it."""
    with tempfile.TemporaryDirectory() as folder:
        os.chmod(folder, 0o755)
        program = os.path.join(folder, "pcalc")
        if os.path.exists(program_of("pcalc")):
            shutil.copy(program_of("pcalc"), program)
        for case in itertools.chain(program_cases.cases(folder), look_cases.cases(folder), pair_cases.cases(folder), run_cases.cases(folder)):
            settings = settings_of(case, folder)
            if case.output is None:
                ended = ran([program, *case.words], **settings)
            elif os.path.exists(case.output):
                with open(case.output, "wb") as output:
                    ended = ran([program, *case.words], stdout=output, **settings)
            else:
                continue
            wanted = case.parts if case.parts is not None else case.out
            lines = differences(ended, case.status, wanted, case.err)
            lines += [f"{name} is not as expected" for name, content in case.files.items() if content_of(folder, name) != content]
            lines += [f"{name} doesn't have the expected form" for name, is_right in case.checks.items() if not is_right(content_of(folder, name))]
            yield f"pcalc {' '.join(case.words)}: {case.name}", lines


def crashes():
    """What is wrong with each killed run, by its name."""
    if os.path.exists(program_of("pcalc")):
        with tempfile.TemporaryDirectory() as folder:
            yield from crash_cases.crashes(os.path.abspath(program_of("pcalc")), folder)


def kills():
    """What is wrong with each killed command, and each pair of runs into one folder, by its name."""
    if os.path.exists(program_of("pcalc")):
        with tempfile.TemporaryDirectory() as folder:
            yield from kill_cases.kills(os.path.abspath(program_of("pcalc")), folder)


def disks():
    """What is wrong with each command on a full disk, and each count of flushes to the disk, by its name."""
    if os.path.exists(program_of("pcalc")):
        with tempfile.TemporaryDirectory() as folder:
            yield from disk_cases.disks(os.path.abspath(program_of("pcalc")), folder)


def serves():
    """What is wrong with each served store, by its name."""
    if os.path.exists(program_of("pcalc")):
        with tempfile.TemporaryDirectory() as folder:
            yield from serve_cases.serves(os.path.abspath(program_of("pcalc")), folder)


def doors():
    """What is wrong with each door into a folder, by its name."""
    if os.path.exists(program_of("pcalc")):
        with tempfile.TemporaryDirectory() as folder:
            yield from door_cases.doors(os.path.abspath(program_of("pcalc")), folder)


def edges():
    """What is wrong at each edge of a served store, by its name."""
    if os.path.exists(program_of("pcalc")):
        with tempfile.TemporaryDirectory() as folder:
            yield from edge_cases.edges(os.path.abspath(program_of("pcalc")), folder)


def tutorial():
    """What is wrong with each command of the tutorial, by its name."""
    if os.path.exists(program_of("pcalc")):
        with tempfile.TemporaryDirectory() as folder:
            yield from tutorial_cases.tutorial(os.path.abspath(program_of("pcalc")), folder)


def clients():
    """What is wrong with each use of the client and of the relay, by its name."""
    if os.path.exists(program_of("pcalc")):
        with tempfile.TemporaryDirectory() as folder:
            yield from client_cases.clients(os.path.abspath(program_of("pcalc")), folder)


def embedded():
    """What is wrong with each use of the library in other languages, by its name."""
    if os.path.exists(program_of("pcalc")):
        with tempfile.TemporaryDirectory() as folder:
            yield from embedding_cases.embedded(os.path.abspath(program_of("pcalc")), folder)


def pages():
    """What each tool reports of the pages, by its name."""
    for tool, *words in PAGES:
        status, out, err = ran([sys.executable, os.path.join(ROOT, "tools", "house", tool), *words])
        yield f"tools/house/{tool}", (out + err).decode().splitlines() if status else []


def tests_in(found):
    for it in found:
        if isinstance(it, unittest.TestSuite):
            yield from tests_in(it)
        else:
            yield it


def tests():
    """The failures of each test of the tools, by its name; one more if there are no tests."""
    count = 0
    for count, test in enumerate(tests_in(unittest.TestLoader().discover(TESTS)), 1):
        result = unittest.TestResult()
        result.buffer = True
        test(result)
        yield f"tools/tests: {test.id()}", [line for _, text in result.failures + result.errors for line in text.splitlines()]
    if count == 0:
        yield "tools/tests", ["none found"]


def content_of(folder, name):
    """What a file has, or None if it doesn't exist."""
    try:
        with open(os.path.join(folder, name), "rb") as it:
            return it.read()
    except FileNotFoundError:
        return None


def is_as_wanted(got, wanted):
    """Whether it is this text, or has each of these."""
    return all(part in got for part in wanted) if isinstance(wanted, list) else got == wanted


def differences(ended, status, out, err):
    """Lines that say how a call differs from what is expected."""
    lines = [] if ended[0] == status else [f"status {ended[0]} (expected {status})"]
    for stream, got, wanted in (("output", ended[1], out), ("standard error", ended[2], err)):
        if not is_as_wanted(got, wanted):
            lines.append(f"its {stream} (+) instead of the expected one (-):")
            expected = b"\n".join(wanted) if isinstance(wanted, list) else wanted
            pair = [text.decode(errors="replace").splitlines() for text in (expected, got)]
            lines += [line[:200] for line in [*difflib.unified_diff(*pair, lineterm="", n=1)][2:22]]
    return lines


def counted(parts):
    """How many cases passed and how many failed; failures are printed. A part that raises has failed, and the next one is run."""
    passed = failed = 0
    for some in parts:
        try:
            for name, lines in some():
                passed += not lines
                failed += bool(lines)
                if lines:
                    print(f"{name}:", *lines, sep="\n")
        except Exception:
            failed += 1
            print(f"{some.__name__} raised:", traceback.format_exc(), sep="\n")
    return passed, failed


def main():
    passed, failed = counted((stored, cases, crashes, kills, disks, serves, doors, edges, tutorial, clients, embedded, refused_growths.growths, pages, tests))
    print(f"{passed} passed, {failed} failed")
    return 1 if failed else 0


if __name__ == "__main__":
    sys.exit(main())
