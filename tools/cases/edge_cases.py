"""The edges of a served store, for `try_programs.py`: what is in place of its files, the last generation, removals that fail, long lines.

A pipe or a device in place of `lock`, of a base or of a log ends a start, and a reader, at once. A file with the name of a generation is named,
and stays. Each case prints what it saw.
"""

import os
import resource
import shutil
import socket
import subprocess

from tools.cases.case import content_of, written
from tools.cases.door_cases import PUT, call, differs
from tools.cases.serve_cases import MOST_LINE, SECONDS, answers, generation, served, started

NOBODY = 65_534
LAST = 9_999_999
READERS = (("recover", "S"), ("dump", "S"), ("verify", "S"))
# a piece of a line that is too long, and how much memory a process may have that gets it
PIECE, MEMORY = 1 << 20, 160 << 20


def bound_socket(path):
    with socket.socket(socket.AF_UNIX) as it:
        it.bind(path)


WAITING = (("a pipe", os.mkfifo), ("a link to /dev/zero", lambda path: os.symlink("/dev/zero", path)), ("a socket", bound_socket))


def waits(program, room):
    """What can't be read to its end, in place of a file of a served store."""
    for number, (what, make) in enumerate(WAITING):
        place = os.path.join(room, f"{number}")
        os.makedirs(place)
        store = os.path.join(place, "S")
        served(program, place, ("S", "--create", "--run", "1"), PUT % (b"a", b"1"))
        for name, line in (("lock", b"S/lock"), ("gen-0000001/base.pcb", b"base.pcb"), ("gen-0000001/log.pcl", b"log.pcl")):
            path = os.path.join(store, name)
            os.rename(path, path + ".away")
            make(path)
            ended = call(program, place, "serve", "S")
            print(f"waits: {what} in place of {name}: {ended[0]}, {ended[2]!r}")
            yield f"{what} in place of {name}", differs(ended, (1, b"", b"pcalc: %s: Device\n" % line))
            told = call(program, place, "serve", "S", "--explain")[2]
            yield f"{what} in place of {name}, explained", differs(told.startswith(b"pcalc: %s: Device\n  " % line), True)
            if name != "lock":
                for words in READERS:
                    status, out, err = call(program, place, *words)
                    is_right = (b"%s Device\n" % line in out and status == 4) if words[0] == "verify" else (status, err) == (1, b"generation 1\npcalc: %s: Device\n" % line)
                    yield f"{words[0]} of {what} in place of {name}", [] if is_right else [f"{status}, {out!r}, {err!r}"]
            os.remove(path)
            os.rename(path + ".away", path)
        yield f"which is as it was after {what}", answers(program, place, ("S",), ((b"", b"ready run 2 pairs 1"),))


def misplaced(program, room):
    """Plain files with the names of generations."""
    for number in (0, 1, 2, 3, LAST):
        name = f"S{number}"
        served(program, room, (name, "--create", "--run", "1"), PUT % (b"a", b"1"))
        path = generation(os.path.join(room, name), number)
        if number == 1:
            shutil.move(path, path + ".away")
        written(room, os.path.relpath(path, room), b"of someone")
        line = b"pcalc: %s/gen-%07d: Device\n" % (name.encode(), number)
        for words in (("serve", name), ("serve", name, "--create"), ("load", name, "--merge"), ("recover", name), ("dump", name, "--damaged"), ("verify", name), ("serve", "N", "--create", "--import", name)):
            status, out, err = call(program, room, *words)
            yield f"{' '.join(words)} of a store with a file of generation {number}", differs((status, out, err), (4 if words[0] == "verify" else 1, b"", line))
            shutil.rmtree(os.path.join(room, "N"), ignore_errors=True)
        told = call(program, room, "serve", name, "--explain")[2]
        print(f"misplaced: {told!r}")
        yield "the same, explained", differs(told.startswith(line + b"  opening " + line[7:-9] + b": "), True)
        yield "the file stays", differs(content_of(room, os.path.relpath(path, room)), b"of someone")
        os.remove(path)
        if number == 1:
            shutil.move(path + ".away", path)
        yield "without it", answers(program, room, (name,), ((b"", b"ready run 2 pairs 1"),))


def unread(program, room):
    """A standard input that can't be read."""
    for words, told in (((), b""), (("--explain",), b"  reading standard input: Is a directory (os error 21)\n")):
        folder = os.open("/", os.O_RDONLY)
        ran = subprocess.run((program, "serve", "S", "--create", "--run", "1", *words), cwd=room, stdin=folder, capture_output=True, timeout=SECONDS)
        os.close(folder)
        print(f"unread: {ran.returncode}, {ran.stderr!r}")
        yield "a folder as standard input", differs((ran.returncode, ran.stderr), (1, b"pcalc: standard input: Device\n" + told))
        shutil.rmtree(os.path.join(room, "S"))


def last(program, room):
    """The last generation that a folder may have."""
    served(program, room, ("S", "--create", "--run", "1"), PUT % (b"a", b"1"))
    store = os.path.join(room, "S")
    os.rename(generation(store, 1), generation(store, LAST - 1))
    first = PUT % (b"b", b"2") + PUT % (b"c", b"3")
    ended = call(program, room, "serve", "S", "--roll", "1", "--explain", given=first)
    line = b"pcalc: S: Full\n  no generation follows the last one, 9999999: go on in another folder, by --create --import S\n"
    print(f"last: {ended!r}")
    yield "a roll after the last generation", differs((ended[0], ended[2]), (1, line))
    yield "a start after it", differs(call(program, room, "serve", "S", "--explain"), (1, b"", line))
    found = call(program, room, "dump", "S")
    yield "what was answered is there", differs((found[0], b"a 1\nb 2\n" in found[1]), (0, True))
    yield "the way out", differs(call(program, room, "serve", "T", "--create", "--import", "S")[0], 0)
    served(program, room, ("C", "--create", "--run", "1"), PUT % (b"a", b"1") + PUT % (b"b", b"2"))
    line = b"pcalc: C: Full\n  C/gen-0000001 is recovered to 2 pairs, and --capacity is 1\n"
    yield "too many pairs", differs(call(program, room, "serve", "C", "--capacity", "1", "--explain"), (1, b"", line))


def removals(program, room):
    """Generations that can't be removed: each is named, and the store goes on."""
    settings = {"user": NOBODY, "group": NOBODY, "extra_groups": []} if os.geteuid() == 0 else {}
    mine = os.path.join(room, "mine")
    os.makedirs(mine)
    if settings:
        os.chown(mine, NOBODY, NOBODY)
    served(program, mine, ("S", "--create", "--run", "1"), PUT % (b"a", b"1"), **settings)
    held = generation(os.path.join(mine, "S"), 1)
    os.chmod(held, 0o555)
    lines = b"".join(PUT % (b"k%d" % number, b"v") for number in range(3))
    ran = served(program, mine, ("S", "--roll", "1"), lines, **settings)
    there = sorted(os.listdir(os.path.join(mine, "S")))
    print(f"removals: {ran.returncode}, {ran.stderr!r}, {there}")
    told = ran.stderr.splitlines()
    yield "rolls beside a generation that can't be removed", differs((ran.returncode, set(told), ran.stdout.count(b"committed")), (0, {b"pcalc: S/gen-0000001: Device"}, 3))
    yield "it stays, and no other", differs((there[0], len(there)), ("gen-0000001", 4))
    written(mine, "lines", b"z 1\n")
    ended = subprocess.run((program, "load", "S", "lines", "--merge"), cwd=mine, stdin=subprocess.DEVNULL, capture_output=True, timeout=SECONDS, **settings)
    yield "a load beside it", differs((ended.returncode, ended.stderr.splitlines()[1:]), (0, [b"pcalc: S/gen-0000001: Device"]))
    explained = served(program, mine, ("S", "--explain"), b"", **settings)
    yield "explained", differs(explained.stderr, b"pcalc: S/gen-0000001: Device\n  removing S/gen-0000001: Permission denied (os error 13)\n")
    os.chmod(held, 0o755)
    yield "once it can be removed", differs(served(program, mine, ("S",), b"", **settings).stderr, b"")


def long_lines(program, room):
    """Lines up to the most bytes, and longer ones."""
    fill = lambda size: b"#" + b"x" * (size - 1)
    for size, end, answer in ((MOST_LINE - 1, b"\n", b""), (MOST_LINE - 2, b"\r\n", b""), (MOST_LINE, b"\n", b"bad line\n"), (MOST_LINE - 1, b"\r\n", b"bad line\n"), (3 * MOST_LINE, b"\n", b"bad line\n")):
        ran = served(program, room, ("S", "--create", "--run", "1"), fill(size) + end + b"run\n")
        yield f"a comment of {size} bytes with the end {end!r}", differs((ran.returncode, ran.stdout.partition(b"\n")[2]), (0, answer + b"run 1\n"))
        shutil.rmtree(os.path.join(room, "S"))
    padded = b"begin 1" + b" " * MOST_LINE
    ran = served(program, room, ("S", "--create", "--run", "1"), padded + b"\n" + padded[:-8] + b"\n" + b"quit" * MOST_LINE)
    yield "a line of blanks that is too long, and one that isn't", differs((ran.returncode, ran.stdout.partition(b"\n")[2]), (0, b"bad line\nbegun 1\n"))
    words = (program, "serve", "S")
    limit = lambda: resource.setrlimit(resource.RLIMIT_AS, (MEMORY, MEMORY))
    with subprocess.Popen(words, cwd=room, stdin=subprocess.PIPE, stdout=subprocess.PIPE, stderr=subprocess.PIPE, preexec_fn=limit) as process:
        process.stdout.readline()
        for _ in range(300):
            process.stdin.write(b"y" * PIECE)
        process.stdin.write(b"\nrun\n")
        process.stdin.close()
        out, err, status = process.stdout.read(), process.stderr.read(), process.wait(SECONDS)
    print(f"long_lines: a line of {300 * PIECE} bytes in {MEMORY} bytes of memory: {status}, {out!r}, {err!r}")
    yield "a line that is longer than memory", differs((status, out, err), (0, b"bad line\nrun 2\n", b""))


def edges(program, folder):
    """What is wrong at each edge, by its name. The program is copied, so that any user may run it."""
    os.chmod(folder, 0o755)
    shutil.copy(program, os.path.join(folder, "pcalc"))
    for cases in (waits, misplaced, unread, last, removals, long_lines):
        room = os.path.join(folder, cases.__name__)
        os.makedirs(room)
        yield from cases(os.path.join(folder, "pcalc"), room)
