"""The library of crates/pc_c in programs of C, C++ and Python, for `try_programs.py`: the examples of `embedding/` and its tests are built and run,
`embedding_border.py` makes calls through the border, `embedding_module.py` uses the module of Python, and folders go to and fro between the library and
the program.

The archive is the proved one if `rt lib` has built it from the present sources, and otherwise one without proofs, which `tools/build` makes. Which of both is
printed. If there is no compiler, that is printed, and nothing is counted.
"""

import glob
import json
import os
import shutil
import subprocess
import sys

from tools import ROOT
from tools.oracle import plain_store

EMBEDDING = os.path.join(ROOT, "embedding")
PROVED = os.path.join(ROOT, "crates", "pc_c", "out", "libpc_c.a")
PROGRAMS = {"first.c": "first_c", "example.c": "example_c", "example.cpp": "example_cpp", "threads.c": "threads"}
PYTHON = "first.py", "example.py"
TESTS = {"growths": "growths refused one by one", "turns": "two threads in turn on one handle", "edges": "null pointers and other edges",
         "wrapped": "what the wrapper for C++ throws"}
FAILING = "failing"
# how the log's file fails in `failing.c`; the last one needs a file system of its own
WAYS = "write", "short", "flush", "limit", "full"
# on a disk of 64 KB that a filler makes full when half of it is the log's
SMALL = 'mount -t tmpfs -o size=128k pcalc "$2" && mkdir "$2/D" && head -c 64k /dev/zero > "$2/filler" || exit 99; "$1" full "$2/D" "$2/filler"; status=$?; cp -r "$2/D" "$3"; exit $status'
NOT_MOUNTED = 99
# what a folder may have that pcalc_share refuses
OCCUPIED = "base.pcb", "log.pcl", "part-00007.pcp", "lock", "gen-0000012"
NEEDED = "cc", "c++", "make", "ar", "rt"
SECONDS, BUILD_SECONDS = 120, 900


def run(*command, seconds=SECONDS, **settings):
    """The status, and what was printed on each of both streams."""
    done = subprocess.run(command, stdin=subprocess.DEVNULL, stdout=subprocess.PIPE, stderr=subprocess.PIPE, timeout=seconds, **settings)
    return done.returncode, done.stdout, done.stderr


def is_current(archive, sources):
    """Whether the archive was built after the last change of these files."""
    return os.path.exists(archive) and all(os.path.getmtime(it) <= os.path.getmtime(archive) for it in sources)


def differing(ended, out, status=0):
    return [] if ended[:2] == (status, out) else [f"status {ended[0]}", *ended[1].decode(errors="replace").splitlines()[:20], *ended[2].decode(errors="replace").splitlines()[:20]]


def content_of(*path):
    with open(os.path.join(*path), "rb") as it:
        return it.read()


def made(room, archive, *words):
    return run("make", "-s", "-f", os.path.join(EMBEDDING, "Makefile"), f"OUT={room}/out", f"ARCHIVE={archive}", *words)


def embedded(program, room):
    """What is wrong with each use of the library, by its name."""
    missing = [it for it in NEEDED if shutil.which(it) is None]
    if missing:
        print(f"embedding: there is no {missing[0]}, so nothing is tried")
        return
    archive = os.path.abspath(PROVED)
    if is_current(archive, glob.glob(os.path.join(ROOT, "crates", "*", "src", "*.rt"))):
        print("embedding: the archive is the proved one")
    else:
        print("embedding: the archive is one without proofs, as there is no proved one")
        archive = os.path.join(room, "libpc_c.a")
        ended = run(sys.executable, os.path.join(ROOT, "tools", "build"), "--library", archive, seconds=BUILD_SECONDS)
        yield "embedding: tools/build --library", unmarked(ended, archive)
        if ended[0] != 0:
            return
    built = made(room, archive, "examples", *(f"{room}/out/{it}" for it in (*TESTS, FAILING)))
    yield "embedding: make", differing(built, b"")
    if built[0] == 0:
        yield from uses(room)
        yield from installs(room, archive)
        yield from folders(program, room)
        yield from shares(room)
        yield from failures(program, room)


def unmarked(ended, archive):
    """What is wrong with a build without proofs: its archive must say that nothing of it is proved."""
    if ended[0] != 0:
        return differing(ended, b"")
    return [] if b"pc_c: not proved; commit" in content_of(archive) else ["the archive doesn't say that it isn't proved"]


def uses(room):
    """The examples, the tests, and the calls through the border."""
    python = {**os.environ, "PCALC_SO": os.path.join(room, "out", "libpcalc.so"), "PYTHONPATH": os.path.join(EMBEDDING, "python")}
    for source, name in PROGRAMS.items():
        yield f"embedding: {source}", differing(run(os.path.join(room, "out", name)), content_of(EMBEDDING, "examples", source + ".out"))
    for source in PYTHON:
        ended = run(sys.executable, os.path.join(EMBEDDING, "examples", source), env=python)
        yield f"embedding: {source}", differing(ended, content_of(EMBEDDING, "examples", source + ".out"))
    for name, what in TESTS.items():
        yield f"embedding: {what}", differing(run(os.path.join(room, "out", name)), b"ok\n")
    for script, what in (("embedding_border.py", "all calls through the border"), ("embedding_module.py", "all uses of the module")):
        ended = run(sys.executable, os.path.join(ROOT, "tools", "cases", script), env=python)
        for name, lines in map(json.loads, ended[1].splitlines()):
            yield f"embedding: {name}", lines
        yield f"embedding: {what}", differing(ended, ended[1])
        sys.stdout.write(ended[2].decode(errors="replace"))


def installs(room, archive):
    """The installed files suffice for a program."""
    ended = made(room, archive, "install", f"PREFIX={room}/installed")
    is_proved = os.path.realpath(archive) == os.path.realpath(PROVED)
    lines = differing(ended, f"{archive} is installed: {'proved' if is_proved else 'not proved'}\n".encode())
    if not lines:
        flags = [f"-I{room}/installed/include", f"-L{room}/installed/lib", "-l:libpcalc.a"]
        lines = differing(run("cc", "-std=c11", os.path.join(EMBEDDING, "examples", "example.c"), *flags, "-o", f"{room}/by_prefix"), b"")
        lines = lines or differing(run(f"{room}/by_prefix"), content_of(EMBEDDING, "examples", "example.c.out"))
    lines += [f"pcalc.pc doesn't name {room}/installed"] if not lines and f"prefix={room}/installed".encode() not in content_of(room, "installed/lib/pkgconfig/pcalc.pc") else []
    yield "embedding: make install", lines
    bare = {name: value for name, value in os.environ.items() if name != "PCALC_SO"} | {"PYTHONPATH": f"{room}/installed/lib/python"}
    for source in PYTHON:
        ended = run(sys.executable, os.path.join(EMBEDDING, "examples", source), cwd=room, env=bare)
        yield f"embedding: {source} by the installed module", differing(ended, content_of(EMBEDDING, "examples", source + ".out"))


def folders(program, room):
    """Folders that the library has written are recovered by the program, and those of the program by the library."""
    threads = os.path.join(room, "out", "threads")
    first, second, served = (os.path.join(room, name) for name in ("first", "second", "served"))
    os.mkdir(first), os.mkdir(second)
    wanted = content_of(EMBEDDING, "examples", "threads.c.out")
    lines = differing(run(threads, first), wanted)
    yield "embedding: a folder is written", lines + [f"there is {it}" for it in sorted(os.listdir(first)) if it.endswith(".new")]
    yield "embedding: a folder that has files of a run is left alone", differing(run(threads, first), b"", 1)
    yield "embedding: it is recovered by pcalc recover", recovered(program, first, 1000)
    lines = differing(run(threads, second, first), b"".join(b"%s %d\n" % (key, 2 * int(number)) for key, number in map(bytes.split, wanted.splitlines())))
    yield "embedding: another store continues from it", lines + recovered(program, second, 2000)
    script = b"".join(b"begin 1\nadd 1 all 5\nadd 1 k%d 5\ncommit 1\n" % (turn % 10) for turn in range(20))
    done = subprocess.run([program, "serve", served, "--create"], input=script, stdout=subprocess.PIPE, stderr=subprocess.PIPE, timeout=SECONDS, check=False)
    generation = os.path.join(served, "gen-0000001")
    third = os.path.join(room, "third")
    os.mkdir(third)
    lines = [f"serve: status {done.returncode}"] if done.returncode else []
    lines += differing(run(threads, third, generation), b"all 1100\n" + b"".join(b"k%d 110\n" % it for it in range(10)))
    yield "embedding: another store continues from one that was served", lines + recovered(program, third, 1100)


def recovered(program, folder, total):
    """What is wrong with the program's recovery of the folder, which must have this total."""
    status, out, err = run(program, "recover", "--strict", folder)
    wanted = b"all " + plain_store.word(total.to_bytes(8, "big"))
    return [] if status == 0 and wanted in out.splitlines() else [f"recover: status {status}", *out.decode().splitlines()[:6], *err.decode().splitlines()[:6]]


def shared(room, how, folder):
    """What `failing.c` prints of a store that is shared over the folder, and what is there then."""
    return run(os.path.join(room, "out", FAILING), how, folder)[1].decode().strip(), sorted(os.listdir(folder))


def shares(room):
    """Folders that are shared, or refused and left as they were."""
    seen = []
    for number, (how, there, wanted, left) in enumerate((
        *(("share", [name], "ENOTEMPTY", [name]) for name in OCCUPIED),
        ("share", [], "okwbord", ["base.pcb", "log.pcl"]), ("share", ["gen-1", "notes"], "okwbord", ["base.pcb", "gen-1", "log.pcl", "notes"]),
        ("share", ["base.pcb.new"], "File exists", ["base.pcb.new"]), ("rename", [], "Input/output error", []), ("unopened", [], "EINVAL", []),
    )):
        folder = os.path.join(room, f"shared{number}")
        os.mkdir(folder)
        for name in there:
            with open(os.path.join(folder, name), "wb") as it:
                it.write(b"x")
        got = shared(room, how, folder)
        seen += [] if got == (wanted, left) else [f"{how} {there}: {got} instead of {(wanted, left)}"]
    yield "embedding: folders that are shared, or refused and left as they were", seen


def failed_in(room, way):
    """How `failing.c` has ended, and its folder."""
    folder = os.path.join(room, f"log that fails by {way}")
    if way != "full":
        os.mkdir(folder)
        return run(os.path.join(room, "out", FAILING), way, folder), folder
    disk = os.path.join(room, "disk")
    os.mkdir(disk)
    try:
        return run("unshare", "--map-root-user", "--mount", "sh", "-c", SMALL, "sh", os.path.join(room, "out", FAILING), disk, folder), folder
    except OSError:
        return (NOT_MOUNTED, b"", b""), folder


def failures(program, room):
    """Logs that fail while threads commit: what was answered is recovered."""
    for way in WAYS:
        (status, out, err), folder = failed_in(room, way)
        if status == NOT_MOUNTED:
            print("embedding: no small disk can be made here, so no log fails on a full one")
            continue
        keys = run(program, "recover", folder)[1] if status == 0 else b""
        lines, saw = kept_wrongly(out.decode().splitlines(), {it.split(b" ")[0].decode() for it in keys.splitlines()})
        print(f"embedding: a log that fails by {way}: {saw}")
        yield f"embedding: a log that fails by {way}", differing((status, b"", err), b"") or lines


def kept_wrongly(lines, words):
    """What is wrong with the keys among these words, which are recovered, by what `failing.c` printed; and what was seen."""
    wrong, total = [], [0, 0, 0]
    *sessions, error = lines or [""]
    for session, committed, unknown in (map(int, it.split()) for it in sessions):
        kept = {int(word.split("-")[1]) for word in words if word.startswith(f"{session}-")}
        wanted = set(range(committed))
        if not wanted <= kept or not kept - wanted <= set(range(committed, committed + unknown)):
            wrong.append(f"session {session}: {committed} committed, {unknown} unknown, but {len(kept)} recovered")
        total = [number + more for number, more in zip(total, (committed, unknown, len(kept)), strict=True)]
    if not total[0] or not total[1]:
        wrong.append("too few commits are answered")
    return wrong, "{} commits are answered COMMITTED, {} UNKNOWN, {} are recovered; {}".format(*total, error)
