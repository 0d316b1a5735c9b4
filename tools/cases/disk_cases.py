"""Commands on a disk that gets full, and how often they flush files to the disk, for `try_programs.py`.

The disk is a file system of 1 MB in memory, in a namespace of its own. A command that finds no room on it ends with status 1 and reports the file and the
system's reason; what was there stays, unfinished files are removed, and the folder of a run recovers to a prefix of what it has committed. Where this
machine allows no file system of one's own, that is printed and nothing of it is counted.

With `--sync` and a lag of 0 each commit of one client is flushed to the disk before the next one begins; without, only the base, a joined file and
their names are.
"""

import os
import re
import subprocess
import tempfile

from tools.cases import preload
from tools.cases.case import content_of, files_of, written
from tools.cases.run_cases import has_times_of
from tools.oracle import plain_files
from tools.oracle.plain_store import keyed

SECONDS = 60
SIZE = 1 << 20
# the size of each file is a multiple of this
PAGE = 4_096
# what is there before a command, and what it leaves
GIVEN, SMALL, LEFT = "given", "small", "left"
MOUNT = f"mount -t tmpfs -o size={SIZE} pcalc {SMALL}"
WITHIN = f"{MOUNT} && cp -r {GIVEN}/. {SMALL} && cd {SMALL} || exit 99; \"$@\"; status=$?; cp -r . ../{LEFT}; exit $status"
FULL = b"No space left on device (os error 28)\n"
COMMITS = 50
# Runs, and whether their noted calls are right. Without --sync only the base is flushed to the disk before it is renamed, and the part isn't; with
# it each batch is too, and a lag of 0 waits for each.
SYNCED = (
    (("--sync", "--lag", "0"), lambda calls: calls.count(b"srs") == 2 and calls.count(b"s") > COMMITS),
    ((), lambda calls: re.fullmatch(rb"s+rsr", calls)),
)


def own_disk(room, words):
    """The result of a command on a small disk, which is left in the folder LEFT of the room."""
    for name in (GIVEN, SMALL, LEFT):
        os.makedirs(os.path.join(room, name), exist_ok=True)
    command = ("unshare", "--map-root-user", "--mount", "sh", "-c", WITHIN, "sh", *words)
    return subprocess.run(command, cwd=room, stdin=subprocess.DEVNULL, capture_output=True, timeout=SECONDS)


def has_disks():
    """Whether this machine allows a small disk."""
    with tempfile.TemporaryDirectory() as room:
        try:
            return own_disk(room, ("true",)).returncode == 0
        except OSError:
            return False


def names_in(room, folder):
    return sorted(os.listdir(os.path.join(room, LEFT, folder)))


def ended_full(ran, name, path):
    """What is wrong with how a command has ended that found the disk full."""
    err = b"pcalc: %s: Device\n  writing %s: %s" % (name, path, FULL)
    return [] if (ran.returncode, ran.stdout, ran.stderr) == (1, b"", err) else [f"status {ran.returncode}, {ran.stdout!r}, {ran.stderr!r}"]


def full_run(program, room):
    """A run whose log and parts have no room."""
    written(room, f"{GIVEN}/run.pcw", b"points 3\nclient 1\nfill a 60000 x\n")
    os.makedirs(os.path.join(room, GIVEN, "D"))
    ran = own_disk(room, (program, "run", "run.pcw", "--dir", "D", "--lag", "0", "--explain"))
    lines = [] if ran.returncode == 1 and ran.stderr.startswith(b"pcalc: run.pcw: Device\n  writing D/") and ran.stderr.endswith(FULL) else [f"{ran.returncode}, {ran.stderr!r}"]
    found = plain_files.recover(*files_of(os.path.join(room, LEFT, "D")))
    keys = [keyed({b"a%06d" % number: b"x"}) for number in range(len(found.pairs))]
    if not keys or found.pairs != {key: value for pair in keys for key, value in pair.items()}:
        lines.append("its folder doesn't recover to a prefix of its transactions")
    return lines + [f"{name} is left" for name in names_in(room, "D") if name.endswith(".new")]


def full_collapse(program, room):
    """A join that has no room besides the existing file of its name."""
    parts = [plain_files.Part(1, [(point, point)], keyed({b"key%05d" % (number * point): (point, b"v" * 16) for number in range(9_000)})).text() for point in (1, 2)]
    given = {"1.pcp": parts[0], "2.pcp": parts[1], "out.pcp": plain_files.Part(1, [(3, 3)], {}).text()}
    for name, text in given.items():
        written(room, f"{GIVEN}/{name}", text)
    ran = own_disk(room, (program, "collapse", "out.pcp", "1.pcp", "2.pcp", "--explain"))
    lines = ended_full(ran, b"out.pcp", b"out.pcp")
    lines += [f"{name} is not as it was" for name, text in given.items() if content_of(os.path.join(room, LEFT), name) != text]
    return lines + ([] if names_in(room, "") == sorted(given) else [f"{names_in(room, '')} are left"])


def full_times(program, room):
    """Times that have no room."""
    written(room, f"{GIVEN}/run.pcw", b"points 1\nclient 1\nfill a 50 x\n")
    written(room, f"{GIVEN}/run.times", b"as it was")
    written(room, f"{GIVEN}/filler", bytes(SIZE - 2 * PAGE))
    ran = own_disk(room, (program, "run", "run.pcw", "--times", "run.times", "--explain"))
    lines = [] if ran.returncode == 1 and ran.stderr == b"pcalc: run.times: Device\n  writing run.times: " + FULL else [f"{ran.returncode}, {ran.stderr!r}"]
    if content_of(os.path.join(room, LEFT), "run.times") != b"as it was" or names_in(room, "") != ["filler", "run.pcw", "run.times"]:
        lines.append(f"its times are not as they were, or of {names_in(room, '')} something is left")
    return lines


def full_start(program, room):
    """A start whose base has no room."""
    pairs = keyed({b"key%05d" % number: b"v" * 16 for number in range(20_000)})
    written(room, "old/base.pcb", plain_files.Base(1, 0, pairs).text())
    written(room, "old/log.pcl", plain_files.Log(1).text())
    written(room, f"{GIVEN}/run.pcw", b"points 1\nclient 1\nfill a 50 x\n")
    written(room, f"{GIVEN}/filler", bytes(SIZE // 2))
    os.makedirs(os.path.join(room, GIVEN, "D"))
    ran = own_disk(room, (program, "run", "run.pcw", "--from", "../old", "--dir", "D", "--explain"))
    return ended_full(ran, b"run.pcw", b"D/base.pcb") + ([] if names_in(room, "D") == [] else [f"{names_in(room, 'D')} are left"])


def in_memory(program, room):
    """Times under /dev/shm, which are replaced as any other file."""
    written(room, "run.pcw", b"points 1\nclient 1\nfill a 50 x\n")
    with tempfile.NamedTemporaryFile(dir="/dev/shm") as file:
        ran = subprocess.run((program, "run", "run.pcw", "--times", file.name), cwd=room, stdin=subprocess.DEVNULL, capture_output=True, timeout=SECONDS)
        file.write(b"after the old one")
        file.flush()
        is_right = has_times_of(50)(content_of("/", file.name))
    return [] if ran.returncode == 0 and is_right else [f"status {ran.returncode}, and the times aren't those of the run alone"]


def synced(program, room):
    """When runs and joins flush files to the disk: s for each flush, and r for each rename."""
    library, notes = preload.built(room, preload.NOTE), os.path.join(room, "notes")
    written(room, "run.pcw", b"points 1\nclient 1\nfill a %d x\n" % COMMITS)

    def noted(*words):
        written(room, "notes", b"")
        env = {**os.environ, "LD_PRELOAD": library, "NOTED_SYNCS": notes}
        ran = subprocess.run((program, *words), cwd=room, env=env, stdin=subprocess.DEVNULL, capture_output=True, timeout=SECONDS)
        return ran.returncode, content_of(room, "notes")

    for number, (words, is_right) in enumerate(SYNCED):
        os.makedirs(os.path.join(room, f"D{number}"))
        status, calls = noted("run", "run.pcw", "--dir", f"D{number}", *words)
        yield f"a run with {' '.join(words) or 'no more words'} is flushed to the disk", [] if status == 0 and is_right(calls) else [f"status {status}, {calls}"]
    status, calls = noted("collapse", "out.pcp", "D0/part-00001.pcp")
    yield "a joined file is flushed to the disk, renamed, and its name flushed too", [] if (status, calls) == (0, b"srs") else [f"status {status}, {calls}"]


def disks(program, folder):
    """What is wrong with each command on a full disk, and each count of flushes, by its name."""
    if has_disks():
        for case in (full_run, full_collapse, full_times, full_start):
            room = os.path.join(folder, case.__name__)
            os.makedirs(room)
            yield f"on a full disk: {case.__doc__}", case(program, room)
    else:
        print("no disk of 1 MB is available: a full disk is not tried")
    if os.path.isdir("/dev/shm"):
        yield "a file under /dev/shm is replaced", in_memory(program, folder)
    yield from synced(program, folder)
