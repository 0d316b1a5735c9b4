"""Commands that are killed at each of their calls that change files, and runs that begin in one folder at the same time, for `try_programs.py`.

A killed collapse leaves under the name of its file what was there, or the whole join, and its inputs as they were; likewise a run the file
of its times. Of two runs into one folder, the second of which begins a little later each time, one owns the folder and leaves in it all that it
committed, and the other one reports NotEmpty.
"""

import contextlib
import os
import shutil
import signal
import subprocess
import tempfile
import time

from tools.cases import preload
from tools.cases.case import content_of, written
from tools.cases.run_cases import has_times_of
from tools.oracle import plain_files
from tools.oracle.plain_store import keyed

SECONDS = 60
MOST_CALLS = 1_000
OFFSETS = 100
# of each of two runs
COUNTS = (300, 200)


def killed(library, number, words, folder):
    """The status of a command that is killed at its call of this number; below 0 if it was."""
    env = {**os.environ, "LD_PRELOAD": library, "KILLED_CALL": str(number)}
    with contextlib.suppress(subprocess.TimeoutExpired):
        return subprocess.run(words, env=env, cwd=folder, stdin=subprocess.DEVNULL, stdout=subprocess.DEVNULL, stderr=subprocess.DEVNULL, timeout=SECONDS).returncode
    return None


def killed_at_each_call(name, words, prepare, faults):
    """What is wrong with what a command leaves that is killed at each of its calls in turn, until one ends by itself, by the number of the
    call. Its folder is prepared each time."""
    with tempfile.TemporaryDirectory() as room:
        try:
            library = preload.built(room, preload.KILL)
        except OSError as error:
            yield name, [str(error)]
            return
        for number in range(1, MOST_CALLS):
            folder = os.path.join(room, str(number))
            prepare(folder)
            status = killed(library, number, words, folder)
            lines = [] if status in (0, -signal.SIGKILL) else [f"status {status}"]
            yield f"{name}, killed at its call {number}", lines + faults(folder, status == 0)
            shutil.rmtree(folder)
            if status == 0:
                return
        yield name, ["it has no end"]


PARTS = {f"{point}.pcp": plain_files.Part(1, [(point, point)], keyed({b"key%05d" % (number * point): (point, b"v" * 30) for number in range(3_000)})) for point in (1, 2)}
JOINED = plain_files.join(*PARTS.values()).text()
TIMED = b"points 1\nclient 1\nfill a 50 x\n"


def collapse_kills(program):
    """Collapses over a file that is a part, one that is an input, and none."""
    def prepare(folder):
        for name, part in PARTS.items():
            written(folder, name, part.text())

    for target in ("out.pcp", "./1.pcp"):
        name = os.path.basename(target)
        before = PARTS[name].text() if name in PARTS else None

        def faults(folder, is_whole, name=name, before=before):
            there = content_of(folder, name) if os.path.exists(os.path.join(folder, name)) else None
            lines = [] if there == JOINED or (there == before and not is_whole) else [f"{name} is neither as it was nor the join"]
            return lines + [f"the input {other} is not as it was" for other, part in PARTS.items() if other != name and content_of(folder, other) != part.text()]

        yield from killed_at_each_call(f"a collapse into {target}", (program, "collapse", target, *PARTS), prepare, faults)


def times_kills(program):
    """A run that writes its times over an existing file."""
    def prepare(folder):
        written(folder, "timed.pcw", TIMED)
        written(folder, "run.times", b"as it was")

    def faults(folder, is_whole):
        there = content_of(folder, "run.times")
        is_right = has_times_of(50)(there) or (there == b"as it was" and not is_whole)
        return [] if is_right and content_of(folder, "timed.pcw") == TIMED else ["its times are neither as they were nor whole"]

    yield from killed_at_each_call("a run with times", (program, "run", "timed.pcw", "--workers", "1", "--times", "run.times"), prepare, faults)


def contest(program, folder, place, delay):
    """What is wrong with two runs into one new folder, the second of which begins `delay` seconds later."""
    os.makedirs(os.path.join(folder, place))
    runs = []
    for number in (0, 1):
        words = (program, "run", f"contest{number}.pcw", "--dir", place, "--lag", "0")
        runs.append(subprocess.Popen(words, cwd=folder, stdin=subprocess.DEVNULL, stdout=subprocess.PIPE, stderr=subprocess.PIPE))
        time.sleep(delay)
    ended = [(run.communicate(timeout=SECONDS), run.returncode) for run in runs]
    won = [number for number, (_, status) in enumerate(ended) if status == 0]
    lost = [err for (out, err), status in ended if (status, out) == (1, b"")]
    if len(won) != 1 or lost != [f"pcalc: {place}: NotEmpty\n".encode()]:
        return [f"{len(won)} runs owned the folder, and the others reported {lost}"]
    recovered = subprocess.run((program, "recover", place), cwd=folder, stdin=subprocess.DEVNULL, capture_output=True, timeout=SECONDS)
    wanted = b"pairs %d\n%s" % (COUNTS[won[0]], b"ab"[won[0]:won[0] + 1])
    return [] if recovered.returncode == 0 and wanted in recovered.stdout else ["the folder doesn't have what its run has committed"]


def contests(program, folder):
    """What is wrong with pairs of runs into one folder, by how much later the second one begins."""
    for number, count in enumerate(COUNTS):
        written(folder, f"contest{number}.pcw", b"points 1\nclient 1\n" + b"# padding\n" * 50_000 + b"fill %s %d x\n" % (b"ab"[number:number + 1], count))
    for offset in range(OFFSETS):
        yield f"two runs into one folder, {offset * 200} microseconds apart", contest(program, folder, f"contest{offset}", offset * 0.0002)


def kills(program, folder):
    """What is wrong with each killed command, and each pair of runs, by its name."""
    yield from collapse_kills(program)
    yield from times_kills(program)
    yield from contests(program, folder)
