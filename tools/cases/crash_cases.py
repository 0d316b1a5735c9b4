"""Runs into a folder that are killed, for `try_programs.py`: what `pcalc recover` then makes of the folder.

How many transactions were answered is seen as a user sees it: standard error is a terminal, and the last line of progress before the
kill has the number. At most as many entries of the log as `--lag` allows may be lost of those. What is recovered must be what `plain_files.py` makes
of the files, and of each client the work of a prefix of its transactions, which is known: nobody else writes its keys, and none is given up. Each
transaction adds 1 to a number of its client too, so one that is lost or applied twice is seen there. The keys of each client are in a space of its
own, the first one's in space 0.
The moments of kills are chosen by the same line, so they are spread over a run however fast the machine is.
"""

import contextlib
import os
import pty
import re
import subprocess
import termios
import threading
import time

from tools.cases.case import content_of, files_of, written
from tools.oracle import plain_files
from tools.oracle.plain_store import key_word

CLIENTS = 4
# of each client
COUNT = 1_000
KEYS = 50
READS = 30
POINTS = 8
MOMENTS = 20
LAGS = (0, 100, None)
DEFAULT_LAG = 65_536
# bytes of a log before its entries
HEADER = 20
SECONDS = 60
LINE = re.compile(rb"\r\x1b\[\?7l(\d+) commits, point (\d+), \d+ joins, lag \d+, given up 0\x1b\[K\x1b\[\?7h")


def key_of(name, client, number):
    return client - 1, b"%sk%02d" % (name, number % KEYS)


def counter_of(name, client):
    return client - 1, b"%sn" % name


def workload(name):
    """Each client's transactions read some keys that nobody writes, which makes them slow, put their own number under one of its own keys, and count."""
    reads = b"".join(b"get r%d\n" % number for number in range(READS))
    lines = [b"points %d\n" % POINTS]
    for client in range(1, CLIENTS + 1):
        lines.append(b"client %d\n" % client)
        adds = b"add %s 1\n" % key_word(counter_of(name, client))
        lines += [b"txn\n%sput %s %d\n%send\n" % (reads, key_word(key_of(name, client, number)), number, adds) for number in range(COUNT)]
    return b"".join(lines)


def lines_of(terminal):
    """How many transactions were committed, by each line of progress as it comes."""
    text, at = b"", 0
    while True:
        try:
            piece = os.read(terminal, 65_536)
        except OSError:
            return
        if not piece:
            return
        text += piece
        for line in LINE.finditer(text, at):
            at = line.end()
            yield int(line[1])


def answered_before_kill(program, folder, words, least):
    """Kills a run once it shows that this number of transactions were committed: the last number that it has shown, and what is wrong with a run that ends
    earlier, as a fast one may."""
    terminal, other = pty.openpty()
    with contextlib.closing(os.fdopen(terminal, "rb", buffering=0)):
        with subprocess.Popen([program, "run", *words], cwd=folder, stdin=subprocess.DEVNULL, stdout=subprocess.DEVNULL, stderr=other) as run:
            os.close(other)
            patience = threading.Timer(SECONDS, run.kill)
            patience.start()
            answered = 0
            for answered in lines_of(terminal):
                if answered >= least:
                    run.kill()
            patience.cancel()
    is_right = answered >= least or run.returncode == 0
    return answered, [] if is_right else [f"the run ended with status {run.returncode} after {answered} commits"]


def recovered(program, folder):
    """What is wrong with what the program prints of the folder, and the state that it must print."""
    try:
        wanted = plain_files.recover(*files_of(folder))
    except (OSError, plain_files.Refused) as fault:
        return [f"the files can't be recovered: {fault!r}"], None
    ran = subprocess.run([program, "recover", folder], stdin=subprocess.DEVNULL, capture_output=True, timeout=SECONDS)
    is_right = (ran.returncode, ran.stdout, ran.stderr) == (0, wanted.text(), b"")
    return [] if is_right else ["recover doesn't print the state of the files"], wanted


def work_of(name, client, count):
    """The pairs that a client's first `count` transactions have put."""
    return {key_of(name, client, number): b"%d" % number for number in range(count)}


def in_log(folder):
    """The writes of each client's transactions in the log, by its session."""
    commits = {client: [] for client in range(1, CLIENTS + 1)}
    text = content_of(folder, "log.pcl")
    entries = plain_files.read_log(text).entries if len(text) >= HEADER else []
    for entry in entries:
        if entry[0] == "commit":
            commits[entry[1]].append(entry[2])
    return commits


def faults_of(folder, name, pairs, least):
    """What is wrong with the log and the pairs, which must have of each client the work of its first transactions, and at least this number in total."""
    lines, commits = [], in_log(folder)
    reached = 0
    for client, logged in commits.items():
        if logged != [[(key_of(name, client, number), b"%d" % number), (counter_of(name, client), 1)] for number in range(len(logged))]:
            lines.append(f"the log doesn't have the first transactions of client {client}")
        own = {(space, key): value for (space, key), value in pairs.items() if space == client - 1 and key.startswith(name + b"k")}
        count = 1 + max((int(value) for value in own.values()), default=-1)
        if own != work_of(name, client, count) or count < len(logged):
            lines.append(f"what is recovered of client {client} is no state of it")
        if pairs.get(counter_of(name, client), bytes(8)) != count.to_bytes(8, "big"):
            lines.append(f"client {client} has not counted its transactions")
        reached += count
    count = sum(map(len, commits.values()))
    if count < least:
        lines.append(f"the log has {count} commits, and must have at least {least}")
    if reached < least:
        lines.append(f"{reached} commits are recovered, and at least {least} must be")
    return lines


def killed(program, folder, place, words, least):
    """Kills a run into a new folder of this name once it shows this number of commits: the last number shown, what is wrong with the recovery, and the recovered state."""
    os.makedirs(os.path.join(folder, place))
    answered, lines = answered_before_kill(program, folder, (*words, "--dir", place), least)
    more, wanted = recovered(program, os.path.join(folder, place))
    return answered, lines + more, wanted


def moments():
    """The numbers of commits that runs show before they are killed."""
    return [max(1, CLIENTS * COUNT * moment // MOMENTS) for moment in range(MOMENTS)]


def lag_crashes(program, folder, lag, points):
    """What is wrong with each run with this lag that is killed, by its name. The recovered points are added to the list."""
    words = ("crash.pcw",) if lag is None else ("crash.pcw", "--lag", str(lag))
    for moment in moments():
        place = f"killed{lag}_{moment}"
        answered, lines, wanted = killed(program, folder, place, words, moment)
        if wanted is not None:
            points.append(wanted.point)
            least = answered - (DEFAULT_LAG if lag is None else lag)
            lines += faults_of(os.path.join(folder, place), b"a", wanted.pairs, least)
        yield f"run {' '.join(words)}, killed after {moment} commits", lines


def restarts(program, folder):
    """What is wrong with runs that start from the folder of a killed one, and are killed: all that this one left must be there, and their own work."""
    for moment in moments()[5::5]:
        first, second = f"before{moment}", f"after{moment}"
        answered, lines, old = killed(program, folder, first, ("crash.pcw", "--lag", "0"), moment)
        if old is not None:
            answered, more, new = killed(program, folder, second, ("again.pcw", "--lag", "0", "--from", first), moment)
            lines += more
            if new is not None:
                lines += faults_of(os.path.join(folder, second), b"b", new.pairs, answered)
                kept = {key: value for key, value in new.pairs.items() if key[1].startswith(b"a")}
                lines += [] if kept == old.pairs else ["what the first run left isn't there"]
        yield f"run again.pcw, killed after {moment} commits, from a run killed there", lines


def has_whole_log(folder):
    """Whether the log gets all transactions within the time allowed."""
    end = time.monotonic() + SECONDS
    while time.monotonic() < end:
        if os.path.exists(os.path.join(folder, "log.pcl")) and sum(map(len, in_log(folder).values())) == CLIENTS * COUNT:
            return True
        time.sleep(0.05)
    return False


def stopped_terminal(program, folder):
    """What is wrong with a run whose terminal is stopped: its log must become whole all the same, and it ends once the terminal continues, after its last line."""
    place = os.path.join(folder, "stopped")
    os.makedirs(place)
    terminal, other = pty.openpty()
    termios.tcflow(other, termios.TCOOFF)
    with contextlib.closing(os.fdopen(terminal, "rb", buffering=0)):
        with subprocess.Popen([program, "run", "crash.pcw", "--dir", "stopped"], cwd=folder, stdin=subprocess.DEVNULL, stdout=subprocess.PIPE, stderr=other) as run:
            patience = threading.Timer(2 * SECONDS, run.kill)
            patience.start()
            is_whole = has_whole_log(place)
            termios.tcflow(other, termios.TCOON)
            os.close(other)
            shown = [*lines_of(terminal)]
            out = run.stdout.read()
            patience.cancel()
    lines = [] if is_whole else ["its log isn't whole while its terminal is stopped"]
    lines += [] if shown[-1:] == [CLIENTS * COUNT] else [f"its last line shows {shown[-1:]}"]
    is_right = run.returncode == 0 and out.startswith(b"commits %d\ngave up 0\n" % (CLIENTS * COUNT)) and out.endswith(b"check ok\n")
    return lines + ([] if is_right else [f"its status is {run.returncode}, and it prints {out!r}"])


def crashes(program, folder):
    """What is wrong with each killed run, by its name."""
    written(folder, "crash.pcw", workload(b"a"))
    written(folder, "again.pcw", workload(b"b"))
    points = []
    for lag in LAGS:
        yield from lag_crashes(program, folder, lag, points)
    yield "the points of the runs that were killed", [] if any(points) else ["none left the file of a point"]
    yield from restarts(program, folder)
    yield "run crash.pcw, whose terminal is stopped", stopped_terminal(program, folder)
