"""Stores that are served over pipes, for `try_programs.py`: what they answer, and what their folders have after a kill.

A client sends transactions of one session to a served store; transaction N puts N under one of its keys and counts itself. So the state of a folder
gives their number, and each key is compared. Each answered one must be there, whatever the lag, and no
more than were sent. A process is killed at random moments, at each of its calls that change files, and one whose output is closed ends; its disk gets full.
Of two processes one owns the folder. Many sessions are answered as plain_serving.py says. Lines are also typed at a terminal.
"""

import contextlib
import os
import pty
import random
import select
import shutil
import signal
import subprocess
import threading
import time

from tools.cases import disk_cases, preload
from tools.cases.case import content_of, files_of, written
from tools.cases.kill_cases import MOST_CALLS
from tools.oracle import plain_files, plain_serving
from tools.oracle.plain_store import keyed

SECONDS = 60
KEYS = 97
# transactions sent to a process that is killed, and after how many answers at most it is
ASKED, MOST_ANSWERED = 200_000, 20_000
KILLS = 16
# how stores are served that are killed
KILLED = (("S", "--create"), ("S", "--create", "--lag", "500"), ("S", "--create", "--every", "60", "--roll", "400"))
# transactions answered by a process with a longer lag, which is then ended
LAGGING, LONGER = 500, 1_000
# lines of a transaction
LINES = 4
SEED = 63


def transaction(number):
    """The lines of transaction `number`, from 1."""
    return b"begin 1\nput 1 k%02d %d\nadd 1 n 1\ncommit 1\n" % (number % KEYS, number)


def pairs_of(count):
    """The pairs after this number of transactions."""
    pairs = {b"k%02d" % (number % KEYS): b"%d" % number for number in range(max(1, count - KEYS + 1), count + 1)}
    return keyed({**pairs, b"n": count.to_bytes(8, "big")} if count else {})


def generations_in(folder):
    """The numbers of the generations that have a base."""
    names = [name for name in os.listdir(folder) if name.startswith("gen-") and os.path.exists(os.path.join(folder, name, "base.pcb"))]
    return sorted(int(name[4:]) for name in names)


def generation(folder, number):
    return os.path.join(folder, "gen-%07d" % number)


def state_of(folder):
    """The pairs of the current generation, as the plain forms recover them."""
    return plain_files.recover(*files_of(generation(folder, generations_in(folder)[-1]))).pairs


def counted_in(pairs):
    """The number of transactions that the pairs have; -1 if no number of them leaves these."""
    count = int.from_bytes(pairs.get((0, b"n"), b""), "big")
    return count if pairs == pairs_of(count) else -1


def faults_of(program, folder, least, most):
    """What is wrong with a folder that must have a number of transactions within these bounds, and how many it has."""
    try:
        pairs = state_of(folder)
    except (OSError, IndexError, plain_files.Refused) as fault:
        return [f"the folder can't be recovered: {fault!r}"], 0
    count = counted_in(pairs)
    lines = [] if least <= count <= most else [f"the folder has {count} transactions, and must have {least} to {most}"]
    ran = subprocess.run((program, "recover", folder), stdin=subprocess.DEVNULL, capture_output=True, timeout=SECONDS)
    wanted = plain_files.recover(*files_of(generation(folder, generations_in(folder)[-1]))).text()
    if (ran.returncode, ran.stdout, ran.stderr) != (0, wanted, b"generation %d\n" % generations_in(folder)[-1]):
        lines.append(f"recover doesn't print the state of the current generation: {ran.returncode}, {ran.stderr!r}")
    return lines, count


def served(program, room, words, lines, **settings):
    """How a process ends that gets all these lines together."""
    return subprocess.run((program, "serve", *words), cwd=room, input=lines, capture_output=True, timeout=SECONDS, **settings)


def answers(program, room, words, lines, status=0, err=b""):
    """What is wrong with the answers to these lines, given with their answers."""
    asked, wanted = b"".join(line + b"\n" for line, _ in lines), b"".join(answer + b"\n" for _, answer in lines if answer is not None)
    ran = served(program, room, words, asked)
    is_right = (ran.returncode, ran.stdout, ran.stderr) == (status, wanted, err)
    return [] if is_right else [f"status {ran.returncode}, {ran.stdout!r} instead of {wanted!r}, {ran.stderr!r}"]


FIRST = (
    (b"", b"ready run 7 pairs 0"),
    (b"run", b"run 7"),
    (b"begin 1", b"begun 1"),
    (b"put 1 fig 7", b"ok"),
    (b"add 1 \\s9:n 5", b"sum 5"),
    (b"commit 1", b"committed 1"),
    (b"# a remark", None),
    (b"stats\r", b"entries=1 commits=1 points=0 open=0 bytes=55 pairs=2"),
    (b"begin 1", b"begun 2"),
    (b"put 1 fig 8", b"ok"),
    (b"begin 2", b"begun 3"),
    (b"get 2 fig", b"died"),
    (b"abort 2", b"aborted"),
    (b"begin 3", b"begun 4"),
    (b"put 3 pear 1", b"ok"),
    (b"put 1 pear 2", b"wait"),
    (b"commit 3", b"committed 2\ngranted 1"),
    (b"put 1 pear 2", b"ok"),
    (b"point", b"refused WrongPhase"),
    (b"join 1 1", b"refused WrongPhase"),
    (b"base fig 1", b"refused WrongPhase"),
    (b"begin 65", b"refused NoSession"),
    (b"nonsense", b"bad line"),
    (b"check", b"check ok"),
    (b"put 1 " + b"k" * 200_000 + b" 1", b"refused KeyLength"),
    (b"quit", None),
    (b"begin 4", None),
)
SECOND = (
    (b"", b"ready run 8 pairs 3"),
    (b"begin 1", b"begun 1"),
    (b"get 1 fig", b"= 7"),
    (b"get 1 pear", b"= 1"),
    (b"get 1 \\s9:n", b"= \\x00\\x00\\x00\\x00\\x00\\x00\\x00\\x05"),
    (b"put 1 fig 9", b"ok"),
    (b"commit 1", b"committed 1"),
)
THIRD = ((b"", b"ready run 9 pairs 3"), (b"begin 1", b"begun 1"), (b"get 1 fig", b"= 9"))


def sessions(program, room):
    """What a store answers, also after it was started again."""
    yield "a store that is made", answers(program, room, ("S", "--create", "--run", "7"), FIRST)
    yield "a store that is started again", answers(program, room, ("S",), SECOND)
    yield "the same, with --create", answers(program, room, ("S", "--create"), THIRD)
    there = sorted(os.listdir(os.path.join(room, "S")))
    yield "the generation before is kept, and older ones are removed", [] if there == ["gen-0000002", "gen-0000003", "lock"] else [f"{there} are there"]
    ran = served(program, room, ("S",), b"begin 1\nput 1 fig 0\nbegin 12\ncommit 1")
    yield "a truncated line is not run", [] if ran.stdout == b"ready run 10 pairs 3\nbegun 1\nok\nbegun 2\n" else [repr(ran.stdout)]
    ran = served(program, room, ("S",), b"begin 1\nget 1 fig\n")
    yield "and nothing was committed by it", [] if ran.stdout == b"ready run 11 pairs 3\nbegun 1\n= 9\n" else [repr(ran.stdout)]


def refusals(program, room):
    """Folders that can't be served."""
    os.makedirs(os.path.join(room, "empty"))
    written(room, "run/base.pcb", plain_files.Base(1, 0, keyed({})).text())
    written(room, "file", b"")
    served(program, room, ("three", "--create", "--run", "1"), b"begin 1\nput 1 a 1\nput 1 b 1\nput 1 c 1\ncommit 1\n")
    for words, err in (
        (("none",), b"pcalc: none: NoFile\n"),
        (("empty",), b"pcalc: empty: NoStore\n"),
        (("run",), b"pcalc: run: NoStore\n"),
        (("run", "--create"), b"pcalc: run: NotEmpty\n"),
        (("none/deeper", "--create"), b"pcalc: none/deeper: Device\n"),
        (("file", "--create"), b"pcalc: file: Device\n"),
        (("three", "--capacity", "2"), b"pcalc: three: Full\n"),
    ):
        yield f"serve {' '.join(words)} is refused", answers(program, room, words, (), 1, err)
    is_left = os.listdir(os.path.join(room, "empty")) or generations_in(os.path.join(room, "three")) != [1]
    yield "what is refused changes nothing", ["something is left"] if is_left else []
    log = os.path.join(room, "three", "gen-0000001", "log.pcl")
    shutil.copy(log, os.path.join(room, "log"))
    os.unlink(log)
    yield "a generation without its log is damaged", answers(program, room, ("three",), (), 1, b"log NoFile\npcalc: three/gen-0000001: Damaged\n")
    yield "and is gone on with by --damaged", answers(program, room, ("three", "--damaged"), ((b"", b"ready run 2 pairs 0"),), 0, b"log NoFile\n")


def rolls(program, room):
    """Generations that begin while a process serves, and the points that it takes."""
    count, words = 500, ("S", "--create", "--roll", "100")
    ran = served(program, room, words, b"".join(map(transaction, range(1, count + 1))))
    got = [line for line in ran.stdout.splitlines() if line.startswith(b"committed ")]
    wanted = [b"committed %d" % (number % 100 + 1) for number in range(count)]
    lines, _ = faults_of(program, os.path.join(room, "S"), count, count)
    yield "a generation begins at each hundredth commit", lines + ([] if (ran.returncode, got) == (0, wanted) else [f"status {ran.returncode}, {ran.stderr!r}"])
    yield "the last two of them are kept", [] if generations_in(os.path.join(room, "S")) == [5, 6] else [f"{generations_in(os.path.join(room, 'S'))}"]
    # session 2 keeps a transaction open, so the generation continues
    open_lines = b"begin 2\nput 2 held 1\n" + b"".join(map(transaction, range(1, 21))) + b"run\ncommit 2\nrun\n"
    ran = served(program, room, ("O", "--create", "--run", "1", "--roll", "5"), open_lines)
    runs = [line for line in ran.stdout.splitlines() if line.startswith(b"run ")]
    yield "no generation begins while a transaction is open", [] if runs == [b"run 1", b"run 2"] else [repr(runs)]
    ran = served(program, room, ("P", "--create", "--every", "100", "--lag", "1000"), b"".join(map(transaction, range(1, count + 1))) + b"stats\n")
    lines, _ = faults_of(program, os.path.join(room, "P"), count, count)
    parts = sorted(name for name in os.listdir(generation(os.path.join(room, "P"), 1)) if name.endswith(".pcp"))
    wanted = ["part-%05d.pcp" % point for point in range(1, len(parts) + 1)]
    got = ran.stdout.splitlines()[-1].split()[2] if ran.stdout else b""
    is_right = ran.returncode == 0 and len(parts) >= 3 and parts == wanted and got == b"points=%d" % len(parts)
    yield "a point is taken after each hundredth commit", lines + ([] if is_right else [f"status {ran.returncode}, {parts}, {got!r}"])
    # without its log, the generation's state is that of its points
    written(room, os.path.join("P", "gen-0000001", "log.pcl"), b"")
    found = counted_in(state_of(os.path.join(room, "P")))
    yield "points keep what a lost log had before them", [] if 300 <= found <= count else [f"{found} transactions are there"]


def started(program, room, words, **settings):
    return subprocess.Popen((program, "serve", *words), cwd=room, stdin=subprocess.PIPE, stdout=subprocess.PIPE, stderr=subprocess.PIPE, **settings)


def asked(process, line):
    """One line, and its answer."""
    process.stdin.write(line)
    process.stdin.flush()
    return process.stdout.readline()


def owners(program, room):
    """Two processes of one folder."""
    with started(program, room, ("S", "--create", "--run", "1")) as first:
        lines = [] if first.stdout.readline() == b"ready run 1 pairs 0\n" else ["the first one isn't ready"]
        second = served(program, room, ("S",), b"begin 1\n")
        if (second.returncode, second.stdout, second.stderr) != (1, b"", b"pcalc: S: Busy\n"):
            lines.append(f"the second one ends with {second.returncode}, {second.stdout!r}, {second.stderr!r}")
        lines += [] if asked(first, b"begin 1\n") == b"begun 1\n" else ["the first one doesn't continue"]
        first.stdin.close()
        lines += [] if first.wait(SECONDS) == 0 else ["the first one has failed"]
    yield "of two processes one owns the folder", lines
    yield "and then the next one owns it", answers(program, room, ("S",), ((b"", b"ready run 2 pairs 0"),))


def alone(program, room):
    """A client that sends line by line is answered immediately."""
    lines = []
    with started(program, room, ("S", "--create")) as process:
        process.stdout.readline()
        for number in range(1, 201):
            got = [asked(process, line + b"\n") for line in transaction(number).splitlines()]
            if got != [b"begun %d\n" % number, b"ok\n", b"sum %d\n" % number, b"committed %d\n" % number]:
                lines.append(f"transaction {number} is answered {got}")
        process.kill()
    more, _ = faults_of(program, os.path.join(room, "S"), 200, 200)
    yield "a client that waits for each answer", lines + more


def fed(process, numbers):
    """Sends transactions until the process has ended."""
    with contextlib.suppress(OSError):
        for first in range(numbers.start, numbers.stop, 64):
            process.stdin.write(b"".join(transaction(number) for number in range(first, min(first + 64, numbers.stop))))


def fed_to_the_end(process, numbers):
    """Sends all of these transactions, and then ends the input."""
    fed(process, numbers)
    with contextlib.suppress(OSError):
        process.stdin.close()


def answered_before_kill(program, room, words, numbers, answered):
    """How many transactions a process has answered that is killed after this number of answers, while it gets more."""
    with started(program, room, words) as process:
        feeder = threading.Thread(target=fed, args=(process, numbers))
        feeder.start()
        patience = threading.Timer(SECONDS, process.kill)
        patience.start()
        count = 0
        for line in process.stdout:
            count += line.endswith(b"\n") and line.startswith(b"committed ")
            if count == answered:
                process.kill()
        patience.cancel()
        feeder.join()
        with contextlib.suppress(OSError):
            process.stdin.close()
    return count, process.returncode


def killed(program, room, words, chance):
    """What is wrong with one folder whose processes are killed at random moments, each of which continues from the one before. The counts are printed."""
    there = answered = 0
    served(program, room, words, b"")
    for number in range(KILLS):
        after = chance.choice((0, 1, chance.randrange(1, 100), chance.randrange(1, MOST_ANSWERED)))
        if after:
            count, status = answered_before_kill(program, room, words, range(there + 1, there + 1 + ASKED), after)
        else:
            count, status = killed_at_start(program, room, words, chance)
        lines = [] if status == -signal.SIGKILL else [f"status {status}"]
        least, most = there + count, there + (ASKED if after else 0)
        answered += count
        more, there = faults_of(program, os.path.join(room, "S"), least, most)
        yield f"serve {' '.join(words)}, killed after {count} answers, the time {number + 1}", lines + more
    print(f"serve {' '.join(words)}: {KILLS} kills, {answered} transactions answered, {there} there in the end")


def killed_at_start(program, room, words, chance):
    """The same of one that is killed within its first milliseconds, and sent nothing."""
    with started(program, room, words) as process:
        time.sleep(chance.random() * 0.01)
        process.kill()
    return 0, process.returncode


def lagging(program, room):
    """A process that is ended once it has answered fewer transactions than the lag, each of which is there. The counts are printed."""
    for number, name in ((signal.SIGKILL, "KILL"), (signal.SIGTERM, "TERM")):
        with started(program, room, (name, "--create", "--lag", str(LONGER))) as process:
            process.stdout.readline()
            got = [asked(process, line + b"\n") for count in range(1, LAGGING + 1) for line in transaction(count).splitlines()]
            process.send_signal(number)
            status = process.wait(SECONDS)
        answered = sum(line.startswith(b"committed ") for line in got)
        lines = [] if (status, answered) == (-number, LAGGING) else [f"status {status}, {answered} are answered"]
        more, there = faults_of(program, os.path.join(room, name), answered, answered)
        print(f"serve --lag {LONGER}, {answered} transactions answered, then {name}: {there} there")
        yield f"serve --lag {LONGER}, ended by {name}", lines + more


def killed_calls(program, room):
    """A process that is killed at each of its calls that change files, over a store that has three transactions and an older generation."""
    library = preload.built(room, preload.KILL)
    for words, kept in (((), 1), (("--sync",), 1), (("--every", "1"), 1), (("--roll", "2"), 1), (("--every", "1", "--roll", "4", "--sync"), 1), (("--roll", "2", "--keep", "2"), 2)):
        for number in range(1, MOST_CALLS):
            place = os.path.join(room, f"calls_{number}")
            for some in (b"".join(map(transaction, (1, 2))), transaction(3)):
                os.makedirs(place, exist_ok=True)
                served(program, place, ("S", "--create"), some)
            ran = served(program, place, ("S", *words), b"".join(map(transaction, range(4, 9))), env={**os.environ, "LD_PRELOAD": library, "KILLED_CALL": str(number)})
            lines = [] if ran.returncode in (0, -signal.SIGKILL) else [f"status {ran.returncode}"]
            answered = sum(line.startswith(b"committed ") for line in ran.stdout.splitlines(keepends=True) if line.endswith(b"\n"))
            more, there = faults_of(program, os.path.join(place, "S"), 3 + answered, 8)
            again = served(program, place, ("S", "--keep", str(kept)), b"")
            more += [] if again.returncode == 0 and b" pairs %d\n" % len(pairs_of(there)) in again.stdout else ["it doesn't continue"]
            more += [] if len(generations_in(os.path.join(place, "S"))) == kept + 1 else [f"{generations_in(os.path.join(place, 'S'))} are there in the end"]
            yield f"serve {' '.join(words)}, killed at its call {number}", lines + more
            shutil.rmtree(place)
            if ran.returncode == 0:
                break
        else:
            yield "serve, killed at each call", ["it has no end"]


def closed_output(program, room):
    """A client that stops reading while it sends."""
    with started(program, room, ("S", "--create")) as process:
        feeder = threading.Thread(target=fed, args=(process, range(1, 50_000)))
        feeder.start()
        count = 0
        while count < 100:
            count += process.stdout.readline().startswith(b"committed ")
        process.stdout.close()
        status, err = process.wait(SECONDS), process.stderr.read()
        feeder.join()
        with contextlib.suppress(OSError):
            process.stdin.close()
    more, _ = faults_of(program, os.path.join(room, "S"), count, 50_000)
    yield "a client that closes its end of the output", ([] if (status, err) == (1, b"") else [f"status {status}, {err!r}"]) + more


def full_disk(program, room):
    """A log that has no room."""
    written(room, "lines", b"".join(transaction(number) for number in range(1, 60_000)))
    ran = disk_cases.own_disk(room, ("sh", "-c", 'exec "$0" serve D --create --explain <../lines', program))
    name = b"D/gen-0000001/log.pcl"
    err = b"pcalc: %s: Device\n  writing %s: %s" % (name, name, disk_cases.FULL)
    lines = [] if (ran.returncode, ran.stderr) == (1, err) else [f"status {ran.returncode}, {ran.stderr!r}"]
    answered = sum(line.startswith(b"committed ") for line in ran.stdout.splitlines())
    more, _ = faults_of(program, os.path.join(room, disk_cases.LEFT, "D"), max(1, answered), 60_000)
    return lines + more


def full_roll(program, room):
    """A generation whose base has no room: the one before is current, with all that was answered."""
    puts = b"".join(b"begin 1\n" + b"".join(b"put 1 key%05d %s\n" % (first + place, b"v" * 100) for place in range(250)) + b"commit 1\n" for first in range(0, 4_500, 250))
    written(room, "lines", puts)
    ran = disk_cases.own_disk(room, ("sh", "-c", 'exec "$0" serve D --create --roll 18 --explain <../lines', program))
    name = b"D/gen-0000002/base.pcb"
    err = b"pcalc: D: Device\n  writing %s: %s" % (name, disk_cases.FULL)
    lines = [] if (ran.returncode, ran.stderr) == (1, err) else [f"status {ran.returncode}, {ran.stderr!r}"]
    place = os.path.join(room, disk_cases.LEFT, "D")
    lines += [] if generations_in(place) == [1] and len(state_of(place)) == 4_500 else [f"{generations_in(place)} are there"]
    return lines + [f"{left} is left" for left in os.listdir(generation(place, 2)) if left != "log.pcl"]


def kept(program, room):
    """How many generations are kept."""
    for words, wanted in ((("--create", "--keep", "3", "--roll", "1"), [3, 4, 5, 6]), (("--keep", "9999999"), [3, 4, 5, 6, 7]), (("--keep", "2"), [6, 7, 8]), ((), [8, 9])):
        lines = b"".join(map(transaction, range(1, 6))) if "--create" in words else b""
        ran, found = served(program, room, ("S", *words), lines), generations_in(os.path.join(room, "S"))
        yield f"serve {' '.join(words)} keeps generations", [] if (ran.returncode, found) == (0, wanted) else [f"status {ran.returncode}, {found}"]


def first_runs(program, room):
    """The number of a first run, which is drawn at random."""
    ready = [served(program, room, (name, "--create"), b"").stdout.split() for name in ("A", "B", "C")]
    runs = {int(words[2]) for words in ready}
    is_right = len(runs) == 3 and all(1 <= run < 2**31 for run in runs) and all(words[3:] == [b"pairs", b"0"] for words in ready)
    yield "the numbers of first runs are drawn", [] if is_right else [repr(ready)]


RUN = b"points 1\nclient 1\nfill a 30 x\nclient 2\nfill b 30 y\n"


def imports(program, room):
    """A store that starts from a folder of a run, or of another store, and a run that starts from one."""
    call = lambda *words: subprocess.run((program, *words), cwd=room, stdin=subprocess.DEVNULL, capture_output=True, timeout=SECONDS)
    written(room, "run.pcw", RUN)
    os.makedirs(os.path.join(room, "old"))
    lines = [] if call("run", "run.pcw", "--dir", "old", "--run", "6").returncode == 0 else ["no run"]
    # without its part, the folder's state is that of its base and log
    pairs = plain_files.recover(*files_of(os.path.join(room, "old"))).pairs
    lines += answers(program, room, ("S", "--create", "--import", "old"), ((b"", b"ready run 7 pairs 60"), (b"begin 1", b"begun 1"), (b"get 1 b000007", b"= y"), (b"put 1 z 1", b"ok"), (b"commit 1", b"committed 1")))
    lines += [] if state_of(os.path.join(room, "S")) == {**pairs, **keyed({b"z": b"1"})} else ["its state differs"]
    yield "a store starts from the folder of a run", lines
    yield "and no existing store does", answers(program, room, ("S", "--create", "--import", "old"), (), 1, b"pcalc: S: NotEmpty\n")
    yield "nor one of a folder that isn't there", answers(program, room, ("N", "--create", "--import", "none"), (), 1, b"pcalc: base.pcb: NoFile\n")
    yield "but that may be tried again", answers(program, room, ("N", "--create", "--import", "old"), ((b"", b"ready run 7 pairs 60"),))
    yield "a store starts from another one", answers(program, room, ("T", "--create", "--import", "S"), ((b"", b"ready run 8 pairs 61"),), 0, b"generation 1\n")
    written(room, "old/log.pcl", b"")
    yield "a damaged folder is refused", answers(program, room, ("U", "--create", "--import", "old"), (), 1, b"log Short\npcalc: old: Damaged\n")
    yield "and taken by --damaged", answers(program, room, ("U", "--create", "--import", "old", "--damaged"), ((b"", b"ready run 7 pairs %d" % len(plain_files.recover(*files_of(os.path.join(room, "old"))).pairs)),), 0, b"log Short\n")
    os.makedirs(os.path.join(room, "new"))
    ran = call("run", "run.pcw", "--from", "S", "--dir", "new", "--times", "S/gen-0000001/times")
    err = b"generation 1\npcalc: S/gen-0000001/times: it would stand in the folder of --from\n"
    yield "times of a run aren't written among the files from which it starts", [] if (ran.returncode, ran.stderr) == (2, err) else [f"status {ran.returncode}, {ran.stderr!r}"]
    ran = call("run", "run.pcw", "--from", "S", "--dir", "new")
    is_right = (ran.returncode, ran.stderr, ran.stdout.split(b"\n")[4]) == (0, b"generation 1\n", b"state pairs 61")
    yield "a run starts from a store", [] if is_right else [f"status {ran.returncode}, {ran.stdout!r}, {ran.stderr!r}"]


CROWDS = ((64, 1_000_000, 5_000), (5, 3, 3_000))


def crowd_line(chance, store, sessions):
    """A line of one of the sessions, which are often in one another's way."""
    session = chance.randint(1, sessions)
    mine = store.store.open.get(session)
    if mine is None:
        return b"begin %d" % session
    if mine.is_dead:
        return b"abort %d" % session
    key = chance.choice((b"a", b"b", b"c", b"d"))
    return chance.choice((b"put %d %s %d" % (session, key, session), b"get %d %s" % (session, key), b"add %d %s-n 1" % (session, key), b"commit %d" % session))


def crowds(program, room):
    """Many sessions that wait for one another and die, compared with the plain form."""
    chance = random.Random(SEED)
    for sessions, roll, count in CROWDS:
        store, lines, wanted = plain_serving.Served(run=1, sessions=sessions, roll=roll), [], []
        for number in range(count):
            lines.append(crowd_line(chance, store, sessions))
            wanted.append(store.answer(lines[-1]))
        lines, wanted = [*lines, b"stats"], [*wanted, store.answer(b"stats")]
        counts = [sum(it.startswith(word) for it in wanted) for word in (b"wait", b"died", b"committed")] + [sum(it.count(b"granted") for it in wanted)]
        words = (f"S{sessions}", "--create", "--run", "1", "--sessions", str(sessions), "--roll", str(roll))
        ran = served(program, room, words, b"".join(it + b"\n" for it in lines))
        is_right = (ran.returncode, ran.stderr, ran.stdout) == (0, b"", b"ready run 1 pairs 0\n" + b"".join(wanted)) and min(counts) > 10
        yield f"{sessions} sessions wait and die", [] if is_right else [f"status {ran.returncode}, {counts}, {ran.stderr!r}, {ran.stdout[:2000]!r}"]
        more = [] if state_of(os.path.join(room, f"S{sessions}")) == store.pairs() else ["the folder's state differs"]
        yield f"and {sessions} sessions leave what was committed", more


# the bytes of a line that is too long, and the most that a line has with its end
LONG, MOST_LINE = 50_000_000, 4_194_304


def long_line(program, room):
    """A line of 50 MB, whole and truncated, and one with a key as long as a line may be."""
    line, most = (b"put 1 " + b"k" * size + b" 1\n" for size in (LONG, MOST_LINE - 9))
    lines = b"begin 1\n" + line + most + b"put 1 fig 7\ncommit 1\n"
    ran = served(program, room, ("S", "--create", "--run", "1"), lines + line[:-1])
    wanted = b"ready run 1 pairs 0\nbegun 1\nbad line\nrefused KeyLength\nok\ncommitted 1\n"
    more = [] if (ran.returncode, ran.stdout, ran.stderr) == (0, wanted, b"") else [f"status {ran.returncode}, {ran.stdout[:200]!r}, {ran.stderr[:200]!r}"]
    yield "a line of 50 MB", more + ([] if state_of(os.path.join(room, "S")) == keyed({b"fig": b"7"}) else ["the folder's state differs"])


def unread(program, room):
    """A client that sends and reads no answer for a while: the process waits, and takes no memory meanwhile."""
    count = 30_000
    with started(program, room, ("S", "--create")) as process:
        feeder = threading.Thread(target=fed_to_the_end, args=(process, range(1, count + 1)))
        feeder.start()
        ready = process.stdout.readline()
        sizes = [waiting_size(process.pid) for _ in range(2)]
        lines = [] if ready.startswith(b"ready") and sizes[0] == sizes[1] else [f"its memory grows from {sizes[0]} to {sizes[1]} pages"]
        done = b"committed %d\n" % count
        got = next((it for it in process.stdout if it == done), b"")
        feeder.join()
        lines += [] if got == done and process.wait(SECONDS) == 0 else [f"not all is answered: {got!r}"]
    more, _ = faults_of(program, os.path.join(room, "S"), count, count)
    yield "a client that reads nothing for a while", lines + more


def waiting_size(number):
    """How many pages of memory a process has, once it has used no processor time for a while."""
    used = None
    for _ in range(100):
        with open(f"/proc/{number}/stat", encoding="ascii") as it:
            now = it.read().rpartition(")")[2].split()
        if now[11:13] == used:
            return int(now[21])
        used = now[11:13]
        time.sleep(0.2)
    return 0


def closed_streams(program, room):
    """A process started without one of the standard streams."""
    call = lambda words: subprocess.run(("sh", "-c", 'exec "$0" serve ' + words, program), cwd=room, input=b"begin 1\nput 1 a 1\ncommit 1\n", capture_output=True, timeout=SECONDS)
    for words, wanted in (
        ("S --create --run 3 <&-", (0, b"ready run 3 pairs 0\n", b"")),
        ("S >&-", (1, b"", b"")),
        ("S 2>&-", (0, b"ready run 5 pairs 0\nbegun 1\nok\ncommitted 1\n", b"")),
        ("none 2>&-", (1, b"", b"")),
    ):
        ran = call(words)
        yield f"serve {words}", [] if (ran.returncode, ran.stdout, ran.stderr) == wanted else [f"status {ran.returncode}, {ran.stdout!r}, {ran.stderr!r}"]


# each line, its answer, and what standard error has before the next prompt
TYPED = (
    (b"begin 1", b"begun 1\n", b""),
    (b"put 1 - x", b"refused KeyLength\n", b""),
    (b"put 1 a", b"bad line\n", b"  a word is missing\n"),
    (b"begin x", b"bad line\n", b"  the second word is no session number\n"),
    (b"frob", b"bad line\n", b"  the first word names no command\n"),
    (b"# nothing", b"", b""),
    (b"stats", b"entries=0 commits=0 points=0 open=1 bytes=20 pairs=0\n", b""),
    (b"run", b"run 1\n", b""),
    (b"run 1", b"bad line\n", b"  the first word names no command\n"),
    (b"commit 1", b"committed 1\n", b""),
)


def typed(program, room):
    """Lines that are typed at a terminal: a prompt before each, and after a bad one its reason."""
    ours, theirs = pty.openpty()
    process = subprocess.Popen((program, "serve", "S", "--create", "--run", "1"), cwd=room, stdin=theirs, stdout=subprocess.PIPE, stderr=subprocess.PIPE)
    os.close(theirs)
    out, err = read_until(process.stdout, b"\n"), read_until(process.stderr, b"> ")
    lines = [] if (out, err) == (b"ready run 1 pairs 0\n", b"> ") else [f"{out!r} and {err!r}"]
    for line, answer, reason in TYPED:
        os.write(ours, line + b"\n")
        err = read_until(process.stderr, b"> ")
        out = read_until(process.stdout, answer) if answer else b""
        lines += [] if (out, err) == (answer, reason + b"> ") else [f"{line!r} is answered {out!r}, and standard error has {err!r}"]
    # the end of the input, at a terminal
    os.write(ours, b"\x04")
    status, out, err = process.wait(SECONDS), process.stdout.read(), process.stderr.read()
    lines += [] if (status, out, err) == (0, b"", b"\n") else [f"it ends with {status}, {out!r} and {err!r}"]
    os.close(ours)
    yield "lines that are typed at a terminal", lines


def read_until(stream, end):
    """What a stream has up to this end, or within some seconds."""
    got, patience = b"", time.monotonic() + 10
    while not got.endswith(end) and time.monotonic() < patience:
        if select.select([stream], [], [], 1)[0]:
            some = os.read(stream.fileno(), 65_536)
            if not some:
                break
            got += some
    return got


def synced(program, room):
    """When files are flushed to the disk: s for each flush, and r for each rename."""
    library, notes = preload.built(room, preload.NOTE), os.path.join(room, "notes")
    for words, turns in ((("--sync",), 50), (("--sync", "--lag", "9"), 5), ((), 0)):
        written(room, "notes", b"")
        with started(program, room, (f"N{turns}", "--create", *words), env={**os.environ, "LD_PRELOAD": library, "NOTED_SYNCS": notes}) as process:
            process.stdout.readline()
            begun = content_of(room, "notes")
            for number in range(1, 51):
                for line in transaction(number).splitlines():
                    asked(process, line + b"\n")
            process.stdin.close()
            process.wait(SECONDS)
        calls = content_of(room, "notes")
        is_right = begun == b"sssrssrs" and calls == begun + b"s" * turns
        yield f"serve {' '.join(words)} is flushed to the disk {turns} times in 50 turns", [] if is_right else [f"{begun} and {calls}"]


def serves(program, folder):
    """What is wrong with each served store, by its name."""
    chance = random.Random(SEED)
    for cases in (sessions, refusals, owners, alone, rolls, kept, first_runs, imports, crowds, long_line, unread, closed_output, closed_streams, typed, lagging, killed_calls, synced):
        room = os.path.join(folder, cases.__name__)
        os.makedirs(room)
        yield from cases(program, room)
    for place, words in enumerate(KILLED):
        room = os.path.join(folder, f"killed{place}")
        os.makedirs(room)
        yield from killed(program, room, words, chance)
    if disk_cases.has_disks():
        room = os.path.join(folder, "full")
        os.makedirs(room)
        yield "a served store on a full disk", full_disk(program, room)
        room = os.path.join(folder, "full_roll")
        os.makedirs(room)
        yield "a generation that begins on a full disk", full_roll(program, room)
    else:
        print("no disk of 1 MB is available: a served store on a full disk is not tried")
