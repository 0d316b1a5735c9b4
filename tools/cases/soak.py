#!/usr/bin/env python3
"""Tries the built program on random cases for a number of minutes, and compares it with plain forms that share no code with it.

    soak.py MINUTES [SEED]

    scripts      lines of each kind, with points, joins, states and texts, compared with plain_store.py
    recoveries   a base, parts and a log, with bytes changed, cut off or inserted, and files left out, compared with plain_files.py; and a dump of the same,
                 which is loaded and dumped again, and once more as JSON
    collapses    parts that overlap, are damaged, of other runs or differ, compared with plain_files.py
    serves       lines sent to a served store, which is killed, compared with plain_serving.py and the state after each line
    runs         workloads on threads, each into a folder; what the log has of each client; and the folder recovered with its log truncated anywhere and without
                 any of its parts, compared with plain_files.py and the log

A case follows from the seed, its kind and its number alone, except for how threads interleave. A difference is printed with the smallest case that still
has one, found by leaving out pieces. The end prints how many of each kind were tried; the status is 1 if one differs.
"""

import collections
import concurrent.futures
import contextlib
import os
import random
import re
import signal
import subprocess
import sys
import tempfile
import threading
import time

if __name__ == "__main__":
    sys.path.insert(0, os.path.join(os.path.dirname(os.path.abspath(__file__)), "..", ".."))

from tools import ROOT
from tools.cases.case import files_of, written
from tools.cases.run_cases import has_commits, writes_of
from tools.oracle import plain_files, plain_serving, plain_store

PROGRAM = os.path.join(ROOT, "crates", "pcalc", "out", "pcalc")
LANES = os.cpu_count() or 1
SECONDS = 600
KEYS = [b"a", b"b", b"c", b"d", b"e", b"k\\x00", b"\\xff", rb"\s7:a", rb"\s256:-b"]
SPACES = [0, 0, 0, 7, 255, 256]
# the last four are numbers, or have a byte less or more than one
VALUES = [b"-", b"1", b"22", b"\\x5c\\x2d", b"x" * 40, b"\\x00" * 7 + b"5", b"\\x7f" + b"\\xff" * 7, b"1234567", b"123456789"]
DELTAS = [b"0", b"1", b"-1", b"7", b"-0", b"007", b"-300", b"%d" % (2**63 - 1), b"%d" % -(2**63), b"%d" % 2**62, b"%d" % -(2**62)]
ODD = [b"", b"# nothing", b"frob", b"get 1", b"put 1 a", b"put 1 - x", b"get 0 a", b"begin 257", b"text 99", b"join 1 99", b"state 0", b"base a 1"]
ODD += [rb"put 1 \s07:a x", rb"get 1 \s65536:a", rb"get 1 \s7:-", rb"put 1 \s7: x"]
ODD += [b"add 1 a", b"add 1 a +1", b"add 1 a -", b"add 1 a 9223372036854775808", b"add 1 a -9223372036854775809", b"add 1 a 00000000000000000001", b"add 1 - 1"]
NEXT = {"rest": [b"point"], "prepare": [b"seal"], "resolve": [b"capture"], "capture": [b"take", b"take", b"done"], "complete": [b"rest"]}


def ran(folder, *words):
    """The status, the output and the error stream of the program with these words; no status if it doesn't end."""
    try:
        ended = subprocess.run([PROGRAM, *words], cwd=folder, stdin=subprocess.DEVNULL, capture_output=True, timeout=SECONDS)
    except subprocess.TimeoutExpired:
        return None, b"", b"no end in %d s" % SECONDS
    return ended.returncode, ended.stdout, ended.stderr


def served(folder, words, lines, most):
    """The status, the output and the error stream of a process that serves with these words and gets these lines; it is killed once `most` lines
    of its output were read, if that is a number."""
    command = [PROGRAM, "serve", *words]
    with subprocess.Popen(command, cwd=folder, stdin=subprocess.PIPE, stdout=subprocess.PIPE, stderr=subprocess.PIPE) as process:
        feeder = threading.Thread(target=fed, args=(process.stdin, lines))
        patience = threading.Timer(SECONDS, process.kill)
        feeder.start()
        patience.start()
        read = []
        for line in process.stdout:
            read.append(line)
            if len(read) == most:
                process.kill()
        patience.cancel()
        feeder.join()
        return process.wait(), b"".join(read), process.stderr.read()


def fed(target, lines):
    """Sends the lines, as far as they are read."""
    with contextlib.suppress(OSError), target:
        target.write(b"".join(line + b"\n" for line in lines))


def smallest(pieces, is_wrong):
    """Some of these pieces, in their order, that are wrong too, and aren't without any one of them."""
    size = len(pieces)
    while size:
        at = 0
        while at < len(pieces):
            fewer = pieces[:at] + pieces[at + size :]
            if is_wrong(fewer):
                pieces = fewer
            else:
                at += size
        size //= 2
    return pieces


class Scripts:
    """Pieces are lines; the setting is that of the store."""

    name = "scripts"

    def draw(self, chance):
        setting = chance.randint(1, 4), chance.choice([1, 2, 3, 6, 1024]), chance.choice([1, 7, 2_147_483_647])
        script = plain_store.Script(*setting)
        lines = [b"base %s %s" % (chance.choice(KEYS), chance.choice(VALUES)) for _ in range(chance.choice([0, 0, 2, 5]))]
        for line in lines:
            script.answer(line)
        for _ in range(chance.choice([20, 60, 200])):
            lines.append(self.line(chance, script.stored()))
            script.answer(lines[-1])
        return setting, lines

    def line(self, chance, store):
        """A line that mostly fits the state of the store."""
        session, key = chance.randint(1, store.sessions), chance.choice(KEYS)
        files = len(store.files)
        return chance.choice(
            [b"begin %d" % session, b"commit %d" % session, chance.choice([b"abort %d" % session, b"commit %d" % session])]
            + [b"put %d %s %s" % (session, key, chance.choice(VALUES)), b"get %d %s" % (session, key), b"del %d %s" % (session, key)] * 2
            + [b"add %d %s %s" % (session, key, chance.choice(DELTAS))] * 3
            + [chance.choice(NEXT[store.phase]), chance.choice(sum(NEXT.values(), []))] * 2
            + [b"join %d %d" % (chance.randint(1, files + 1), chance.randint(1, files + 1)), b"state %d" % chance.randint(0, files + 1)]
            + [b"text %d" % chance.randint(0, files + 1), b"check", chance.choice(ODD)]
        )

    def differences(self, folder, setting, lines):
        written(folder, "drawn.pcs", b"".join(line + b"\n" for line in lines))
        script = plain_store.Script(*setting)
        wanted = b"".join(script.answer(line) for line in lines)
        words = [f"--{name}={number}" for name, number in zip(("sessions", "capacity", "run"), setting)]
        status, out, err = ran(folder, "step", "drawn.pcs", *words)
        if (status, out, err) == (script.status, wanted, b""):
            return []
        return [f"expected status {script.status} and {wanted!r}", f"status {status}, {out!r} and {err!r}"]

    def tried(self, lines):
        return {"lines": len(lines)}

    def shown(self, setting, lines):
        return ["sessions %d, capacity %d, run %d" % setting, *[line.decode() for line in lines]]


def history(chance, run):
    """The base, the parts of the points, by their numbers, and the log of a random run. In some all keys are of space 0."""
    spaces = chance.choice([[0], SPACES])
    key = lambda: (chance.choice(spaces), b"k%d" % chance.randrange(9))
    drawn = lambda count: {key(): chance.choice([None, b"", b"1", b"22", b"x" * 30, bytes(7) + b"7"]) for _ in range(count)}
    base = plain_files.Base(run, 0, {key: value for key, value in drawn(chance.randrange(4)).items() if value is not None})
    log, parts, state, dirty = plain_files.Log(run), {}, dict(base.pairs), set()

    def commits():
        for _ in range(chance.randrange(4)):
            writes = drawn(chance.randint(1, 3))
            writes.update({key(): int(chance.choice(DELTAS)) for _ in range(chance.randrange(3))})
            log.entries.append(("commit", chance.randint(1, 64), [*writes.items()]))
            state.update({key: plain_store.changed(state.get(key), change) for key, change in writes.items()})
            dirty.update(writes)

    for point in range(1, chance.randint(1, 5)):
        for phase in ("prepare", "resolve", "capture", "complete", "rest"):
            commits()
            log.entries.append(("token", phase, point))
            if phase == "resolve":
                parts[point] = plain_files.Part(run, [(point, point)], {key: (point, state[key]) for key in dirty})
                dirty.clear()
    commits()
    return base, parts, log


def drawn_text(chance, file, keys):
    """The text of a file of these keys, of either format if all are of space 0."""
    return file.text(chance.choice([plain_files.FIRST, plain_files.SECOND]) if all(space == 0 for space, _ in keys) else plain_files.SECOND)


def keys_of(log):
    return [key for entry in log.entries if entry[0] == "commit" for key, _ in entry[2]]


def damaged(text, damage):
    """The text with a byte changed, its end cut off, or bytes inserted."""
    kind, place, more = damage
    at = int(place * len(text))
    if kind == "change" and at < len(text):
        return text[:at] + bytes([text[at] ^ more[0] or 1]) + text[at + 1 :]
    return text[:at] if kind == "cut" else text[:at] + more + text[at:] if kind == "insert" else text


def damage(chance):
    return chance.choice(["change", "change", "change", "cut", "insert"]), chance.random(), chance.randbytes(chance.choice([1, 1, 4]))


def dumped_twice(folder, place, recovered):
    """The differences of a dump of a folder from what is recovered of it, and of dumps of what is loaded from that, as words and then as JSON."""
    status, text, _ = recovered
    lines = text[text.index(b"\n", text.index(b"pairs ")) + 1 :] if status == 0 else b""
    dumped = ran(folder, "dump", place, "--damaged")
    if dumped[:2] != (status, lines):
        return [f"recovered {recovered}", f"dumped {dumped}"]
    if status:
        return []
    for text, options in ((lines, ()), (None, ("--json",))):
        if text is None:
            _, text, _ = ran(folder, "dump", again, *options)
        again = tempfile.mkdtemp(dir=folder)
        written(folder, "lines", text)
        loaded = ran(folder, "load", again, "lines", *options)
        dumped = ran(folder, "dump", again)
        if (loaded, dumped) != ((0, b"", b""), (0, lines, b"")):
            return [f"dumped {text}", f"loaded {loaded}", f"dumped again {dumped}"]
    return []


class Recoveries:
    """Pieces are the damages of the files; the setting is their texts by name."""

    name = "recoveries"

    def draw(self, chance):
        base, parts, log = history(chance, 3)
        texts = {"base.pcb": drawn_text(chance, base, base.pairs), "log.pcl": drawn_text(chance, log, keys_of(log))}
        for point, part in parts.items():
            other = parts[chance.choice([*parts])]
            part = plain_files.join(part, other) if chance.random() < 0.4 else part
            texts["%s%d.pcp" % (chance.choice("pq"), point)] = drawn_text(chance, part, part.entries)
        if chance.random() < 0.1:
            texts["other.pcp"] = plain_files.Part(4, [(1, 1)], {}).text()
        pieces = [(chance.choice([*texts]), damage(chance)) for _ in range(chance.choice([0, 1, 1, 2, 3]))]
        pieces += [(name, None) for name in texts if name != "base.pcb" and chance.random() < 0.15]
        return texts, pieces

    def differences(self, folder, texts, pieces):
        texts = dict(texts)
        for name, befallen in pieces:
            texts[name] = texts.get(name) and befallen and damaged(texts[name], befallen)
        place = tempfile.mkdtemp(dir=folder)
        for name, text in texts.items():
            if text is not None:
                written(place, name, text)
        parts = [(name.encode(), texts[name]) for name in sorted(texts) if name.endswith(".pcp") and texts[name] is not None]
        try:
            wanted = 0, plain_files.recover(texts["base.pcb"], parts, texts["log.pcl"] or b"").text(), b""
        except plain_files.Refused as fault:
            wanted = 1, b"", b"pcalc: %s: %s\n" % (place.encode(), fault.name.encode())
        got = ran(folder, "recover", place)
        return [f"expected {wanted}", f"got {got}"] if got != wanted else dumped_twice(folder, place, wanted)

    def tried(self, pieces):
        return {"damages": len(pieces)}

    def shown(self, texts, pieces):
        return [*[f"{name} {text.hex()}" for name, text in texts.items()], *map(str, pieces)]


def clashes(parts):
    """Whether two of the parts differ at a key's greatest point, and whether two of one run differ at any key and point."""
    greatest, at, is_plain, is_any = {}, {}, False, False
    for part in parts:
        for key, (point, value) in part.entries.items():
            is_any |= at.setdefault((part.run, key, point), value) != value
            greatest[key] = max(point, greatest.get(key, 0))
    for part in parts:
        is_plain |= any(point == greatest[key] and at[part.run, key, point] != value for key, (point, value) in part.entries.items())
    return is_plain, is_any


def left_at(path):
    """The fault of a file as a part, or "whole"; None if there is no file."""
    if not os.path.exists(path):
        return None
    with open(path, "rb") as it:
        _, fault = plain_files.read_as_far(it.read())
    return fault.name if fault else "whole"


class Collapses:
    """Pieces are the texts of the inputs; there is no setting."""

    name = "collapses"

    def draw(self, chance):
        _, parts, _ = history(chance, 3)
        parts = [*parts.values(), plain_files.Part(3, [(2, 2)], {})]
        texts = []
        for _ in range(chance.choice([1, 2, 3, 5, 12])):
            part = plain_files.join(chance.choice(parts), chance.choice(parts))
            odd = chance.random()
            if odd < 0.05:
                part = plain_files.Part(4, part.ranges, part.entries)
            elif odd < 0.15 and part.entries:
                key = chance.choice([*part.entries])
                part.entries[key] = (part.entries[key][0], b"another")
            text = drawn_text(chance, part, part.entries)
            texts.append(damaged(text, damage(chance)) if chance.random() < 0.05 else text)
        return None, texts

    def wanted(self, texts):
        """The allowed results: a part, or the name of a refusal."""
        read = [plain_files.read_as_far(text) for text in texts]
        for part, fault in read:
            if part is None:
                return [fault.name]
        parts, faults = [part for part, _ in read], [fault for _, fault in read if fault]
        if len({part.run for part in parts}) > 1:
            return ["OtherRun"]
        is_plain, is_any = clashes(parts)
        allowed = [fault.name for fault in faults] + ["Conflict"] * is_any
        if not is_plain and not faults:
            latest = collections.ChainMap(*[{(entry[0], key): entry for key, entry in part.entries.items()} for part in parts])
            entries = {key: latest[place, key] for place, key in sorted(latest)}
            allowed.append(plain_files.Part(parts[0].run, plain_files.ranges_of(set().union(*map(plain_files.points_of, parts))), entries))
        return allowed

    def differences(self, folder, _, texts):
        if not texts:
            return []
        place = tempfile.mkdtemp(dir=folder)
        names = [written(place, f"{number}.pcp", text) for number, text in enumerate(texts)]
        out = os.path.join(place, "out.pcp")
        got = ran(folder, "collapse", out, *names)
        wanted = self.wanted(texts)
        for right in wanted:
            if isinstance(right, str):
                is_right = got == (1, b"", b"pcalc: %s: %s\n" % (out.encode(), right.encode())) and left_at(out) is None
            else:
                line = b"points %s entries %d\n" % (plain_store.points_text(plain_files.points_of(right)), len(right.entries))
                with open(out if os.path.exists(out) else os.devnull, "rb") as it:
                    is_right = got == (0, line, b"") and it.read() == right.text()
            if is_right:
                return []
        return [f"got {got}, left {left_at(out)}, allowed are {[it if isinstance(it, str) else it.text().hex() for it in wanted]}"]

    def tried(self, texts):
        return {"inputs": len(texts)}

    def shown(self, _, texts):
        return [text.hex() for text in texts]


def replayed(base, entries):
    """The pairs of the base after the commits among the entries."""
    pairs = dict(base.pairs)
    for entry in entries:
        for key, change in entry[2] if entry[0] == "commit" else ():
            value = plain_store.changed(pairs.pop(key, None), change)
            pairs.update({} if value is None else {key: value})
    return pairs


class Runs:
    """Pieces are transactions, each of a client, with its lines; the setting has the points, and the options of the run."""

    name = "runs"
    RECOVERIES = 8

    def draw(self, chance):
        points, clients = chance.randrange(5), chance.randint(1, 6)
        numbers = chance.sample(range(1, 65), clients)
        keys = [plain_store.key_word((chance.choice(SPACES), b"k%d" % number)) for number in range(chance.choice([2, 6, 40]))]
        count = chance.choice([5, 40, 300])
        pieces = [(chance.choice(numbers), [self.line(chance, chance.choice(keys)) for _ in range(chance.randrange(5))]) for _ in range(count)]
        words = [f"--workers={chance.randint(1, 6)}", f"--collapsers={chance.randint(1, 3)}", f"--every={chance.choice([1, 10, 100])}"]
        return (points, words + chance.choice([[], ["--lag=0"], ["--lag=5"], ["--sync", "--lag=100"]]), chance.randbytes(8)), pieces

    def line(self, chance, key):
        """Keys that are added to are their own, and have numbers, so that none is refused."""
        other = key + b"n"
        add = b"add %s %d" % (other, chance.choice([1, -1, 5, 2**40, -(2**40)]))
        number = chance.choice([add, add, add, b"put %s \\x00%s" % (other, b"1234567"), b"del %s" % other, b"get %s" % other])
        return chance.choice([b"put %s %d" % (key, chance.randrange(99)), b"del %s" % key, b"get %s" % key, number])

    def workload(self, points, pieces):
        clients = {}
        for client, lines in pieces:
            clients.setdefault(client, []).append(b"txn\n" + b"".join(line + b"\n" for line in lines) + b"end\n")
        return b"points %d\n" % points + b"".join(b"client %d\n" % client + b"".join(transactions) for client, transactions in clients.items())

    def differences(self, folder, setting, pieces):
        points, words, seed = setting
        place = tempfile.mkdtemp(dir=folder)
        name = written(folder, "drawn.pcw", self.workload(points, pieces))
        status, out, err = ran(folder, "run", name, "--dir", place, *words)
        lines = out.split(b"\n")
        counts = [b"commits %d" % len(pieces), b"gave up 0", b"points %d" % points]
        if (status, err, lines[:3], lines[-2:]) != (0, b"", counts, [b"check ok", b""]):
            return [f"status {status}, {out!r} and {err!r}"]
        return self.log_differences(place, pieces) + self.recovery_differences(place, random.Random(seed))

    def log_differences(self, place, pieces):
        """Each client's commits are the final writes of its transactions, in order."""
        wanted = {}
        for client, lines in pieces:
            wanted.setdefault(client, []).append(writes_of([line.split(b" ") for line in lines]))
        return [] if has_commits(wanted)(files_of(place)[2]) else [f"the log doesn't have {wanted}"]

    def recovery_differences(self, place, chance):
        base, parts, log = files_of(place)
        found = []
        for number in range(self.RECOVERIES):
            cut = len(log) if number == 0 else chance.randrange(len(log) + 1)
            some = parts if number == 0 else [part for part in parts if chance.random() < 0.7]
            found += self.one_recovery(base, some, log, cut)
        return found

    def one_recovery(self, base, parts, log, cut):
        """Of the files with `cut` bytes of the log: the recovery, and the database after the whole entries, or at the point if that is later."""
        wanted = plain_files.recover(base, parts, log[:cut])
        entries = plain_files.read_log(log).entries
        reached = wanted.entries
        if wanted.point:
            reached = max(reached, entries.index(("token", "resolve", wanted.point)))
        with tempfile.TemporaryDirectory() as folder:
            for name, text in [(b"base.pcb", base), (b"log.pcl", log[:cut]), *parts]:
                written(folder, os.fsdecode(name), text)
            got = ran(folder, "recover", ".")
        if got == (0, wanted.text(), b"") and wanted.pairs == replayed(plain_files.read_base(base), entries[:reached]):
            return []
        return [f"recovered with {[name for name, _ in parts]} and {cut} bytes of {log.hex()}: {got}"]

    def tried(self, pieces):
        return {"transactions": len(pieces), "folders recovered": self.RECOVERIES}

    def shown(self, setting, pieces):
        return [" ".join(setting[1]), self.workload(setting[0], pieces).decode()]


class Serves:
    """Pieces are lines; the setting is that of the store, after how many lines each process but the last is killed, and the other options."""

    name = "serves"

    def draw(self, chance):
        # points free the places of removed keys, and have entries in the log: with them the store has room, and no generation rolls
        every = chance.choice([0, 0, 0, 1, 5])
        capacity, roll = (1024, 1_000_000) if every else (chance.choice([2, 6, 1024]), chance.choice([1, 3, 20, 1_000_000]))
        sessions = chance.choice([1, 2, 5, 64])
        lines = [self.line(chance, sessions, every) for _ in range(chance.choice([20, 100, 500]))]
        kills = [chance.randrange(1, 300) for _ in range(chance.randrange(5))]
        return (sessions, capacity, roll, every, kills, chance.choice([[], ["--sync"], ["--keep=3"]])), lines

    def line(self, chance, sessions, every):
        session, key = chance.randint(1, sessions), chance.choice(KEYS)
        shown = [b"check", b"run"] + ([] if every else [b"stats", b"state 1", b"text 1"])
        return chance.choice(
            [b"begin %d" % session, b"begin %d" % session, b"commit %d" % session, b"commit %d" % session, b"abort %d" % session]
            + [b"put %d %s %s" % (session, key, chance.choice(VALUES)), b"get %d %s" % (session, key), b"del %d %s" % (session, key)]
            + [b"add %d %s %s" % (session, key, chance.choice(DELTAS)), chance.choice(shown), chance.choice(ODD), chance.choice(sum(NEXT.values(), []))]
        )

    def differences(self, folder, setting, lines):
        sessions, capacity, roll, every, kills, words = setting
        place, pairs, run, at = tempfile.mkdtemp(dir=folder), {}, 6, 0
        words = [f"--sessions={sessions}", f"--capacity={capacity}", f"--roll={roll}", f"--every={every}", *words]
        for most in (*kills, None):
            first = ["--create", "--run=7"] if run == 6 else []
            status, out, err = served(place, ["S", *first, *words], lines[at:], most)
            # a truncated line is ignored, and with points commits have other numbers in the log
            out = self.unnumbered(out[: out.rfind(b"\n") + 1], every)
            run, found = int((out.split() or [b"ready", b"run", b"0"])[2]), run
            store = plain_serving.Served(pairs, run, sessions, capacity, roll)
            texts, states = [], [store.pairs()]
            for line in lines[at:]:
                texts.append(self.unnumbered(store.answer(line), every))
                states.append(store.pairs())
            wanted = b"".join((plain_serving.Served(pairs, run).ready(), *texts))
            is_whole = (status, out) == (0, wanted)
            # a process that is killed may leave a log that ends before the token of a point whose part is there
            is_quiet = re.fullmatch(rb"(log unused \d+\n)?", err) is not None
            if not is_quiet or run <= found or not (is_whole or most is not None and status == -signal.SIGKILL and wanted.startswith(out)):
                return [f"killed after {most} lines of {lines[at:]}", f"expected {wanted!r}", f"status {status}, {out!r} and {err!r}"]
            answered = self.answered(out, wanted, texts)
            pairs, wrong = self.recovered(place)
            if wrong or pairs not in states[answered:]:
                return [*wrong, f"killed after {answered} answers to {lines[at:]}", f"{pairs} is left, allowed are {states[answered:]}"]
            at += answered
        return []

    def unnumbered(self, text, every):
        return re.sub(rb"(?m)^committed [0-9]+$", b"committed", text) if every else text

    def answered(self, out, wanted, texts):
        """How many lines are answered whole by this prefix of the expected output."""
        end, count = len(wanted) - sum(map(len, texts)), 0
        for text in texts:
            end += len(text)
            if len(out) < end:
                break
            count += 1
        return count

    def recovered(self, place):
        """The pairs recovered of the current generation, and what is wrong with what `recover` prints of them."""
        folder = os.path.join(place, "S")
        name = max(name for name in os.listdir(folder) if os.path.exists(os.path.join(folder, name, "base.pcb")))
        found = plain_files.recover(*files_of(os.path.join(folder, name)))
        got = ran(place, "recover", "S")
        wanted = 0, found.text(), b"generation %d\n" % int(name[4:])
        return found.pairs, [] if got == wanted else [f"recovered {got} instead of {wanted}"]

    def tried(self, lines):
        return {"lines served": len(lines)}

    def shown(self, setting, lines):
        return [repr(setting), *[line.decode() for line in lines]]


KINDS = (Scripts(), Recoveries(), Collapses(), Serves(), Runs())


def case(kind, seed, number):
    """The counts of the kind's case of this number, and the lines to print of it, none if it doesn't differ."""
    setting, pieces = kind.draw(random.Random(f"{seed} {kind.name} {number}"))
    with tempfile.TemporaryDirectory() as folder:
        tried = kind.tried(pieces)
        if not kind.differences(folder, setting, pieces):
            return tried, []
        pieces = smallest(pieces, lambda fewer: kind.differences(folder, setting, fewer))
        return tried, [f"{kind.name} {number} of seed {seed} differ", *kind.shown(setting, pieces), *kind.differences(folder, setting, pieces)]


def soak(seconds, seed, kinds=KINDS):
    """Tries one case of each kind in turn, until the time is over: how many of what, and how many differ."""
    counts, differing, end = collections.Counter(), 0, time.monotonic() + seconds
    numbers = ((kind, number) for number in range(sys.maxsize) for kind in kinds)
    with concurrent.futures.ProcessPoolExecutor(LANES) as pool:
        open_cases = {}
        while open_cases or time.monotonic() < end:
            while len(open_cases) < 2 * LANES and time.monotonic() < end:
                kind, number = next(numbers)
                open_cases[pool.submit(case, kind, seed, number)] = kind
            done, _ = concurrent.futures.wait(open_cases, return_when=concurrent.futures.FIRST_COMPLETED)
            for one in done:
                tried, lines = one.result()
                counts.update({open_cases.pop(one).name: 1, **tried})
                differing += bool(lines)
                print(*lines, sep="\n", end="\n" if lines else "", flush=True)
    return counts, differing


def main(words):
    if len(words) not in (1, 2):
        sys.exit(__doc__)
    seed = words[1] if len(words) == 2 else "%d" % time.time()
    if not os.path.exists(PROGRAM):
        sys.exit(f"the program {PROGRAM} is not there: rt run in the folder of pcalc makes it")
    counts, differing = soak(60 * float(words[0]), seed)
    print(f"seed {seed}: " + ", ".join(f"{count:,} {name}" for name, count in counts.items()) + f"; {differing} differ")
    return 1 if differing else 0


if __name__ == "__main__":
    sys.exit(main(sys.argv[1:]))
