#!/usr/bin/env python3
"""Measures commits a second of a served store with checkpoints, and of a Redis server with background saves, and draws both.

    bench/beside.py measure TIMES [--keys N] [--commits N] [--points N] [--program FILE] [--redis FILE]
    bench/beside.py draw TIMES SVG [--title TEXT]

`measure` puts keys in turn, one put a transaction, over a pipe to `pcalc serve --every ..` and then over a Unix socket to `redis-server --appendonly yes
--appendfsync no`, with up to 2,000 transactions under way. Each server has all keys before time is taken. Points and saves begin after the same numbers of
commits. TIMES has a line `NAME T COMMITS BUSY` for each tenth of a second from 0: the commits answered in it, and 1 if a point or a save was under way in
it, otherwise 0. `draw` makes one picture of both, with one scale. Points are found in the log of the store by `pcalc log`; Redis is asked ten times a
second whether a save is under way. FILE is the program, by default the one that `rt run` has built, or the `redis-server` on the path.
"""

import argparse
import html
import os
import shutil
import subprocess
import sys
import tempfile
import threading
import time

import history
import serve
import shared
from plot import box, line, marks, text

BLOCK, AHEAD, CHUNK = 1000, 2, 65_536
TENTH, ROLL = 0.1, 16_000_000
NO_MORE_SAVES = "--appendfsync", "no", "--auto-aof-rewrite-percentage", "0"
NAMES = {"pcalc": "pcalc serve, checkpoints", "redis": "Redis, background saves"}
WIDTH, HEIGHT, LEFT, RIGHT, TOP, GAP, BOTTOM, STRIP = 860, 520, 90, 20, 60, 62, 50, 12
BARS, BUSY = "#3b6ea8", "#7fc487"


class Pcalc:
    """How the lines of a served store are spelled, and which bytes of its answers mark a commit."""

    mark = b"committed "

    @staticmethod
    def spelled(numbers):
        return b"".join(b"begin 1\nput 1 k%07d v%07d\ncommit 1\n" % (number, number) for number in numbers)


class Redis:
    """The same for Redis, whose EXEC is answered with a list of one reply."""

    mark = b"*1\r\n"

    @staticmethod
    def spelled(numbers):
        put = b"*3\r\n$3\r\nSET\r\n$8\r\nk%07d\r\n$8\r\nv%07d\r\n"
        return b"".join(b"*1\r\n$5\r\nMULTI\r\n" + put % (number, number) + b"*1\r\n$4\r\nEXEC\r\n" for number in numbers)


class Asker:
    """Keeps blocks of transactions under way, and records when each was answered."""

    def __init__(self, protocol, source, target, blocks):
        self.protocol, self.source, self.target, self.blocks = protocol, source, target, blocks
        self.room = threading.Semaphore(AHEAD)

    def send(self, count):
        for number in range(count):
            self.room.acquire()
            rest = memoryview(self.blocks[number % len(self.blocks)])
            while rest:
                rest = rest[self.target(rest) :]

    def run(self, count, after=lambda commits: None):
        """The times at which `count` blocks were answered; after each, `after` is called with the commits so far."""
        sender = threading.Thread(target=self.send, args=(count,))
        sender.start()
        times, answered, carried = [], 0, b""
        while len(times) < count:
            some = self.source(CHUNK)
            if not some:
                sys.exit("a server has ended")
            carried += some
            answered += carried.count(self.protocol.mark)
            carried = carried[-len(self.protocol.mark) + 1 :]
            while answered >= (len(times) + 1) * BLOCK and len(times) < count:
                times.append(time.monotonic())
                self.room.release()
                after(len(times) * BLOCK)
        sender.join()
        return times


def blocks_of(protocol, keys):
    return [protocol.spelled(range(first, first + BLOCK)) for first in range(0, keys, BLOCK)]


def counted(times, began, spans):
    """For each tenth of a second the commits, and whether one of the spans overlaps it."""
    tenths = [0] * (int((times[-1] - began) / TENTH) + 1)
    for at in times:
        tenths[int((at - began) / TENTH)] += BLOCK
    return [(count, int(any(first <= began + (at + 1) * TENTH and began + at * TENTH <= last for first, last in spans))) for at, count in enumerate(tenths)]


def spans_in(log, times):
    """The times of the beginning and the end of each point of a log, whose commits are those of the blocks."""
    commits, opened, spans = 0, None, []
    for words in map(bytes.split, log):
        if words[1] == b"commit":
            commits += 1
        elif words[1] == b"prepare":
            opened = commits
        elif words[1] == b"rest":
            spans.append((opened, commits))
            opened = None
    if opened is not None:
        spans.append((opened, commits))
    return [tuple(times[min(at // BLOCK, len(times) - 1)] for at in span) for span in spans]


def pcalc_run(program, keys, commits, points):
    """The commits and points of a run by tenths of a second, over a store that starts from all keys."""
    blocks = blocks_of(Pcalc, keys)
    with tempfile.TemporaryDirectory() as folder:
        words = "--capacity", str(keys), "--sessions", "1", "--roll", str(ROLL)
        with serve.pcalc_server(program, folder, *words) as (_, source, target):
            Asker(Pcalc, source.read, target.write, blocks).run(keys // BLOCK)
        with serve.pcalc_server(program, folder, *words, "--every", str(every_of(commits, points))) as (_, source, target):
            began = time.monotonic()
            times = Asker(Pcalc, source.read, target.write, blocks).run(commits // BLOCK)
        with subprocess.Popen([program, "log", os.path.join(folder, "store", "gen-0000002", "log.pcl")], stdout=subprocess.PIPE) as ran:
            spans = spans_in(ran.stdout, times)
    return counted(times, began, spans)


def every_of(commits, points):
    return commits // (points + 1)


class Saves:
    """The saves of a Redis server, seen by a connection of its own."""

    def __init__(self, path, every):
        self.path, self.every, self.done, self.seen, self.ended = path, every, 0, [], False

    def ask(self, words):
        return subprocess.run([shutil.which("redis-cli"), "-s", self.path, *words], capture_output=True, check=True).stdout

    def after(self, commits):
        if commits >= (self.done + 1) * self.every:
            self.done += 1
            threading.Thread(target=self.ask, args=(["BGSAVE"],)).start()

    def look(self):
        while not self.ended:
            if b"rdb_bgsave_in_progress:1" in self.ask(["INFO", "persistence"]):
                self.seen.append((time.monotonic() - TENTH, time.monotonic()))
            time.sleep(TENTH)


def redis_run(program, keys, commits, points):
    """The same for Redis."""
    blocks = blocks_of(Redis, keys)
    with tempfile.TemporaryDirectory() as folder, serve.redis_server(program, folder, *NO_MORE_SAVES) as (_, sock, _):
        asker = Asker(Redis, sock.recv, sock.send, blocks)
        asker.run(keys // BLOCK)
        saves = Saves(os.path.join(folder, "socket"), every_of(commits, points))
        looker = threading.Thread(target=saves.look)
        looker.start()
        began = time.monotonic()
        times = asker.run(commits // BLOCK, saves.after)
        saves.ended = True
        looker.join()
    return counted(times, began, saves.seen)


def measure(given):
    redis = given.redis or shutil.which("redis-server")
    if redis is None or shutil.which("redis-cli") is None:
        sys.exit("redis-server and redis-cli have to be on the path")
    ways = (("pcalc", pcalc_run, given.program), ("redis", redis_run, redis))
    runs = {name: run(program, given.keys, given.commits, given.points) for name, run, program in ways}
    with open(given.times, "w", encoding="ascii") as out:
        out.write(f"# server, tenth of a second, commits, point or save under way; {given.keys} keys, {given.commits} commits, {given.points} points\n")
        for name, run in runs.items():
            out.writelines(f"{name} {at} {count} {busy}\n" for at, (count, busy) in enumerate(run))
    for name, run in runs.items():
        rates = {busy: rate_of(run, busy) for busy in (0, 1)}
        print(f"{name}: {rates[0]:.0f} commits a second, {rates[1]:.0f} while a point or a save was under way")
        for busy, what in ((0, "at rest"), (1, "in points or saves")):
            history.note(f"beside: {name}, {what}", rates[busy], "a second")


def rate_of(run, busy):
    """The commits a second of the tenths that are busy, or of the others; the last tenth isn't whole."""
    some = [count for count, is_busy in run[:-1] if is_busy == busy]
    return sum(some) / TENTH / len(some) if some else 0


class NoTimes(Exception):
    """What is wrong with a file that isn't one of `measure`."""


def read(path):
    """For each server the commits of each tenth of a second, and whether it is busy."""
    runs = {}
    with open(path, encoding="ascii", errors="replace") as it:
        for number, words in enumerate(map(str.split, it), 1):
            if words and words[0].startswith("#"):
                continue
            if len(words) != 4 or words[0] not in NAMES or words[1] != str(len(runs.get(words[0], ()))) or not words[2].isdecimal() or words[3] not in "01":
                raise NoTimes(f"line {number} isn't one of `measure`")
            runs.setdefault(words[0], []).append((int(words[2]), int(words[3])))
    if not runs:
        raise NoTimes("it has no times")
    return runs


def panel(name, run, place, panels, most, longest):
    """The bars of a server, with its name above and a strip below."""
    up = (HEIGHT - TOP - BOTTOM - GAP * (panels - 1)) / panels - STRIP - 6
    bottom, across = TOP + place * (up + STRIP + 6 + GAP) + up, (WIDTH - LEFT - RIGHT) / longest
    shown = text(LEFT, bottom - up - 8, f"{NAMES[name]}: {rate_of(run, 0):,.0f} commits a second, {rate_of(run, 1):,.0f} in the green spans")
    for at, (count, busy) in enumerate(run):
        shown += box(LEFT + at * across, bottom - count / most * up, across * 0.9, count / most * up, BARS)
        shown += box(LEFT + at * across, bottom + 6, across, STRIP, BUSY) if busy else ""
    for count in marks(most / TENTH):
        y = bottom - count * TENTH / most * up
        shown += line(LEFT - 4, y, LEFT, y) + text(LEFT - 7, y + 4, f"{count:,.0f}", ' text-anchor="end"')
    return shown + line(LEFT, bottom, WIDTH - RIGHT, bottom) + line(LEFT, bottom - up, LEFT, bottom)


def drawn(runs, title):
    """The picture."""
    most, longest = max(count for run in runs.values() for count, _ in run), max(map(len, runs.values()))
    shown = "".join(panel(name, run, place, len(runs), most, longest) for place, (name, run) in enumerate(runs.items()))
    for second in marks(longest * TENTH):
        shown += text(LEFT + second / TENTH / longest * (WIDTH - LEFT - RIGHT), HEIGHT - BOTTOM + 18, f"{second:g}", ' text-anchor="middle"')
    shown += text((LEFT + WIDTH - RIGHT) / 2, HEIGHT - 12, "seconds; each bar is a tenth of one", ' text-anchor="middle"')
    return f"""<svg xmlns="http://www.w3.org/2000/svg" viewBox="0 0 {WIDTH} {HEIGHT}" font-family="sans-serif" font-size="12">
<rect width="{WIDTH}" height="{HEIGHT}" fill="white"/>
{text(LEFT, 22, html.escape(title), ' font-size="15"')}{shown}</svg>
"""


def draw(given):
    try:
        picture = drawn(read(given.times), given.title)
        with open(given.picture, "w", encoding="utf-8") as out:
            out.write(picture)
    except (OSError, NoTimes) as fault:
        sys.exit(f"{getattr(fault, 'filename', None) or given.times}: {getattr(fault, 'strerror', None) or fault}")


def main():
    ask = argparse.ArgumentParser(description=__doc__, formatter_class=argparse.RawDescriptionHelpFormatter)
    ways = ask.add_subparsers(required=True)
    way = ways.add_parser("measure")
    way.add_argument("times")
    for name, count in (("--keys", 1_000_000), ("--commits", 6_000_000), ("--points", 4)):
        way.add_argument(name, type=int, default=count)
    way.add_argument("--program", default=shared.program("pcalc"))
    way.add_argument("--redis")
    way.set_defaults(way=measure)
    way = ways.add_parser("draw")
    way.add_argument("times")
    way.add_argument("picture")
    way.add_argument("--title", default="Commits a second, with checkpoints and with background saves")
    way.set_defaults(way=draw)
    given = ask.parse_args()
    given.way(given)


if __name__ == "__main__":
    main()
