#!/usr/bin/env python3
"""Measures `pcalc serve`, and a Redis server that logs too: transactions of one put each, per second.

    bench/serve.py                       20,000 transactions line by line, up to 20 times as many if many are under way, over 1,000 keys
    bench/serve.py COMMITS               COMMITS line by line
    bench/serve.py --pairs N             a start with N pairs, by default with 1,000,000
    bench/serve.py --only-rolls ..       only rolls of a generation
    bench/serve.py --program FILE ..     of the program FILE, by default the one that `rt run` has built

It prints rates with a round trip for each line, with one for each transaction, and with 16 and 1,000 transactions under way; by a client in C
(`bench/serve.c`, if there is a C compiler) and by `clients/python/pcalc.py`, which sends 16 or 1,000 and then waits for all of them. Servers take turns, and
the best and the worst of several runs are printed. The other one is `redis-server` with `appendonly yes`, over a Unix socket, if it is installed: with
`appendfsync no` for pcalc, and with `always` for `--sync`, over as many transactions as fit in some seconds. Its transactions are MULTI, SET, EXEC, and
also a single SET. Then the memory of the process after its start and after two counts of commits; and how long a start with many pairs takes, by the
clock and in processor time, with the memory after it; and how long a client waits for an answer while a generation with as many pairs rolls.
"""

import argparse
import contextlib
import os
import shutil
import socket
import subprocess
import sys
import tempfile
import time

import history
import shared

BENCH = os.path.dirname(os.path.abspath(__file__))
sys.path.insert(0, os.path.join(BENCH, "..", "clients", "python"))

import pcalc  # noqa: E402

KEYS = 1000
ROUNDS = 3
# a name, whether each line is answered before the next one, how many transactions are under way, and by what the commits are multiplied
SHAPES = (("a round trip a line", 1, 1, 1), ("a round trip a transaction", 0, 1, 1), ("16 under way", 0, 16, 5), ("1,000 under way", 0, 1000, 20))
# what part of them if each is flushed to the disk
SYNCED = 0.02
COUNTS = (100_000, 1_000_000)
PUTS = 250
PATIENCE = 100
# commits of a generation before it rolls, and how many generations do
ROLL, ROLLS = 20, 6


@contextlib.contextmanager
def pcalc_server(program, folder, *words):
    """A process that serves the store of the folder: its id, its output and its input."""
    command = [program, "serve", os.path.join(folder, "store"), "--create", *words]
    with subprocess.Popen(command, stdin=subprocess.PIPE, stdout=subprocess.PIPE, bufsize=0) as process:
        if not process.stdout.readline().startswith(b"ready"):
            sys.exit("pcalc serve doesn't start")
        yield process.pid, process.stdout, process.stdin
        process.stdin.close()


@contextlib.contextmanager
def redis_server(program, folder, *words):
    path = os.path.join(folder, "socket")
    command = [program, "--port", "0", "--unixsocket", path, "--dir", folder, "--save", "", "--appendonly", "yes", *words]
    with subprocess.Popen(command, stdout=subprocess.DEVNULL) as process, socket.socket(socket.AF_UNIX) as sock:
        for _ in range(PATIENCE):
            with contextlib.suppress(OSError):
                sock.connect(path)
                break
            time.sleep(0.05)
        yield process.pid, sock, sock
        process.terminate()


def built(folder):
    """The client in C, if there is a compiler."""
    if shutil.which("cc") is None:
        print("no C compiler: only the client in Python is measured")
        return None
    client = os.path.join(folder, "client")
    subprocess.run(["cc", "-O2", "-std=gnu11", "-o", client, os.path.join(BENCH, "serve.c")], check=True)
    return client


def c_seconds(client, server, protocol, lines, depth, count):
    """The seconds of `count` transactions of the client in C."""
    _, source, target = server
    ran = subprocess.run([client, protocol, str(lines), str(depth), str(count), str(KEYS)], stdin=source, stdout=target, stderr=subprocess.PIPE, text=True)
    if ran.returncode:
        sys.exit(ran.stderr)
    return int(ran.stderr) / 1e6


def python_seconds(store, lines, depth, count):
    """The same for the client in Python."""
    began = time.monotonic()
    if lines:
        for number in range(count):
            with store.transaction() as t:
                t[b"k%07d" % (number % KEYS)] = b"v%07d" % number
    else:
        with store.pipeline(depth) as pipeline:
            for number in range(count):
                with pipeline.transaction() as t:
                    t[b"k%07d" % (number % KEYS)] = b"v%07d" % number
    return time.monotonic() - began


def of_c(client, serve, program, words, protocol):
    """What measures a shape of a new server by the client in C."""
    def measured(lines, depth, count):
        with tempfile.TemporaryDirectory() as folder, serve(program, folder, *words) as server:
            return c_seconds(client, server, protocol, lines, depth, count)
    return measured


def of_python(program, words):
    def measured(lines, depth, count):
        with tempfile.TemporaryDirectory() as folder, pcalc.Store(os.path.join(folder, "store"), program=[program], create=True, sync="--sync" in words) as store:
            return python_seconds(store, lines, depth, count)
    return measured


def measurers(program, client, redis, is_synced):
    """What is measured in turn, by its name."""
    words, name = (("--sync",), "pcalc --sync") if is_synced else ((), "pcalc")
    if client:
        yield f"{name}, C", of_c(client, pcalc_server, program, words, "pcalc")
    yield f"{name}, Python", of_python(program, words)
    if client and redis:
        fsync = "always" if is_synced else "no"
        for protocol, commands in (("redis", "MULTI SET EXEC"), ("set", "SET")):
            yield f"redis appendfsync {fsync}, C, {commands}", of_c(client, redis_server, redis, ("--appendfsync", fsync), protocol)


def print_rates(program, client, redis, commits):
    for is_synced in (False, True):
        for shape, lines, depth, times in SHAPES:
            # those under way are synced together, so that all shapes take a similar time
            count = max(depth, int(commits * times * SYNCED)) if is_synced else commits * times
            seconds = {}
            for _ in range(ROUNDS):
                for name, measured in measurers(program, client, redis, is_synced):
                    seconds.setdefault(name, []).append(measured(lines, depth, count))
            for name, taken in seconds.items():
                best, worst = count / min(taken), count / max(taken)
                history.note(f"serve: {name}, {shape}", best, "a second")
                print(f"{name}, {shape}: {best:.0f} a second (from {worst:.0f})", flush=True)


def resident(number):
    """The memory that a process has in use, in MB."""
    with open(f"/proc/{number}/status", encoding="ascii") as it:
        return next(int(line.split()[1]) for line in it if line.startswith("VmRSS")) * 1024 / 1e6


def processor_seconds(number):
    """The processor time that a process has used, including the system's."""
    with open(f"/proc/{number}/stat", encoding="ascii") as it:
        return sum(map(int, it.read().rpartition(")")[2].split()[11:13])) / os.sysconf("SC_CLK_TCK")


def print_memory(name, client, serve, program, words, protocol):
    with tempfile.TemporaryDirectory() as folder, serve(program, folder, *words) as server:
        memory, done = [resident(server[0])], 0
        for count in COUNTS:
            c_seconds(client, server, protocol, 0, 1000, count - done)
            memory, done = [*memory, resident(server[0])], count
        history.note(f"serve: {name}, memory behind {COUNTS[-1]} commits", memory[-1], "MB")
        print(f"{name}: memory {memory[0]:.0f} MB at first, " + ", ".join(f"{mb:.0f} after {count:,} commits" for mb, count in zip(memory[1:], COUNTS)), flush=True)


def filled(program, folder, pairs):
    """Makes a store of `pairs` pairs, and prints how long that took."""
    lines, began = os.path.join(folder, "lines"), time.monotonic()
    with open(lines, "w", encoding="ascii") as out:
        for first in range(0, pairs, PUTS):
            puts = "".join("put 1 k%07d v%07d\n" % (number, number) for number in range(first, min(first + PUTS, pairs)))
            out.write(f"begin 1\n{puts}commit 1\n")
    spelled = time.monotonic()
    with open(lines, "rb") as source:
        command = [program, "serve", os.path.join(folder, "store"), "--create", "--capacity", str(max(1, pairs))]
        subprocess.run(command, stdin=source, stdout=subprocess.DEVNULL, check=True)
    print(f"{pairs:,} pairs, written {PUTS} a transaction: {pairs / (time.monotonic() - spelled):.0f} a second; the lines took {spelled - began:.1f} s to spell")


def print_start(program, pairs):
    """Prints how long starts take: from the log of a generation, and then from its base."""
    with tempfile.TemporaryDirectory() as folder:
        filled(program, folder, pairs)
        for what in ("out of a log", "out of a base"):
            began = time.monotonic()
            with pcalc_server(program, folder, "--capacity", str(max(1, pairs))) as (number, _, _):
                seconds, used, mb = time.monotonic() - began, processor_seconds(number), resident(number)
            history.note(f"serve: start with {pairs} pairs {what}", used, "s of processor time")
            memory = f"memory {mb:.0f} MB, {mb * 1e6 / pairs:.0f} bytes a pair"
            print(f"start with {pairs:,} pairs, {what}: {seconds:.2f} s, {used:.2f} of processor time, {memory}", flush=True)


def print_roll(program, pairs):
    """Prints how long a client waits for an answer before which a generation rolls, and for others, and the processor time of a roll."""
    with tempfile.TemporaryDirectory() as folder:
        filled(program, folder, pairs)
        with pcalc_server(program, folder, "--capacity", str(max(1, pairs)), "--roll", str(ROLL)) as (number, source, target):
            taken, used = [], processor_seconds(number)
            for _ in range(ROLLS * ROLL + 1):
                began = time.monotonic()
                asked(source, target, b"begin 1\nput 1 k0000000 v0000000\ncommit 1\n", 3)
                taken.append(time.monotonic() - began)
            used, mb = (processor_seconds(number) - used) / ROLLS, resident(number)
    # the first line after each ROLL commits waits
    pauses = sorted(seconds for place, seconds in enumerate(taken) if place and place % ROLL == 0)
    others = sorted(seconds for place, seconds in enumerate(taken) if place % ROLL)
    history.note(f"serve: roll over {pairs} pairs", used, "s of processor time")
    waits = f"{pauses[0]:.2f} to {pauses[-1]:.2f} s, {used:.2f} of processor time"
    print(f"a roll over {pairs:,} pairs: {waits}; {others[len(others) // 2] * 1e6:.0f} us without one; memory {mb:.0f} MB after {ROLLS} of them", flush=True)


def asked(source, target, lines, count):
    """Asks the lines, and reads `count` lines."""
    target.write(lines)
    read = b""
    while read.count(b"\n") < count:
        some = source.read(65_536)
        if not some:
            sys.exit("pcalc has ended")
        read += some


def main():
    ask = argparse.ArgumentParser(description=__doc__, formatter_class=argparse.RawDescriptionHelpFormatter)
    ask.add_argument("--program", default=shared.program("pcalc"))
    ask.add_argument("--pairs", type=int, default=1_000_000)
    ask.add_argument("--only-rolls", action="store_true")
    ask.add_argument("commits", type=int, nargs="?", default=20_000)
    given = ask.parse_args()
    if given.only_rolls:
        return print_roll(given.program, given.pairs)
    redis = shutil.which("redis-server")
    if redis is None:
        print("redis-server isn't installed: only pcalc is measured")
    with tempfile.TemporaryDirectory() as folder:
        client = built(folder)
        print_rates(given.program, client, redis, given.commits)
        if client:
            print_memory("pcalc", client, pcalc_server, given.program, (), "pcalc")
        if client and redis:
            print_memory("redis", client, redis_server, redis, ("--appendfsync", "no"), "set")
    print_start(given.program, given.pairs)
    print_roll(given.program, given.pairs)


if __name__ == "__main__":
    main()
