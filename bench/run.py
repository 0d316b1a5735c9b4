#!/usr/bin/env python3
"""Measures `pcalc run`: committed puts a second, by clients, keys and points; and one thread that steps a store, and a bare mutex.

    bench/run.sh                 400,000 transactions of one put
    bench/run.sh COMMITS         COMMITS transactions
    bench/run.sh COMMITS SVG     and draws one run, commits by hundredths of a second with its points, into the file SVG (bench/plot.py)

The clients divide the keys among themselves and fill their own again and again. A run's time is that of the whole program, from its start to its end,
with a store of 64 sessions and all that it prints; of several runs the best and the worst are printed. One thread that steps a store, and a mutex
that is locked three times a transaction and protects nothing, are measured by `bench_calls`, as in `bench/shared.py`.
What the clients could reach at most is measured by threads that make the same fills in a store under a bare mutex, which they take twice a
transaction and which keeps nothing for them (`bench_calls floor`, at most 15,000 keys a thread).
"""

import os
import subprocess
import sys
import tempfile
import time

import shared

CLIENTS = (1, 2, 4)
MOST_OWN_KEYS = 15_000
POINTS = (0, 8)
# by number of keys how often each is run
RUNS = {1000: 5, 60_000: 3}


def workload(folder, commits, clients, keys, points):
    """The path of a workload of about `commits` puts, and how many there are."""
    own = keys // clients
    rounds = max(1, commits // (own * clients))
    lines = [f"points {points}"]
    for number in range(clients):
        lines.append(f"client {number + 1}")
        lines += [f"fill {chr(ord('a') + number)} {own} x"] * rounds
    path = os.path.join(folder, f"{clients}-{keys}-{points}.pcw")
    with open(path, "w", encoding="ascii") as out:
        out.write("\n".join(lines) + "\n")
    return path, own * clients * rounds


def seconds(words, count):
    """The seconds of one run, which must commit `count` transactions."""
    began = time.monotonic()
    ran = subprocess.run(words, check=True, capture_output=True, text=True)
    taken = time.monotonic() - began
    if ran.stdout.splitlines()[0] != f"commits {count}" or ran.stdout.splitlines()[-1] != "check ok":
        sys.exit(f"{words} printed {ran.stdout!r}")
    return taken


def rates(folder, commits, clients, keys, points):
    path, count = workload(folder, commits, clients, keys, points)
    words = [shared.program("pcalc"), "run", path, "--workers", str(clients), "--quiet"]
    taken = [seconds(words, count) for _ in range(RUNS[keys])]
    return count / min(taken), count / max(taken)


def report(folder, commits):
    for keys, shared.RUNS in RUNS.items():
        stepped = shared.rates("bench_calls", commits, "commit_us", "commits", commits, keys)
        shared.report(f"{keys} keys, one thread, stepped", stepped)
        for clients in CLIENTS:
            without, with_points = (rates(folder, commits, clients, keys, points) for points in POINTS)
            shared.report(f"{keys} keys, {clients} clients", without, stepped)
            shared.report(f"{keys} keys, {clients} clients, {POINTS[1]} points", with_points, stepped)
            print(f"with points, of without: {with_points[0] / without[0]:.2f}", flush=True)
            own = keys // clients
            if own <= MOST_OWN_KEYS:
                floor = shared.rates("bench_calls", commits // clients * clients, "us", "floor", clients, commits // clients, own)
                shared.report(f"{keys} keys, {clients} threads that fill under a bare mutex", floor, stepped)
    shared.RUNS = max(RUNS.values())
    for clients in CLIENTS:
        shared.report(f"{clients} threads, a bare mutex", shared.rates("bench_calls", commits * clients, "us", "mutex", clients, commits, 1000))


def draw(folder, commits, picture):
    """Draws one run with points."""
    path, _ = workload(folder, commits, CLIENTS[-1], min(RUNS), POINTS[1])
    times = os.path.join(folder, "run.times")
    subprocess.run([shared.program("pcalc"), "run", path, "--dir", folder, "--times", times, "--quiet"], check=True, stdout=subprocess.DEVNULL)
    title = f"{min(RUNS):,} keys, {CLIENTS[-1]} clients, {POINTS[1]} points"
    subprocess.run([sys.executable, os.path.join(os.path.dirname(os.path.abspath(__file__)), "plot.py"), times, picture, "--title", title], check=True)


def main():
    commits = int(sys.argv[1]) if len(sys.argv) > 1 else 400_000
    with tempfile.TemporaryDirectory() as folder:
        report(folder, commits)
        if len(sys.argv) > 2:
            draw(folder, commits, sys.argv[2])


if __name__ == "__main__":
    main()
