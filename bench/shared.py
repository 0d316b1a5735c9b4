#!/usr/bin/env python3
"""Measures a store that threads share, and one thread that steps a store, by the program `bench_calls`.

    bench/shared.py                  500,000 transactions of one put each a thread, over 1,000 keys a thread
    bench/shared.py COMMITS KEYS     COMMITS a thread, over KEYS keys a thread

It prints the committed transactions a second of one thread that steps a store, of 1, 2 and 4 threads that share one, and how many a second as
many threads would make with a bare mutex that is locked three times for each: the best and the worst of several runs, and the ratio of the
best ones. Then the calls of a store that one thread shares with nobody, with a point and its logging after each round of the
keys: the mean and the longest time of each, at least as long as it holds the latch. And last the system calls of a transaction of one
thread, counted by `strace` if it is installed: of each the difference of two runs, one of twice the transactions.

Build the program first, by `rt run` in the folder crates/bench_calls.
"""

import os
import shutil
import subprocess
import sys
import tempfile

import history

CRATES = os.path.join(os.path.dirname(os.path.abspath(__file__)), "..", "crates")
RUNS = 7
THREADS = (1, 2, 4)


def program(name):
    return os.path.join(CRATES, name, "out", name)


def printed(name, *words):
    """The lines that the program prints, each by its first word."""
    ran = subprocess.run([program(name), "--times", *map(str, words)], check=True, capture_output=True, text=True)
    return {line.split()[0]: line.split()[1:] for line in ran.stdout.splitlines()}


def rates(name, count, field, *words):
    """The rates per second of the best and the worst run."""
    found = [count / int(printed(name, *words)[field][0]) * 1e6 for _ in range(RUNS)]
    return max(found), min(found)


def report(text, rate, base=None):
    history.note(text, rate[0], "a second")
    ratio = "" if base is None else ", %.2f of the stepped store" % (rate[0] / base[0])
    print("%s: %.0f a second (from %.0f)%s" % (text, *rate, ratio), flush=True)


def report_rates(commits, keys):
    stepped = rates("bench_calls", commits, "commit_us", "commits", commits, keys)
    report("one thread, stepped", stepped)
    for threads in THREADS:
        report("%d threads, shared" % threads, rates("bench_calls", commits * threads, "us", "shared", threads, commits, keys), stepped)
        report("%d threads, a bare mutex" % threads, rates("bench_calls", commits * threads, "us", "mutex", threads, commits, keys), stepped)


def report_calls(commits, keys):
    runs = [printed("bench_calls", "calls", 1, commits, keys) for _ in range(RUNS)]
    for name in runs[0]:
        count = runs[0][name][0]
        mean = min(int(run[name][2]) for run in runs)
        longest = [int(run[name][4]) for run in runs]
        history.note("longest call of %s over %d keys, at worst" % (name, keys), max(longest) / 1e3, "us")
        print("%s: %s calls, mean %d ns at best, the longest %.1f us at best and %.1f at worst" % (name, count, mean, min(longest) / 1e3, max(longest) / 1e3))


def system_calls(commits, keys):
    """How often each system call was made, all threads together."""
    with tempfile.NamedTemporaryFile("r") as counts:
        words = ["strace", "-f", "-qq", "-c", "-U", "calls,name", "-o", counts.name, program("bench_calls"), "shared", "1", str(commits), str(keys)]
        subprocess.run(words, check=True, stdout=subprocess.DEVNULL)
        lines = [line.split() for line in counts]
    return {line[1]: int(line[0]) for line in lines if len(line) == 2 and line[0].isdigit() and line[1] != "total"}


def report_system_calls(commits, keys):
    if not shutil.which("strace"):
        print("strace isn't installed: no system calls counted")
        return
    once, twice = system_calls(commits, keys), system_calls(2 * commits, keys)
    more = {name: twice[name] - once.get(name, 0) for name in sorted(twice) if twice[name] != once.get(name, 0)}
    print("system calls of %d more transactions: %s" % (commits, ", ".join("%s %d" % it for it in more.items()) or "none"))


def main():
    commits, keys = (int(word) for word in sys.argv[1:3] or (500_000, 1000))
    report_rates(commits, keys)
    report_calls(commits // 10, keys)
    report_system_calls(commits // 10, keys)


if __name__ == "__main__":
    main()
