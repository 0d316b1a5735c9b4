#!/usr/bin/env python3
"""Measures captures of `pcalc run`: how many transactions commit while a checkpointer takes keys.

    bench/captures.py                          1,000, 60,000 and 1,000,000 keys, on one processor, on two, and on four
    bench/captures.py KEYS PROCESSORS          KEYS keys, on PROCESSORS processors
    bench/captures.py --program FILE ..        of the program FILE, by default the one that `rt run` has built

Four clients fill a quarter of the keys each, over and over, while a checkpointer takes 20 points (4 if there are 1,000,000 keys). The run leaves its log and
its parts in a folder of /dev/shm. The log has the number of transactions that committed in the capture of each point, and the part the number of
keys taken. It prints the least, the median and the greatest ratio of both, of captures that ended while clients ran, and how many of the
points these were. The clients' rate within captures is that of the hundredths of a second that begin and end in one (`--times`), divided by
the rate of those that begin and end in rest; it isn't printed if there are fewer than five of either.
"""

import argparse
import os
import statistics
import struct
import subprocess
import sys
import tempfile

import plot
import shared

CLIENTS = 4
HEADER = 20
# the kind of a log's entry that is a commit, and the phases of two of its tokens
COMMIT = 1
CAPTURE, COMPLETE = 3, 4
# keys, transactions, points
RUNS = {1000: (2_400_000, 20), 60_000: (2_400_000, 20), 1_000_000: (5_000_000, 4)}
PROCESSORS = (1, 2, 4)
LEAST_HUNDREDTHS = 5


def workload(folder, keys, commits, points):
    """The path of a workload of `commits` puts."""
    own = keys // CLIENTS
    lines = [f"points {points}"]
    for number in range(CLIENTS):
        lines.append(f"client {number + 1}")
        lines += [f"fill {chr(ord('a') + number)} {own} x"] * (commits // keys)
    path = os.path.join(folder, "captures.pcw")
    with open(path, "w", encoding="ascii") as out:
        out.write("\n".join(lines) + "\n")
    return path


def captures(log):
    """For each point the number of transactions that committed before its capture, and in it; and the number of all."""
    found, count, begun, at = [], 0, 0, HEADER
    while at < len(log):
        length, kind, phase = struct.unpack_from(">IBB", log, at)
        if kind == COMMIT:
            count += 1
        elif phase == CAPTURE:
            begun = count
        elif phase == COMPLETE:
            found.append((begun, count - begun))
        at += 4 + length
    return found, count


def taken(folder, point):
    """How many keys the point's part has."""
    with open(os.path.join(folder, f"part-{point:05}.pcp"), "rb") as part:
        part.seek(-4, os.SEEK_END)
        return struct.unpack(">I", part.read())[0]


def rates(times):
    """The mean commits of a hundredth of a second within a capture, and of one within rest."""
    commits, phases = plot.read(times)
    inside = {phase: [count for before, after, count in zip(phases, phases[1:], commits[1:]) if before == after == phase] for phase in ("capture", "rest")}
    if min(map(len, inside.values())) < LEAST_HUNDREDTHS:
        return None
    return statistics.mean(inside["capture"]), statistics.mean(inside["rest"])


def measure(program, keys, processors):
    commits, points = RUNS.get(keys, RUNS[60_000])
    with tempfile.TemporaryDirectory(dir="/dev/shm") as folder:
        path, times, run = workload(folder, keys, commits, points), os.path.join(folder, "times"), os.path.join(folder, "run")
        os.mkdir(run)
        words = ["taskset", "-c", f"0-{processors - 1}", program, "run", path, "--capacity", str(max(keys, 65_536)), "--dir", run, "--times", times, "--quiet"]
        ran = subprocess.run(words, check=True, capture_output=True, text=True)
        if ran.stdout.splitlines()[-1] != "check ok":
            sys.exit(f"{words} printed {ran.stdout!r}")
        with open(os.path.join(run, "log.pcl"), "rb") as log:
            found, all_commits = captures(log.read())
        during = [(count, taken(run, point)) for point, (begun, count) in enumerate(found, 1) if begun + count < all_commits]
        return [count / keys_taken for count, keys_taken in during if keys_taken], len(found), rates(times)


def report(program, keys, processors):
    ratios, points, rate = measure(program, keys, processors)
    least, middle, most = (f"{it:.2f}" for it in (min(ratios), statistics.median(ratios), max(ratios))) if ratios else ("-",) * 3
    kept = f"{rate[0] / rate[1]:.2f}" if rate else "-"
    print(f"{keys} keys, processors {processors}: {len(ratios)} of {points} while clients ran, commits a key taken {least}, {middle}, {most}; rate within {kept}", flush=True)


def main():
    ask = argparse.ArgumentParser(description=__doc__, formatter_class=argparse.RawDescriptionHelpFormatter)
    ask.add_argument("--program", default=shared.program("pcalc"))
    ask.add_argument("keys", type=int, nargs="?"), ask.add_argument("processors", type=int, nargs="?")
    given = ask.parse_args()
    for keys in [given.keys] if given.keys else RUNS:
        for processors in [given.processors] if given.processors else PROCESSORS:
            report(given.program, keys, processors)


if __name__ == "__main__":
    main()
