#!/usr/bin/env python3
"""Measures library calls by the program `bench_calls`: several runs, the least and the greatest time, and the peak of memory.

    bench/calls.py points 100 1000        100 points over 1,000 keys: the time for a key that is taken
    bench/calls.py commits 500000 1000    500,000 transactions of one write each, over 1,000 keys, without checkpoints and with
                                          checkpoints back to back: committed transactions a second, and the ratio

Build the program first, by `rt run` in the folder crates/bench_calls.
"""

import os
import sys
import tempfile

import child
import history

PROGRAM = os.path.join(os.path.dirname(os.path.abspath(__file__)), "..", "crates", "bench_calls", "out", "bench_calls")
RUNS = 7
GROUPS = 10


def run(words):
    """What one run prints, and its peak memory in bytes."""
    with tempfile.TemporaryFile() as output:
        _, peak = child.measure([PROGRAM, "--times", *words], output)
        output.seek(0)
        return output.read().decode("ascii").split("\n")[:-1], peak


def spread(text, numbers):
    return "%s %.1f to %.1f" % (text, min(numbers), max(numbers))


def measure_points(words):
    """The time for a key that is taken, by the number of earlier points; of each point the least of several runs."""
    runs = [[line.split() for line in run(["points", *words])[0]] for _ in range(RUNS)]
    points = len(runs[0])
    least = [min(int(lines[i][5]) / int(lines[i][3]) for lines in runs) for i in range(points)]
    print("%d points over %s keys, %d runs" % (points, words[1], RUNS))
    group = max(1, points // GROUPS)
    for first in range(0, points, group):
        some = least[first : first + group]
        history.note("points %s of %s keys: a key taken, points %d to %d" % (points, words[1], first + 1, first + len(some)), min(some), "us")
        print("points %d to %d: %s" % (first + 1, first + len(some), spread("us a key taken:", some)))


def measure_commits(words):
    """The rate of commits without checkpoints and with checkpoints, in turn, and the ratio of the best of each."""
    results = {"without points": [], "with points": []}
    for _ in range(RUNS):
        for name, flags in (("without points", []), ("with points", ["--points"])):
            results[name].append(dict(line.split() for line in run(["commits", *flags, *words])[0]))
    for name, runs in results.items():
        print("%s: %s, %d runs" % (name, ", ".join("%s %s" % count for count in runs[0].items() if count[0] != "commit_us"), RUNS))
        print(spread("committed a second, thousands:", [int(t["committed"]) * 1e3 / int(t["commit_us"]) for t in runs]))
    least = {name: min(int(t["commit_us"]) for t in runs) for name, runs in results.items()}
    for name, time in least.items():
        history.note("commits %s over %s keys, %s" % (words[0], words[1], name), int(words[0]) * 1e6 / time, "a second")
    print("ratio of the greatest rates %.3f" % (least["without points"] / least["with points"]))


def main():
    measures = {"points": measure_points, "commits": measure_commits}
    if len(sys.argv) < 3 or sys.argv[1] not in measures:
        sys.exit(__doc__)
    if not os.access(PROGRAM, os.X_OK):
        sys.exit("%s is not there: build it first" % PROGRAM)
    measures[sys.argv[1]](sys.argv[2:])


main()
