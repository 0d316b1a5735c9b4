"""Measures `pcalc step` on scripts of N and 2 N lines over 1,000 keys, and of N lines over 200,000: lines a second, peak memory, and how the times
compare."""

import os
import sys

import child
import history

KEYS, MANY_KEYS = 1000, 200_000
LINES_OF_A_TRANSACTION = 10
MOST_TIMES_LONGER = 2.3
MOST_TIMES_LONGER_OVER_MANY = 1.3
TRIES = 3


def write_script(path, lines, keys):
    """Transactions of ten lines: a begin, four puts and four gets in turn, a commit. The keys go round."""
    with open(path, "w", encoding="ascii") as script:
        for number in range(lines):
            place = number % LINES_OF_A_TRANSACTION
            key = "key%06d" % ((number * 7 + number // LINES_OF_A_TRANSACTION) % keys)
            if place == 0:
                script.write("begin 1\n")
            elif place == LINES_OF_A_TRANSACTION - 1:
                script.write("commit 1\n")
            elif place % 2:
                script.write("put 1 %s value%d\n" % (key, number))
            else:
                script.write("get 1 %s\n" % key)


def measure(program, script, output):
    """Seconds and peak memory in MB of one run, whose output goes to a file."""
    with open(output, "wb") as file:
        seconds, peak = child.measure([program, "step", script, "--capacity", str(MANY_KEYS)], file)
    return seconds, peak / 1e6


def check_output(output, lines):
    """One answer a line, and none of them a refusal or a bad line."""
    answers = 0
    with open(output, "rb") as answered:
        for answer in answered:
            answers += 1
            if answer.startswith((b"refused", b"bad line")):
                sys.exit("line %d was answered %r" % (answers, answer))
    if answers != lines:
        sys.exit("%d lines were answered by %d" % (lines, answers))


def main():
    program, lines, folder = sys.argv[1], int(sys.argv[2]), sys.argv[3]
    output = os.path.join(folder, "output")
    times = []
    for count, keys in ((lines, KEYS), (2 * lines, KEYS), (lines, MANY_KEYS)):
        script = os.path.join(folder, "script")
        write_script(script, count, keys)
        runs = [measure(program, script, output) for _ in range(TRIES)]
        check_output(output, count)
        seconds = min(run[0] for run in runs)
        memory = max(run[1] for run in runs)
        times.append(seconds)
        history.note("step: %d lines over %d keys" % (count, keys), count / seconds, "lines a second")
        print("%d lines over %d keys: %.2f s, %d lines a second, peak %.0f MB" % (count, keys, seconds, count / seconds, memory), flush=True)
    ratio, over_many = times[1] / times[0], times[2] / times[0]
    history.note("step: twice the lines", ratio, "times as long")
    history.note("step: %d keys for %d" % (MANY_KEYS, KEYS), over_many, "times as long")
    print("twice the lines took %.2f times the time (target: at most %.1f)" % (ratio, MOST_TIMES_LONGER))
    print("as many lines over %d keys took %.2f times the time (target: at most %.1f)" % (MANY_KEYS, over_many, MOST_TIMES_LONGER_OVER_MANY))
    sys.exit(0 if ratio <= MOST_TIMES_LONGER and over_many <= MOST_TIMES_LONGER_OVER_MANY else 1)


main()
