#!/usr/bin/env python3
"""Measures `pcalc recover`: several runs, the least and the greatest time, records a second, and the peak of memory.

    bench/recover.py 1000000 1000000 8    a base of 1,000,000 pairs, a log of 1,000,000 commits of one put each over the same keys in a scattered order,
                                          and 8 part files of the points from 1 on, fewer than commits, each of an eighth of the keys
    bench/recover.py --adds 1000000 1000000 8    the same with an add in place of each put

The tokens of the points are in the log, at equal distances. A record is a pair, a commit or an entry of a part. A run's time is that of the whole
program, which reads the files and prints all pairs to a file.

Build the program first, by `rt run -- --version` in the folder crates/pcalc.
"""

import os
import sys
import tempfile

import child
import history

sys.path.insert(0, os.path.join(os.path.dirname(os.path.abspath(__file__)), ".."))

from tools.oracle import plain_files

PROGRAM = os.path.join(os.path.dirname(os.path.abspath(__file__)), "..", "crates", "pcalc", "out", "pcalc")
RUNS = 7
RUN = 1
# coprime to the powers of ten, so that commits reach all keys if their number is one
SCATTER = 2_654_435_761
CYCLE = ("prepare", "resolve", "capture", "complete", "rest")


def key(number):
    return b"k%07d" % number


def base(pairs):
    """The text of a base of point 0, whose values are their keys."""
    head = plain_files.Base(RUN, 0, {}).text()[:-4] + pairs.to_bytes(4, "big")
    return head + b"".join(b"\0\x08\0\0%b\0\0\0\x08%b" % (key(number), key(number)) for number in range(pairs))


def part(point, pairs):
    """The text of the part of a point, with one of every eight keys."""
    head = plain_files.Part(RUN, [(point, point)], {}).text()[:-6]
    rest = point.to_bytes(4, "big") + plain_files.content_text(b"%08d" % point)
    return head + b"".join(b"\0\x08\0\0" + key(first + point % 8) + rest for first in range(0, pairs - 7, 8)) + bytes(2) + (pairs // 8).to_bytes(4, "big")


def entries(pairs, commits, parts, adds):
    """The entries of the log. The plain form takes bytes for a put, and a number for an add."""
    apart = max(1, commits // (parts + 1))
    for number in range(commits):
        yield plain_files.commit(1, {key(number * SCATTER % pairs): number if adds else number.to_bytes(8, "big")})
        point, rest = divmod(number + 1, apart)
        if rest == 0 and point <= parts:
            yield from (("token", phase, point) for phase in CYCLE)


def log(pairs, commits, parts, adds):
    bodies = (plain_files.body_text(plain_files.SECOND, entry) for entry in entries(pairs, commits, parts, adds))
    return plain_files.Log(RUN).text() + b"".join(len(body).to_bytes(4, "big") + body for body in bodies)


def write_folder(folder, pairs, commits, parts, adds):
    """Writes the files, and returns their bytes together."""
    files = {"base.pcb": base(pairs), "log.pcl": log(pairs, commits, parts, adds)}
    files.update(("%05d.pcp" % point, part(point, pairs)) for point in range(1, parts + 1))
    for name, text in files.items():
        with open(os.path.join(folder, name), "wb") as it:
            it.write(text)
    return sum(map(len, files.values()))


def run(folder, wanted):
    """The seconds and the peak of memory of one run, which must print these lines and then the pairs."""
    with tempfile.TemporaryFile() as output:
        measured = child.measure([PROGRAM, "recover", folder], output)
        output.seek(0)
        if output.read(len(wanted)) != wanted:
            sys.exit("these lines weren't printed: %r" % wanted)
    return measured


def main():
    words = sys.argv[1:]
    adds = words[:1] == ["--adds"]
    if len(words) != 3 + adds:
        sys.exit(__doc__)
    pairs, commits, parts = map(int, words[adds:])
    if not (1 <= pairs <= 10_000_000 and parts < commits):
        sys.exit("PAIRS must be 1 to 10,000,000, and PARTS fewer than COMMITS")
    if not os.access(PROGRAM, os.X_OK):
        sys.exit("%s is not there: build it first" % PROGRAM)
    records = pairs + commits + parts * (pairs // 8)
    wanted = b"point %d\nentries %d\npairs %d\n" % (parts, commits + len(CYCLE) * parts, pairs)
    with tempfile.TemporaryDirectory() as folder:
        size = write_folder(folder, pairs, commits, parts, adds)
        print("%d records, %.1f MB, %d runs" % (records, size / 1e6, RUNS), flush=True)
        runs = [run(folder, wanted) for _ in range(RUNS)]
    times = [seconds for seconds, _ in runs]
    rates = (records / max(times), records / min(times), size / max(times) / 1e6, size / min(times) / 1e6)
    print("%.3f to %.3f s, %.0f to %.0f records a second, %.1f to %.1f MB a second" % (min(times), max(times), *rates))
    figure = "recover: %d pairs, %d commits%s, %d parts" % (pairs, commits, " of adds" if adds else "", parts)
    history.note(figure, rates[1], "records a second")
    history.note(figure, max(peak for _, peak in runs) / 1e6, "MB")
    print("peak %.0f MB" % (max(peak for _, peak in runs) / 1e6))


if __name__ == "__main__":
    main()
