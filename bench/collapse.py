#!/usr/bin/env python3
"""Measures `pcalc collapse`, and a program in C++ that holds the same files in memory and joins them by a heap: processor time and peak of memory.

    bench/collapse.py 64 20000       64 files, each of one point with 20,000 entries, with keys of 8 bytes and values of 4, 16 and 1,000 in turn: half of a
                                     file's keys are in the next one too
    bench/collapse.py 64 20000 16    the same with values of 16 bytes only
    bench/collapse.py --first 64 20000    the same with files of format 01, which are joined into one of 02

Build the program first, by `rt run -- --version` in the folder crates/pcalc. The other one (`bench/merge.cpp`) is built here, by `c++`; without `c++` only
pcalc is measured. Both run in turn, and must write the same bytes.
"""

import os
import shutil
import subprocess
import sys
import tempfile

import child
import history

BENCH = os.path.dirname(os.path.abspath(__file__))
PROGRAM = os.environ.get("PCALC", os.path.join(BENCH, "..", "crates", "pcalc", "out", "pcalc"))
RUNS = 5
VALUES = (4, 16, 1000)


def part(point, entries, size, is_first):
    """The text of a point's part, with ascending keys: the first one's number is half a file's keys above that of the point before."""
    magic, before = (b"PCALCP01", b"\0\x08") if is_first else (b"PCALCP02", b"\0\x08\0\0")
    head = magic + (1).to_bytes(8, "big") + (1).to_bytes(4, "big") + 2 * point.to_bytes(4, "big")
    first = point * (entries // 2)
    content = b"\1" + size.to_bytes(4, "big") + (b"%08d" % point * (size // 8 + 1))[:size]
    lines = [before + b"%08d" % (first + number) + point.to_bytes(4, "big") + content for number in range(entries)]
    return head + b"".join(lines) + bytes(2) + entries.to_bytes(4, "big")


def built(folder):
    """The program in C++, if there is a compiler."""
    if shutil.which("c++") is None:
        return None
    program = os.path.join(folder, "merge")
    subprocess.run(["c++", "-O2", "-std=c++17", "-o", program, os.path.join(BENCH, "merge.cpp")], check=True)
    return program


def written(folder, files, entries, size, is_first):
    """Writes the files, and returns their names and their bytes together."""
    names, total = [], 0
    for point in range(1, files + 1):
        names.append(os.path.join(folder, "%05d.pcp" % point))
        text = part(point, entries, size, is_first)
        total += len(text)
        with open(names[-1], "wb") as it:
            it.write(text)
    return names, total


def measured(folder, programs, files, entries, size, is_first):
    """Runs the programs in turn over files with values of `size` bytes, and prints what each took."""
    names, total = written(folder, files, entries, size, is_first)
    what = "%d files%s of %d entries" % (files, " of format 01" if is_first else "", entries)
    print("%s with values of %d bytes, %.1f MB, %d runs" % (what, size, total / 1e6, RUNS))
    runs, texts = {name: [] for name, _ in programs}, set()
    for _ in range(RUNS):
        for name, words in programs:
            target = os.path.join(folder, "all.pcp")
            with tempfile.TemporaryFile() as output:
                runs[name].append(child.measure_processor([*words, target, *names], output))
            with open(target, "rb") as it:
                texts.add(hash(it.read()))
    if len(texts) != 1:
        sys.exit("they wrote different bytes")
    for name, took in runs.items():
        seconds, peak = [some for some, _ in took], max(most for _, most in took)
        history.note("%s: %s, values of %d bytes" % (name, what, size), total / min(seconds) / 1e6, "MB a second of processor time")
        print("%s: %.3f to %.3f s of processor time, %.0f to %.0f MB a second, peak %.1f MB" % (name, min(seconds), max(seconds), total / max(seconds) / 1e6, total / min(seconds) / 1e6, peak / 1e6))
    for name in names:
        os.remove(name)


def main():
    words = sys.argv[1:]
    is_first = words[:1] == ["--first"]
    files, entries, *sizes = [int(some) for some in words[is_first:]]
    with tempfile.TemporaryDirectory() as folder:
        heap = built(folder)
        programs = [("collapse", [PROGRAM, "collapse"])] + ([("C++ heap", [heap])] if heap else [])
        for size in sizes or VALUES:
            measured(folder, programs, files, entries, size, is_first)


if __name__ == "__main__":
    main()
