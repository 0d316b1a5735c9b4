#!/usr/bin/env python3
"""Measures the library inside programs: transactions of one put over 1,000 keys, several runs in turn: how many commit a second, and the processor time
of one, the least and the greatest of each; and the sizes of the archive and of programs.

    bench/embedded.py [--archive FILE] [COMMITS]

By one thread of C and by four over `pcalc_threads.h` (`bench/embedded.c`), by C++ (`bench/embedded.cpp`) and by Python; in the same turns, for comparison,
SQLite in memory, LMDB without syncs and Berkeley DB with its log in memory, if their headers and libraries are installed (`bench/beside.c`), and
Python's `sqlite3` in memory. LMDB's folder is in memory too. FILE is the archive of crates/pc_c that is measured: by default the proved one if there is
one, otherwise one of `tools/build --library --unchecked`, which isn't proved, and makes no checks, like the proved one.
"""

import argparse
import os
import resource
import shutil
import subprocess
import sys
import tempfile
import time

ROOT = os.path.abspath(os.path.join(os.path.dirname(os.path.abspath(__file__)), ".."))
EMBEDDING, BENCH = os.path.join(ROOT, "embedding"), os.path.join(ROOT, "bench")
PROVED = os.path.join(ROOT, "crates", "pc_c", "out", "libpc_c.a")
RUNS, KEYS, THREADS, FEWER = 5, 1000, 4, 20
IN_MEMORY = "/dev/shm"
# By name the macro of `bench/beside.c`, the library, and the numbers of threads.
OTHERS = {"SQLite in memory": ("SQLITE", "sqlite3", (1,)), "LMDB without syncs": ("LMDB", "lmdb", (1, THREADS)), "Berkeley DB in memory": ("BDB", "db", (1, THREADS))}


def archive_in(room):
    """The archive that is measured if none is named."""
    if os.path.exists(PROVED):
        return PROVED
    subprocess.run((os.path.join(ROOT, "tools", "build"), "--library", "--unchecked", f"{room}/libpc_c.a"), check=True)
    return f"{room}/libpc_c.a"


def made(room, archive):
    """Builds the library of Python and the programs of C and C++."""
    subprocess.run(("make", "-s", "-f", os.path.join(EMBEDDING, "Makefile"), f"OUT={room}", f"ARCHIVE={archive}", f"{room}/libpcalc.so"), check=True)
    for compiler, source, name in (("cc", "embedded.c", "embedded"), ("c++", "embedded.cpp", "embedded_cpp")):
        subprocess.run((compiler, "-O2", "-pthread", "-I", os.path.join(EMBEDDING, "include"), os.path.join(BENCH, source), f"{room}/libpcalc.a", "-o", f"{room}/{name}"), check=True)


def others(room):
    """The programs over other stores that are installed, by name, with the numbers of their threads."""
    for name, (macro, library, threads) in OTHERS.items():
        program = os.path.join(room, macro)
        ran = subprocess.run(("cc", "-std=gnu11", "-O2", "-pthread", f"-DBESIDE_{macro}", os.path.join(BENCH, "beside.c"), f"-l{library}", "-o", program), capture_output=True)
        if ran.returncode == 0:
            yield name, program, threads
        else:
            print(f"{name}: not installed")


def spent():
    """The processor seconds of the programs that have ended."""
    used = resource.getrusage(resource.RUSAGE_CHILDREN)
    return used.ru_utime + used.ru_stime


def rate(commits, *command):
    """The rate of the commits of a program that prints how many nanoseconds one took, and the processor time of one in microseconds."""
    before = spent()
    nanoseconds = float(subprocess.run(command, stdout=subprocess.PIPE, check=True).stdout)
    return 1e9 / nanoseconds, 1e6 * (spent() - before) / commits


def rate_of_other(program, commits, threads):
    with tempfile.TemporaryDirectory(dir=IN_MEMORY if os.path.isdir(IN_MEMORY) else None) as folder:
        return rate(commits, program, folder, str(commits), str(threads))


def timed(commits, body):
    """The same for commits by this program."""
    began, before = time.perf_counter(), time.process_time()
    for turn in range(commits):
        body(b"%d" % (turn % KEYS), b"%d" % turn)
    return commits / (time.perf_counter() - began), 1e6 * (time.process_time() - before) / commits


def by_python(commits):
    import pcalc_embedded
    with pcalc_embedded.Store() as store:
        def commit(key, value):
            with store.transaction() as t:
                t.put(key, value)
        return timed(commits, commit)


def by_python_sqlite(commits):
    import sqlite3
    with sqlite3.connect(":memory:", isolation_level=None) as store:
        store.execute("create table pairs (key blob primary key, value blob) without rowid")

        def commit(key, value):
            store.execute("begin")
            store.execute("insert or replace into pairs values (?, ?)", (key, value))
            store.execute("commit")
        return timed(commits, commit)


def bodies(room, commits):
    """What is measured, by its name."""
    yield "C, one thread", lambda: rate(commits, f"{room}/embedded", str(commits))
    yield f"C, {THREADS} threads", lambda: rate(commits, f"{room}/embedded", str(commits), str(THREADS))
    yield "C++", lambda: rate(commits, f"{room}/embedded_cpp", str(commits))
    yield "Python", lambda: by_python(commits // FEWER)
    yield "Python, SQLite in memory", lambda: by_python_sqlite(commits // FEWER)
    for name, program, counts in others(room):
        for threads in counts:
            yield f"C, {threads} thread{'s' * (threads > 1)}, {name}", lambda program=program, threads=threads: rate_of_other(program, commits // FEWER, threads)


def main():
    asked = argparse.ArgumentParser(description=__doc__, formatter_class=argparse.RawDescriptionHelpFormatter)
    asked.add_argument("commits", nargs="?", metavar="COMMITS", type=int, default=1_000_000)
    asked.add_argument("--archive", metavar="FILE")
    given = asked.parse_args()
    with tempfile.TemporaryDirectory() as room:
        archive = os.path.abspath(given.archive or archive_in(room))
        made(room, archive)
        os.environ["PCALC_SO"] = f"{room}/libpcalc.so"
        sys.path.insert(0, os.path.join(EMBEDDING, "python"))
        measured = dict(bodies(room, given.commits))
        rates = {name: [] for name in measured}
        for _ in range(RUNS):
            for name, body in measured.items():
                rates[name].append(body())
        for name, them in rates.items():
            (least, most), (cheapest, dearest) = ((min(it), max(it)) for it in zip(*them))
            print(f"{name}: {least:,.0f} to {most:,.0f} commits a second, {cheapest:.2f} to {dearest:.2f} µs of processor time each")
        for name in ("embedded", "embedded_cpp"):
            subprocess.run(("strip", shutil.copy(f"{room}/{name}", f"{room}/stripped_{name}")), check=True)
        sizes = [os.path.getsize(f"{room}/{it}") for it in ("libpcalc.a", "libpcalc.so", "stripped_embedded", "stripped_embedded_cpp")]
        print("bytes: archive {:,}; shared object {:,}; stripped programs of C {:,}, of C++ {:,}".format(*sizes))


if __name__ == "__main__":
    main()
