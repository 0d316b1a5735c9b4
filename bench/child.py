"""Runs a program, and returns how long it took and the peak of its own memory.

Linux counts the memory of the process that forks as the child's, until the child executes the program; for a child of Python that is Python's. So a
shell, which is small, starts the program and ends, and this process adopts the program as a child and waits for it. A peak below that of the shell,
some 2 MB, can't be measured.
"""

import ctypes
import os
import sys
import time

ADOPT_CHILDREN = 36  # PR_SET_CHILD_SUBREAPER of prctl
START = '"$@" >&3 3>&- & echo $!'


def start(words, output):
    """The number of a process that runs the words and writes to the file."""
    if ctypes.CDLL(None).prctl(ADOPT_CHILDREN, 1, 0, 0, 0) != 0:
        sys.exit("grandchildren can't be waited for on this system")
    reader, writer = os.pipe()
    actions = [(os.POSIX_SPAWN_DUP2, output.fileno(), 3), (os.POSIX_SPAWN_DUP2, writer, 1)]
    shell = os.posix_spawn("/bin/sh", ["sh", "-c", START, "sh", *words], os.environ, file_actions=actions)
    os.close(writer)
    with open(reader, encoding="ascii") as it:
        child = int(it.read())
    os.waitpid(shell, 0)
    return child


def used(words, output):
    """The seconds of one run, and its resource usage. Its output goes to the file. Exits if its status isn't 0."""
    began = time.monotonic()
    _, status, usage = os.wait4(start(words, output), 0)
    seconds = time.monotonic() - began
    if status != 0:
        sys.exit("the program ended with status %d" % os.waitstatus_to_exitcode(status))
    return seconds, usage


def measure(words, output):
    """The seconds and the peak of memory in bytes of one run, whose output goes to the file. Exits if its status isn't 0."""
    seconds, usage = used(words, output)
    return seconds, usage.ru_maxrss * 1024


def measure_processor(words, output):
    """The same with the seconds of processor time, including the system's."""
    _, usage = used(words, output)
    return usage.ru_utime + usage.ru_stime, usage.ru_maxrss * 1024
