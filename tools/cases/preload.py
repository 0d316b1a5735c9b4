"""Libraries that are loaded before the C library, into a program under test: they refuse a growth of memory, kill at a call, or note flushes
to the disk. They are built by the compiler of the kit, and need no header and no library."""

import os
import shutil
import subprocess

FOLDER = os.path.join(os.path.dirname(os.path.abspath(__file__)), "preload")
REFUSE, KILL, NOTE = (os.path.join(FOLDER, name) for name in ("refuse.c", "kill.c", "note.c"))
FLAGS = ("-shared", "-fPIC", "-O1", "-fno-builtin", "-nostdlib", "-Wall", "-Wextra", "-Werror")


def built(folder, source):
    """The library of this source, in the folder; raises OSError if it can't be built."""
    command = shutil.which("rt")
    if command is None:
        raise OSError("the command rt, next to which the kit's compiler is, is not there")
    kit = os.path.join(os.path.dirname(os.path.dirname(os.path.realpath(command))), "toolchain", "bin")
    library = os.path.join(folder, "made.so")
    words = (os.path.join(kit, "clang"), *FLAGS, "--ld-path=" + os.path.join(kit, "ld.lld"), "-o", library, source)
    ran = subprocess.run(words, stdin=subprocess.DEVNULL, stderr=subprocess.PIPE)
    if ran.returncode != 0:
        raise OSError(ran.stderr.decode(errors="replace"))
    return library
