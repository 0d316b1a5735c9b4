"""What drivers of cases share: a call of the program with its expected result, files and pipes for it, and what a folder has."""

import contextlib
import os
import threading
import time
import typing

LITTLE = 64 << 20
MANY = 256 << 20
FULL = "/dev/full"
# The line below the help of each command.
FAULTS = b"What each fault means: docs/MANUAL.md\n"
PATIENCE = 20


class Case(typing.NamedTuple):
    """A call of pcalc in the folder of the cases, and its expected result."""

    name: str
    words: tuple
    status: int
    out: bytes = b""
    # what the error stream must have; of a list each item, whatever is between them
    err: typing.Union[bytes, list] = b""
    # a list of what the output has, instead of `out`, if the words between are not fixed
    parts: typing.Optional[list] = None
    # it is run by a user without special rights
    is_other_user: bool = False
    # how many further threads it may start
    threads: typing.Optional[int] = None
    # how many bytes of memory it may have
    memory: typing.Optional[int] = None
    # how many files it may have open
    open_files: typing.Optional[int] = None
    # where the output goes, if not to the caller
    output: typing.Optional[str] = None
    # which of the descriptors 0, 1 and 2 are closed
    closed: tuple = ()
    # how many bytes a file may have; a longer one fails, and the program isn't killed
    file_size: typing.Optional[int] = None
    # files of the folder, and what each must have afterwards; None if it must not exist
    files: dict = {}
    # files of the folder, and a test of what each has afterwards
    checks: dict = {}


def written(folder, name, content):
    """Writes a file; a missing folder for it is made."""
    path = os.path.join(folder, name)
    os.makedirs(os.path.dirname(path), exist_ok=True)
    with open(path, "wb") as file:
        file.write(content)
    return path


def sparse(folder, name, size):
    with open(written(folder, name, b""), "wb") as file:
        file.truncate(size)


def piped(folder, name):
    """Makes a named pipe."""
    path = os.path.join(folder, name)
    os.mkfifo(path)
    return path


def opened_by_reader(path):
    """The named pipe, once it was opened for reading, or None if it isn't within `PATIENCE` seconds."""
    end = time.monotonic() + PATIENCE
    while time.monotonic() < end:
        with contextlib.suppress(OSError):
            return os.open(path, os.O_WRONLY | os.O_NONBLOCK)
        time.sleep(0.001)
    return None


def feed(path, content, before=None):
    """Writes to a named pipe once it was opened for reading, after `before` was called."""
    pipe = opened_by_reader(path)
    if pipe is None:
        return
    if before is not None:
        before()
    os.set_blocking(pipe, True)
    with contextlib.suppress(BrokenPipeError), os.fdopen(pipe, "wb") as it:
        it.write(content)


@contextlib.contextmanager
def concurrently(work):
    """Does the work on another thread while a case is run."""
    thread = threading.Thread(target=work, daemon=True)
    thread.start()
    yield
    thread.join()


def content_of(folder, name):
    """What a file of the folder has."""
    with open(os.path.join(folder, name), "rb") as it:
        return it.read()


def files_of(folder):
    """The base, the parts and the log of a folder, as `plain_files.recover` takes them."""
    parts = [(os.fsencode(name), content_of(folder, name)) for name in sorted(os.listdir(folder)) if name.endswith(".pcp")]
    return content_of(folder, "base.pcb"), parts, content_of(folder, "log.pcl")
