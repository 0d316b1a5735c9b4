"""Commands that look into files, for `try_programs.py`: the entries of logs, and files that are verified. The expected output comes from `plain_files.py`, which shares no code with the program."""

import os
import random

from tools.cases.case import FULL, Case, written
from tools.oracle import plain_files
from tools.oracle.plain_files import FIRST, SECOND, commit
from tools.oracle.plain_store import key_word, keyed, word

SEED = 66
# a put, a removal and adds, of keys of several spaces and of odd bytes; a commit of nothing; the phases of a point
ENTRIES = [
    ("commit", 3, [((0, b"k"), b"v"), ((0, b"n"), 2), ((0, b"-"), b""), ((0, b"k 1"), b"\xff")]),
    ("token", "prepare", 1),
    ("token", "resolve", 1),
    ("commit", 64, [((0, b"n"), -5), ((0, b"k"), None)]),
    ("commit", 1, []),
    ("token", "capture", 1),
]
SPACED = [("commit", 1, [((7, b"fig"), b"1"), ((65_535, b"\\"), None)])]


def write_words(key, change):
    """A write, as a line of a script spells it."""
    if change is None:
        return b"del " + key_word(key)
    if isinstance(change, int):
        return b"add %s %d" % (key_word(key), change)
    return b"put %s %s" % (key_word(key), word(change))


def entry_words(entry):
    if entry[0] == "token":
        return b"%s %d" % (entry[1].encode(), entry[2])
    return b"commit session %d" % entry[1] + b",".join(b" " + write_words(*write) for write in entry[2])


def shown(text, low=1, high=16_777_216):
    """What `pcalc log` prints of a log of these bytes, and its status."""
    try:
        log = plain_files.read_log(text)
    except plain_files.Refused as fault:
        return b"log %s byte %d\n" % (fault.name.encode(), 1 if text else 0), 4
    lines = [b"%d %s\n" % (number, entry_words(entry)) for number, entry in enumerate(log.entries, 1) if low <= number <= high]
    if log.fault:
        lines.append(b"log %s byte %d\n" % (log.fault.encode(), log.end() + 1))
    return b"".join(lines), 4 if log.fault else 0


def log_of(entries):
    log = plain_files.Log(1)
    log.entries = list(entries)
    return log


def texts():
    """Logs by description: whole ones, each prefix of one, ones with a byte changed, and bytes of other files."""
    whole = log_of(ENTRIES + SPACED).text(SECOND)
    yield "whole", whole
    yield "of the first format", log_of(ENTRIES).text(FIRST)
    yield "without entries", log_of([]).text()
    yield "a token out of order", log_of([("token", "resolve", 1)]).text()
    yield "bytes of a part", plain_files.Part(1, [(1, 1)], {}).text()
    for size in range(len(whole)):
        yield f"the first {size} bytes", whole[:size]
    chance = random.Random(SEED)
    for _ in range(60):
        at, byte = chance.randrange(len(whole)), chance.randrange(256)
        yield f"the byte {byte} at {at}", whole[:at] + bytes([byte]) + whole[at + 1 :]
    yield "long", log_of([commit(1, {b"key": b"value" * 13_000})] * 40).text()


def log_cases(folder):
    """Logs that are printed."""
    for name, text in texts():
        written(folder, "some.pcl", text)
        out, status = shown(text)
        yield Case(f"a log: {name}", ("log", "some.pcl"), status, out)
    whole = log_of(ENTRIES).text()
    written(folder, "some.pcl", whole)
    for low, high in ((1, 1), (2, 4), (6, 9), (7, 9), (4, 3)):
        yield Case(f"a log from {low} to {high}", ("log", "some.pcl", "--from", str(low), "--to", str(high)), 0, shown(whole, low, high)[0])
    yield Case("a log from its third entry", ("log", "some.pcl", "--from=3"), 0, shown(whole, 3)[0])
    yield Case("a log that isn't there", ("log", "none.pcl"), 1, err=b"pcalc: none.pcl: NoFile\n")
    yield Case("a folder for a log", ("log", "."), 1, err=b"pcalc: .: Device\n")
    yield Case("a log to a full output", ("log", "some.pcl"), 1, output=FULL)
    yield Case("a log to a full output, explained", ("log", "some.pcl", "--explain"), 1, output=FULL, err=b"  writing standard output: No space left on device (os error 28)\n")
    yield Case("a log from entry 0", ("log", "some.pcl", "--from", "0"), 2, err=[b"error: invalid value '0' for '--from <N>': 0 is not in 1..=16777216\n"])
    yield Case("no log", ("log",), 2, err=[b"error: the following required arguments were not provided:\n  <FILE>\n"])
    yield Case("log --help", ("log", "--help"), 0, parts=[b"<FILE>", b"--from <N>", b"--to <N>", b"[default: 16777216]"])

def found_in(kind, text):
    """What `pcalc verify` prints of a text of this kind after its name, and whether it is whole."""
    try:
        file = plain_files.read(kind, text)
    except plain_files.Refused as fault:
        return b" %s byte %d\n" % (fault.name.encode(), seen_with(kind, text, fault) if kind != "log" else 1 if text else 0), False
    if kind == "log" and file.fault:
        return b" %s byte %d\n" % (file.fault.encode(), file.end() + 1), False
    head = b" ok %s run %d " % (text[6:8], file.run)
    if kind == "base":
        return head + b"point %d pairs %d\n" % (file.point, len(file.pairs)), True
    if kind == "log":
        return head + b"entries %d\n" % len(file.entries), True
    points = ",".join("%d" % low if low == high else "%d-%d" % (low, high) for low, high in file.ranges)
    return head + b"points %s entries %d\n" % (points.encode(), len(file.entries)), True


def seen_with(kind, text, fault):
    """The size of the least prefix with another fault than Short, or of all bytes."""
    if fault.name == "Short":
        return len(text)
    for size in range(len(text) + 1):
        try:
            plain_files.read(kind, text[:size])
            return size
        except plain_files.Refused as other:
            if other.name != "Short":
                return size
    return len(text)


def sample(kind):
    if kind == "log":
        return log_of(ENTRIES).text()
    if kind == "part":
        return plain_files.Part(7, [(1, 2), (4, 4)], {(0, b"a"): (2, b"1"), (3, b"b"): (4, None)}).text()
    return plain_files.Base(7, 2, keyed({b"a": b"1", b"b": b"22"})).text()


def file_cases(folder):
    """Files that are read by their own readers: whole ones, each prefix of one, and ones with a byte changed."""
    chance = random.Random(SEED)
    for kind, name in (("base", "some.pcb"), ("part", "some.pcp"), ("log", "some.pcl")):
        whole = sample(kind)
        shown = [whole, *(whole[:size] for size in range(0, len(whole), 3))]
        for _ in range(25):
            at, byte = chance.randrange(len(whole)), chance.randrange(256)
            shown.append(whole[:at] + bytes([byte]) + whole[at + 1 :])
        for number, text in enumerate(shown):
            written(folder, name, text)
            line, is_whole = found_in(kind, text)
            yield Case(f"a {kind} that is verified, {number}", ("verify", name), 0 if is_whole else 4, name.encode() + line)


def verify_cases(folder):
    """Files and folders that are verified."""
    yield from file_cases(folder)
    base, part, log = (sample(kind) for kind in ("base", "part", "log"))
    written(folder, "a.pcb", base)
    written(folder, "b", part)
    yield Case("two files", ("verify", "a.pcb", "b"), 0, b"a.pcb" + found_in("base", base)[0] + b"b" + found_in("part", part)[0])
    yield Case("a file that isn't there", ("verify", "a.pcb", "none.pcp"), 4, b"a.pcb" + found_in("base", base)[0] + b"none.pcp NoFile\n")
    yield Case("a full output", ("verify", "a.pcb"), 1, output=FULL)
    yield Case("nothing to verify", ("verify",), 2, err=[b"error: the following required arguments were not provided:\n  <PATH>"])
    run = log_of([("token", "prepare", 1), ("token", "resolve", 1)])
    texts = {"base.pcb": plain_files.Base(1, 0, keyed({b"a": b"1"})).text(), "a.pcp": plain_files.Part(1, [(1, 1)], {}).text(), "log.pcl": run.text()}
    whole = b"".join(name.encode() + found_in(kind, texts[name])[0] for kind, name in (("base", "base.pcb"), ("part", "a.pcp"), ("log", "log.pcl")))
    for name, text in texts.items():
        written(folder, f"verified/{name}", text)
    summary = b"point 1\nentries 2\npairs 1\n"
    yield Case("a folder", ("verify", "verified"), 0, whole + summary)
    later = plain_files.Part(1, [(3, 3)], {}).text()
    written(folder, "verified/b.pcp", later)
    lines = whole.replace(b"log.pcl", b"b.pcp" + found_in("part", later)[0] + b"log.pcl")
    yield Case("a folder with a part that is skipped", ("verify", "verified"), 4, lines + b"point 1\nentries 2\nskipped b.pcp Gap 2\npairs 1\n")
    os.remove(os.path.join(folder, "verified", "b.pcp"))
    os.remove(os.path.join(folder, "verified", "log.pcl"))
    lines = whole[: whole.index(b"log.pcl")] + b"log.pcl NoFile\n"
    yield Case("a folder without its log", ("verify", "verified"), 4, lines + b"point 1\nentries 0\npairs 1\n")
    written(folder, "verified/log.pcl", run.text())
    written(folder, "verified/base.pcb", b"")
    lines = b"base.pcb Short byte 0\n" + whole[whole.index(b"a.pcp") :]
    yield Case("a folder without a whole base", ("verify", "verified"), 4, lines, err=b"pcalc: verified: Short\n")


def cases(folder):
    """Each case, whose files are written into the folder right before it."""
    yield from log_cases(folder)
    yield from verify_cases(folder)
