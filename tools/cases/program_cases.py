"""Cases of the built program, further to the stored examples, for `try_programs.py`: options, scripts and folders that can't be read, files
longer than a read, pipes, a full output, closed streams, and little memory.

The expected output was worked out by hand from docs/MANUAL.md and docs/FORMATS.md, or comes from `plain_files.py` and `plain_store.py`, which share no code with the program.
"""

import itertools
import os

from tools.cases.case import FAULTS, FULL, LITTLE, MANY, Case, concurrently, feed, piped, sparse, written
from tools.oracle import plain_files, plain_store
from tools.oracle.plain_files import FIRST, SECOND
from tools.oracle.plain_store import keyed

STREAMS = ("standard input", "standard output", "standard error")
MOST = b"\xff\xff\xff\xff"

BASE = plain_files.Base(1, 0, keyed({b"a": b"0"})).text()
PART = plain_files.Part(1, [(1, 1)], keyed({b"a": (1, b"1")})).text()
NO_LOG = b"point 0\nentries 0\npairs 1\na 0\n"
WITH_PART = b"point 1\nentries 0\npairs 1\na 1\n"


def usage_cases(folder):
    """Usage faults, help and the version."""
    written(folder, "empty.pcs", b"")
    for option, low, high in (("sessions", 1, 64), ("capacity", 1, 1_048_576), ("run", 1, 2_147_483_647)):
        for wrong in (low - 1, high + 1):
            expected = b"error: invalid value '%d' for '--%s <N>': %d is not in %d..=%d\n" % (wrong, option.encode(), wrong, low, high)
            yield Case(f"--{option} {wrong}", ("step", "empty.pcs", f"--{option}", str(wrong)), 2, err=[expected])
        for right in (low, high):
            yield Case(f"--{option} {right}", ("step", "empty.pcs", f"--{option}", str(right)), 0)
        yield Case(f"--{option} of no number", ("step", "empty.pcs", f"--{option}", "x"), 2, err=[b"error: invalid value 'x' for '--%s <N>'" % option.encode()])
        yield Case(f"--{option} without its number", ("step", "empty.pcs", f"--{option}"), 2, err=[b"error: a value is required for '--%s <N>'" % option.encode()])
    yield Case("an option that isn't there", ("step", "empty.pcs", "--frob"), 2, err=[b"error: unexpected argument '--frob' found\n"])
    yield Case("a command that isn't there", ("frob",), 2, err=[b"error: unrecognized subcommand 'frob'\n"])
    yield Case("no command", (), 2, err=[b"Usage: pcalc"])
    yield Case("no script", ("step",), 2, err=[b"error: the following required arguments were not provided:\n  <SCRIPT>\n"])
    yield Case("two scripts", ("step", "empty.pcs", "empty.pcs"), 2, err=[b"error: unexpected argument 'empty.pcs' found\n"])
    yield Case("no folder", ("recover",), 2, err=[b"error: the following required arguments were not provided:\n  <DIR>\n"])
    yield Case("an option twice", ("step", "empty.pcs", "--run", "1", "--run", "2"), 2, err=[b"error: the argument '--run <N>' cannot be used multiple times\n"])
    yield Case("an empty word for a folder", ("recover", ""), 2, err=[b"error: a value is required for '<DIR>' but none was supplied\n"])
    for words in (("\udcff",), ("step", "\udcff.pcs"), ("recover", "a\udcff"), ("run", "empty.pcs", "--dir", "\udcff")):
        yield Case("a word that isn't UTF-8", words, 2, err=[b"error: a word isn't UTF-8\n", b"Usage: pcalc"])
    yield Case("--version", ("--version",), 0, b"pcalc 1.0.0, formats 01 and 02\n")
    yield Case("--help", ("--help",), 0, parts=[b"Usage: pcalc", b"\n  step ", b"\n  run ", b"\n  collapse ", b"\n  recover ", b"\n  log ", b"\n  verify ", b"\n  serve "])
    options = [b"<SCRIPT>", b"--sessions <N>", b"[default: 8]", b"--capacity <N>", b"[default: 1024]", b"--run <N>", b"[default: 1]", FAULTS]
    yield Case("step --help", ("step", "--help"), 0, parts=options)
    yield Case("step -h", ("step", "-h"), 0, parts=options)
    yield Case("recover --help", ("recover", "--help"), 0, parts=[b"<DIR>", FAULTS])
    yield Case("serve --help", ("serve", "--help"), 0, parts=[b"<DIR>", b"--create", b"--sessions <N>", b"[default: 64]", b"--lag <N>", b"[default: 0]", b"--sync", b"--damaged", b"--keep <N>", b"[default: 1]", b"--import <OLD>", FAULTS])
    yield Case("no folder to serve", ("serve",), 2, err=[b"error: the following required arguments were not provided:\n  <DIR>\n"])
    yield Case("an import into an existing store", ("serve", "store", "--import", "old"), 2, err=[b"error: the following required arguments were not provided:\n  --create\n"])
    yield Case("an import with a run's number", ("serve", "store", "--create", "--import", "old", "--run", "2"), 2, err=[b"error: the argument '--import <OLD>' cannot be used with '--run <N>'\n"])
    yield Case("a store that keeps no generation", ("serve", "store", "--keep", "0"), 2, err=[b"error: invalid value '0' for '--keep <N>': 0 is not in 1..=9999999\n"])
    yield Case("a run's number for an existing store", ("serve", "store", "--run", "2"), 2, err=[b"error: the following required arguments were not provided:\n  --create\n"])
    yield Case("--help to a full output", ("--help",), 1, output=FULL)


def option_cases(folder):
    """What the options do, and their defaults."""
    written(folder, "sessions.pcs", b"begin 8\nbegin 9\nbegin 3\nbegin 4\n")
    yield Case("8 sessions", ("step", "sessions.pcs"), 0, b"begun 1\nrefused NoSession\nbegun 2\nbegun 3\n")
    yield Case("3 sessions", ("step", "--sessions", "3", "sessions.pcs"), 0, b"refused NoSession\nrefused NoSession\nbegun 1\nrefused NoSession\n")
    written(folder, "capacity.pcs", b"".join(b"base k%d 1\n" % number for number in range(1025)))
    yield Case("1024 keys", ("step", "capacity.pcs"), 0, b"ok\n" * 1024 + b"refused Full\n")
    yield Case("2 keys", ("step", "capacity.pcs", "--capacity=2"), 0, b"ok\n" * 2 + b"refused Full\n" * 1023)
    written(folder, "run.pcs", b"point\nseal\ncapture\ndone\ntext 1\n")
    expected = b"phase prepare 1\nphase resolve 1\nphase capture 1\npart 1 file 1 entries 0\ntext %s\n"
    for number, words in ((1, ()), (258, ("--run", "258"))):
        text = plain_files.Part(number, [(1, 1)], {}).text().hex().encode()
        yield Case(f"run {number}", ("step", *words, "run.pcs"), 0, expected % text)


def long_script():
    """Base lines, transactions in turn and two points, and what the plain store answers."""
    lines = [b"base k%d %d" % (number % 90, number) for number in range(200)]
    for number in range(2500):
        key = b"k%d" % (number * 7 % 100)
        lines += [b"begin 1", b"put 1 %s value%d" % (key, number), b"get 1 %s" % key, b"add 1 n%d %d" % (number % 3, (number % 11 - 5) * 10**18), b"commit 1"]
        if number in (1000, 2000):
            lines += [b"point", b"seal", b"capture", *[b"take"] * 104, b"done", b"rest", b"state 1"]
    script = b"".join(line + b"\n" for line in lines)
    run = plain_store.Script(8, 1024, 1)
    return script, b"".join(run.answer(line) for line in plain_store.lines_of(script))


ADDS = b"""begin 1
add 1 n 5
add 1 n -2
get 1 n
commit 1
begin 1
put 1 t x
add 1 t 1
add 1 n 9223372036854775807
add 1 n -4
commit 1
point
seal
capture
take
take
"""
ADDS_OUT = rb"""begun 1
sum 5
sum 3
= \x00\x00\x00\x00\x00\x00\x00\x03
committed 1
begun 2
ok
refused NotNumber
refused OutOfRange
sum -1
committed 2
phase prepare 1
phase resolve 1
phase capture 1
took n \xff\xff\xff\xff\xff\xff\xff\xff
took t x
"""


def add_cases(folder):
    """Scripts that add: which numbers may be added, and how far the sums go."""
    written(folder, "adds.pcs", ADDS)
    yield Case("adds of two transactions", ("step", "adds.pcs"), 0, ADDS_OUT)
    deltas = (b"-0", b"007", b"9223372036854775800", b"1", b"-9223372036854775808", b"-9223372036854775807", b"-1")
    written(folder, "ends.pcs", b"begin 1\n" + b"".join(b"add 1 n %s\n" % delta for delta in deltas) + b"get 1 n\n")
    sums = b"sum 0\nsum 7\nsum 9223372036854775807\nrefused OutOfRange\nsum -1\nsum -9223372036854775808\nrefused OutOfRange\n"
    yield Case("sums up to both ends", ("step", "ends.pcs"), 0, b"begun 1\n" + sums + b"= \\x80" + b"\\x00" * 7 + b"\n")
    for number, wrong in enumerate((b"+1", b"-", b"", b"1 2", b"00000000000000000001", b"9223372036854775808", b"-9223372036854775809")):
        written(folder, f"delta{number}.pcs", b"begin 1\nadd 1 n " + wrong + b"\nadd 1 n 1\n")
        yield Case("what is no number to add", ("step", f"delta{number}.pcs"), 3, b"begun 1\nbad line\nsum 1\n")


def script_cases(folder):
    """Scripts that can't be read, and long ones."""
    script, out = long_script()
    written(folder, "long.pcs", script)
    yield Case("a script of several reads", ("step", "long.pcs"), 0, out)
    value = b"v" * 65_535
    written(folder, "wide.pcs", b"base a " + value + b"\nbase b v" + value + b"\nbegin 1\nget 1 a\n")
    yield Case("a line longer than a read", ("step", "wide.pcs"), 0, b"ok\nrefused ValueLength\nbegun 1\n= " + value + b"\n")
    yield Case("a script that isn't there", ("step", "none.pcs"), 1, err=b"pcalc: none.pcs: NoFile\n")
    os.mkdir(os.path.join(folder, "folder.pcs"))
    yield Case("a script that is a folder", ("step", "folder.pcs"), 1, err=b"pcalc: folder.pcs: Device\n")
    os.chmod(written(folder, "closed.pcs", b"begin 1\n"), 0)
    yield Case("a script without permission", ("step", "closed.pcs"), 1, err=b"pcalc: closed.pcs: Device\n", is_other_user=True)
    written(folder, "one.pcs", b"begin 1\n")
    yield Case("a script whose output is full", ("step", "one.pcs"), 1, output=FULL)
    yield Case("a long script whose output is full", ("step", "long.pcs"), 1, output=FULL)
    sparse(folder, "large.pcs", MANY)
    yield Case("a script too large for memory", ("step", "large.pcs"), 1, err=b"pcalc: large.pcs: OutOfMemory\n", memory=LITTLE)


def folder_cases(folder):
    """Folders whose files can't be read."""
    written(folder, "no_log/base.pcb", BASE)
    yield Case("no log", ("recover", "no_log"), 0, NO_LOG)
    yield Case("a recovery whose output is full", ("recover", "no_log"), 1, output=FULL)
    yield Case("no folder of this name", ("recover", "none"), 1, err=b"pcalc: base.pcb: NoFile\n")
    yield Case("a folder that is a file", ("recover", "no_log/base.pcb"), 1, err=b"pcalc: base.pcb: Device\n")
    written(folder, "no_base/a.pcp", PART)
    yield Case("no base", ("recover", "no_base"), 1, err=b"pcalc: base.pcb: NoFile\n")
    written(folder, "wide_log/base.pcb", BASE)
    os.mkdir(os.path.join(folder, "wide_log", "log.pcl"))
    yield Case("a log that is a folder", ("recover", "wide_log"), 1, err=b"pcalc: log.pcl: Device\n")
    written(folder, "closed_log/base.pcb", BASE)
    os.chmod(written(folder, "closed_log/log.pcl", b""), 0)
    yield Case("a log without permission", ("recover", "closed_log"), 1, err=b"pcalc: log.pcl: Device\n", is_other_user=True)
    written(folder, "closed_part/base.pcb", BASE)
    written(folder, "closed_part/a.pcp", PART)
    os.chmod(written(folder, "closed_part/b.pcp", PART), 0)
    os.chmod(written(folder, "closed_part/log.pcl", b""), 0)
    yield Case("a part without permission before such a log", ("recover", "closed_part"), 1, err=b"pcalc: b.pcp: Device\n", is_other_user=True)
    written(folder, "lost_part/base.pcb", BASE)
    os.symlink("nowhere", os.path.join(folder, "lost_part", "a.pcp"))
    yield Case("a part that is a link to nothing", ("recover", "lost_part"), 1, err=b"pcalc: a.pcp: Device\n")
    written(folder, "unlisted/base.pcb", BASE)
    os.chmod(os.path.join(folder, "unlisted"), 0o311)
    yield Case("a folder that can't be listed", ("recover", "unlisted"), 1, err=b"pcalc: unlisted: Device\n", is_other_user=True)
    written(folder, "other_run/base.pcb", BASE)
    written(folder, "other_run/log.pcl", plain_files.Log(2).text())
    yield Case("a log of another run", ("recover", "other_run"), 1, err=b"pcalc: other_run: OtherRun\n")


def listed_cases(folder):
    """Which files of a folder are read, and in which order."""
    for name, text in (("c.pcp", PART[:-1]), ("b.pcp", PART), ("a.pcp", b"PCALCP03" + PART[8:]), ("B.pcp", PART + b"\0")):
        written(folder, "damaged/" + name, text)
    written(folder, "damaged/base.pcb", BASE)
    expected = b"point 1\nentries 0\nskipped B.pcp Trailing\nskipped a.pcp BadMagic\nskipped c.pcp Short\npairs 1\na 1\n"
    yield Case("damaged parts, in the order of their names", ("recover", "damaged"), 0, expected)
    written(folder, "others/base.pcb", BASE)
    written(folder, "others/a.pcp", PART)
    written(folder, "others/b.pcp.old", b"")
    written(folder, "others/c.pcp/part.pcp", b"")
    yield Case("files of other names, and a folder of a part's name", ("recover", "others"), 0, WITH_PART)
    yield Case("a folder's name with a slash", ("recover", "others/"), 0, WITH_PART)
    for name, text in (("base.pcb", BASE), ("a.pcp", PART), ("\udcff.txt", b""), ("\udcff.pcp.old", b"")):
        written(folder, "strange/" + name, text)
    yield Case("other files whose names are no UTF-8", ("recover", "strange"), 0, WITH_PART)
    for name in ("b\udcff.pcp", "\udc80.pcp"):
        written(folder, "strange/" + name, PART)
    expected = rb"pcalc: b\xff.pcp: Device" + b"\n" + rb"pcalc: \x80.pcp: Device" + b"\n"
    yield Case("parts whose names are no UTF-8", ("recover", "strange"), 0, WITH_PART, err=expected)
    written(folder, "ordered/base.pcb", BASE)
    for name in ("\U0001f600.pcp", "\uffff.pcp", "b.pcp", "B.pcp", ".pcp"):
        written(folder, "ordered/" + name, b"")
    names = [b".pcp", b"B.pcp", b"b.pcp", rb"\xef\xbf\xbf.pcp", rb"\xf0\x9f\x98\x80.pcp"]
    expected = b"point 0\nentries 0\n" + b"".join(b"skipped %s Short\n" % name for name in names) + b"pairs 1\na 0\n"
    yield Case("names in the order of their bytes", ("recover", "ordered"), 0, expected)
    written(folder, "crowded/base.pcb", BASE)
    for number in range(10_000):
        written(folder, f"crowded/{number:05d}{'x' * 200}.pcp", PART)
    for number in range(1_000):
        written(folder, f"crowded/{number:05d}.txt", b"")
    yield Case("a folder of 10,000 parts and 1,000 other files", ("recover", "crowded"), 0, WITH_PART)


def long_folder_cases(folder):
    """A base, a part and a log that are each longer than several reads."""
    pairs = keyed({b"key%05d" % number: b"value%d" % number for number in range(20_000)})
    entries = keyed({b"key%05d" % number: (1, None if number % 3 else b"of point 1") for number in range(0, 30_000, 2)})
    log = plain_files.Log(1)
    log.entries = [("token", "prepare", 1), ("token", "resolve", 1)]
    log.entries += [plain_files.commit(1, {b"key%05d" % (number * 11): b"of the log"}) for number in range(5_000)]
    for form in (FIRST, SECOND):
        files = plain_files.Base(1, 0, pairs).text(form), plain_files.Part(1, [(1, 1)], entries).text(form), log.text(form)
        for name, text in zip(("base.pcb", "a.pcp", "log.pcl"), files):
            written(folder, "long/" + name, text)
        expected = plain_files.recover(files[0], [(b"a.pcp", files[1])], files[2]).text()
        yield Case(f"files of several reads, of format {form.decode()}", ("recover", "long"), 0, expected)
    yield Case("the same, with a full output", ("recover", "long"), 1, output=FULL)


def longest_cases(folder):
    """Logs with an entry of the maximal length: 256 writes of the longest keys and values, in 02 up to the last space."""
    base = plain_files.Base(1, 0, {}).text()
    written(folder, "longest/base.pcb", base)
    for form, most, step in ((FIRST, 16_844_036, 0), (SECOND, 16_844_548, 257)):
        log = plain_files.Log(1)
        log.entries = [("commit", 64, [((number * step, bytes([number]) * 255), bytes([number]) * 65_535) for number in range(256)])]
        text = log.text(form)
        assert len(text) == 24 + most
        for length, what in ((len(text), "whole"), (len(text) - 1, "cut")):
            written(folder, "longest/log.pcl", text[:length])
            expected = plain_files.recover(base, [], text[:length]).text()
            yield Case(f"the longest entry of format {form.decode()}, {what}", ("recover", "longest"), 0, expected)


def memory_cases(folder):
    """Little memory: a file that announces more than it has makes the program take no memory for that, and one that has too much is reported."""
    head = bytes(7) + b"\1"
    written(folder, "great_part/base.pcb", BASE)
    written(folder, "great_log/base.pcb", BASE)
    for form, most in ((FIRST, 16_844_036), (SECOND, 16_844_548)):
        written(folder, "great_base/base.pcb", b"PCALCB" + form + head + bytes(4) + MOST)
        yield Case("a base that announces 4,294,967,295 pairs", ("recover", "great_base"), 1, err=b"pcalc: great_base: Short\n", memory=LITTLE)
        written(folder, "great_part/a.pcp", b"PCALCP" + form + head + MOST + b"\0\0\0\1")
        expected = b"point 0\nentries 0\nskipped a.pcp Short\npairs 1\na 0\n"
        yield Case("a part that announces 4,294,967,295 ranges", ("recover", "great_part"), 0, expected, memory=LITTLE)
        written(folder, "great_log/log.pcl", b"PCALCL" + form + head + bytes(4) + most.to_bytes(4, "big") + b"\1\1\1\0")
        yield Case(f"a log whose entry announces 256 writes in {most:,} bytes", ("recover", "great_log"), 0, NO_LOG, memory=LITTLE)
    written(folder, "large_log/base.pcb", BASE)
    sparse(folder, "large_log/log.pcl", MANY)
    yield Case("a log too large for memory", ("recover", "large_log"), 1, err=b"pcalc: log.pcl: OutOfMemory\n", memory=LITTLE)


def collapse_usage_cases(folder):
    """Usage faults of a collapse, and its help."""
    written(folder, "in.pcp", PART)
    expected = b"error: unexpected argument '--collapsers' found\n"
    yield Case("collapsers of a collapse", ("collapse", "out.pcp", "in.pcp", "--collapsers", "2"), 2, err=[expected], files={"out.pcp": None})
    expected = b"error: the following required arguments were not provided:\n  <IN>..."
    yield Case("no inputs", ("collapse", "out.pcp"), 2, err=[expected], files={"out.pcp": None})
    yield Case("no file to write", ("collapse",), 2, err=[b"  <OUT>\n  <IN>..."])
    expected = b"pcalc: in.pcp: an input has this name\n"
    yield Case("a file to write that is an input", ("collapse", "in.pcp", "none.pcp", "in.pcp"), 2, err=expected, files={"in.pcp": PART})
    options = [b"<OUT>", b"<IN>...", b"--explain", FAULTS]
    yield Case("collapse --help", ("collapse", "--help"), 0, parts=options)


POINTS = {
    "one.pcp": plain_files.Part(1, [(1, 1)], keyed({b"a": (1, b"1"), b"b": (1, b"1")})),
    "two.pcp": plain_files.Part(1, [(2, 2)], keyed({b"a": (2, b"2")})),
    "three.pcp": plain_files.Part(1, [(3, 3)], keyed({b"b": (3, None)})),
}
ALL = "5043414c43503032 0000000000000001 00000001 00000001 00000003 0001 0000 61 00000002 01 00000001 32 0001 0000 62 00000003 00 0000 00000002"
ALL = bytes.fromhex(ALL)


def collapse_cases(folder):
    """What collapses print and write."""
    for name, part in POINTS.items():
        written(folder, name, part.text())
    expected = b"points 1-3 entries 2\n"
    yield Case("three points", ("collapse", "all.pcp", "one.pcp", "two.pcp", "three.pcp"), 0, expected, files={"all.pcp": ALL})
    words = ("collapse", "again.pcp", "three.pcp", "one.pcp", "one.pcp", "two.pcp")
    yield Case("the same in another order", words, 0, expected, files={"again.pcp": ALL})
    yield Case("a joined file again", ("collapse", "again.pcp", "all.pcp", "two.pcp"), 0, expected, files={"again.pcp": ALL})
    one = POINTS["one.pcp"].text()
    yield Case("one file, over a longer one", ("collapse", "again.pcp", "one.pcp"), 0, b"points 1 entries 2\n", files={"again.pcp": one})
    expected = b"points 1,3 entries 2\n"
    gap = plain_files.join(POINTS["one.pcp"], POINTS["three.pcp"]).text()
    yield Case("points with a gap", ("collapse", "gap.pcp", "one.pcp", "three.pcp"), 0, expected, files={"gap.pcp": gap})
    yield Case("a collapse whose output is full", ("collapse", "full_out.pcp", "one.pcp", "two.pcp"), 1, output=FULL, files={"full_out.pcp": plain_files.join(*list(POINTS.values())[:2]).text()})
    names, joined = [], None
    for point in range(1, 65):
        entries = {b"key%04d" % (number * point % 3001): (point, None if number % 7 == 0 else b"%d" % point) for number in range(1000)}
        part = plain_files.Part(7, [(point, point)], keyed(entries))
        names.append(f"many/{point}.pcp")
        written(folder, names[-1], part.text(FIRST if point % 3 else SECOND))
        joined = part if joined is None else plain_files.join(joined, part)
    expected = b"points 1-64 entries %d\n" % len(joined.entries)
    yield Case("64 files of 1,000 entries", ("collapse", "many.pcp", *names), 0, expected, files={"many.pcp": joined.text()})
    yield from format_cases(folder)
    yield from wide_cases(folder)


def format_cases(folder):
    """Inputs of both formats in each mixture, and of keys of several spaces: the output is of the second."""
    expected = b"points 1-3 entries 2\n"
    for forms in itertools.product((FIRST, SECOND), repeat=len(POINTS)):
        names = [name.replace(".", f"{form.decode()}.") for name, form in zip(POINTS, forms)]
        for name, part, form in zip(names, POINTS.values(), forms):
            written(folder, name, part.text(form))
        yield Case(f"three points of the formats {b', '.join(forms).decode()}", ("collapse", "mixed.pcp", *names), 0, expected, files={"mixed.pcp": ALL})
    written(folder, "old.pcp", plain_files.join(*[*POINTS.values()][:2]).text(FIRST))
    new = plain_files.join(*[*POINTS.values()][:2]).text()
    yield Case("one file of 01", ("collapse", "new.pcp", "old.pcp"), 0, b"points 1-2 entries 2\n", files={"new.pcp": new})
    yield Case("the file made of it", ("collapse", "again.pcp", "new.pcp"), 0, b"points 1-2 entries 2\n", files={"again.pcp": new})
    names, joined = ["one01.pcp"], POINTS["one.pcp"]
    for point in (3, 1, 2):
        part = plain_files.Part(1, [(point, point)], {(space * point % 65_536, b"k"): (point, b"%d" % space) for space in (0, 1, 255, 256, 65_535)})
        names.append(f"space{point}.pcp")
        written(folder, names[-1], part.text())
        joined = plain_files.join(joined, part)
    expected = b"points 1-3 entries %d\n" % len(joined.entries)
    yield Case("keys of several spaces with a file of 01", ("collapse", "spaces.pcp", *names), 0, expected, files={"spaces.pcp": joined.text()})


def wide_cases(folder):
    """More inputs than a process may have open, and inputs too large for memory."""
    for number, most in ((512, 600), (2000, 600)):
        names, entries = [], {}
        for point in range(1, number + 1):
            part = plain_files.Part(1, [(point, point)], keyed({b"key%05d" % (some * number + point): (point, b"%d" % point) for some in range(10)}))
            entries.update(part.entries)
            names.append(f"few/{number}/{point}.pcp")
            written(folder, names[-1], part.text())
        joined = plain_files.Part(1, [(1, number)], entries).text()
        expected = b"points 1-%d entries %d\n" % (number, len(entries))
        yield Case(f"{number} files where {most} may be open", ("collapse", "few.pcp", *names), 0, expected, files={"few.pcp": joined}, open_files=most)
    names, entries = [], {}
    for point in (1, 2, 3):
        part = plain_files.Part(1, [(point, point)], keyed({b"key%04d" % (3 * some + point): (point, b"v" * 65_535) for some in range(350)}))
        entries.update(part.entries)
        names.append(f"great{point}.pcp")
        written(folder, names[-1], part.text())
    joined = plain_files.Part(1, [(1, 3)], entries).text()
    yield Case("inputs too large for memory", ("collapse", "great.pcp", *names), 0, b"points 1-3 entries 1050\n", files={"great.pcp": joined}, memory=LITTLE)


def pipe_cases(folder):
    """Inputs that are pipes, which can be opened only once."""
    one, two = POINTS["one.pcp"].text(), POINTS["two.pcp"].text()
    three = POINTS["three.pcp"].text()
    expected = b"points 1-3 entries 2\n"
    for name, part in POINTS.items():
        written(folder, name, part.text())
    for number in range(5):
        pipe = piped(folder, f"pipe{number}.pcp")
        with concurrently(lambda: feed(pipe, two)):
            yield Case("an input that is a pipe", ("collapse", "piped.pcp", "one.pcp", f"pipe{number}.pcp", "three.pcp"), 0, expected, files={"piped.pcp": ALL})
    wide = plain_files.Part(1, [(4, 4)], keyed({b"k": (4, b"v" * 65_535), b"l": (4, b"w" * 65_535)}))
    first, second = piped(folder, "first.pcp"), piped(folder, "second.pcp")

    def feed_both():
        feed(first, wide.text())
        feed(second, one)

    with concurrently(feed_both):
        joined = plain_files.join(POINTS["one.pcp"], wide).text()
        yield Case("two pipes, the first with more than a pipe holds", ("collapse", "piped.pcp", "first.pcp", "second.pcp"), 0, b"points 1,4 entries 4\n", files={"piped.pcp": joined})
    pipe = piped(folder, "cut_pipe.pcp")
    with concurrently(lambda: feed(pipe, three[:-1])):
        yield Case("a pipe with a truncated part", ("collapse", "short.pcp", "cut_pipe.pcp"), 1, err=b"pcalc: short.pcp: Short\n", files={"short.pcp": None})
    script, workload = piped(folder, "pipe.pcs"), piped(folder, "pipe.pcw")
    with concurrently(lambda: feed(script, b"begin 1\n")):
        yield Case("a script that is a pipe", ("step", "pipe.pcs"), 0, b"begun 1\n")
    with concurrently(lambda: feed(workload, b"client 1\nfill a 3 x\n")):
        yield Case("a workload that is a pipe", ("run", "pipe.pcw"), 0, b"commits 3\ngave up 0\npoints 0\ncollapsed none\ncheck ok\n")
    yield from folder_pipe_cases(folder)


def folder_pipe_cases(folder):
    """Folders in which one file is a pipe: the base and the log are read to their ends, and one with a part's name is skipped."""
    log = plain_files.Log(1)
    log.entries = [("token", "prepare", 1), ("token", "resolve", 1), plain_files.commit(1, {b"z": b"1"})]
    texts = {"base.pcb": BASE, "a.pcp": PART, "log.pcl": log.text()}
    expected = plain_files.recover(BASE, [(b"a.pcp", PART)], log.text()).text()
    for name, text in texts.items():
        for other in texts.keys() - {name}:
            written(folder, f"pipe_{name}/{other}", texts[other])
        pipe = piped(folder, f"pipe_{name}/{name}")
        if name == "a.pcp":
            os.symlink("a.pcp", os.path.join(folder, f"pipe_{name}", "link.pcp"))
            os.symlink("/dev/zero", os.path.join(folder, f"pipe_{name}", "zeros.pcp"))
            yield Case("a folder with a pipe, a link to it and a device of parts' names", ("recover", f"pipe_{name}"), 0, plain_files.recover(BASE, [], log.text()).text())
            continue
        with concurrently(lambda: feed(pipe, text)):
            yield Case(f"a folder whose {name} is a pipe", ("recover", f"pipe_{name}"), 0, expected)


def closed_cases(folder):
    """Closed standard streams: what goes to them goes into no file, and the rest is as usual."""
    for name, part in POINTS.items():
        written(folder, name, part.text())
    written(folder, "one.pcs", b"begin 1\n")
    written(folder, "one.pcw", b"points 1\nclient 1\nfill a 3 x\n")
    written(folder, "bad.pcw", b"frob\n")
    written(folder, "no_log/base.pcb", BASE)
    empty = plain_files.Base(1, 0, {}).text()
    ran = b"commits 3\ngave up 0\npoints 1\ncollapsed 1 entries 3\nstate pairs 3\ncheck ok\n"
    for closed in ((0,), (1,), (2,), (0, 1), (0, 2), (1, 2), (0, 1, 2)):
        name = ", ".join(STREAMS[number] for number in closed) + " closed"
        has_out, has_err = 1 not in closed, 2 not in closed

        def case(words, status, out=b"", err=b"", files=None):
            """A case with this status if its output is open, and otherwise with status 1."""
            return Case(name, words, status if has_out or status == 2 else 1, out if has_out else b"", err if has_err else b"", closed=closed, files=files or {})

        yield case(("step", "one.pcs"), 0, b"begun 1\n", files={"one.pcs": b"begin 1\n"})
        folder_name = "ran" + "".join(map(str, closed))
        os.makedirs(os.path.join(folder, folder_name))
        yield case(("run", "one.pcw", "--dir", folder_name), 0, ran, files={folder_name + "/base.pcb": empty})
        yield case(("run", "bad.pcw"), 3, b"bad line 1\n", files={"bad.pcw": b"frob\n"})
        yield case(("collapse", "closed_out.pcp", "one.pcp", "two.pcp", "three.pcp"), 0, b"points 1-3 entries 2\n", files={"closed_out.pcp": ALL})
        os.remove(os.path.join(folder, "closed_out.pcp"))
        yield case(("recover", "no_log"), 0, NO_LOG, files={"no_log/base.pcb": BASE})
        yield case(("frob",), 2, err=[b"error: unrecognized subcommand 'frob'\n"])
        for words in (("step", "none.pcs"), ("run", "none.pcw")):
            yield case(words, 1, err=b"pcalc: %s: NoFile\n" % words[1].encode())
        yield case(("collapse", "none.pcp/out.pcp", "one.pcp"), 1, err=b"pcalc: none.pcp/out.pcp: Device\n", files={"one.pcp": POINTS["one.pcp"].text()})
        yield case(("recover", "nowhere"), 1, err=b"pcalc: base.pcb: NoFile\n")


def collapse_fault_cases(folder):
    """Collapses that fail: the fault reported, and what the file has afterwards."""

    def fault(name, words, expected, files):
        return Case(name, ("collapse", *words), 1, err=expected, files=files)

    # A file gets its name once it is whole: a fault leaves none, and what was there stays.
    lost, begun = {"lost.pcp": None, "lost.pcp.new": None}, {"begun.pcp": None, "begun.pcp.new": None}
    for name, part in POINTS.items():
        written(folder, name, part.text())
    written(folder, "run.pcp", plain_files.Part(2, [(1, 1)], {}).text())
    written(folder, "clash.pcp", plain_files.Part(1, [(1, 1)], keyed({b"b": (1, b"2")})).text())
    written(folder, "cut.pcp", ALL[:-1])
    written(folder, "more.pcp", ALL + b"\0")
    yield fault("another run", ("lost.pcp", "one.pcp", "run.pcp"), b"pcalc: lost.pcp: OtherRun\n", lost)
    yield fault("files that differ", ("begun.pcp", "one.pcp", "clash.pcp"), b"pcalc: begun.pcp: Conflict\n", begun)
    yield fault("a truncated file", ("begun.pcp", "one.pcp", "cut.pcp", "more.pcp"), b"pcalc: begun.pcp: Short\n", begun)
    yield fault("a longer file, and a truncated one", ("begun.pcp", "one.pcp", "more.pcp", "cut.pcp"), b"pcalc: begun.pcp: Trailing\n", begun)
    yield fault("a file that isn't there", ("lost.pcp", "one.pcp", "none.pcp"), b"pcalc: none.pcp: NoFile\n", lost)
    yield fault("a file that isn't there, after a longer one", ("lost.pcp", "more.pcp", "none.pcp"), b"pcalc: none.pcp: NoFile\n", lost)
    written(folder, "magic.pcp", b"PCALCP03" + ALL[8:])
    yield fault("a file of another kind, after a longer one", ("lost.pcp", "more.pcp", "magic.pcp"), b"pcalc: lost.pcp: BadMagic\n", lost)
    yield fault("a file of another kind, before one of another run", ("lost.pcp", "one.pcp", "run.pcp", "magic.pcp"), b"pcalc: lost.pcp: BadMagic\n", lost)
    yield fault("a file that isn't there, before a longer one", ("lost.pcp", "none.pcp", "more.pcp"), b"pcalc: none.pcp: NoFile\n", lost)
    written(folder, "kept.pcp", PART)
    kept = {"kept.pcp": PART, "kept.pcp.new": None}
    yield fault("a refusal with an existing file", ("kept.pcp", "one.pcp", "run.pcp"), b"pcalc: kept.pcp: OtherRun\n", kept)
    yield fault("a later refusal with an existing file", ("kept.pcp", "one.pcp", "clash.pcp"), b"pcalc: kept.pcp: Conflict\n", kept)
    os.makedirs(os.path.join(folder, "folder.pcp"))
    yield fault("an input that is a folder", ("lost.pcp", "one.pcp", "folder.pcp"), b"pcalc: lost.pcp: Device\n", lost)
    yield fault("a file to write that is a folder", ("folder.pcp", "one.pcp"), b"pcalc: folder.pcp: Device\n", {})
    yield fault("a file to write in no folder", ("none/out.pcp", "one.pcp"), b"pcalc: none/out.pcp: Device\n", {"none/out.pcp": None})
    yield fault("a file to write on a full device", (FULL, "one.pcp"), b"pcalc: /dev/full: Device\n", {})
    os.chmod(written(folder, "closed.pcp", ALL), 0)
    yield Case("an input without permission", ("collapse", "lost.pcp", "one.pcp", "closed.pcp"), 1, err=b"pcalc: closed.pcp: Device\n", is_other_user=True, files=lost)


def place_cases(folder):
    """Joined files whose name is taken: an input by another path, a file that is no part, a leftover, a link."""
    one, two = POINTS["one.pcp"].text(), POINTS["two.pcp"].text()
    joined, expected = plain_files.join(POINTS["one.pcp"], POINTS["two.pcp"]).text(), b"points 1-2 entries 2\n"
    os.makedirs(os.path.join(folder, "places"))

    def put(**others):
        for name, text in {"one.pcp": one, "two.pcp": two, **others}.items():
            written(folder, f"places/{name}", text)

    inputs = ("places/one.pcp", "places/two.pcp")
    for what, path in (("by another path", "./places/one.pcp"), ("by its whole path", os.path.join(folder, "places", "one.pcp"))):
        put()
        yield Case(f"an input {what} is the file to write", ("collapse", path, *inputs), 0, expected, files={"places/one.pcp": joined, "places/two.pcp": two})
    put()
    os.symlink("one.pcp", os.path.join(folder, "places", "link.pcp"))
    yield Case("a link to an input is the file to write", ("collapse", "places/link.pcp", *inputs), 0, expected, files={"places/link.pcp": joined, "places/one.pcp": one})
    os.link(os.path.join(folder, "places", "one.pcp"), os.path.join(folder, "places", "hard.pcp"))
    yield Case("a hard link to an input is the file to write", ("collapse", "places/hard.pcp", *inputs), 0, expected, files={"places/hard.pcp": joined, "places/one.pcp": one})
    written(folder, "precious", b"as it was")
    os.symlink("../precious", os.path.join(folder, "places", "out.pcp.new"))
    files = {"places/out.pcp": joined, "precious": b"as it was", "places/out.pcp.new1": None}
    yield Case("a link with the name of the new file", ("collapse", "places/out.pcp", *inputs), 0, expected, files=files)
    log = plain_files.Log(1).text()
    for name, text in (("base.pcb", BASE), ("log.pcl", log), ("notes", b"as it was"), ("few", b"PCALC")):
        put(**{name: text})
        err = f"pcalc: places/{name}: a file that is no part has this name\n".encode()
        yield Case("a file that is no part is the file to write", ("collapse", f"places/{name}", *inputs), 2, err=err, files={f"places/{name}": text})
    put(empty=b"")
    yield Case("an empty file is the file to write", ("collapse", "places/empty", *inputs), 0, expected, files={"places/empty": joined})
    yield Case("a file that exceeds its allowed size", ("collapse", "places/small.pcp", *inputs), 1, err=b"pcalc: places/small.pcp: Device\n", file_size=20, files={"places/small.pcp": None, "places/small.pcp.new": None})


def explained_cases(folder):
    """What `--explain` adds to a fault: the file, what was done with it, where, and the system's own words."""
    def case(name, words, status, expected, **more):
        return Case(name, (*words, "--explain"), status, err=expected, **more)

    for name, part in POINTS.items():
        written(folder, name, part.text())
    yield case("no script", ("step", "none.pcs"), 1, b"pcalc: none.pcs: NoFile\n  opening none.pcs: No such file or directory (os error 2)\n")
    written(folder, "bad.pcs", b"# as it is\nbegin 1\nfrob\nput 1 \\q x\nget 1\n")
    reasons = [b"bad.pcs:3: the first word names no command\n", b"bad.pcs:4: the third word is no key\n", b"bad.pcs:5: "]
    yield case("bad lines of a script", ("step", "bad.pcs"), 3, reasons, out=b"begun 1\nbad line\nbad line\nbad line\n")
    yield case("a full output", ("step", "bad.pcs"), 1, [b"  writing standard output: No space left on device (os error 28)\n"], output=FULL)
    damaged = bytearray(POINTS["two.pcp"].text())
    damaged[37] = 9
    written(folder, "damaged.pcp", bytes(damaged))
    yield case("a damaged input", ("collapse", "out.pcp", "one.pcp", "damaged.pcp"), 1, b"pcalc: out.pcp: BadKind\n  reading damaged.pcp, byte 38: a kind that there is none of\n")
    written(folder, "run.pcp", plain_files.Part(2, [(1, 1)], {}).text())
    yield case("an input of another run", ("collapse", "out.pcp", "one.pcp", "run.pcp"), 1, b"pcalc: out.pcp: OtherRun\n  reading run.pcp: of another run than the file before it\n")
    yield case("no place for the file", ("collapse", "nowhere/out.pcp", "one.pcp"), 1, b"pcalc: nowhere/out.pcp: Device\n  making nowhere/out.pcp: No such file or directory (os error 2)\n")
    written(folder, "torn/base.pcb", BASE[:-1])
    written(folder, "torn/a.pcp", PART)
    expected = b"pcalc: torn: Short\n  reading torn/base.pcb, byte %d: the bytes end within a field\n  beside it stands a.pcp\n" % (len(BASE) - 1)
    yield case("a truncated base", ("recover", "torn"), 1, expected)
    yield case("no folder", ("recover", "nowhere"), 1, b"pcalc: base.pcb: NoFile\n  opening nowhere/base.pcb: No such file or directory (os error 2)\n")


def lacking_cases(folder):
    """Folders that lack something: what `--explain` says of it, and the status of a strict recovery."""
    log = plain_files.Log(1)
    log.entries = [("token", "prepare", 1), ("token", "resolve", 1), plain_files.commit(1, {b"z": b"1"})]
    text = log.text()
    lacks = [
        ("whole", PART, text, 0, b""),
        ("no log", PART, None, 4, b"  lacking0/log.pcl isn't there: commits that only it had are lost\n"),
        ("a log of no bytes", PART, b"", 4, b"  lacking0/log.pcl ends within its header: commits that only it had are lost\n"),
        ("a truncated log", PART, text[:-1], 4, [b"  reading lacking0/log.pcl, the entry that begins with byte ", b": the bytes end within a field\n"]),
        ("a log that ends before its point", PART, plain_files.Log(1).text(), 4, b"  lacking0/log.pcl ends before the token of the recovered point: none of its 0 entries is used\n"),
        ("a part that is skipped", PART[:-1], text, 4, [b"  reading lacking0/a.pcp, byte ", b": the bytes end within a field\n"]),
    ]
    for name, part, log_text, strict, expected in lacks:
        written(folder, "lacking0/base.pcb", BASE)
        written(folder, "lacking0/a.pcp", part)
        path = os.path.join(folder, "lacking0", "log.pcl")
        if log_text is None:
            os.remove(path)
        else:
            written(folder, "lacking0/log.pcl", log_text)
        out = plain_files.recover(BASE, [(b"a.pcp", part)], log_text or b"").text()
        yield Case(f"recovered: {name}", ("recover", "lacking0"), 0, out)
        yield Case(f"strictly recovered: {name}", ("recover", "lacking0", "--strict"), strict, out)
        yield Case(f"explained: {name}", ("recover", "lacking0", "--explain"), 0, out, err=expected)


def cases(folder):
    """Each case, whose files are written into the folder right before it."""
    together = (usage_cases, option_cases, add_cases, script_cases, folder_cases, listed_cases, long_folder_cases, longest_cases, memory_cases)
    for some in (*together, collapse_usage_cases, collapse_cases, pipe_cases, closed_cases, collapse_fault_cases, place_cases, explained_cases, lacking_cases):
        yield from some(folder)
