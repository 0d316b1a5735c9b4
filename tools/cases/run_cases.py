"""Workloads that the built program runs on threads, for `try_programs.py`: what it prints and reports, and what it leaves in the folder, on which `pcalc recover`
is then run: whole, with its log truncated, and without each of its parts.

The expected output was worked out by hand from docs/MANUAL.md and docs/FORMATS.md, or comes from `plain_files.py`, which shares no code with the program. How the
threads interleave isn't known beforehand; what is compared is the same for every order.
"""

import os

from tools.cases.case import FAULTS, FULL, LITTLE, MANY, Case, concurrently, content_of, feed, files_of, piped, sparse, written
from tools.oracle import plain_files, plain_store
from tools.oracle.plain_store import key_word, keyed

EMPTY = plain_files.Base(1, 0, {}).text()
FOUR = b"points 8\n" + b"".join(b"client %d\nfill %s 1000 x\n" % (number + 1, name) for number, name in enumerate((b"a", b"b", b"c", b"d")))
FOUR_OUT = b"commits 4000\ngave up 0\npoints 8\ncollapsed 1-8 entries 4000\nstate pairs 4000\ncheck ok\n"
# The same keys, written twenty times: a run long enough to show points that begin too early.
AGAIN = b"points 8\n" + b"".join(b"client %d\n" % (number + 1) + b"fill %s 1000 x\n" % name * 20 for number, name in enumerate((b"a", b"b", b"c", b"d")))
AGAIN_OUT = FOUR_OUT.replace(b"commits 4000", b"commits 80000")
ONE = b"points 1\nclient 1\nfill a 3 x\n"
ONE_OUT = b"commits 3\ngave up 0\npoints 1\ncollapsed 1 entries 3\nstate pairs 3\ncheck ok\n"
NOTHING_OUT = b"commits 0\ngave up 0\npoints 0\ncollapsed none\ncheck ok\n"
CUTS = 50
CONTENDED = 3_200
# Most of its 640,000,000 transactions find no room for their keys, so its log is short.
LONG = b"".join(b"client %d\n" % client + b"".join(b"fill c%df%d 1000000 x\n" % (client, place) for place in range(10)) for client in range(1, 65))

# The options of a run that take a number: its name in the help, and its range.
RANGES = [("lag", "N", 0, 16_777_216), ("every", "COMMITS", 1, 1_000_000_000), ("run", "N", 1, 2_147_483_647), ("capacity", "N", 1, 1_048_576)]

NOTHING_REPORTED = b"commits a second 0\ndeaths 0\nlongest wait 0 ms\nlongest pause 0 ms\n"
HEADING = b"# hundredths of a second from the begin of the run; commits in this one; the phase at its end"
PHASES = {phase.encode() for phase in plain_files.PHASES}

# Words that are neither a key nor a prefix.
NO_KEYS = [rb"\s0:k", rb"\s65536:k", rb"\s07:k", rb"\s7", rb"\s7:", rb"\s:k", rb"\s7:\s8:k", rb"k\s7:k", rb"\s7:\x4", rb"\s100000:k"]
# Workloads, each with the number of its first bad line.
BAD_LINES = [
    (b"frob\n", 1),
    (b"points 1001\n", 1),
    (b"points\n", 1),
    (b"points 1 2\n", 1),
    (b"points 1\npoints 1\n", 2),
    (b"client 1\npoints 1\n", 2),
    (b"client 0\n", 1),
    (b"client 65\n", 1),
    (b"client 0000000001\n", 1),
    (b"# a comment\n\nclient 1\nclient 2\nclient 1\n", 5),
    (b"txn\nend\n", 1),
    (b"fill a 1 x\n", 1),
    (b"client 1\nget a\n", 2),
    (b"client 1\nend\n", 2),
    (b"client 1\ntxn\nget a\n", 2),
    (b"client 1\ntxn\nget a\nclient 2\n", 2),
    (b"client 1\ntxn\ntxn\nend\n", 2),
    (b"client 1\ntxn\nfill a 1 x\nend\n", 2),
    (b"client 1\ntxn\nfrob\nend\n", 3),
    (b"client 1\ntxn\nput - x\nend\n", 3),
    (b"client 1\ntxn\nget " + b"k" * 256 + b"\nend\n", 3),
    (b"client 1\ntxn\nput k " + b"v" * 65_536 + b"\nend\n", 3),
    (b"client 1\ntxn\nput k \\x4\nend\n", 3),
    (b"client 1\nadd k 1\n", 2),
    (b"client 1\ntxn\nadd k\nend\n", 3),
    (b"client 1\ntxn\nadd k 1\nadd k +1\nend\n", 4),
    (b"client 1\ntxn\nadd k -\nend\n", 3),
    (b"client 1\ntxn\nadd k 9223372036854775807\nadd k -9223372036854775808\nadd k 9223372036854775808\nend\n", 5),
    (b"client 1\ntxn\nadd k 1 1\nend\n", 3),
    (b"client 1\ntxn\nadd - 1\nend\n", 3),
    (b"client 1\ntxn\nadd " + b"k" * 256 + b" 1\nend\n", 3),
    (b"client 1\nfill " + b"k" * 250 + b" 1 x\n", 2),
    (b"client 1\nfill a 0 x\n", 2),
    (b"client 1\nfill a 1000001 x\n", 2),
    (b"client 1\nfill a 1\n", 2),
    (b"client 1\r\nfill a 1 x\r\nfrob", 3),
    *[(b"client 1\ntxn\nget " + word + b"\nend\n", 3) for word in NO_KEYS],
    *[(b"client 1\nfill " + word + b" 1 x\n", 2) for word in NO_KEYS],
    (b"client 1\ntxn\nput \\s7:k v\nput k \\s7:v\nend\n", 4),
    (b"client 1\ntxn\nput \\s7:- v\nend\n", 3),
    (b"client 1\ntxn\nadd \\s7:- 1\nend\n", 3),
    (b"client 1\ntxn\ndel \\s65535:" + b"k" * 255 + b"\nget \\s65535:" + b"k" * 256 + b"\nend\n", 4),
    (b"client 1\nfill \\s65535:" + b"k" * 249 + b" 1 x\nfill \\s65535:" + b"k" * 250 + b" 1 x\n", 3),
    (b"client 1\nfill \\s7:a 1 \\s7:x\n", 2),
]


LAG = b"before a client waits, 0 to 16777216 [default: 65536]"


def usage_cases(folder):
    """Usage faults of a run, and its help."""
    written(folder, "empty.pcw", b"")
    for option in (b"workers", b"collapsers"):
        for wrong in (0, 65):
            expected = b"error: invalid value '%d' for '--%s <N>': %d is not in 1..=64\n" % (wrong, option, wrong)
            yield Case(f"--{option.decode()} {wrong}", ("run", "empty.pcw", f"--{option.decode()}", str(wrong)), 2, err=[expected])
    yield Case("no workload", ("run",), 2, err=[b"error: the following required arguments were not provided:\n  <WORKLOAD>\n"])
    expected = [b"error: a value is required for '--dir <DIR>' but none was supplied\n"]
    yield Case("an empty word for a folder", ("run", "empty.pcw", "--dir", ""), 2, err=expected)
    yield Case("the same, after =", ("run", "empty.pcw", "--dir="), 2, err=expected)
    joins = b"How many threads join the points' files, 1 to 64 [default: 2]"
    options = [b"<WORKLOAD>", b"--workers <N>", b"[default: 4]", b"--collapsers <N>", joins, b"--every <COMMITS>", b"--capacity <N>", b"[default: 65536]"]
    options += [b"--run <N>", b"[default: 1]", b"--from <OLD>", b"--dir <DIR>", b"--lag <N>", LAG, b"--sync", b"--quiet", b"--report", b"--times <FILE>", FAULTS]
    yield Case("run --help", ("run", "--help"), 0, parts=options)
    for option, name, low, high in RANGES:
        for wrong in (low - 1, high + 1):
            words = ("run", "empty.pcw", "--dir", "none", f"--{option}={wrong}")
            expected = b"error: invalid value '%d' for '--%s <%s>': %d is not in %d..=%d\n" % (wrong, option.encode(), name.encode(), wrong, low, high)
            yield Case(f"--{option} {wrong}", words, 2, err=[expected], files={"none": None})
        for right in (low, high):
            yield Case(f"--{option} {right}", ("run", "empty.pcw", "--dir", new_folder(folder, f"{option}{right}"), f"--{option}={right}"), 0, NOTHING_OUT)
        expected = b"error: the argument '--%s <%s>' cannot be used multiple times\n" % (option.encode(), name.encode())
        yield Case(f"--{option} twice", ("run", "empty.pcw", *[f"--{option}={low}"] * 2, "--dir", "none"), 2, err=[expected])
    for words in (("--lag", "5"), ("--sync",)):
        expected = [b"error: the following required arguments were not provided:\n  --dir <DIR>\n"]
        yield Case(f"{words[0]} without a folder", ("run", "empty.pcw", *words), 2, err=expected)
    expected = [b"error: the argument '--", b"' cannot be used with '--"]
    yield Case("a run that starts from a folder, with a number", ("run", "empty.pcw", "--from", "old", "--run", "2"), 2, err=expected)
    for option, name in (("from", b"OLD"), ("times", b"FILE")):
        expected = [b"error: a value is required for '--%s <%s>' but none was supplied\n" % (option.encode(), name)]
        yield Case(f"an empty word for --{option}", ("run", "empty.pcw", f"--{option}", ""), 2, err=expected)
    expected = b"pcalc: empty.pcw: the workload has this name\n"
    yield Case("times to the file of the workload", ("run", "empty.pcw", "--times", "empty.pcw"), 2, err=expected, files={"empty.pcw": b""})


def new_folder(folder, name):
    """Makes an empty folder; returns its name."""
    os.makedirs(os.path.join(folder, name))
    return name


def has_times_of(commits):
    """A test that a text has each hundredth of a second of a run, from the first on, and this number of commits in total."""
    def is_right(text):
        heading, *lines = (text or b"").split(b"\n")
        words = [line.split(b" ") for line in lines[:-1]]
        numbers = [int(number) for number, _, _ in words]
        phases = {phase for _, _, phase in words}
        is_counted = sum(int(count) for _, count, _ in words) == commits
        return heading == HEADING and lines[-1:] == [b""] and numbers == list(range(len(words))) and phases <= PHASES and is_counted
    return is_right


def report_cases(folder):
    """What runs report of their speed: its form, since no two runs are alike."""
    written(folder, "one.pcw", ONE)
    written(folder, "bad.pcw", b"frob\n")
    report = [ONE_OUT + b"commits a second ", b"\ndeaths 0\nlongest wait ", b" ms\nlongest pause ", b" ms\n"]
    yield Case("a report", ("run", "one.pcw", "--report"), 0, parts=report)
    for number, more in enumerate(((), ("--quiet",), ("--dir", new_folder(folder, "with_times")), ("--report",))):
        out = {"parts": report} if more == ("--report",) else {"out": ONE_OUT}
        name = f"{number}.times"
        yield Case("times", ("run", "one.pcw", "--times", name, *more), 0, checks={name: has_times_of(3)}, **out)
    yield Case("a report and times of an empty workload", ("run", "empty.pcw", "--report", "--times", "none.times"), 0, NOTHING_OUT + NOTHING_REPORTED, checks={"none.times": has_times_of(0)})
    yield Case("times of a workload with a bad line", ("run", "bad.pcw", "--times", "bad.times", "--report"), 3, b"bad line 1\n", files={"bad.times": None, "bad.times.new": None})
    words = ("run", "one.pcw", "--dir", new_folder(folder, "without_times"), "--times", "nowhere/run.times")
    yield Case("times that can't be made", words, 1, err=b"pcalc: nowhere/run.times: Device\n", files={"without_times/base.pcb": None, "without_times/base.pcb.new": None})
    if os.path.exists(FULL):
        yield Case("times on a full device", ("run", "one.pcw", "--times", FULL), 1, ONE_OUT, err=f"pcalc: {FULL}: Device\n".encode())
    written(folder, "crowded.pcw", b"client 1\nfill a 9 x\n")
    crowded = b"commits 2\ngave up 7\npoints 0\ncollapsed none\ncheck ok\n"
    yield Case("a report of what was given up", ("run", "crowded.pcw", "--capacity", "2", "--report"), 0, parts=[crowded, b" ms\ngiven up Full 7\n"])
    yield Case("the same, explained", ("run", "crowded.pcw", "--capacity", "2", "--explain"), 0, crowded, err=b"given up Full 7\n")
    yield Case("a report to a full output", ("run", "one.pcw", "--report"), 1, output=FULL)


def is_spread(points, every, early):
    """A test that a log has this number of points, point N begun after at least N times `every` commits, or after the last one; the first `early` ones
    while clients ran."""
    def is_right(text):
        commits, begun = 0, []
        try:
            entries = plain_files.read_log(text or b"").entries
        except plain_files.Refused:
            return False
        for entry in entries:
            if entry[0] == "commit":
                commits += 1
            elif entry[1] == "prepare":
                begun.append(commits)
        return len(begun) == points and begun[early - 1] < commits and all(at >= every * number or at == commits for number, at in enumerate(begun, 1))
    return is_right


def pace_cases(folder):
    """Options of the files and points of a run don't change what it prints; points are as far apart as asked."""
    written(folder, "four.pcw", FOUR)
    written(folder, "one.pcw", ONE)
    written(folder, "again.pcw", AGAIN)
    # The worker of the last client ends at once: points go on while the others work.
    written(folder, "idle_client.pcw", AGAIN + b"client 5\n")
    paces = [("spread", "again.pcw", 10_000, 1, ()), ("spread18", "again.pcw", 18_000, 2, ("--every", "18000", "--workers", "1"))]
    paces.append(("spread5", "idle_client.pcw", 10_000, 1, ("--workers", "5")))
    for place, name, every, early, more in paces:
        words = ("run", name, "--dir", new_folder(folder, place), *more)
        yield Case(f"8 points, each {every} commits after the one before", words, 0, AGAIN_OUT, checks={f"{place}/log.pcl": is_spread(8, every, early)})
    for number, more in enumerate((("--lag", "0"), ("--lag", "1"), ("--sync",), ("--every", "1"), ("--every", "1000000000"), ("--capacity", "4000"))):
        words = ("run", "four.pcw", "--dir", new_folder(folder, f"paced{number}"), *more)
        yield Case("four clients", words, 0, FOUR_OUT, files={f"paced{number}/base.pcb": EMPTY, f"paced{number}/base.pcb.new": None, f"paced{number}/part-00008.pcp.new": None})
        yield recovery(f"paced{number}", "what they leave", plain_files.recover(*files_of(os.path.join(folder, f"paced{number}"))))
    words = ("run", "one.pcw", "--lag", "0", "--sync", "--dir", new_folder(folder, "synced"))
    yield Case("one client whose commits are on the disk", words, 0, ONE_OUT, files={"synced/base.pcb": EMPTY})
    expected = b"commits 3999\ngave up 1\npoints 8\ncollapsed 1-8 entries 3999\nstate pairs 3999\ncheck ok\n"
    yield Case("one key more than the capacity", ("run", "four.pcw", "--capacity", "3999"), 0, expected)
    base = plain_files.Base(258, 0, {}).text()
    yield Case("a run of another number", ("run", "one.pcw", "--run", "258", "--dir", new_folder(folder, "numbered")), 0, ONE_OUT, files={"numbered/base.pcb": base})


def workload_cases(folder):
    """What runs print, for few threads and many."""
    written(folder, "four.pcw", FOUR)
    for workers in (1, 3, 4, 64):
        for collapsers in (1, 3, 64):
            words = ("run", "four.pcw", f"--workers={workers}", f"--collapsers={collapsers}")
            yield Case(f"four clients by {workers}, {collapsers}", words, 0, FOUR_OUT)
    yield Case("an empty workload", ("run", "empty.pcw"), 0, NOTHING_OUT)
    written(folder, "silent.pcw", b"# nothing\n\n   \npoints 0\nclient 64\n")
    yield Case("a client without work", ("run", "silent.pcw", "--quiet"), 0, NOTHING_OUT)
    written(folder, "idle.pcw", b"points 1000\n")
    yield Case("1,000 points over an idle store", ("run", "idle.pcw"), 0, b"commits 0\ngave up 0\npoints 1000\ncollapsed 1-1000 entries 0\nstate pairs 0\ncheck ok\n")
    puts = b"".join(b"put k%d v\n" % number for number in range(257))
    written(folder, "many.pcw", b"points 1\nclient 3\ntxn\n" + puts + b"end\ntxn\nput a 1\ndel b\nget c\nend\n")
    yield Case("a transaction that is given up", ("run", "many.pcw"), 0, b"commits 1\ngave up 1\npoints 1\ncollapsed 1 entries 2\nstate pairs 1\ncheck ok\n")
    gets = b"".join(b"get k%d\n" % number for number in range(300))
    written(folder, "reads.pcw", b"points 1\nclient 1\ntxn\n" + gets + b"put a 1\nend\n")
    yield Case("a transaction of 300 reads", ("run", "reads.pcw"), 0, b"commits 1\ngave up 0\npoints 1\ncollapsed 1 entries 1\nstate pairs 1\ncheck ok\n")
    for number, (text, line) in enumerate(BAD_LINES):
        written(folder, f"bad{number}.pcw", text)
        yield Case(f"a bad line {line}", ("run", f"bad{number}.pcw", "--dir", "none"), 3, b"bad line %d\n" % line, files={"none": None})


def put_hot(number):
    """A put of the one key that all want."""
    return b"put hot %d\n" % number


def add_hot(number):
    """An add to the one key that all want."""
    return b"add hot %d\n" % number


def put_hot_and_other(number):
    """The same, and a put of one of eight others."""
    return put_hot(number) + b"put other%d v\n" % (number * 5 % 8)


def transfer(keys):
    """Reads and writes two of this number of keys, in a cyclic order."""
    def ops(number):
        one = number * 7 % keys
        two = (one + 1 + number * 3 % (keys - 1)) % keys
        return b"get a%d\nget a%d\nput a%d v\nput a%d v\n" % (one, two, one, two)
    return ops


def contended(clients, count, ops):
    """A workload of this number of transactions, dealt to the clients in turn."""
    lines = []
    for client in range(clients):
        lines.append(b"client %d\n" % (client + 1))
        lines += [b"txn\n" + ops(number) + b"end\n" for number in range(client, count, clients)]
    return b"".join(lines)


def contention_cases(folder):
    """Clients that want the same keys, each on a thread of its own: none of their transactions is given up."""
    wants = [("one key", put_hot, (4, 64)), ("one number", add_hot, (4, 64)), ("one key and eight", put_hot_and_other, (4, 16, 64))]
    wants += [(f"two of {keys} keys", transfer(keys), (4, 16, 64)) for keys in (10, 100)]
    expected = b"commits %d\ngave up 0\npoints 0\ncollapsed none\ncheck ok\n" % CONTENDED
    for number, (what, ops, sizes) in enumerate(wants):
        for clients in sizes:
            name = f"contended{number}_{clients}.pcw"
            written(folder, name, contended(clients, CONTENDED, ops))
            yield Case(f"{clients} clients want {what}", ("run", name, "--workers", str(clients)), 0, expected)


def in_arena(clients, points):
    """A workload of clients each of whom sets a key of its own and removes it, 1,000 times."""
    lines = [b"points %d\n" % points]
    for client in range(1, clients + 1):
        lines.append(b"client %d\n" % client + b"txn\nput k%d x\nend\ntxn\ndel k%d\nend\n" % (client, client) * 1_000)
    return b"".join(lines)


def is_of_arena(count):
    """A test that a run's lines report this number of transactions, of which some may be given up, and all points."""
    def is_right(text):
        commits, given_up, points, *_, last = [line.split(b" ") for line in text.splitlines()]
        return int(commits[1]) + int(given_up[2]) == count and int(commits[1]) >= 1_000 and (points, last) == ([b"points", b"20"], [b"check", b"ok"])
    return is_right


def arena_cases(folder):
    """Clients in a store of four keys. All of four have room; of eight, those whose keys come first, as long as no point is taken."""
    written(folder, "small_arena.pcw", in_arena(4, 20))
    expected = b"commits 8000\ngave up 0\npoints 20\ncollapsed 1-20 entries 4\nstate pairs 0\ncheck ok\n"
    yield Case("four clients in a store of four keys", ("run", "small_arena.pcw", "--capacity", "4"), 0, expected)
    written(folder, "full_arena.pcw", in_arena(8, 1))
    expected = b"commits 8000\ngave up 8000\npoints 1\ncollapsed 1 entries 4\nstate pairs 0\ncheck ok\n"
    yield Case("eight clients before the one point", ("run", "full_arena.pcw", "--capacity", "4", "--workers", "8"), 0, expected)
    written(folder, "crowded_arena.pcw", in_arena(8, 20))
    expected = written(folder, "crowded_arena.out", b"")
    words = ("run", "crowded_arena.pcw", "--capacity", "4", "--workers", "8")
    yield Case("eight clients concurrently with 20 points", words, 0, output=expected, checks={"crowded_arena.out": is_of_arena(16_000)})


def mixed(client, number):
    """The operations of a client's transaction on some of 100 keys in two spaces, with an add of 1 to one of 20 others: such transactions wait for one another,
    and die."""
    places = [(client * 37 + number * 11 + place * 29) % 100 for place in range(4)]
    keys = [rb"\s7:a%d" % (place // 2) if place % 2 else b"a%d" % (place // 2) for place in places]
    count = b"n%d" % ((client * 7 + number) % 20)
    return [(b"get", keys[0]), (b"put", keys[1], b"%d" % number), (b"add", count, b"1"), (b"del", keys[2]), (b"put", keys[3], b"%d" % client)]


def with_delta(change, delta):
    """This change of a key merged with an add after it."""
    if isinstance(change, int):
        return change + delta
    return plain_store.text_of(plain_store.number_in(change) + delta)


def writes_of(ops):
    """The net change of each key by these operations, in the order of first writes; none of them is refused."""
    final = {}
    for verb, word, *value in ops:
        key = plain_store.key(word)
        if verb == b"add":
            final[key] = with_delta(final.get(key, 0), int(value[0]))
        elif verb != b"get":
            final[key] = plain_store.content(value[0]) if value else None
    return [*final.items()]


SPACES = rb"""points 2
client 1
fill \s7:a 3 x
fill \s7:- 2 y
fill - 1 z
client 2
txn
put \s7:a000002 w
put \s65535:a000002 v
add \s1:n 5
add n -1
del \s7:000001
end
txn
add \s1:n 3
get \s7:a000002
end
"""
# The pairs that it leaves: both clients are on one thread, so the second one comes last.
SPACES_LEFT = {(0, b"000000"): b"z", (0, b"n"): b"\xff" * 8, (1, b"n"): bytes(7) + b"\x08", (7, b"000000"): b"y", (65_535, b"a000002"): b"v"}
SPACES_LEFT |= {(7, b"a000000"): b"x", (7, b"a000001"): b"x", (7, b"a000002"): b"w"}


def space_cases(folder):
    """A run whose keys are of several spaces: what its log and its files have, and a run that starts from it."""
    written(folder, "spaces.pcw", SPACES)
    expected = b"commits 8\ngave up 0\npoints 2\ncollapsed 1-2 entries 9\nstate pairs 8\ncheck ok\n"
    commits = {1: [[((7, b"a%06d" % number), b"x")] for number in range(3)] + [[((7, b"%06d" % number), b"y")] for number in range(2)] + [[((0, b"000000"), b"z")]]}
    commits[2] = [[((7, b"a000002"), b"w"), ((65_535, b"a000002"), b"v"), ((1, b"n"), 5), ((0, b"n"), -1), ((7, b"000001"), None)], [((1, b"n"), 3)]]
    words = ("run", "spaces.pcw", "--workers", "1", "--dir", new_folder(folder, "spaces"))
    yield Case("keys of several spaces", words, 0, expected, files={"spaces/base.pcb": EMPTY}, checks={"spaces/log.pcl": has_commits(commits)})
    whole = plain_files.recover(*files_of(os.path.join(folder, "spaces")))
    assert whole.pairs == SPACES_LEFT
    yield recovery("spaces", "what it leaves", whole)
    written(folder, "spaces_on.pcw", b"client 3\nfill \\s7:a 4 on\ntxn\nadd \\s1:n -8\nend\n")
    expected = b"commits 5\ngave up 0\npoints 0\ncollapsed none\ncheck ok\n"
    base = plain_files.Base(2, 0, SPACES_LEFT).text()
    yield Case("a run that starts from it", ("run", "spaces_on.pcw", "--from", "spaces", "--dir", new_folder(folder, "spaces_on")), 0, expected, files={"spaces_on/base.pcb": base})
    left = SPACES_LEFT | {(7, b"a%06d" % number): b"on" for number in range(4)} | {(1, b"n"): bytes(8)}
    yield recovery("spaces_on", "what that one leaves", plain_files.Recovered(0, 5, None, [], left))


def has_commits(wanted):
    """A test that a log has exactly these commits of each client, in order."""
    def is_right(text):
        logged = {client: [] for client in wanted}
        for entry in plain_files.read_log(text).entries:
            if entry[0] == "commit":
                logged[entry[1]].append(entry[2])
        return logged == wanted
    return is_right


def everything_cases(folder):
    """Everything together: 64 clients over 100 keys, 100 points, eight collapsers, and a folder."""
    jobs = {client: [mixed(client, number) for number in range(50)] for client in range(1, 65)}
    lines = [b"points 100\n"]
    for client, transactions in jobs.items():
        lines.append(b"client %d\n" % client + b"".join(b"txn\n" + b"".join(b" ".join(op) + b"\n" for op in ops) + b"end\n" for ops in transactions))
    written(folder, "everything.pcw", b"".join(lines))
    words = ("run", "everything.pcw", "--workers", "64", "--collapsers", "8", "--dir", new_folder(folder, "everything"), "--lag", "10")
    expected = [b"commits 3200\ngave up 0\npoints 100\ncollapsed 1-100 entries ", b"\ncheck ok\n"]
    wanted = {client: [writes_of(ops) for ops in transactions] for client, transactions in jobs.items()}
    yield Case("64 clients, 100 points and eight collapsers", words, 0, parts=expected, checks={"everything/log.pcl": has_commits(wanted)})
    whole = plain_files.recover(*files_of(os.path.join(folder, "everything")))
    assert sum(int.from_bytes(whole.pairs[0, b"n%d" % number], "big", signed=True) for number in range(20)) == 3200
    yield recovery("everything", "the folder of all that", whole)


def number_of_all(number):
    """The lines that a recovery of a counter prints for its pair."""
    return b"pairs 1\nn " + b"".join(b"%c" % byte if 0x21 <= byte <= 0x7E and byte != 0x5C else b"\\x%02x" % byte for byte in number.to_bytes(8, "big")) + b"\n"


# The adds of two transactions, an example of docs/MANUAL.md, and their log and part, by hand.
ADDS = b"points 1\nclient 1\ntxn\nadd n 5\nadd n -2\nget n\nend\ntxn\nput t x\nadd n -4\nend\n"
ADDS_LOG = "5043414c434c3032 0000000000000001 00000000 00000012 01 01 0001 0001 0000 6e 02 0000000000000003"
ADDS_LOG += "0000001d 01 01 0002 0001 0000 74 01 00000001 78 0001 0000 6e 02 fffffffffffffffc"
ADDS_PART = "5043414c43503032 0000000000000001 00000001 00000001 00000001"
ADDS_PART += "0001 0000 6e 00000001 01 00000008 ffffffffffffffff 0001 0000 74 00000001 01 00000001 78 0000 00000002"
# What one transaction does, and the one change that is kept of each key.
MERGED = [rb"put a \x00\x00\x00\x00\x00\x00\x00\x05", b"add a 2", b"del b", b"add b -3", b"add k 4", b"add k 5", b"add x 1", b"put x 6"]
MERGED += [b"add y 1", b"del y", b"add z 1", b"del z", b"add z 8", b"add z 8"]
MERGED_WRITES = {b"a": bytes(7) + b"\7", b"b": b"\xff" * 7 + b"\xfd", b"k": 9, b"x": b"6", b"y": None, b"z": bytes(7) + b"\x10"}
COUNTED = b"points 8\n" + b"".join(b"client %d\n" % client + b"txn\nadd n 1\nend\n" * 1000 for client in range(1, 5))


def add_cases(folder):
    """Runs that add: what their logs and files have, and that no add is lost or applied twice."""
    written(folder, "adds.pcw", ADDS)
    expected = b"commits 2\ngave up 0\npoints 1\ncollapsed 1 entries 2\nstate pairs 2\ncheck ok\n"
    log = bytes.fromhex(ADDS_LOG)
    checks = {"adds/log.pcl": lambda text: len(log) == 75 and (text or b"").startswith(log)}
    yield Case("adds of two transactions", ("run", "adds.pcw", "--dir", new_folder(folder, "adds")), 0, expected, checks=checks, files={"adds/part-00001.pcp": bytes.fromhex(ADDS_PART)})
    yield Case("what they leave", ("recover", "adds"), 0, b"point 1\nentries 7\npairs 2\nn " + b"\\xff" * 8 + b"\nt x\n")
    log = plain_files.Log(1)
    log.entries = [plain_files.commit(1, MERGED_WRITES)]
    written(folder, "merged.pcw", b"client 1\ntxn\n" + b"".join(line + b"\n" for line in MERGED) + b"end\n")
    expected = b"commits 1\ngave up 0\npoints 0\ncollapsed none\ncheck ok\n"
    yield Case("adds after other changes", ("run", "merged.pcw", "--dir", new_folder(folder, "merged")), 0, expected, files={"merged/log.pcl": log.text()})
    written(folder, "refused.pcw", b"client 1\ntxn\nput t 1234567\nput m 12345678\nend\ntxn\nadd t 1\nend\ntxn\nadd m 9223372036854775807\nend\ntxn\nadd m 1\nend\n")
    yield Case("adds that are refused", ("run", "refused.pcw"), 0, b"commits 2\ngave up 2\npoints 0\ncollapsed none\ncheck ok\n")
    written(folder, "counted.pcw", COUNTED)
    expected = b"commits 4000\ngave up 0\npoints 8\ncollapsed 1-8 entries 1\nstate pairs 1\ncheck ok\n"
    for number, more in enumerate((("--lag", "0"), ("--every", "1"), ("--workers", "1"))):
        words = ("run", "counted.pcw", "--dir", new_folder(folder, f"counted{number}"), *more)
        yield Case("four clients that count", words, 0, expected)
        yield Case("what they have counted", ("recover", f"counted{number}"), 0, b"point 8\nentries 4040\n" + number_of_all(4000))
    words = ("run", "counted.pcw", "--from", "counted0", "--dir", new_folder(folder, "counted_on"))
    yield Case("four clients that continue to count", words, 0, expected)
    yield Case("what all have counted", ("recover", "counted_on"), 0, b"point 8\nentries 4040\n" + number_of_all(8000))
    yield from counted_cut_cases(folder)
    yield from cut_add_cases(folder)


def counted_cut_cases(folder):
    """The folder of those that count, with its log truncated and without its parts: each whole commit counts once."""
    base, parts, log = files_of(os.path.join(folder, "counted0"))
    for name, text in [("base.pcb", base), *[(os.fsdecode(name), text) for name, text in parts]]:
        written(folder, "counted_cut/" + name, text)
    written(folder, "counted_log/base.pcb", base)
    for cut in range(1, CUTS):
        text = log[: cut * len(log) // CUTS]
        for place, some in (("counted_cut", parts), ("counted_log", [])):
            written(folder, f"{place}/log.pcl", text)
            yield recovery(place, f"{len(text)} bytes of their log", plain_files.recover(base, some, text))


def cut_add_cases(folder):
    """A folder whose log has adds before and after the token of its part's point, whole and with its log truncated at each byte."""
    log = plain_files.Log(1)
    log.entries = [plain_files.commit(1, {b"n": 5, b"m": -1}), ("token", "prepare", 1), plain_files.commit(2, {b"n": -2}), ("token", "resolve", 1)]
    log.entries += [plain_files.commit(1, {b"n": -4, b"t": b"x"}), ("token", "capture", 1), plain_files.commit(64, {b"m": 2**62, b"l": -(2**63)})]
    number = lambda of: of.to_bytes(8, "big", signed=True)
    base = plain_files.Base(1, 0, keyed({b"n": number(100)})).text()
    part = plain_files.Part(1, [(1, 1)], keyed({b"n": (1, number(103)), b"m": (1, number(-1))})).text()
    written(folder, "cut_adds/base.pcb", base)
    written(folder, "cut_adds/part-00001.pcp", part)
    whole = plain_files.recover(base, [(b"part-00001.pcp", part)], log.text())
    assert whole.pairs == keyed({b"n": number(99), b"m": number(2**62 - 1), b"l": number(-(2**63)), b"t": b"x"})
    for form in (plain_files.FIRST, plain_files.SECOND):
        text = log.text(form)
        for cut in range(len(text) + 1):
            written(folder, "cut_adds/log.pcl", text[:cut])
            expected = plain_files.recover(base, [(b"part-00001.pcp", part)], text[:cut])
            yield recovery("cut_adds", f"{cut} bytes of a log of {form.decode()} with adds", expected)


def fault_cases(folder):
    """Runs that fail, and the fault that they report."""
    written(folder, "one.pcw", ONE)
    yield Case("a workload that isn't there", ("run", "none.pcw"), 1, err=b"pcalc: none.pcw: NoFile\n")
    os.makedirs(os.path.join(folder, "folder.pcw"))
    yield Case("a workload that is a folder", ("run", "folder.pcw"), 1, err=b"pcalc: folder.pcw: Device\n")
    os.chmod(written(folder, "closed.pcw", b"points 1\n"), 0)
    yield Case("a workload without permission", ("run", "closed.pcw"), 1, err=b"pcalc: closed.pcw: Device\n", is_other_user=True)
    sparse(folder, "large.pcw", MANY)
    yield Case("a workload too large for memory", ("run", "large.pcw"), 1, err=b"pcalc: large.pcw: OutOfMemory\n", memory=LITTLE)
    for name in ("one.pcw", "bad0.pcw", "four.pcw"):
        yield Case("a run whose output is full", ("run", name), 1, output=FULL)
    yield Case("no folder to write to", ("run", "one.pcw", "--dir", "nowhere"), 1, err=b"pcalc: nowhere: NoFile\n")
    yield Case("a folder that is a file", ("run", "one.pcw", "--dir", "one.pcw"), 1, err=b"pcalc: one.pcw: Device\n", files={"one.pcw": ONE})
    os.makedirs(os.path.join(folder, "unlisted_run"))
    os.chmod(os.path.join(folder, "unlisted_run"), 0o333)
    yield Case("a folder that can't be listed", ("run", "one.pcw", "--dir", "unlisted_run"), 1, err=b"pcalc: unlisted_run: Device\n", is_other_user=True, files={"unlisted_run/base.pcb": None})
    os.makedirs(os.path.join(folder, "unwritable"))
    yield Case("a folder that can't be written to", ("run", "one.pcw", "--dir", "unwritable"), 1, err=b"pcalc: base.pcb: Device\n", is_other_user=True)
    yield from late_fault_cases(folder)
    yield Case("no thread can be started", ("run", "one.pcw"), 1, err=b"pcalc: one.pcw: NoThread\n", is_other_user=True, threads=0)
    yield from thread_cases(folder)


def thread_cases(folder):
    """A run of a logger, two collapsers and a worker that may start fewer threads: whichever is lacking, it ends and reports that."""
    for threads in range(4):
        os.chmod(os.path.join(folder, new_folder(folder, f"threads{threads}")), 0o777)
        words = ("run", "one.pcw", "--workers", "1", "--lag", "0", "--dir", f"threads{threads}")
        yield Case(f"{threads} threads of four", words, 1, err=b"pcalc: one.pcw: NoThread\n", is_other_user=True, threads=threads)


# The files of a run that get their names once they are whole, what may have that name instead, and whether the run fails then.
MISPLACED = [("base.pcb", "folder", True), ("base.pcb.new", "folder", False), ("base.pcb.new", "device", False)]
MISPLACED += [("part-00001.pcp", "folder", True), ("part-00001.pcp.new", "folder", False), ("part-00001.pcp.new", "device", False)]


def late_fault_cases(folder):
    """Files of a run that can't be made or written. What has their name is put into the folder after it was listed: the workload, which is
    read after that, is a pipe, empty until then."""
    for name, what, fails in MISPLACED:
        dir_name = f"{what}_{name}"
        place = os.path.join(folder, dir_name, name)
        os.makedirs(os.path.dirname(place))
        pipe = piped(folder, dir_name + ".pcw")
        work = (lambda: os.mkdir(place)) if what == "folder" else (lambda: os.symlink(FULL, place))
        with concurrently(lambda: feed(pipe, ONE, work)):
            expected = {"status": 1, "err": f"pcalc: {name}: Device\n".encode()} if fails else {"status": 0, "out": ONE_OUT}
            yield Case(f"a {what} in the place of {name}", ("run", dir_name + ".pcw", "--dir", dir_name), **expected)
    # What has the name of a file and isn't a plain one is written to: it takes bytes only when they are flushed.
    place = os.path.join(folder, "full_part", "part-00001.pcp")
    os.makedirs(os.path.dirname(place))
    pipe = piped(folder, "full_part.pcw")
    with concurrently(lambda: feed(pipe, ONE, lambda: os.symlink(FULL, place))):
        yield Case("a part whose device is full", ("run", "full_part.pcw", "--dir", "full_part"), 1, err=b"pcalc: full_part.pcw: Device\n")
    written(folder, "long.pcw", LONG)
    words = ("run", "long.pcw", "--dir", new_folder(folder, "long_run"))
    yield Case("a log that can't be written, of a run that would take minutes", words, 1, err=b"pcalc: long.pcw: Device\n", file_size=1 << 20)
    words = ("run", "long.pcw", "--explain", "--dir", new_folder(folder, "long_told"))
    expected = b"pcalc: long.pcw: Device\n  writing long_told/log.pcl: File too large (os error 27)\n"
    yield Case("the same, explained", words, 1, err=expected, file_size=1 << 20)


def claim_cases(folder):
    """Runs into one folder: one of them owns it, and one that ends before it has begun leaves nothing there."""
    written(folder, "one.pcw", ONE)
    for words, status, err in ((("run", "none.pcw"), 1, b"pcalc: none.pcw: NoFile\n"), (("run", "bad.pcw"), 3, b""), (("run", "one.pcw", "--from", "nowhere"), 1, b"pcalc: base.pcb: NoFile\n")):
        place = new_folder(folder, "claimed_" + "_".join(words[1:2] + words[3:]))
        written(folder, "bad.pcw", b"frob\n")
        yield Case("a run that ends before it has begun", (*words, "--dir", place), status, b"bad line 1\n" if status == 3 else b"", err=err, files={f"{place}/log.pcl": None, f"{place}/base.pcb": None})
        assert os.listdir(os.path.join(folder, place)) == []
    pipe = piped(folder, "claimed.pcw")
    place = new_folder(folder, "claimed")
    seen = []

    def look():
        seen.extend(os.listdir(os.path.join(folder, place)))

    with concurrently(lambda: feed(pipe, ONE, look)):
        yield Case("a run that claims its folder before it reads its workload", ("run", "claimed.pcw", "--dir", place), 0, ONE_OUT)
    assert seen == ["log.pcl"], seen
    for path in ("./claim.pcw", os.path.join(folder, "claim.pcw")):
        written(folder, "claim.pcw", ONE)
        expected = f"pcalc: {path}: the workload has this name\n".encode()
        yield Case("times to the file of the workload by another path", ("run", "claim.pcw", "--times", path), 2, err=expected, files={"claim.pcw": ONE})
    for option, place in (("--dir", new_folder(folder, "claimed_times")), ("--from", "claimed")):
        kept = {"claimed/log.pcl": content_of(folder, "claimed/log.pcl"), "claimed_times/log.pcl": None}
        expected = f"pcalc: {place}/log.pcl: it would stand in the folder of {option}\n".encode()
        yield Case("times among the files of a run", ("run", "one.pcw", option, place, "--times", f"{place}/log.pcl"), 2, err=expected, files=kept)
    written(folder, "kept.times", b"as it was")
    yield Case("a failing run over an existing times file", ("run", "none.pcw", "--times", "kept.times"), 1, err=b"pcalc: none.pcw: NoFile\n", files={"kept.times": b"as it was", "kept.times.new": None})
    yield Case("a bad line, explained", ("run", "bad.pcw", "--explain"), 3, b"bad line 1\n", err=[b"bad.pcw:1: "])


def used_cases(folder):
    """Folders that have files of a run already, which are left as they are, and folders that have none."""
    written(folder, "one.pcw", ONE)
    written(folder, "bad.pcw", b"frob\n")
    made = ("base.pcb", "log.pcl", "part-00001.pcp")
    for number, name in enumerate((*made, "other.pcp", ".pcp", "\udcff.pcp")):
        used = f"used{number}"
        written(folder, f"{used}/{name}", b"as it was")
        kept = {f"{used}/{other}": b"as it was" if other == name else None for other in (*made, name)}
        expected = f"pcalc: {used}: NotEmpty\n".encode()
        yield Case(f"a folder that has {ascii(name)}", ("run", "one.pcw", "--dir", used), 1, err=expected, files=kept)
        assert os.listdir(os.path.join(folder, used)) == [name]
        yield Case("the same for a workload with a bad line", ("run", "bad.pcw", "--dir", used), 3, b"bad line 1\n", files=kept)
        yield Case("the same for a workload that isn't there", ("run", "none.pcw", "--dir", used), 1, err=b"pcalc: none.pcw: NoFile\n", files=kept)
    os.makedirs(os.path.join(folder, "used_by_folder", "x.pcp"))
    yield Case("a folder that has a folder of a part's name", ("run", "one.pcw", "--dir", "used_by_folder"), 1, err=b"pcalc: used_by_folder: NotEmpty\n", files={"used_by_folder/base.pcb": None})
    os.makedirs(os.path.join(folder, "used_by_link"))
    os.symlink("nowhere", os.path.join(folder, "used_by_link", "log.pcl"))
    yield Case("a folder with a link that leads nowhere", ("run", "one.pcw", "--dir", "used_by_link"), 1, err=b"pcalc: used_by_link: NotEmpty\n", files={"used_by_link/base.pcb": None})
    os.makedirs(os.path.join(folder, "fresh"))
    for name in ("notes", "base.pcb.old", "log.pcl2", "xbase.pcb", "pcp", "a.PCP", "part-00009.pcp.new", "\udcff"):
        written(folder, "with_others/" + name, b"as it was")
    for fresh in ("fresh", "with_others", "with_others/../fresh2/"):
        os.makedirs(os.path.join(folder, fresh), exist_ok=True)
        yield Case("a folder without files of a run", ("run", "one.pcw", "--dir", fresh), 0, ONE_OUT, files={os.path.join(fresh, "base.pcb"): EMPTY, os.path.join(fresh, "base.pcb.new"): None, os.path.join(fresh, "part-00001.pcp.new"): None})
    yield Case("its other files", ("recover", "with_others"), 0, b"point 1\nentries 8\npairs 3\na000000 x\na000001 x\na000002 x\n", files={f"with_others/{name}": b"as it was" for name in ("notes", "base.pcb.old", "part-00009.pcp.new")})
    log = content_of(folder, "fresh/log.pcl")
    yield Case("a second run into the folder of the first", ("run", "one.pcw", "--dir", "fresh"), 1, err=b"pcalc: fresh: NotEmpty\n", files={"fresh/log.pcl": log, "fresh/base.pcb": EMPTY})


def recovery(folder, name, expected):
    return Case(name, ("recover", folder), 0, expected.text())


def from_cases(folder):
    """Runs that start from the state recovered from another run's folder."""
    written(folder, "bad.pcw", b"frob\n")
    written(folder, "first.pcw", b"points 2\nclient 1\nfill a 40 x\ntxn\ndel a000003\nend\n")
    written(folder, "next.pcw", b"points 1\nclient 2\nfill b 20 y\ntxn\ndel a000005\nput a000007 z\nget a000009\nend\n")
    expected = b"commits 41\ngave up 0\npoints 2\ncollapsed 1-2 entries 40\nstate pairs 39\ncheck ok\n"
    yield Case("a run that another starts from", ("run", "first.pcw", "--run", "7", "--dir", new_folder(folder, "first")), 0, expected)
    first = plain_files.recover(*files_of(os.path.join(folder, "first")))
    expected = b"commits 21\ngave up 0\npoints 1\ncollapsed 1 entries 22\nstate pairs 58\ncheck ok\n"
    yield Case("a run that starts from it", ("run", "next.pcw", "--from", "first", "--dir", new_folder(folder, "next")), 0, expected, files={"next/base.pcb": plain_files.Base(8, 0, first.pairs).text()})
    second = plain_files.recover(*files_of(os.path.join(folder, "next")))
    assert len(second.pairs) == 58 and second.pairs[0, b"a000007"] == b"z" and (0, b"a000005") not in second.pairs
    yield recovery("next", "what it leaves", second)
    yield Case("the same without a folder of its own", ("run", "next.pcw", "--from", "first"), 0, expected)
    yield Case("the same from a folder's name with a slash", ("run", "next.pcw", "--from", "first/"), 0, expected)
    yield Case("room for as many keys as there are", ("run", "next.pcw", "--from", "first", "--capacity", "59"), 0, expected)
    written(folder, "same.pcw", b"points 1\nclient 1\ntxn\nput %s new\nend\n" % key_word(min(first.pairs)))
    expected_of_one = b"commits 1\ngave up 0\npoints 1\ncollapsed 1 entries 1\nstate pairs 39\ncheck ok\n"
    yield Case("room for just the pairs that are there", ("run", "same.pcw", "--from", "first", "--capacity", "39"), 0, expected_of_one)
    words = ("run", "next.pcw", "--from", "first", "--capacity", "38", "--dir", new_folder(folder, "small"))
    yield Case("more pairs than there is room for", words, 1, err=b"pcalc: next.pcw: Full\n", files={"small/base.pcb": None, "small/base.pcb.new": None})
    expected = b"pcalc: next.pcw: Full\n  first is recovered to 39 pairs, and --capacity is 38\n"
    yield Case("the same, explained", ("run", "next.pcw", "--from", "first", "--capacity", "38", "--explain"), 1, err=expected)
    yield Case("its own folder", ("run", "next.pcw", "--from", "first", "--dir", "first"), 1, err=b"pcalc: first: NotEmpty\n")
    yield from damage_cases(folder)


def damage_cases(folder):
    """The same from damaged folders: what a recovery reports of them is reported before the run."""
    for name in ("base.pcb", "log.pcl", "part-00001.pcp", "part-00002.pcp"):
        written(folder, f"hurt/{name}", content_of(folder, f"first/{name}"))
    with open(os.path.join(folder, "hurt", "part-00002.pcp"), "ab") as it:
        it.write(b"\0")
    with open(os.path.join(folder, "hurt", "log.pcl"), "ab") as it:
        it.write(b"\0\0\0\1\3")
    expected = b"commits 21\ngave up 0\npoints 1\ncollapsed 1 entries 22\nstate pairs 58\ncheck ok\n"
    err = b"log BadKind\nskipped part-00002.pcp Trailing\n"
    refused = {"hurt_new/base.pcb": None, "hurt_new/log.pcl": None}
    words = ("run", "next.pcw", "--from", "hurt")
    yield Case("a part and a log that are damaged", (*words, "--dir", new_folder(folder, "hurt_new")), 1, err=err + b"pcalc: hurt: Damaged\n", files=refused)
    yield Case("the same, with damage accepted", (*words, "--damaged"), 0, expected, err=err)
    written(folder, "hurt/\udcff.pcp", b"")
    err = rb"pcalc: \xff.pcp: Device" + b"\n" + err
    yield Case("the same, and a part whose name is no UTF-8", (*words, "--damaged"), 0, expected, err=err)
    for name in ("base.pcb", "part-00001.pcp", "part-00002.pcp"):
        written(folder, f"logless/{name}", content_of(folder, f"first/{name}"))
    words = ("run", "next.pcw", "--from", "logless")
    yield Case("a log that is missing", words, 1, err=b"log NoFile\npcalc: logless: Damaged\n")
    written(folder, "logless/log.pcl", content_of(folder, "first/log.pcl")[:-1])
    yield Case("a log whose last entry is truncated, as after a kill", words, 0, expected)
    nothing = {"made/base.pcb": None, "made/base.pcb.new": None, "made/log.pcl": None}
    into = ("--dir", new_folder(folder, "made"))
    yield Case("a folder that isn't there", ("run", "next.pcw", "--from", "nowhere", *into), 1, err=b"pcalc: base.pcb: NoFile\n", files=nothing)
    written(folder, "other_log/base.pcb", EMPTY)
    written(folder, "other_log/log.pcl", plain_files.Log(2).text())
    yield Case("files that can't be recovered", ("run", "next.pcw", "--from", "other_log", *into), 1, err=b"pcalc: other_log: OtherRun\n", files=nothing)
    yield Case("the same for a workload with a bad line", ("run", "bad.pcw", "--from", "other_log", *into), 3, b"bad line 1\n", files=nothing)
    yield Case("the same for a workload that isn't there", ("run", "none.pcw", "--from", "nowhere", *into), 1, err=b"pcalc: none.pcw: NoFile\n", files=nothing)


def folder_cases(folder):
    """Folders that runs leave, and the states recovered from them."""
    written(folder, "three.pcw", b"points 4\nclient 1\nfill a 40 x\nclient 2\nfill b 40 yy\ntxn\nput a000001 z\ndel b000002\nend\nclient 3\nfill a 20 w\n")
    os.makedirs(os.path.join(folder, "left"))
    expected = b"commits 101\ngave up 0\npoints 4\ncollapsed 1-4 entries 80\nstate pairs 79\ncheck ok\n"
    yield Case("a run that leaves a folder", ("run", "three.pcw", "--dir", "left"), 0, expected, files={"left/base.pcb": EMPTY})
    names = [b"part-%05d.pcp" % point for point in range(1, 5)]
    parts = [(name, content_of(folder, "left/" + name.decode())) for name in names]
    log = content_of(folder, "left/log.pcl")
    whole = plain_files.recover(EMPTY, parts, log)
    assert whole.entries == 101 + 4 * 5
    yield recovery("left", "the folder of a run", whole)
    for name, text in [("base.pcb", EMPTY), *[(name.decode(), text) for name, text in parts]]:
        written(folder, "cut/" + name, text)
    for cut in range(CUTS):
        length = cut * len(log) // CUTS
        written(folder, "cut/log.pcl", log[:length])
        yield recovery("cut", f"its log truncated to {length} bytes", plain_files.recover(EMPTY, parts, log[:length]))
    written(folder, "cut/log.pcl", log)
    for place, (name, text) in enumerate(parts):
        os.remove(os.path.join(folder, "cut", name.decode()))
        yield recovery("cut", f"without {name.decode()}", plain_files.recover(EMPTY, parts[:place] + parts[place + 1:], log))
        written(folder, "cut/" + name.decode(), text)


def number_cases(folder):
    """Runs of numbers up to the last one."""
    written(folder, "one.pcw", ONE)
    none = {"last_new/base.pcb": None, "last_new/log.pcl": None}
    written(folder, "last/base.pcb", plain_files.Base(2**64 - 1, 0, {}).text())
    written(folder, "last/log.pcl", plain_files.Log(2**64 - 1).text())
    yield Case("a run after the last one", ("run", "one.pcw", "--from", "last", "--dir", new_folder(folder, "last_new")), 1, err=b"pcalc: last: Full\n", files=none)
    written(folder, "last_but_one/base.pcb", plain_files.Base(2**64 - 2, 0, {}).text())
    written(folder, "last_but_one/log.pcl", plain_files.Log(2**64 - 2).text())
    base = {"last_new/base.pcb": plain_files.Base(2**64 - 1, 0, {}).text()}
    yield Case("the last run", ("run", "one.pcw", "--from", "last_but_one", "--dir", "last_new"), 0, ONE_OUT, files=base)
    base = {"numbered_new/base.pcb": plain_files.Base(2_147_483_647, 0, {}).text()}
    yield Case("a run of a number", ("run", "one.pcw", "--run", "2147483647", "--dir", new_folder(folder, "numbered_new")), 0, ONE_OUT, files=base)


def cases(folder):
    """Each case, whose files are written into the folder right before it."""
    for some in (usage_cases, workload_cases, report_cases, pace_cases, contention_cases, arena_cases, add_cases, space_cases, everything_cases, fault_cases, used_cases, claim_cases, from_cases, number_cases, folder_cases):
        yield from some(folder)
