#!/usr/bin/env python3
"""Prints what the programs test_lists and test_crowds must print, by the slow store of plain_store.py.

    list_counts.py lists [FAMILY..]     every short list of events, for crates/test_lists/stdout
    list_counts.py crowds               crowds of sessions at one key, fresh keys, and a long walk, for crates/test_crowds/stdout

It goes through the same lists, crowds and walk as the programs, and counts and sums the replies in the same way (the
doc comment of `Sums` in crates/test_support/src/sums.rt has the sum). It shares no code with them. All lists take about three
minutes on four processors.
"""

import multiprocessing
import os
import sys

if __name__ == "__main__":
    sys.path.insert(0, os.path.join(os.path.dirname(os.path.abspath(__file__)), "..", ".."))

from tools.oracle.plain_store import Store, content

START, PRIME, MASK, TOMBSTONE = 14_695_981_039_346_656_037, 1_099_511_628_211, 2**64 - 1, 2**64 - 1
NAMES = {"noneleft": "none left", "notyet": "not yet", "partdone": "part"}


def bytes_items(text):
    return [len(text), *text]


def items_of(reply):
    """The reply's numbers, key and value."""
    kind, rest = reply[0], reply[1:]
    if kind == "found":
        return bytes_items(rest[0])
    if kind == "took":
        return bytes_items(rest[0]) + ([TOMBSTONE] if rest[1] is None else bytes_items(rest[1]))
    if kind == "phase":
        return [rest[1]]
    if kind == "file":
        return [rest[0], len(rest[1]), *sorted(rest[1]), rest[2]]
    if kind == "sum":
        return [rest[0] & MASK]
    if kind == "refused":
        return []
    return list(rest)


def name_of(reply):
    if reply[0] in ("phase", "refused"):
        return "%s %s" % (reply[0], reply[1])
    return NAMES.get(reply[0], reply[0])


class Sums:
    def __init__(self):
        self.lines, self.replies, self.checks = {}, 0, 0
        self.known = {}

    def note(self, reply):
        self.replies += 1
        # a reply that came before has its name and items here
        key = repr(reply) if reply[0] == "file" else reply
        if key not in self.known:
            self.known[key] = (self.lines.setdefault(name_of(reply), [0, START]), items_of(reply))
        line, items = self.known[key]
        line[0] += 1
        total = (line[1] ^ self.replies) * PRIME & MASK
        for item in items:
            total = (total ^ item) * PRIME & MASK
        line[1] = total

    def text(self, name):
        lines = ["== " + name, "replies %d" % self.replies]
        lines += ["%s %d %016x" % (kind, count, total) for kind, (count, total) in self.lines.items()]
        return "\n".join(lines + ["checks %d right %d" % (self.checks, self.checks)]) + "\n"


# Every short list of events.

CHECK_EACH, CHECK_LONGEST, CHECK_CHANGED = range(3)


def events(text):
    """Events as in scripts, separated by commas."""
    found = []
    for line in text.split(","):
        verb, *words = line.split()
        numbers = {"join": (0, 1), "add": (0, 2)}.get(verb, (0,))
        found.append((verb, *[int(it) if i in numbers else content(it.encode()) for i, it in enumerate(words)]))
    return found


ONE_SESSION = events("begin 1, put 1 a 1, put 1 b 2, commit 1, point, seal, capture, take, done, rest, join 1 1")
TWO_SESSIONS = events(
    "begin 1, get 1 a, get 1 b, put 1 a 1, put 1 b 22, del 1 a, commit 1, abort 1,"
    "begin 2, get 2 a, get 2 b, put 2 a 333, put 2 b 4444, del 2 a, commit 2, abort 2"
)
WITH_POINTS = events(
    "begin 1, get 1 a, put 1 a 1, put 1 b 22, del 1 a, commit 1, abort 1,"
    "begin 2, get 2 b, put 2 a 333, put 2 b 4444, del 2 b, commit 2, abort 2, point, seal, capture, take, done, rest"
)
AT_REST = events(
    "begin 1, put 1 a 1, commit 1, point, seal, capture, take, done, rest, begin 2, put 2 b 4444, commit 2,"
    "begin 1, get 1 a, begin 2"
)
IN_PREPARE = events(
    "begin 1, put 1 a 1, put 1 b 22, commit 1, begin 1, get 1 b, point, begin 2, put 2 a 333"
)
IN_RESOLVE = events(
    "begin 1, del 1 b, put 1 a 1, commit 1, point, begin 2, put 2 a 333, seal, begin 1, put 1 b 22"
)
IN_CAPTURE = events(
    "begin 1, put 1 a 1, put 1 b 22, commit 1, point, seal, begin 2, put 2 b 4444, commit 2,"
    "begin 1, del 1 a, put 1 a 1, capture, begin 2"
)
IN_COMPLETE = events(
    "begin 1, put 1 a 1, commit 1, point, seal, capture, begin 2, del 2 a, take, done, begin 1"
)

ONE_ADDING = events(
    "begin 1, get 1 a, add 1 a 5, add 1 a 9223372036854775807, add 1 b -1,"
    r"put 1 a \x80\x00\x00\x00\x00\x00\x00\x00, put 1 a 1, del 1 a, commit 1, abort 1"
)
TWO_ADDING = events(
    "begin 1, get 1 a, add 1 a 1, add 1 b -1, put 1 b 22, commit 1, abort 1,"
    "begin 2, get 2 b, add 2 a 10, add 2 b 9223372036854775807, del 2 a, commit 2, abort 2"
)
ADDING_WITH_POINTS = TWO_ADDING + events("point, seal, capture, take, done, rest")
ADDED_IN_RESOLVE = events(
    "begin 1, add 1 a 1, add 1 b 2, commit 1, point, begin 2, add 2 a 10, seal, begin 1, add 1 b -1"
)

# name: sessions, capacity, start, letters, most events, rule, and the number of lists, if known by a calculation
# older than both stores
FAMILIES = {
    "one session": (1, 2, [], ONE_SESSION, 8, CHECK_EACH, 45_331),
    "two sessions": (2, 2, [], TWO_SESSIONS, 7, CHECK_LONGEST, 1_437_808),
    "room for one key": (2, 1, [], TWO_SESSIONS, 6, CHECK_LONGEST, 71_600),
    "from rest": (2, 2, AT_REST, WITH_POINTS, 6, CHECK_CHANGED, 2_359_300),
    "from prepare": (2, 2, IN_PREPARE, WITH_POINTS, 6, CHECK_CHANGED, 722_980),
    "from resolve": (2, 2, IN_RESOLVE, WITH_POINTS, 6, CHECK_CHANGED, 629_320),
    "from capture": (2, 2, IN_CAPTURE, WITH_POINTS, 6, CHECK_CHANGED, 2_592_140),
    "from complete": (2, 2, IN_COMPLETE, WITH_POINTS, 6, CHECK_CHANGED, 1_039_940),
    "one session that adds": (1, 2, [], ONE_ADDING, 7, CHECK_LONGEST, None),
    "two sessions that add": (2, 2, [], TWO_ADDING, 6, CHECK_LONGEST, None),
    "adds from resolve": (2, 2, ADDED_IN_RESOLVE, ADDING_WITH_POINTS, 6, CHECK_CHANGED, None),
}


def go_through(sums, store, letters, most, rule):
    """Each continuation of the store's list by at most this number of events."""
    for event in letters:
        now = store.copy()
        reply = now.step(event)
        sums.note(reply)
        continues = reply[0] != "refused" and (rule != CHECK_CHANGED or reply[0] not in ("notyet", "noneleft"))
        is_longest = most == 1
        if rule == CHECK_EACH or (is_longest and (rule == CHECK_LONGEST or continues)):
            sums.checks += 1
        if continues and not is_longest:
            go_through(sums, now, letters, most - 1, rule)


def family_text(name):
    sessions, capacity, start, letters, most, rule, lists = FAMILIES[name]
    sums, store = Sums(), Store((), sessions, capacity)
    for event in start:
        reply = store.step(event)
        assert reply[0] not in ("refused", "notyet", "noneleft"), (name, event, reply)
        sums.note(reply)
    go_through(sums, store, letters, most, rule)
    assert lists in (None, sums.replies - len(start)), (name, sums.replies)
    return sums.text(name)


def print_lists(names):
    names = names or list(FAMILIES)
    with multiprocessing.Pool() as pool:
        texts = [pool.apply_async(family_text, (name,)) for name in names]
        for text in texts:
            sys.stdout.write(text.get())
            sys.stdout.flush()


# Sixty-four sessions at one key.


class Asker:
    """A store that starts from nothing, and the sums of its replies."""

    def __init__(self, sessions, capacity):
        self.store, self.sums = Store((), sessions, capacity), Sums()

    def ask(self, *event):
        reply = self.store.step(event)
        self.sums.note(reply)
        return reply

    def wants(self, wanted, *event):
        reply = self.ask(*event)
        assert reply == wanted, (event, reply, wanted)


def wish(session, is_reading):
    """Every third session reads the key and the others write it, or the opposite."""
    if (session % 3 == 0) != is_reading:
        return ("get", session, b"a")
    return ("put", session, b"a", b"w" * session)


def one_by_one():
    """The sessions 63, 61, .. 1 each ask before the next younger one: the first is granted, the others wait for it, being
    older than all before them, and all of even numbers die. They are granted in turn, and a reader finds what the one
    two before it has written."""
    asker = Asker(64, 1)
    for session in range(1, 65):
        asker.wants(("begun", session), "begin", session)
    for n in range(64):
        session = (63 - n ^ 1) + 1
        asker.wants((("absent",) if n == 0 else ("wait",) if n % 2 == 0 else ("died",)), *wish(session, False))
    for session in range(1, 65):
        if session % 2 == 0:
            asker.wants(("refused", "MustAbort"), "commit", session)
            asker.wants(("aborted",), "abort", session)
        elif session != 63:
            asker.wants(("refused", "StillWaiting"), "commit", session)
    for n in range(32):
        session = 63 - 2 * n
        found = ("absent",) if session == 63 else ("found", b"w" * (session + 2))
        asker.wants(found if session % 3 == 0 else ("ok",), *wish(session, False))
        waits = "NoSession" if session == 1 else "StillWaiting"
        asker.wants(("refused", waits), "get", (session - 2) % 2**32, b"a")
        asker.wants(("committed", n + 1), "commit", session)
    for session in range(1, 65):
        asker.wants(("refused", "NoTransaction"), "commit", session)
    asker.wants(("begun", 65), "begin", 64)
    asker.wants(("found", b"w"), "get", 64, b"a")
    asker.wants(("committed", 33), "commit", 64)
    asker.wants(("phase", "prepare", 1), "point")
    asker.sums.checks += 1
    return asker.sums.text("one by one")


def turn(asker, session, is_reading):
    """The session repeats its request and commits, or aborts if it has died. Returns whether it has ended."""
    asker.ask(*wish(session, is_reading))
    ended = asker.ask("commit", session)
    if ended == ("refused", "MustAbort"):
        ended = asker.ask("abort", session)
    return ended[0] in ("committed", "aborted")


def crowd(stride, is_reading):
    """All begin, and request the key in steps of `stride` sessions; then all take turns, until a round ends none."""
    asker = Asker(64, 2)
    for session in range(1, 65):
        asker.wants(("begun", session), "begin", session)
    for n in range(64):
        asker.ask(*wish(n * stride % 64 + 1, is_reading))
    ended = 0
    while True:
        more = sum(turn(asker, session, is_reading) for session in range(1, 65))
        ended += more
        if not more:
            break
    assert ended == 64, (stride, is_reading, ended)
    asker.sums.checks += 1
    return asker.sums.text("in steps of %d, %s" % (stride, "most read" if is_reading else "most write"))


def fresh_keys():
    """1,000 keys, one after another, in a store with room for two: each is put, removed and taken as a tombstone, alone in its part."""
    asker = Asker(1, 2)
    for n in range(1000):
        key, number = n.to_bytes(4, "big"), 7 * n
        asker.wants(("begun", 2 * n + 1), "begin", 1)
        asker.wants(("ok",), "put", 1, key, b"here")
        asker.wants(("committed", number + 1), "commit", 1)
        asker.wants(("begun", 2 * n + 2), "begin", 1)
        asker.wants(("ok",), "del", 1, key)
        asker.wants(("committed", number + 2), "commit", 1)
        asker.wants(("phase", "prepare", n + 1), "point")
        asker.wants(("phase", "resolve", n + 1), "seal")
        asker.wants(("phase", "capture", n + 1), "capture")
        asker.wants(("took", key, None), "take")
        asker.wants(("noneleft",), "take")
        asker.wants(("partdone", n + 1, n + 1, 1), "done")
        asker.wants(("phase", "rest", n + 1), "rest")
    asker.sums.checks += 1
    return asker.sums.text("keys that come and go")


def print_crowds():
    sys.stdout.write(one_by_one())
    for stride in (1, 63, 27, 45):
        for is_reading in (False, True):
            sys.stdout.write(crowd(stride, is_reading))
    sys.stdout.write(fresh_keys())


# A long random walk.

LETTERS = b"ABCDEFGHIJKLMNOPQRSTUVWXYZabcdefghijklmnopqrstuvwx"
WORD = b"0123456789 is longer than what is inline"
NEXT = {"rest": "point", "prepare": "seal", "resolve": "capture", "complete": "rest"}
OTHERS = ("point", "seal", "capture", "take", "done", "rest")


class Walk:
    """The walk's knowledge of its store, from the replies alone."""

    def __init__(self):
        self.seed, self.phase, self.has_more, self.files, self.whole, self.part, self.dead = 20_261_123, "rest", True, 0, 0, 0, 0

    def drawn(self, shift, bound):
        return (self.seed >> shift & 0xFFFF_FFFF) % bound

    def checkpointer(self):
        place = self.drawn(41, 30)
        if place < 6:
            return (OTHERS[place],)
        if self.phase == "capture":
            return ("take",) if self.has_more else ("done",)
        return (NEXT[self.phase],)

    def session(self):
        if self.dead:
            return ("abort", self.dead)
        session, kind = self.drawn(24, 8) + 1, self.drawn(45, 20)
        key = LETTERS[self.drawn(29, 50) :][:1]
        start, length = self.drawn(31, 10), self.drawn(35, 28)
        if kind < 4:
            return ("begin", session)
        if kind < 8:
            return ("get", session, key)
        if kind < 11:
            return ("put", session, key, WORD[start : start + length])
        if kind < 13:
            return ("add", session, key, length - 14)
        if kind < 15:
            return ("del", session, key)
        return ("abort", session) if kind == 15 else ("commit", session)

    def next_event(self):
        if self.part > 1:
            return ("join", self.whole, self.part)
        if self.drawn(50, 4) == 0:
            return self.checkpointer()
        if self.drawn(37, 1000) == 0:
            return ("join", self.drawn(20, self.files + 1), self.drawn(26, self.files + 1))
        return self.session()

    def follow(self, event, reply):
        is_whole, kind = self.part > 1, reply[0]
        if kind == "phase":
            self.phase, self.has_more = reply[1], True
        elif kind == "noneleft":
            self.has_more = False
        elif kind == "partdone":
            self.phase, self.files = "complete", reply[2]
            if reply[2] == 1:
                self.whole = 1
        elif kind == "file":
            self.files = reply[1]
            if is_whole:
                self.whole = reply[1]
        self.part = reply[2] if kind == "partdone" else 0
        self.dead = event[1] if reply == ("refused", "MustAbort") else 0
        self.seed = (self.seed * 6_364_136_223_846_793_005 + 1_442_695_040_888_963_407) & MASK


def print_walk():
    asker, walk = Asker(8, 50), Walk()
    for n in range(100_000):
        event = walk.next_event()
        walk.follow(event, asker.ask(*event))
        asker.sums.checks += n % 10_000 == 9_999
    asker.sums.checks += 1
    sys.stdout.write(asker.sums.text("a long walk"))


def main(words):
    if words[:1] == ["lists"]:
        print_lists(words[1:])
    elif words == ["crowds"]:
        print_crowds()
        print_walk()
    else:
        sys.exit(__doc__)


if __name__ == "__main__":
    main(sys.argv[1:])
