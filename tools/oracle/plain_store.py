#!/usr/bin/env python3
"""A slow, plain store, which shares no code with the crates: the answers of the store of `pcalc step`, written from the rules in
docs/MANUAL.md, docs/FORMATS.md and docs/ARCHITECTURE.md alone. Expected outputs of the gate's programs come from it, and are then stored.

    plain_store.py ROWS            prints what each script of ROWS must print, in the form of the program test_scripts

A row is `== NAME step [--sessions N] [--capacity N] [--run N] [--bare]` and the lines of a script; `--bare` leaves out the script's last byte.
Rows of another kind are skipped. A key's contents at a point are those committed when the point's resolve token was logged, and
nothing else is kept of them: no versions, marks or classes of records.
"""

import re
import sys

BEFORE, DURING, AFTER = "Before", "During", "After"
CLASS_OF = {"rest": BEFORE, "complete": BEFORE, "prepare": DURING, "resolve": AFTER, "capture": AFTER}
MOST_WRITES = 256
MOST_SPACE = 65_535
TOMBSTONE = None
GRANTED = "granted"


# A key is its space, a number, and its own bytes: keys are ordered by space, and within a space by these.

def keyed(contents, space=0):
    """The contents by keys of this space, given by the keys' own bytes."""
    return {(space, own): content for own, content in contents.items()}


# What a change is: the bytes that are set, None if the key is removed, or the number that is added.

def fits(number):
    """Whether the number fits 64 signed bits."""
    return -(2**63) <= number < 2**63


def number_in(there):
    """The number of a key with this value, or without one; None if the value is no number."""
    if there is None:
        return 0
    return int.from_bytes(there, "big", signed=True) if len(there) == 8 else None


def text_of(number):
    """The value of the number."""
    return number.to_bytes(8, "big", signed=True)


def changed(there, change):
    """The value of a key after the change. An add to what is no number, or whose sum doesn't fit, changes nothing."""
    if not isinstance(change, int):
        return change
    number = number_in(there)
    return there if number is None or not fits(number + change) else text_of(number + change)


class Transaction:
    """An open transaction: its number and class, what it does to each key in the order of first writes, the keys it has requests for, and whether it
    died."""

    __slots__ = ("number", "kind", "writes", "requested", "is_dead")

    def __init__(self, number, kind):
        self.number, self.kind, self.writes, self.requested, self.is_dead = number, kind, {}, [], False

    def copy(self):
        other = Transaction(self.number, self.kind)
        other.writes, other.requested, other.is_dead = dict(self.writes), list(self.requested), self.is_dead
        return other


class Store:
    """Events are tuples, as ("put", session, key, value); so are replies, as ("found", value) or ("refused", name, number).
    Except for the texts of files, keys must only be comparable."""

    __slots__ = ("run", "base", "sessions", "capacity", "committed", "open", "begun", "queues", "phase", "point", "log", "opened", "closed", "at_point",
                 "taken", "files")

    def __init__(self, base=(), sessions=8, capacity=1024, run=1):
        self.run, self.sessions, self.capacity = run, sessions, capacity
        self.base, self.committed = dict(base), dict(base)
        self.open, self.begun, self.queues = {}, 0, {}
        self.phase, self.point, self.log = "rest", 0, 0
        # the keys written since the last point, those left to take, their contents at the point, and what was taken
        self.opened, self.closed, self.at_point, self.taken = [], [], {}, []
        # files: the points, and by key a point and a value or tombstone
        self.files = []

    def copy(self):
        other = Store.__new__(Store)
        other.run, other.base, other.sessions, other.capacity = self.run, self.base, self.sessions, self.capacity
        other.committed = dict(self.committed)
        other.open = {session: it.copy() for session, it in self.open.items()}
        other.begun, other.phase, other.point, other.log = self.begun, self.phase, self.point, self.log
        other.queues = {key: list(queue) for key, queue in self.queues.items()}
        other.opened, other.closed, other.at_point, other.taken = list(self.opened), list(self.closed), self.at_point, list(self.taken)
        other.files = list(self.files)
        return other

    def step(self, event):
        return getattr(self, "on_" + event[0])(*event[1:])

    # Transactions.

    def why_not(self, session):
        """The refusal that comes before any event of a transaction, except begin and abort."""
        if not 1 <= session <= self.sessions:
            return ("refused", "NoSession")
        if session not in self.open:
            return ("refused", "NoTransaction")
        mine = self.open[session]
        for key in mine.requested:
            if any(number == mine.number and not is_granted for number, _, is_granted in self.queues[key]):
                return ("refused", "StillWaiting")
        return ("refused", "MustAbort") if mine.is_dead else None

    def on_begin(self, session):
        if not 1 <= session <= self.sessions:
            return ("refused", "NoSession")
        if session in self.open:
            return ("refused", "AlreadyBegun")
        self.begun += 1
        self.open[session] = Transaction(self.begun, CLASS_OF[self.phase])
        return ("begun", self.begun)

    def is_occupied(self, key):
        return key in self.committed or bool(self.queues.get(key)) or key in self.opened or key in self.closed

    def is_full_for(self, key):
        if self.is_occupied(key):
            return False
        keys = set(self.committed) | {it for it, queue in self.queues.items() if queue} | set(self.opened) | set(self.closed)
        return len(keys) == self.capacity

    def outcome(self, mine, key, is_exclusive):
        """The outcome of a request for the key's lock. The queue has (number, is exclusive, is granted)."""
        queue = self.queues.get(key, [])
        own = [it for it in queue if it[0] == mine.number]
        others = [it for it in queue if it[0] != mine.number]
        if own:
            is_held = own[0][1] or not is_exclusive
            return "died" if not is_held and any(it[2] for it in others) else GRANTED
        if not others or (not is_exclusive and not any(it[1] for it in others)):
            return GRANTED
        return "wait" if all(mine.number < it[0] for it in others) else "died"

    def lock(self, mine, key, is_exclusive):
        """Requests the key's lock: the answer if it isn't granted."""
        outcome, queue = self.outcome(mine, key, is_exclusive), self.queues.setdefault(key, [])
        if outcome == "died":
            mine.is_dead = True
        elif key not in mine.requested:
            queue.append((mine.number, is_exclusive, outcome == GRANTED))
            mine.requested.append(key)
        elif is_exclusive:
            place = next(place for place, it in enumerate(queue) if it[0] == mine.number)
            queue[place] = (mine.number, True, True)
        return None if outcome == GRANTED else (outcome,)

    def seen(self, mine, key):
        """What the transaction sees of the key: the committed value with its own change."""
        there = self.committed.get(key)
        return changed(there, mine.writes[key]) if key in mine.writes else there

    def on_get(self, session, key):
        refusal = self.why_not(session)
        if refusal or self.is_full_for(key):
            return refusal or ("refused", "Full")
        mine = self.open[session]
        held = self.lock(mine, key, False)
        if held:
            return held
        value = self.seen(mine, key)
        return ("absent",) if value is None else ("found", value)

    def why_no_write(self, session, key):
        """The refusal that comes before any write of the key."""
        refusal = self.why_not(session)
        if refusal:
            return refusal
        writes = self.open[session].writes
        if key not in writes and len(writes) == MOST_WRITES:
            return ("refused", "TooManyWrites")
        return ("refused", "Full") if self.is_full_for(key) else None

    def on_put(self, session, key, value):
        refusal = self.why_no_write(session, key)
        if refusal:
            return refusal
        mine = self.open[session]
        held = self.lock(mine, key, True)
        if held:
            return held
        mine.writes[key] = value
        return ("ok",)

    def on_del(self, session, key):
        return self.on_put(session, key, TOMBSTONE)

    def why_no_sum(self, mine, key, delta):
        """The refusal of an add whose lock would be granted."""
        number, own = number_in(self.seen(mine, key)), mine.writes.get(key)
        if number is None:
            return ("refused", "NotNumber")
        is_kept = fits(own + delta) if isinstance(own, int) else True
        return None if is_kept and fits(number + delta) else ("refused", "OutOfRange")

    def on_add(self, session, key, delta):
        refusal = self.why_no_write(session, key)
        if refusal:
            return refusal
        mine = self.open[session]
        if self.outcome(mine, key, True) == GRANTED:
            refusal = self.why_no_sum(mine, key, delta)
            if refusal:
                return refusal
        held = self.lock(mine, key, True)
        if held:
            return held
        number = number_in(self.seen(mine, key)) + delta
        if key not in mine.writes:
            mine.writes[key] = delta
        elif isinstance(mine.writes[key], int):
            mine.writes[key] += delta
        else:
            mine.writes[key] = text_of(number)
        return ("sum", number)

    def end(self, session):
        """Releases all locks of the session's transaction, in order; each removal grants from the front of its queue."""
        mine = self.open.pop(session)
        for key in mine.requested:
            queue = [it for it in self.queues[key] if it[0] != mine.number]
            for place, (number, is_exclusive, is_granted) in enumerate(queue):
                if not is_granted:
                    if any(is_exclusive or it[1] for it in queue[:place]):
                        break
                    queue[place] = (number, is_exclusive, True)
            if queue:
                self.queues[key] = queue
            else:
                del self.queues[key]

    def on_commit(self, session):
        refusal = self.why_not(session)
        if refusal:
            return refusal
        self.log += 1
        for key, change in self.open[session].writes.items():
            value = changed(self.committed.get(key), change)
            if value is None:
                self.committed.pop(key, None)
            else:
                self.committed[key] = value
            if key not in self.opened:
                self.opened.append(key)
        self.end(session)
        return ("committed", self.log)

    def on_abort(self, session):
        if not 1 <= session <= self.sessions:
            return ("refused", "NoSession")
        if session not in self.open:
            return ("refused", "NoTransaction")
        self.end(session)
        return ("aborted",)

    # Points.

    def change(self, before, kind, after):
        """Changes the phase if it is `before` and no transaction of the class is open."""
        if self.phase != before:
            return ("refused", "WrongPhase")
        held = sum(it.kind == kind for it in self.open.values())
        if held:
            return ("notyet", held)
        self.phase = after
        self.log += 1
        return ("phase", after, self.point)

    def on_point(self):
        if self.phase != "rest":
            return ("refused", "WrongPhase")
        self.point += 1
        return self.change("rest", None, "prepare")

    def on_seal(self):
        reply = self.change("prepare", BEFORE, "resolve")
        if reply[0] == "phase":
            self.opened, self.closed, self.at_point, self.taken = [], self.opened, dict(self.committed), []
        return reply

    def on_capture(self):
        return self.change("resolve", DURING, "capture")

    def on_take(self):
        if self.phase != "capture":
            return ("refused", "WrongPhase")
        if not self.closed:
            return ("noneleft",)
        key = self.closed.pop(0)
        self.taken.append((key, self.at_point.get(key)))
        return ("took", key, self.at_point.get(key))

    def on_done(self):
        if self.phase != "capture":
            return ("refused", "WrongPhase")
        if self.closed:
            return ("notyet", len(self.closed))
        self.change("capture", None, "complete")
        self.files.append(({self.point}, {key: (self.point, value) for key, value in self.taken}))
        return ("partdone", self.point, len(self.files), len(self.taken))

    def on_rest(self):
        return self.change("complete", AFTER, "rest")

    # Files.

    def file(self, number):
        return self.files[number - 1] if 1 <= number <= len(self.files) else None

    def on_join(self, first, second):
        left, right = self.file(first), self.file(second)
        if left is None or right is None:
            return ("refused", "NoFile")
        joined = dict(left[1])
        for key, entry in right[1].items():
            if key not in joined or joined[key][0] < entry[0]:
                joined[key] = entry
        self.files.append((left[0] | right[0], joined))
        return ("file", len(self.files), left[0] | right[0], len(joined))

    def state(self, number):
        """The point and the database with the file applied to the base."""
        file = self.file(number)
        if file is None:
            return ("refused", "NoFile")
        last = max(file[0])
        for point in range(1, last + 1):
            if point not in file[0]:
                return ("refused", "Gap", point)
        pairs = dict(self.base)
        for key, (_, value) in file[1].items():
            if value is None:
                pairs.pop(key, None)
            else:
                pairs[key] = value
        return ("state", last, pairs)

    def text(self, number):
        file = self.file(number)
        if file is None:
            return ("refused", "NoFile")
        ranges = ranges_of(file[0])
        text = b"PCALCP02" + self.run.to_bytes(8, "big") + len(ranges).to_bytes(4, "big")
        text += b"".join(low.to_bytes(4, "big") + high.to_bytes(4, "big") for low, high in ranges)
        for space, own in sorted(file[1]):
            point, value = file[1][space, own]
            text += len(own).to_bytes(2, "big") + space.to_bytes(2, "big") + own + point.to_bytes(4, "big")
            text += b"\0" if value is None else b"\1" + len(value).to_bytes(4, "big") + value
        return ("text", text + bytes(2) + len(file[1]).to_bytes(4, "big"))


def ranges_of(points):
    """The points as ranges, each its first and its last one, ascending."""
    ranges = []
    for point in sorted(points):
        if ranges and ranges[-1][1] + 1 == point:
            ranges[-1] = (ranges[-1][0], point)
        else:
            ranges.append((point, point))
    return ranges


# Replies as text.

def word(text):
    """The word that is printed for these bytes."""
    if text == b"":
        return b"-"
    if text == b"-":
        return b"\\x2d"
    return name_text(text)


def name_text(name):
    """The printed name of a file: each byte as in a word, and nothing for no bytes."""
    return b"".join(bytes([it]) if 0x21 <= it <= 0x7E and it != 0x5C else b"\\x%02x" % it for it in name)


def key_word(key):
    """The word that is printed for this key: its space, if that isn't 0, and its own bytes."""
    space, own = key
    return (b"\\s%d:" % space if space else b"") + word(own)


def pairs_text(point, pairs):
    lines = [b"state point %d pairs %d" % (point, len(pairs))]
    return b"\n".join(lines + [key_word(key) + b" " + word(pairs[key]) for key in sorted(pairs)])


def points_text(points):
    return b",".join(b"%d" % low if low == high else b"%d-%d" % (low, high) for low, high in ranges_of(points))


def reply_text(reply):
    kind, rest = reply[0], reply[1:]
    if kind == "refused":
        return b"refused " + rest[0].encode() + b"".join(b" %d" % it for it in rest[1:])
    if kind == "took":
        return b"took " + key_word(rest[0]) + b" " + (b"tombstone" if rest[1] is None else word(rest[1]))
    if kind == "found":
        return b"= " + word(rest[0])
    if kind == "phase":
        return b"phase " + rest[0].encode() + b" %d" % rest[1]
    if kind == "file":
        return b"file %d points " % rest[0] + points_text(rest[1]) + b" entries %d" % rest[2]
    if kind == "state":
        return pairs_text(*rest)
    if kind == "text":
        return b"text " + rest[0].hex().encode()
    plain = {"begun": b"begun %d", "sum": b"sum %d", "committed": b"committed %d", "notyet": b"not yet %d", "partdone": b"part %d file %d entries %d"}
    return plain[kind] % rest if kind in plain else {"noneleft": b"none left"}.get(kind, kind.encode())


# Scripts.

class Malformed(Exception):
    """A line of no known form."""


def number(text):
    if not re.fullmatch(rb"[0-9]{1,9}", text):
        raise Malformed
    return int(text)


def delta(text):
    if not re.fullmatch(rb"-?[0-9]{1,19}", text) or not fits(int(text)):
        raise Malformed
    return int(text)


def content(text):
    """The bytes of a value's word."""
    if text == b"-":
        return b""
    if not re.fullmatch(rb"(?:[\x21-\x5b\x5d-\x7e]|\\x[0-9a-f]{2})+", text):
        raise Malformed
    return re.sub(rb"\\x([0-9a-f]{2})", lambda it: bytes([int(it[1], 16)]), text)


def key(text):
    """The key of a word."""
    spaced = re.fullmatch(rb"\\s([1-9][0-9]{0,4}):(.+)", text, re.DOTALL)
    if spaced is None:
        return 0, content(text)
    if int(spaced[1]) > MOST_SPACE:
        raise Malformed
    return int(spaced[1]), content(spaced[2])


FORMS = {
    b"base": (key, content), b"begin": (number,), b"get": (number, key), b"put": (number, key, content), b"del": (number, key),
    b"add": (number, key, delta), b"commit": (number,), b"abort": (number,), b"point": (), b"seal": (), b"capture": (), b"take": (), b"done": (), b"rest": (),
    b"join": (number, number), b"state": (number,), b"text": (number,), b"check": (),
}
KEY_AT = {b"base": 0, b"get": 1, b"put": 1, b"del": 1, b"add": 1}
VALUE_AT = {b"base": 1, b"put": 2}


def wrong_length(verb, words):
    if verb in KEY_AT and not 1 <= len(words[KEY_AT[verb]][1]) <= 255:
        return ("refused", "KeyLength")
    if verb in VALUE_AT and len(words[VALUE_AT[verb]]) > 65_535:
        return ("refused", "ValueLength")
    return None


class Script:
    """A script's run: the base, as long as there are only `base` lines, and then the store."""

    def __init__(self, sessions, capacity, run):
        self.setting, self.base, self.store, self.status = (sessions, capacity, run), {}, None, 0

    def stored(self):
        if self.store is None:
            self.store = Store(self.base, *self.setting)
        return self.store

    def answer_base(self, words):
        refusal = wrong_length(b"base", words)
        if refusal:
            return refusal
        if self.store is not None:
            return ("refused", "WrongPhase")
        if words[0] not in self.base and len(self.base) >= self.setting[1]:
            return ("refused", "Full")
        self.base[words[0]] = words[1]
        return ("ok",)

    def answer_words(self, words):
        if words[0] not in FORMS or len(words) != 1 + len(FORMS[words[0]]):
            raise Malformed
        verb, given = words[0], [read(it) for read, it in zip(FORMS[words[0]], words[1:])]
        if verb == b"base":
            return self.answer_base(given)
        store = self.stored()
        refusal = wrong_length(verb, given)
        if refusal:
            return refusal
        if verb in (b"state", b"text"):
            return getattr(store, verb.decode())(*given)
        return ("check ok",) if verb == b"check" else store.step((verb.decode(), *given))

    def answer(self, line):
        """The answer to the line, given without its end; nothing for a line without words or a comment."""
        words = [it for it in line.split(b" ") if it]
        if not words or line.startswith(b"#"):
            return b""
        try:
            return reply_text(self.answer_words(words)) + b"\n"
        except Malformed:
            self.stored()
            self.status = 3
            return b"bad line\n"


def lines_of(script):
    """The script's lines without their ends."""
    lines = script.split(b"\n")
    last = lines.pop()
    return [it.removesuffix(b"\r") for it in lines] + ([last] if last else [])


def run_script(head, script):
    options = {"--sessions": 8, "--capacity": 1024, "--run": 1}
    for at, text in enumerate(head):
        if text in options:
            options[text] = int(head[at + 1])
    if "--bare" in head:
        script = script[:-1]
    run = Script(*options.values())
    out = b"".join(run.answer(line) for line in lines_of(script))
    return out + b"status %d\n" % run.status


def rows_of(text):
    """The heads of the input, each with the text up to the next."""
    for piece in re.split(rb"(?m)^(?=== )", text):
        if piece:
            head, _, rest = piece.partition(b"\n")
            yield head, rest


def main(path):
    with open(path, "rb") as file:
        for head, script in rows_of(file.read()):
            words = head.decode().split(" ")
            if words[2:3] in ([], ["step"]) or words[2].startswith("--"):
                sys.stdout.buffer.write(head + b"\n" + run_script(words, script))


if __name__ == "__main__":
    if len(sys.argv) != 2:
        sys.exit(__doc__)
    main(sys.argv[1])
