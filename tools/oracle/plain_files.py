#!/usr/bin/env python3
"""A plain reader of part files, base files and logs, and a slow recovery, which share no code with the crates: they are written from the formats and
rules of docs/FORMATS.md and docs/MANUAL.md alone. Expected outputs of the gate's programs come from them, and are then stored.

    plain_files.py files LINES    prints what the program test_files must print for these lines
    plain_files.py rows ROWS      prints what the program test_scripts must print for these rows; scripts are run by plain_store.py
"""

import os
import sys

if __name__ == "__main__":
    sys.path.insert(0, os.path.join(os.path.dirname(os.path.abspath(__file__)), "..", ".."))

from tools.oracle.plain_store import changed, key_word, keyed, name_text, ranges_of, run_script, word

# The ends of the magics of both formats. In a text of the first the keys are of space 0, which isn't written.
FIRST, SECOND = b"01", b"02"


class Refused(Exception):
    """Why bytes are no file, or files can't be joined or applied."""

    def __init__(self, name, point=None):
        super().__init__(name)
        self.name = name if point is None else "%s %d" % (name, point)


class Fields:
    """Bytes read from the left, in the format of their magic. An incomplete field has the fault `cut`."""

    def __init__(self, text, form=None, cut="Short"):
        self.text, self.at, self.form, self.cut = text, 0, form, cut

    def bytes(self, count):
        if len(self.text) - self.at < count:
            raise Refused(self.cut)
        self.at += count
        return self.text[self.at - count : self.at]

    def number(self, width):
        return int.from_bytes(self.bytes(width), "big")

    def sized(self, width, least, most):
        """As many bytes as the number before them says."""
        size = self.number(width)
        if not least <= size <= most:
            raise Refused("BadLength")
        return self.bytes(size)

    def content(self):
        """A value, or None for a tombstone or an absence."""
        return self.change(1)

    def change(self, greatest_kind=2):
        """What a write does to its key: a value, None for a removal, or the number to add."""
        kind = self.number(1)
        if kind > greatest_kind:
            raise Refused("BadKind")
        if kind == 2:
            return int.from_bytes(self.bytes(8), "big", signed=True)
        return self.sized(4, 0, 65_535) if kind == 1 else None

    def magic(self, magic):
        """The file's kind by the magic's first bytes, and its format by the others."""
        read = self.bytes(8)
        self.form = read[6:]
        if read[:6] != magic or self.form not in (FIRST, SECOND):
            raise Refused("BadMagic")

    def key(self):
        """A key, or None for the end mark instead of its length."""
        size = self.number(2)
        if size > 255:
            raise Refused("BadLength")
        if size == 0:
            return None
        space = self.number(2) if self.form == SECOND else 0
        return space, self.bytes(size)

    def key_that_is_there(self):
        key = self.key()
        if key is None:
            raise Refused("BadLength")
        return key

    def end(self):
        if self.at < len(self.text):
            raise Refused("Trailing")


class Part:
    """A run, its ranges of points, and by key a point and a value or None."""

    def __init__(self, run, ranges, entries):
        self.run, self.ranges, self.entries = run, ranges, entries

    def covers(self, point):
        return any(low <= point <= high for low, high in self.ranges)

    def greatest(self):
        return self.ranges[-1][1]

    def complete_to(self):
        return self.ranges[0][1] if len(self.ranges) == 1 and self.ranges[0][0] == 1 else 0

    def text(self, form=SECOND):
        pieces = [b"PCALCP" + form, self.run.to_bytes(8, "big"), len(self.ranges).to_bytes(4, "big")]
        pieces += [low.to_bytes(4, "big") + high.to_bytes(4, "big") for low, high in self.ranges]
        for key in sorted(self.entries):
            point, value = self.entries[key]
            pieces += [key_text(form, key), point.to_bytes(4, "big"), content_text(value)]
        return b"".join(pieces) + bytes(2) + len(self.entries).to_bytes(4, "big")


class Base:
    """A run, a point, and the pairs there."""

    def __init__(self, run, point, pairs):
        self.run, self.point, self.pairs = run, point, pairs

    def text(self, form=SECOND):
        text = b"PCALCB" + form + self.run.to_bytes(8, "big") + self.point.to_bytes(4, "big") + len(self.pairs).to_bytes(4, "big")
        for key in sorted(self.pairs):
            text += key_text(form, key) + len(self.pairs[key]).to_bytes(4, "big") + self.pairs[key]
        return text


class Log:
    """A run, the whole entries with the places after them, and the fault of the rest or None.

    An entry is ("commit", session, writes) or ("token", phase, point). A write is a key with a value, None for a removal, or the number to
    add."""

    def __init__(self, run):
        self.run, self.entries, self.ends, self.fault = run, [], [20], None

    def end(self):
        return self.ends[-1]

    def text(self, form=SECOND):
        text = b"PCALCL" + form + self.run.to_bytes(8, "big") + bytes(4)
        for entry in self.entries:
            body = body_text(form, entry)
            text += len(body).to_bytes(4, "big") + body
        return text


def commit(session, changes, space=0):
    """The entry of a commit, its changes given by the own bytes of keys of the space."""
    return "commit", session, [*keyed(changes, space).items()]


def key_text(form, key):
    space, own = key
    if form == FIRST and space != 0:
        raise ValueError("a text of the first format has keys of space 0 alone")
    return len(own).to_bytes(2, "big") + (b"" if form == FIRST else space.to_bytes(2, "big")) + own


def content_text(value):
    return b"\0" if value is None else b"\1" + len(value).to_bytes(4, "big") + value


def change_text(change):
    return b"\2" + change.to_bytes(8, "big", signed=True) if isinstance(change, int) else content_text(change)


def body_text(form, entry):
    if entry[0] == "token":
        return b"\2" + bytes([PHASES.index(entry[1])]) + entry[2].to_bytes(4, "big")
    body = b"\1" + bytes([entry[1]]) + len(entry[2]).to_bytes(2, "big")
    for key, change in entry[2]:
        body += key_text(form, key) + change_text(change)
    return body


PHASES = ("rest", "prepare", "resolve", "capture", "complete")
# 256 writes of keys and values of the greatest lengths, with what precedes them.
MOST_BODY = {FIRST: 16_844_036, SECOND: 16_844_548}


def read_ranges(fields):
    count = fields.number(4)
    if count == 0:
        raise Refused("BadRanges")
    ranges = []
    for _ in range(count):
        low, high = fields.number(4), fields.number(4)
        least = ranges[-1][1] + 2 if ranges else 1
        if not least <= low <= high <= 65_535:
            raise Refused("BadRanges")
        ranges.append((low, high))
    return ranges


def read_part(text):
    part, fault = read_as_far(text)
    if fault:
        raise fault
    return part


def read_as_far(text):
    """The part of a text as far as it can be read, None if its header can't, and the fault, if there is one."""
    fields, part = Fields(text), None
    try:
        fields.magic(b"PCALCP")
        part = Part(fields.number(8), read_ranges(fields), {})
        read_entries(fields, part)
    except Refused as fault:
        return part, fault
    return part, None


def read_entries(fields, part):
    last = None
    while True:
        key = fields.key()
        if key is None:
            break
        if last is not None and key <= last:
            raise Refused("KeyOrder")
        point = fields.number(4)
        if not part.covers(point):
            raise Refused("NotCovered")
        part.entries[key] = (point, fields.content())
        last = key
    if fields.number(4) != len(part.entries):
        raise Refused("BadLength")
    fields.end()


def read_base(text):
    fields = Fields(text)
    fields.magic(b"PCALCB")
    run, point = fields.number(8), fields.number(4)
    if point > 65_535:
        raise Refused("BadRanges")
    base, last = Base(run, point, {}), None
    for _ in range(fields.number(4)):
        key = fields.key_that_is_there()
        if last is not None and key <= last:
            raise Refused("KeyOrder")
        base.pairs[key] = fields.sized(4, 0, 65_535)
        last = key
    fields.end()
    return base


def token_at(place):
    """The token number `place`, from 0."""
    return ("token", PHASES[(place + 1) % 5], place // 5 + 1)


def read_body(body, tokens):
    kind = body.number(1)
    if kind == 1:
        session, count = body.number(1), None
        if not 1 <= session <= 64:
            raise Refused("BadLength")
        count = body.number(2)
        if count > 256:
            raise Refused("BadLength")
        writes = []
        for _ in range(count):
            key = body.key_that_is_there()
            if any(key == other for other, _ in writes):
                raise Refused("KeyOrder")
            writes.append((key, body.change()))
        entry = ("commit", session, writes)
    elif kind == 2:
        phase = body.number(1)
        if phase > 4:
            raise Refused("BadKind")
        entry = ("token", PHASES[phase], body.number(4))
        if entry != token_at(tokens) or entry[2] > 65_535:
            raise Refused("TokenOrder")
    else:
        raise Refused("BadKind")
    body.end()
    return entry


def read_log(text):
    fields = Fields(text)
    fields.magic(b"PCALCL")
    log, tokens = Log(fields.number(8)), 0
    if fields.number(4) != 0:
        raise Refused("BadRanges")
    while fields.at < len(text):
        try:
            size = fields.number(4)
            if not 1 <= size <= MOST_BODY[fields.form]:
                raise Refused("BadLength")
            entry = read_body(Fields(fields.bytes(size), fields.form, "BadLength"), tokens)
        except Refused as fault:
            log.fault = fault.name
            break
        tokens += entry[0] == "token"
        log.entries.append(entry)
        log.ends.append(fields.at)
    return log


# Joins, applying and recovery.


def points_of(part):
    return {point for low, high in part.ranges for point in range(low, high + 1)}


def join(first, second):
    if first.run != second.run:
        raise Refused("OtherRun")
    entries = dict(first.entries)
    for key, (point, value) in second.entries.items():
        if key in entries and entries[key][0] == point and entries[key][1] != value:
            raise Refused("Conflict")
        if key not in entries or entries[key][0] < point:
            entries[key] = (point, value)
    return Part(first.run, ranges_of(points_of(first) | points_of(second)), entries)


def lay(base, part):
    if base.run != part.run:
        raise Refused("OtherRun")
    points = points_of(part)
    for point in range(base.point + 1, part.greatest()):
        if point not in points:
            raise Refused("Gap", point)
    pairs = dict(base.pairs)
    for key, (point, value) in part.entries.items():
        if point > base.point:
            pairs.pop(key, None)
            if value is not None:
                pairs[key] = value
    return Base(base.run, max(base.point, part.greatest()), pairs)


def all_joined(parts):
    joined = parts[0]
    for part in parts[1:]:
        joined = join(joined, part)
    return joined


def reached(base, parts):
    """The recovered point: the greatest one such that the parts without a point above it cover every point above the base's up to it."""
    for point in sorted({part.greatest() for part in parts}, reverse=True):
        used = [points_of(part) for part in parts if part.greatest() <= point]
        if point > base.point and set(range(base.point + 1, point + 1)) <= set().union(*used):
            return point
    return base.point


class Recovered:
    """A point, how many whole entries the log has, the fault of its rest, the names of the skipped parts with the reasons, and the pairs."""

    def __init__(self, point, entries, fault, skipped, pairs):
        self.point, self.entries, self.fault, self.skipped, self.pairs = point, entries, fault, skipped, pairs

    def text(self):
        lines = [b"point %d" % self.point, b"entries %d" % self.entries]
        if self.fault not in (None, "Short"):
            lines.append(b"log " + self.fault.encode())
        lines += [b"skipped " + name_text(name) + b" " + reason.encode() for name, reason in self.skipped]
        lines.append(b"pairs %d" % len(self.pairs))
        lines += [key_word(key) + b" " + word(self.pairs[key]) for key in sorted(self.pairs)]
        return b"".join(line + b"\n" for line in lines)


def recover(base_text, files, log_text):
    """The state recovered from a base, parts (names with texts) and a log."""
    base = read_base(base_text)
    found = {}
    reasons = {}
    for place, (_, text) in enumerate(files):
        try:
            part = read_part(text)
            if part.run != base.run:
                raise Refused("OtherRun")
            found[place] = part
        except Refused as fault:
            reasons[place] = fault.name
    point = reached(base, list(found.values()))
    covered = set().union(*(points_of(part) for part in found.values()))
    used = []
    for place, part in found.items():
        if part.greatest() <= point:
            used.append(part)
        else:
            gap = next(it for it in range(base.point + 1, 65_537) if it not in covered)
            reasons[place] = "Gap %d" % gap
    state = lay(base, all_joined(used)) if used else base
    log = Log(base.run) if len(log_text) < 20 else read_log(log_text)
    if log.run != base.run:
        raise Refused("OtherRun")
    pairs = dict(state.pairs)
    for entry in commits_after(log.entries, point):
        for key, change in entry[2]:
            apply(pairs, key, change)
    # a rest of zeros is what a file system leaves of bytes that never reached its disk
    fault = log.fault if not log.fault or any(log_text[log.ends[-1]:]) else "Short"
    return Recovered(point, len(log.entries), fault, [(files[place][0], reasons[place]) for place in sorted(reasons)], pairs)


def apply(pairs, key, change):
    """Applies the change to the pairs."""
    value = changed(pairs.pop(key, None), change)
    if value is not None:
        pairs[key] = value


def commits_after(entries, point):
    """The commits to apply: all for point 0, otherwise those after its resolve token, or none if there is no such token."""
    token = ("token", "resolve", point)
    if point > 0:
        entries = entries[entries.index(token) + 1 :] if token in entries else []
    return [entry for entry in entries if entry[0] == "commit"]


# What test_files prints.


def read(kind, text):
    return {"part": read_part, "base": read_base, "log": read_log}[kind](text)


def found(kind, text):
    """What a text has, as a line without its end, and whether writing that gives the text again, or how many bytes it gives."""
    try:
        file = read(kind, text)
    except Refused as fault:
        return "refused " + fault.name
    if kind == "log":
        end, count, fault = file.end(), len(file.entries), file.fault or "whole"
    else:
        end, count, fault = len(text), len(file.entries if kind == "part" else file.pairs), "whole"
    again = file.text()
    return "items %d end %d %s %s" % (count, end, fault, "same" if again == text[:end] else "becomes %d" % len(again))


def spans(kind, texts, label=""):
    """Runs of texts with the same result, by the first and the last of their numbers."""
    lines, first, last, before = [], None, None, None
    for number, text in enumerate(texts):
        now = found(kind, text)
        if before is not None and now != before:
            lines.append("%s%d..%d: %s" % (label, first, last, before))
        if now != before:
            first = number
        last, before = number, now
    return lines + ([] if before is None else ["%s%d..%d: %s" % (label, first, last, before)])


def with_byte(text, at):
    """The text with each value of the byte at the place."""
    return (text[:at] + bytes([value]) + text[at + 1 :] for value in range(256))


def digits(text):
    return text.hex() or "-"


def key_digits(key):
    """The key in digits: its space, if that isn't 0, and its own bytes."""
    return ("%d:" % key[0] if key[0] else "") + digits(key[1])


def content_word(value):
    return "tombstone" if value is None else "= " + digits(value)


def change_word(change):
    return "+ %d" % change if isinstance(change, int) else content_word(change)


def part_lines(part):
    ranges = "".join(" %d-%d" % it for it in part.ranges)
    lines = ["run %d complete to %d points%s" % (part.run, part.complete_to(), ranges)]
    for key in sorted(part.entries):
        point, value = part.entries[key]
        lines.append("point %d %s %s" % (point, key_digits(key), content_word(value)))
    return lines


def base_lines(base):
    pairs = ["%s = %s" % (key_digits(key), digits(base.pairs[key])) for key in sorted(base.pairs)]
    return ["run %d point %d" % (base.run, base.point)] + pairs


def log_lines(log, length):
    lines = ["run %d" % log.run]
    for number, (entry, end) in enumerate(zip(log.entries, log.ends[1:]), 1):
        if entry[0] == "token":
            body = "%s %d" % entry[1:]
        else:
            body = "commit of %d" % entry[1] + "".join(" %s %s" % (key_digits(key), change_word(change)) for key, change in entry[2])
        lines.append("%d of %d left %d: %s" % (number, number, length - end, body))
    return lines + (["refused " + log.fault] if log.fault else [])


def listed(kind, text):
    file = read(kind, text)
    if kind == "log":
        return log_lines(file, len(text))
    return part_lines(file) if kind == "part" else base_lines(file)


def rewritten(kind, text):
    """What the text has, written again; of a log its whole entries."""
    return ["text " + digits(read(kind, text).text())]


def joined(texts):
    part = all_joined([read_part(text) for text in texts])
    return part_lines(part) + ["text " + digits(part.text())]


def streamed(texts):
    """What is written while the texts are read: the join, or why not; and what was written before is read as Short."""
    read = [read_as_far(text) for text in texts]
    try:
        for part, fault in read:
            if part is None:
                raise fault
        if len({part.run for part, _ in read}) > 1:
            raise Refused("OtherRun")
        for _, fault in read:
            if fault:
                raise fault
        return joined(texts)
    except Refused as fault:
        return ["refused " + fault.name, "refused Short"]


def laid(texts):
    base = read_base(texts[0])
    for text in texts[1:]:
        base = lay(base, read_part(text))
    return base_lines(base) + ["text " + digits(base.text())]


def or_refusal(lines_of, *arguments):
    try:
        return lines_of(*arguments)
    except Refused as fault:
        return ["refused " + fault.name]


def verb_lines(kind, verb, texts):
    text = texts[0]
    if verb == "read":
        return [found(kind, text)]
    if verb in ("list", "write"):
        return or_refusal(listed if verb == "list" else rewritten, kind, text)
    if verb == "cuts":
        return spans(kind, (text[:cut] for cut in range(len(text))))
    if verb == "changes":
        return [line for at in range(len(text)) for line in spans(kind, with_byte(text, at), "%d " % at)]
    if verb == "longer":
        return spans(kind, with_byte(text + b"\0", len(text)), "%d " % len(text))
    return or_refusal({"join": joined, "stream": streamed, "lay": laid}[verb], texts)


def print_files(path):
    with open(path, encoding="ascii") as file:
        for line in file:
            kind, name, verbs, *texts = line.split()
            for verb in verbs.split(","):
                print("== %s %s" % (name, verb))
                print("".join(it + "\n" for it in verb_lines(kind, verb, [bytes.fromhex(it) for it in texts])), end="")


# What test_scripts prints.

DIRECTORY = b"d d"


def folder_of(lines):
    """The files of a row, by their names: bytes, or why one can't be opened."""
    files = {}
    for line in lines:
        name, _, text = line.partition(b" ")
        files[name] = Refused(text.decode()) if text in (b"NoFile", b"Device") else bytes.fromhex(text.decode())
    return files


def lacks_text(files, log, found):
    """The line of what a recovery lacked, with these files and bytes of the log, and whether its folder is whole."""
    header = "missing" if log is None else "whole" if len(log) >= 20 else "cut"
    tokens = read_log(log).entries if header == "whole" else []
    is_used = found.point == 0 or ("token", "resolve", found.point) in tokens
    skipped = len(found.skipped)
    is_whole = header == "whole" and is_used and not (found.fault or skipped)
    is_made_up_for = is_used and not any(files[name] for name, _ in found.skipped)
    is_damaged = header != "whole" or found.fault not in (None, "Short") or (skipped > 0 and not is_made_up_for)
    state = "whole" if is_whole else "damaged" if is_damaged else "cut off"
    unused = "none" if is_used else str(found.entries)
    return f"lacks header {header} fault {found.fault or 'none'} unused {unused} skipped {skipped}: {state}\n".encode(), is_whole


def recovered_text(files, is_strict=False, cut=None):
    """What a recovery of the folder prints, with its status, and, if it is strict, with what it lacked."""
    name = b"base.pcb"
    try:
        for name in [b"base.pcb", b"."] + [it for it in files if it.endswith(b".pcp")] + [b"log.pcl"]:
            if isinstance(files.get(name), Refused) and (name, files[name].name) != (b"log.pcl", "NoFile"):
                raise files[name]
            if name == b"base.pcb" and name not in files:
                raise Refused("NoFile")
        name = DIRECTORY
        log = files.get(b"log.pcl")
        log = None if log is None or isinstance(log, Refused) else log[:cut]
        parts = [(it, files[it]) for it in files if it.endswith(b".pcp")]
        found = recover(files[b"base.pcb"], parts, log or b"")
        lacks, is_whole = lacks_text(files, log, found)
        if is_strict:
            return found.text() + lacks + (b"status 0\n" if is_whole else b"status 4\n")
        return found.text() + b"status 0\n"
    except Refused as why:
        name = DIRECTORY if name == b"." else name
        return b"pcalc: " + name_text(name) + b": " + why.name.encode() + b"\nstatus 1\n"


def cuts_text(files, is_strict):
    """What a recovery prints with each prefix of the log, if it differs from that of the one before, after its length."""
    text, before = b"", None
    for cut in range(len(files[b"log.pcl"]) + 1):
        now = recovered_text(files, is_strict, cut)
        if now != before:
            text += b"-- %d\n" % cut + now
        before = now
    return text


def print_rows(path):
    with open(path, "rb") as file:
        text = file.read()
    for row in (b"\n" + text).split(b"\n== ")[1:]:
        head, _, rest = row.removesuffix(b"\n").partition(b"\n")
        words = head.split(b" ")
        lines = rest.split(b"\n") if rest else []
        sys.stdout.buffer.write(b"== " + head + b"\n")
        if words[1] == b"recover":
            sys.stdout.buffer.write(recovered_text(folder_of(lines), b"--strict" in words))
        elif words[1] == b"cuts":
            sys.stdout.buffer.write(cuts_text(folder_of(lines), b"--strict" in words))
        else:
            script = b"".join(line + b"\n" for line in lines)
            sys.stdout.buffer.write(run_script(["=="] + head.decode().split(" "), script))


if __name__ == "__main__":
    prints = {"files": print_files, "rows": print_rows}
    if len(sys.argv) != 3 or sys.argv[1] not in prints:
        sys.exit(__doc__)
    prints[sys.argv[1]](sys.argv[2])
