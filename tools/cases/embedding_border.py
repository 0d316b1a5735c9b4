"""Calls through the border of the library, compared with `plain_store.py`, which shares no code with it: all rows of `test_scripts`, random scripts, buffers
of each length, wrong arguments. For `embedding_cases.py`, in a process of its own, since a fault of the library would end it.

    embedding_border.py     PCALC_SO and PYTHONPATH name the library and its Python module; prints a line of JSON for each case, its name and the differences
"""

import json
import os
import random
import sys

if __name__ == "__main__":
    sys.path.insert(0, os.path.join(os.path.dirname(os.path.abspath(__file__)), "..", ".."))

from tools import ROOT
from tools.cases import soak
from tools.oracle import plain_files, plain_store

ROWS = os.path.join(ROOT, "crates", "test_scripts", "stdin")
DRAWN, SEED = 100, "border"


class Border:
    """A store used through the border, with the events and replies of `plain_store.Store`."""

    KINDS = {"begin": 1, "get": 2, "put": 3, "del": 4, "add": 5, "commit": 6, "abort": 7, "point": 8, "seal": 9, "capture": 10, "take": 11, "done": 12,
             "rest": 13, "join": 14}
    PHASES = ("rest", "prepare", "resolve", "capture", "complete")

    def __init__(self, base, sessions, capacity, number):
        import pcalc_embedded as embedded
        self.embedded, self.handle = embedded, embedded.Handle()
        if base:
            text = plain_files.Base(number - 1, 0, base).text()
            assert self.handle.give(embedded.BASE, text) == embedded.GIVEN
        assert self.handle.open(sessions, capacity, number) == embedded.OPENED

    def step(self, event):
        verb, *given = event
        words = {"first": given[0], "second": given[1]} if verb == "join" else {"session": given[0]} if given else {}
        if len(given) > 1 and verb != "join":
            words["space"], words["key"] = given[1]
        if len(given) > 2:
            words["value" if verb == "put" else "delta"] = given[2]
        return self.reply(self.handle.call(self.KINDS[verb], **words))

    def reply(self, kind):
        answer, it = self.handle.answer, self.embedded
        assert kind == answer.kind
        if kind == it.REFUSED:
            name = it.REFUSALS[answer.refusal]
            return ("refused", name, answer.number) if name == "Gap" else ("refused", name)
        if kind in (it.TOOK, it.TOOK_ABSENT):
            key, value = self.handle.copied()
            return "took", (answer.space, key), value if kind == it.TOOK else None
        if kind == it.JOINED:
            file, entries = answer.file, answer.entries
            return "file", file, plain_files.points_of(plain_files.read_part(self.shown(it.PART, file))), entries
        return {
            it.BEGUN: lambda: ("begun", answer.number), it.FOUND: lambda: ("found", self.handle.copied()[1]), it.ABSENT: lambda: ("absent",),
            it.MADE: lambda: ("ok",), it.SUM: lambda: ("sum", answer.sum), it.WAIT: lambda: ("wait",), it.DIED: lambda: ("died",),
            it.COMMITTED: lambda: ("committed", answer.number), it.ABORTED: lambda: ("aborted",), it.PHASE: lambda: ("phase", self.PHASES[answer.phase], answer.number),
            it.NOT_YET: lambda: ("notyet", answer.number), it.NONE_LEFT: lambda: ("noneleft",),
            it.PART_DONE: lambda: ("partdone", answer.number, answer.file, answer.entries),
        }[kind]()

    def shown(self, what, number=0):
        kind = self.handle.show(what, number)
        return self.handle.copied()[1] if kind == self.embedded.TEXT else None

    def text(self, number):
        text = self.shown(self.embedded.PART, number)
        return self.reply(self.handle.answer.kind) if text is None else ("text", text)

    def state(self, number):
        text = self.shown(self.embedded.PART, number)
        if text is None:
            return self.reply(self.handle.answer.kind)
        part, base = plain_files.read_part(text), plain_files.read_base(self.shown(self.embedded.BASE))
        last = part.greatest()
        for point in range(1, last + 1):
            if not part.covers(point):
                return "refused", "Gap", point
        return "state", last, dict(plain_files.lay(base, part).pairs)

    def close(self):
        self.handle.close()


class BorderScript(plain_store.Script):
    """A script over such a store."""

    def stored(self):
        if self.store is None:
            self.store = Border(self.base, *self.setting)
        return self.store


def rows():
    """The settings and the lines of each row."""
    with open(ROWS, "rb") as it:
        for head, script in plain_store.rows_of(it.read()):
            words = head.decode().split(" ")
            if words[2:3] in ([], ["step"]) or words[2].startswith("--"):
                yield words, script


def answered(kind, words, script):
    """What `plain_store.run_script` returns for scripts of this kind."""
    plain = plain_store.Script
    plain_store.Script = kind
    try:
        return plain_store.run_script(words, script)
    finally:
        plain_store.Script = plain


def different_rows():
    """The rows with other answers through the border than by the plain store."""
    count = 0
    for count, (words, script) in enumerate(rows(), 1):
        wanted, got = answered(plain_store.Script, words, script), answered(BorderScript, words, script)
        if got != wanted:
            yield f"{' '.join(words)}: {got[:300]!r} instead of {wanted[:300]!r}"
    if count < 300:
        yield f"there are only {count} rows"


def different_script(setting, lines):
    """The first line of a script with another answer through the border than by the plain store."""
    wanted, got = plain_store.Script(*setting), BorderScript(*setting)
    for number, line in enumerate(lines, 1):
        pair = [script.answer(line) for script in (wanted, got)]
        if pair[0] != pair[1]:
            yield f"line {number}, {line!r}: {pair[1][:300]!r} instead of {pair[0][:300]!r}"
            break
    if got.status != wanted.status:
        yield f"status {got.status} instead of {wanted.status}"
    if got.store is not None:
        got.store.close()


def different_buffers():
    """The lengths of buffers, and the offsets of copies, for which the copy isn't that part of the bytes."""
    store = Border({}, 1, 100, 1)
    handle, it = store.handle, store.embedded
    value = bytes(range(40))
    for event in (("begin", 1), ("put", 1, (300, b"a key"), value), ("commit", 1), ("point",), ("seal",), ("capture",)):
        store.step(event)
    handle.call(it.TAKE)
    for length in range(42):
        for start in (0, 1, 39, 40, 41):
            key, got = handle.copied(length, length, start)
            if key != b"a key"[:length].ljust(length, b"\0") or got != value[start:][:length].ljust(length, b"\0"):
                yield f"a buffer of {length} from {start}: {key!r} {got!r}"
    if handle.copied() != (b"a key", value):
        yield "what was taken is lost"
    store.close()


def wrong_arguments():
    """Bad arguments that are not answered by their refusals, and what they change."""
    store = Border({}, 1, 100, 1)
    handle, it = store.handle, store.embedded
    store.step(("begin", 1))
    store.step(("put", 1, (0, b"k"), b"v"))
    for name, words in (("BadKind", {"kind": 0}), ("BadKind", {"kind": 15}), ("BadKind", {"kind": 2**32 - 1}), ("BadLength", {"kind": it.GET, "space": 65_536, "key": b"k"}),
                        ("KeyLength", {"kind": it.GET}), ("KeyLength", {"kind": it.PUT, "key": bytes(256), "value": bytes(65_536)}),
                        ("ValueLength", {"kind": it.PUT, "key": b"k", "value": bytes(65_536)}), ("NoSession", {"kind": it.GET, "session": 0, "key": b"k"}),
                        ("NoSession", {"kind": it.COMMIT, "session": 2**32 - 1})):
        kind = handle.call(**{"session": 1, **words})
        if kind != it.REFUSED or it.REFUSALS[handle.answer.refusal] != name:
            yield f"{words}: {kind} {handle.answer.refusal}"
    for what, number, name in ((0, 0, "BadKind"), (5, 0, "BadKind"), (it.PART, 1, "NoFile"), (it.PART, 0, "NoFile")):
        kind = handle.show(what, number)
        if kind != it.REFUSED or it.REFUSALS[handle.answer.refusal] != name:
            yield f"show {what} {number}: {kind} {handle.answer.refusal}"
    if store.step(("get", 1, (0, b"k"))) != ("found", b"v") or store.step(("commit", 1)) != ("committed", 1):
        yield "a refusal has changed something"
    if handle.give(it.BASE, b"") != it.OPEN or handle.open() != it.OPEN or handle.recover() != 8:
        yield "an open store takes texts"
    store.close()
    if handle.call(it.BEGIN, 1) != it.CLOSED or handle.show(it.BASE) != it.CLOSED or handle.give(4, b"") != it.REFUSED:
        yield "a closed store answers"
    for sessions, capacity, name in ((0, 1, "NoSession"), (65, 1, "NoSession"), (1, 0, "BadLength"), (1, 1_048_577, "BadLength")):
        if handle.open(sessions, capacity) != it.REFUSED or it.REFUSALS[handle.answer.refusal] != name:
            yield f"open {sessions} {capacity}: {handle.answer.kind} {handle.answer.refusal}"
    handle.give(it.BASE, b"PCALC")
    if handle.open() != it.REFUSED or it.REFUSALS[handle.answer.refusal] != "Short" or handle.recover() != handle.answer.refusal:
        yield "a bad base is opened"
    handle.close()
    for words in ({"base": b""}, {"log": b""}):
        try:
            it.Store(**words).close()
            yield f"a store is opened over {words}"
        except it.Refused as why:
            if why.word != "Short":
                yield f"{words}: {why.word}"


def cases():
    """The differences of each case, by its name."""
    yield "rows of scripts", list(different_rows())
    yield "buffers of each length", list(different_buffers())
    yield "wrong arguments", list(wrong_arguments())
    for number in range(DRAWN):
        setting, lines = soak.Scripts().draw(random.Random(f"{SEED} {number}"))
        yield f"random script {number}", list(different_script(setting, lines))


def main():
    for name, lines in cases():
        print(json.dumps([name, lines]), flush=True)


if __name__ == "__main__":
    main()
