#!/usr/bin/env python3
"""Prints what the program test_walks must print, by the slow store of plain_store.py and the lengths of docs/FORMATS.md: its stored output
comes from here. The promise is that everything is recovered correctly.
"""

import os
import sys

if __name__ == "__main__":
    sys.path.insert(0, os.path.join(os.path.dirname(os.path.abspath(__file__)), "..", ".."))

from tools.oracle.plain_store import Store

WALKS, STEPS, MASK = 200, 250, (1 << 64) - 1
WORD = b"0123456789 is longer than what is inline"
HEADER, TOKEN, COMMIT = 20, 10, 8
ASKS = {"prepare": "seal", "resolve": "capture", "complete": "rest"}


def following(seed):
    return (seed * 6_364_136_223_846_793_005 + 1_442_695_040_888_963_407) & MASK


def drawn(seed, shift, bound):
    return (seed >> shift & 0xFFFF_FFFF) % bound


def of_checkpointer(phase, has_more, parts):
    """The checkpointer's next step. After three parts it begins no more."""
    if phase == "rest":
        return "rest" if parts >= 3 else "point"
    return ASKS.get(phase) or ("take" if has_more else "done")


def of_session(session, seed):
    key = b"abcde"[drawn(seed, 29, 5) :][:1]
    start = drawn(seed, 31, 10)
    kind = drawn(seed, 45, 20)
    if kind <= 4:
        return ("begin", session)
    if kind in (5, 6):
        return ("get", session, key)
    if kind <= 10:
        return ("put", session, key, WORD[start : start + drawn(seed, 35, 28)])
    if kind <= 12:
        return ("add", session, key, drawn(seed, 35, 28) - 14)
    return ("del", session, key) if kind <= 14 else ("abort", session) if kind == 15 else ("commit", session)


def size_of(writes):
    """The bytes that a commit of these writes takes in the log."""
    sizes = [0 if change is None else 8 if isinstance(change, int) else 4 + len(change) for change in writes.values()]
    return COMMIT + sum(5 + len(key) for key in writes) + sum(sizes)


def walked(seed):
    """The entries of the walk's log, its parts, and the bytes of its log: their numbers."""
    store, dead, has_more, size = Store({b"b": b"0"}, 3, 16, 9), 0, True, HEADER
    for _ in range(STEPS):
        session = dead or drawn(seed, 24, 3) + 1
        if dead:
            event = ("abort", dead)
        elif drawn(seed, 50, 4) == 0:
            event = (of_checkpointer(store.phase, has_more, len(store.files)),)
        else:
            event = of_session(session, seed)
        writes = dict(store.open[session].writes) if event[0] == "commit" and session in store.open else {}
        reply = store.step(event)
        size += size_of(writes) if reply[0] == "committed" else TOKEN if reply[0] in ("phase", "partdone") else 0
        has_more = reply[0] == "phase" or has_more and reply[0] != "noneleft"
        dead = session if reply[0] == "died" else 0
        seed = following(seed)
    return store.log, len(store.files), size


def main():
    sums = {"walks": 0, "entries": 0, "parts": 0, "cuts": 0, "choices": 0}
    for walk in range(WALKS):
        entries, parts, size = walked(following(following(walk + 20_261_123)))
        for name, count in (("walks", 1), ("entries", entries), ("parts", parts), ("cuts", size + 1), ("choices", (size + 1) << min(parts, 3))):
            sums[name] += count
    for name, count in sums.items():
        print(name, count)
    print("recovered right", sums["choices"])


if __name__ == "__main__":
    main()
