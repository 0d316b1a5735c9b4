"""What the module of Python does with numbers and types that don't fit, with transactions that are over or within another one, with exceptions out of
signal handlers, with stores that are dropped, and in children that are forked. For `embedding_cases.py`, in a process of its own.

    embedding_module.py     PCALC_SO and PYTHONPATH name the library and its module; prints a line of JSON for each case, its name and the differences, and
                            on standard error what was seen
"""

import contextlib
import gc
import json
import os
import random
import signal
import sys
import threading
import time

import pcalc_embedded as embedded

SECONDS = 60
SEED, ALARMS = 5, 300
SESSIONS = 64
DROPPED, DROPPED_BYTES = 200, 32_000_000


def differing(got, wanted):
    return [] if got == wanted else [f"{got!r} instead of {wanted!r}"]


def seen(text):
    print(f"embedding: {text}", file=sys.stderr)


def said(call):
    """What a call raises, as its type's name and its text, or what it returns."""
    try:
        return call()
    except Exception as fault:
        return f"{type(fault).__name__}: {fault}"


def numbers():
    """Numbers out of their range are refused, and none wraps."""
    with embedded.Store() as store:
        handle = store._handle
        calls = [lambda t, it=it: t.add(b"n", it) for it in (2**63, -(2**63) - 1, 2**64 + 1)] + [lambda t, it=it: t.put((it, b"k"), b"v") for it in (-1, 65_536, 2**32 + 7)]
        calls = [lambda call=call: store.run(call) for call in calls]
        calls += [lambda it=it: embedded.Store(**{it: 2**64 + 1}) for it in ("sessions", "capacity", "run")]
        calls += [lambda it=it: embedded.Store(**{it: -1}) for it in ("sessions", "capacity", "run")]
        calls += [lambda it=it: call(it) for call in (store.part, store.entries) for it in (-1, 2**32 + 1)]
        calls += [lambda: handle.call(embedded.JOIN, first=2**32 + 1), lambda: handle.call(embedded.GET, session=2**32 + 1, key=b"n")]
        raised = [str(said(it)).partition(":")[0] for it in calls]
        seen(f"{len(calls)} numbers out of their range: {raised.count('ValueError')} ValueErrors")
        lines = differing(raised, ["ValueError"] * len(calls))
        left = store.run(lambda t: (t.get(b"n"), t.get((7, b"k")), t.add(b"n", 2**63 - 1), t.put((65_535, b"k"), b"v")))
        return lines + differing(left, (None, None, 2**63 - 1, None))


def types():
    """Keys and values are bytes; for other types the fault says what to pass."""
    ways = {"str": ": pass its encode()", "bytearray": ": pass bytes(..) of it", "memoryview": ": pass bytes(..) of it"}
    with embedded.Store() as store:
        lines = []
        for it in ("k", bytearray(b"k"), memoryview(b"k"), 7, None, [107]):
            name = type(it).__name__
            got = said(lambda: store.run(lambda t: t.get(it))), said(lambda: store.run(lambda t: t.put(b"k", it)))
            told = f"not {name}{ways.get(name, '')}"
            lines += differing(got, (f"TypeError: a key is bytes, or a pair of a space and bytes, {told}", f"TypeError: a value is bytes, {told}"))
        lines += differing([str(said(lambda: store.run(lambda t: t.add(b"n", it)))).partition(":")[0] for it in (1.5, "1", None)], ["TypeError"] * 3)
        return lines + differing((store.run(lambda t: t.get(b"k")), said(lambda: embedded.Store(base="b"))), (None, "TypeError: a text is bytes, not str: pass its encode()"))


def blocks():
    """A transaction ends with its block, and a thread has one at a time, without a point in it."""
    with embedded.Store() as store:
        kept, nested = [], []
        store.run(kept.append)
        late = said(lambda: kept[0].put(b"stale", b"1"))
        with store.transaction() as t:
            late = late, said(lambda: kept[0].put(b"stale", b"1"))
            t.put(b"a", b"1")
            nested = said(lambda: store.run(lambda t: t.get(b"a"))), said(store.checkpoint)
        told = "Error: this thread already has a transaction open, for which {} could wait forever"
        seen(f"a transaction in another one: {nested[0]}")
        lines = differing((late, nested), (("Error: the transaction isn't open",) * 2, (told.format("a second one"), told.format("a point"))))
        return lines + differing((store.run(lambda t: (t.get(b"stale"), t.get(b"a"))), store.checkpoint()), ((None, b"1"), 1))


class Alarm(Exception):
    pass


def alarms():
    """Exceptions out of a signal handler, wherever they come, lose no session and no add."""
    def raised(*_):
        raise Alarm

    signal.signal(signal.SIGALRM, raised)
    chance, added = random.Random(SEED), 0
    with embedded.Store(sessions=SESSIONS) as store:
        for _ in range(ALARMS):
            try:
                signal.setitimer(signal.ITIMER_REAL, 0.0002 + 0.002 * chance.random())
                for _ in range(1000):
                    store.run(lambda t: t.add(b"n", 1))
                    added += 1
            except Alarm:
                pass
        signal.setitimer(signal.ITIMER_REAL, 0)
        more = store.run(lambda t: t.add(b"n", 0)) - added
        at_once = together(store)
        seen(f"{ALARMS} exceptions out of a signal handler in {added} transactions: {at_once} of {SESSIONS} sessions are left")
        return differing((at_once, more in range(ALARMS + 1)), (SESSIONS, True))


def together(store):
    """How many threads have a transaction at the same time."""
    meeting, met = threading.Barrier(SESSIONS), []

    def meet():
        with contextlib.suppress(threading.BrokenBarrierError):
            with store.transaction():
                meeting.wait(SECONDS)
                met.append(True)

    threads = [threading.Thread(target=meet, daemon=True) for _ in range(SESSIONS)]
    for it in threads:
        it.start()
    for it in threads:
        it.join(SECONDS)
    return len(met)


def waits():
    """A transaction that is dropped while another one waits for its lock is aborted."""
    with embedded.Store() as store:
        older, is_begun = store.transaction(), threading.Event()
        got = []

        def read():
            with older as t:
                is_begun.set()
                while not got:
                    time.sleep(0.001)
                got.append(t.get(b"k"))

        thread = threading.Thread(target=read, daemon=True)
        thread.start()
        is_begun.wait(SECONDS)
        younger = store.transaction()
        younger.__enter__().put(b"k", b"1")
        got.append("locked")
        time.sleep(0.1)
        del younger
        thread.join(SECONDS)
        return differing(got, ["locked", None])


def resident():
    with open("/proc/self/statm", encoding="ascii") as it:
        return int(it.read().split()[1]) * os.sysconf("SC_PAGE_SIZE")


def dropped():
    """Stores that are dropped without close free their memory."""
    before = resident()
    for _ in range(DROPPED):
        embedded.Store().run(lambda t: t.put(b"a", b"1"))
    gc.collect()
    more = resident() - before
    seen(f"{DROPPED} stores that were dropped left {max(more, 0) // 1024:,} KB")
    return [] if more < DROPPED_BYTES else [f"{more} bytes are left"]


def forked():
    """A child that was forked is refused the use of its parent's store, and may drop it."""
    store, (source, target) = embedded.Store(), os.pipe()
    told = "Error: the store belongs to the process that opened it"
    with store.transaction() as t:
        t.put(b"a", b"1")
        child = os.fork()
        if child == 0:
            uses = lambda: t.get(b"a"), lambda: store.run(lambda t: t.get(b"a")), store.log, store.base, lambda: store.entries(0), store.checkpoint
            os.write(target, b"%d" % sum(str(said(it)).startswith(told) for it in uses))
            store.close()
            os._exit(0)
        status = os.waitpid(child, 0)[1]
    got = status, os.read(source, 9), store.run(lambda t: t.get(b"a"))
    seen(f"uses of a store that were refused in a child: {got[1].decode()}")
    store.close()
    return differing(got, (0, b"6", b"1"))


def logs():
    """The entries behind any number of them, which are the log's."""
    with embedded.Store() as store:
        for _ in range(5):
            store.run(lambda t: t.add(b"n", 1))
        log, texts = store.log(), [store.entries(behind) for behind in range(7)]
        header = len(log) - len(texts[0])
        lengths = [len(it) for it in texts]
        lines = differing([log[header:].endswith(it) for it in texts], [True] * 7) + differing(lengths[5:], [0, 0])
        lines += [] if lengths[:6] == sorted(set(lengths), reverse=True) else [f"the lengths are {lengths}"]
        return lines + differing(embedded.Store(base=store.base(), log=log[:header] + texts[0]).run(lambda t: t.add(b"n", 0)), 5)


def main():
    for case in (numbers, types, blocks, alarms, waits, dropped, forked, logs):
        print(json.dumps([f"the module, {case.__name__}", case()]), flush=True)


if __name__ == "__main__":
    main()
