"""pcalc inside a Python program, by ctypes: transactions as in `clients/python/pcalc.py`, without another process.

    import pcalc_embedded

    with pcalc_embedded.Store() as store:
        with store.transaction() as t:          # committed at the end of the block, aborted if it raises
            t[b"fig"] = b"7"
            t.add(b"sold", 1)
        store.run(lambda t: t.add(b"sold", 1))  # begun again if it dies
        base, log = store.base(), store.log()   # what to keep: no file is written here

    again = pcalc_embedded.Store(base=base, log=log)

A key is bytes, or a pair of a space (0 to 65,535) and bytes; a value is bytes. Other types, `str`, `bytearray` and `memoryview` too, raise
TypeError, and numbers out of their range ValueError: nothing is converted or cut. (`clients/python/pcalc.py` takes a bytearray or a memoryview.)

Any number of threads may use a store, each with one transaction at a time, which has its own session; while one waits for a lock, the others
continue. An exception out of a signal handler, as KeyboardInterrupt, ends a block as any other does; before Python 3.10 it may leave the store
locked, and in `checkpoint` it leaves a point under way, so that later ones are refused with WrongPhase. A store that is dropped frees its memory.
A child that is forked can't use its parent's store.

The shared object is the path in PCALC_SO, or `libpcalc.so` in the folder of this file, in one of the two above it, as `make -C embedding install`
puts it, or in `out` beside it, as `make -C embedding` does, or where the system's loader finds it. This module needs Python 3.8. It is tested;
nothing of it is proved.
"""

import ctypes
import functools
import operator
import os
import random
import threading
import time
import weakref

BEGIN, GET, PUT, DEL, ADD, COMMIT, ABORT, POINT, SEAL, CAPTURE, TAKE, DONE, REST, JOIN = range(1, 15)
(CLOSED, BEGUN, FOUND, ABSENT, MADE, SUM, WAIT, DIED, COMMITTED, ABORTED, PHASE, NOT_YET, TOOK, TOOK_ABSENT, NONE_LEFT, PART_DONE, JOINED,
 REFUSED, TEXT, GIVEN, OPENED, OPEN) = range(22)
BASE, PART, LOG, ENTRIES = range(1, 5)
REFUSALS = dict(enumerate("""OutOfMemory Full KeyLength ValueLength NoTransaction AlreadyBegun MustAbort WrongPhase TooManyWrites LogFull PointsFull
    NoSession NoFile OtherRun Conflict Gap ShelfFull StillWaiting NotNumber Short BadMagic BadRanges KeyOrder BadKind BadLength Trailing NotCovered
    TokenOrder""".split(), 1))
REFUSALS.update({30: "Device", 31: "OutOfRange"})
STILL_WAITING = 18
MOST_SPACE = 65_535
LONGEST_PAUSE = 0.05
# how long, in seconds, one waits before it looks for sessions that were dropped
LONGEST_WAIT = 1.0


class Error(Exception):
    """A failure of a store, or a misuse of it."""


class Refused(Error):
    """A call was refused, and has changed nothing. `word` is the name of the refusal, such as "Full" or "NotNumber"."""

    def __init__(self, word):
        super().__init__(word)
        self.word = word


class Died(Error):
    """The transaction has died, since another one has the lock; nothing of it is kept. `Store.run` begins it again."""


class _Handle(ctypes.Structure):
    _fields_ = [("at", ctypes.c_void_p)]


class _Options(ctypes.Structure):
    _fields_ = [("run", ctypes.c_uint64), ("first_word", ctypes.c_uint64), ("second_word", ctypes.c_uint64), ("sessions", ctypes.c_uint32),
                ("capacity", ctypes.c_uint32)]


class _Ask(ctypes.Structure):
    _fields_ = [("kind", ctypes.c_uint32), ("session", ctypes.c_uint32), ("space", ctypes.c_uint32), ("first", ctypes.c_uint32),
                ("second", ctypes.c_uint32), ("delta", ctypes.c_int64)]


class Answer(ctypes.Structure):
    """An answer as numbers: `pcalc_answer` of `pcalc.h`."""
    _fields_ = [("kind", ctypes.c_uint32), ("refusal", ctypes.c_uint32), ("number", ctypes.c_uint64), ("entries", ctypes.c_uint64),
                ("file", ctypes.c_uint32), ("phase", ctypes.c_uint32), ("sum", ctypes.c_int64), ("space", ctypes.c_uint32),
                ("key_bytes", ctypes.c_uint32), ("value_bytes", ctypes.c_uint64)]


class Recovered(ctypes.Structure):
    """The recovered state in numbers: `pcalc_recovered` of `pcalc.h`."""
    _fields_ = [("run", ctypes.c_uint64), ("pairs", ctypes.c_uint64), ("entries", ctypes.c_uint64), ("skipped", ctypes.c_uint64),
                ("point", ctypes.c_uint32), ("fault", ctypes.c_uint32)]


Worth = Recovered  # its earlier name


def _places():
    """Where the library may be, from the first to the last."""
    here, name = os.path.dirname(os.path.abspath(__file__)), "libpcalc.so"
    above = os.path.dirname(here)
    return [os.path.join(folder, name) for folder in (here, above, os.path.dirname(above), os.path.join(above, "out"))]


def _path():
    given = os.environ.get("PCALC_SO")
    if given is None:
        return next((it for it in _places() if os.path.exists(it)), "libpcalc.so")
    return os.path.abspath(given) if os.path.dirname(given) else given


_PATH = _path()


@functools.lru_cache(maxsize=None)
def _library():
    library = ctypes.CDLL(_PATH)
    place, size, number, text = ctypes.c_void_p, ctypes.c_size_t, ctypes.c_uint32, ctypes.c_char_p
    library.pcalc_give.argtypes = [place, number, text, size, place]
    library.pcalc_recover.argtypes = [place, place]
    library.pcalc_open.argtypes = [place, place, place]
    library.pcalc_call.argtypes = [place, place, text, size, text, size, place]
    library.pcalc_show.argtypes = [place, number, number, place]
    library.pcalc_copy.argtypes = [place, size, place, size, place, size]
    library.pcalc_close.argtypes = [place]
    library.pcalc_copy.restype = library.pcalc_close.restype = None
    for name in ("give", "recover", "open", "call", "show"):
        getattr(library, "pcalc_" + name).restype = number
    return library


def _bytes(value, what):
    if not isinstance(value, bytes):
        ways = {str: ": pass its encode()", bytearray: ": pass bytes(..) of it", memoryview: ": pass bytes(..) of it"}
        raise TypeError("%s, not %s%s" % (what, type(value).__name__, ways.get(type(value), "")))
    return value


def _within(number, least, most, what):
    number = operator.index(number)
    if not least <= number <= most:
        raise ValueError("%s is a number from %d to %d" % (what, least, most))
    return number


def _key(key):
    """The space and the bytes of a key."""
    space, own = key if isinstance(key, tuple) and len(key) == 2 else (0, key)
    return _within(space, 0, MOST_SPACE, "a space"), _bytes(own, "a key is bytes, or a pair of a space and bytes")


class Handle:
    """The functions of `pcalc.h` on one handle, for one thread at a time. `answer` is the latest answer."""

    def __init__(self):
        self._library, self._handle, self._ask, self.answer = _library(), _Handle(), _Ask(), Answer()
        self._at, self._asked, self._told = (ctypes.addressof(it) for it in (self._handle, self._ask, self.answer))

    def give(self, what, text):
        _bytes(text, "a text is bytes")
        return self._library.pcalc_give(self._at, what, text, len(text), self._told)

    def recover(self):
        """Returns the state recovered from what was given, as `Recovered`, or the number of the refusal."""
        recovered = Recovered()
        return self._library.pcalc_recover(self._at, ctypes.addressof(recovered)) or recovered

    def open(self, sessions=64, capacity=65_536, run=1):
        _within(run, 0, 2**64 - 1, "a run")
        for number, what in ((sessions, "the count of sessions"), (capacity, "the capacity")):
            _within(number, 0, 2**32 - 1, what)
        options = _Options(run, random.getrandbits(64), random.getrandbits(64), sessions, capacity)
        return self._library.pcalc_open(self._at, ctypes.addressof(options), self._told)

    def call(self, kind, session=0, key=b"", value=b"", space=0, first=0, second=0, delta=0):
        for number in (kind, session, space, first, second):
            _within(number, 0, 2**32 - 1, "a kind, session, space or file")
        _within(delta, -(2**63), 2**63 - 1, "an amount to add")
        ask = self._ask
        ask.kind, ask.session, ask.space, ask.first, ask.second, ask.delta = kind, session, space, first, second, delta
        return self._library.pcalc_call(self._at, self._asked, key, len(key), value, len(value), self._told)

    def show(self, what, number=0):
        _within(number, 0, 2**32 - 1, "a file or a count of entries")
        return self._library.pcalc_show(self._at, what, number, self._told)

    def copied(self, key_length=None, value_length=None, start=0):
        """The key and the value, or the text from byte `start` on, of the latest answer; of these lengths in bytes, if they are given."""
        keys = self.answer.key_bytes if key_length is None else key_length
        values = self.answer.value_bytes if value_length is None else value_length
        key, value = ctypes.create_string_buffer(keys + 1), ctypes.create_string_buffer(values + 1)
        self._library.pcalc_copy(self._at, start, ctypes.addressof(key), keys, ctypes.addressof(value), values)
        return key.raw[:keys], value.raw[:values]

    def close(self):
        self._library.pcalc_close(self._at)


class _Session:
    """A session. Whoever has it may use its number; if it is dropped, what is open in it is aborted, and there is a new one of its number.
    So none is lost by an exception, wherever that is raised."""

    __slots__ = ("number", "thread", "__weakref__")

    def __init__(self, number):
        self.number, self.thread = number, None


class _Watch(weakref.ref):
    """Is noted once its session was dropped."""

    __slots__ = ("number",)


def _close(handle, owner):
    if os.getpid() == owner:
        handle.close()


class Store:
    """A store in this process: without pairs, or with the state recovered from the texts of a base, of parts and of a log."""

    def __init__(self, sessions=64, capacity=65_536, run=1, base=None, parts=(), log=None):
        self._handle, self._lock, self._owner = Handle(), threading.Lock(), os.getpid()
        self._free, self._lost, self._watches, self._waiting, self._threads = [], [], {}, [], threading.local()
        try:
            for what, text in [(BASE, base)] + [(PART, part) for part in parts] + [(LOG, log)]:
                self._must(GIVEN if text is None else self._handle.give(what, _bytes(text, "a text is bytes")))
            self._must(self._handle.open(sessions, capacity, run))
        except BaseException:
            self._handle.close()
            raise
        weakref.finalize(self, _close, self._handle, self._owner).atexit = False
        for number in range(sessions, 0, -1):
            self._add(number)

    def __enter__(self):
        return self

    def __exit__(self, kind, value, trace):
        self.close()

    def close(self):
        """Closes the store. May be called twice."""
        if os.getpid() == self._owner:
            with self._lock:
                self._handle.close()

    def _must(self, told):
        if told == REFUSED:
            raise Refused(REFUSALS.get(self._handle.answer.refusal, "Unknown"))
        if told == CLOSED:
            raise Refused("Closed")
        return told

    def _must_be_own(self):
        if os.getpid() != self._owner:
            raise Error("the store belongs to the process that opened it, and this one was forked from that: it needs a store of its own")

    def _must_be_alone(self, what):
        session = getattr(self._threads, "session", lambda: None)()
        if session is not None and session.thread == threading.get_ident():
            raise Error("this thread already has a transaction open, for which %s could wait forever" % what)

    def _ask(self, kind, session=0, key=(0, b""), value=b"", delta=0):
        """Returns the answer's kind, its number or sum, and a found value, after waiting for the lock."""
        self._must_be_own()
        (space, own), handle, has_waited = key, self._handle, False
        while True:
            with self._lock:
                told = handle.call(kind, session, own, value, space, delta=delta)
                if told != WAIT and not (told == REFUSED and has_waited and handle.answer.refusal == STILL_WAITING):
                    if told in (COMMITTED, ABORTED):
                        self._tell()
                    self._must(told)
                    found = handle.copied()[1] if told == FOUND else None
                    return told, handle.answer.sum if told == SUM else handle.answer.number, found
                gate = self._gate()
            has_waited = True
            self._wait(gate)

    # Waiting. Who waits doesn't have `_lock`, and an exception may leave some untold: so nobody waits for long without looking.

    def _gate(self):
        """A lock that is released once a transaction has ended."""
        gate = threading.Lock()
        gate.acquire()
        self._waiting.append(gate)
        return gate

    def _tell(self):
        waiting, self._waiting = self._waiting, []
        for it in waiting:
            it.release()

    def _wait(self, gate):
        if not gate.acquire(timeout=LONGEST_WAIT):
            with self._lock:
                self._reclaim()

    # Sessions.

    def _add(self, number):
        session = _Session(number)
        watch = self._watches[number] = _Watch(session, self._lost.append)
        watch.number = number
        self._free.append(session)

    def _reclaim(self):
        """Aborts what is open in sessions that were dropped, and makes new ones."""
        while self._lost:
            number = self._lost[-1].number
            if self._watches[number]() is None:
                self._handle.call(ABORT, number)
                self._add(number)
            self._lost.pop()
            self._tell()

    def _take(self):
        """A session for this thread."""
        self._must_be_own()
        self._must_be_alone("a second one")
        while True:
            with self._lock:
                self._reclaim()
                if self._free:
                    session = self._free.pop()
                    session.thread = threading.get_ident()
                    self._threads.session = weakref.ref(session)
                    return session
                gate = self._gate()
            self._wait(gate)

    def _leave(self, session, is_open):
        """The session is free again, after an abort if its transaction is open."""
        if os.getpid() == self._owner:
            with self._lock:
                if is_open:
                    self._handle.call(ABORT, session.number)
                session.thread = None
                self._free.append(session)
                self._tell()

    def transaction(self):
        """A transaction, for a `with` block: it is begun with the block, committed at its end, and aborted if the block raises. Raises `Died`
        if it dies, in the block or at its end."""
        return Transaction(self)

    def run(self, body):
        """Calls `body` with a transaction, commits it, and returns what `body` returned. If the transaction dies, `body` is called again with
        another one; so it must do nothing else that can't be repeated."""
        pause = 0.0001
        while True:
            transaction = self.transaction()
            try:
                with transaction:
                    given = body(transaction)
                return given
            except Died:
                time.sleep(random.uniform(0, pause))
                pause = min(2 * pause, LONGEST_PAUSE)
            finally:
                transaction._end()

    def _text(self, what, number=0):
        self._must(self._handle.show(what, number))
        return self._handle.copied()[1]

    def base(self):
        """The text of the base that the store started from."""
        self._must_be_own()
        with self._lock:
            return self._text(BASE)

    def part(self, number):
        """The text of a file of the shelf."""
        self._must_be_own()
        with self._lock:
            return self._text(PART, number)

    def log(self):
        """The text of the log: its header and all entries."""
        self._must_be_own()
        with self._lock:
            return self._text(LOG) + self._entries(0)

    def entries(self, behind):
        """The text of all entries of the log after the first `behind`."""
        self._must_be_own()
        with self._lock:
            return self._entries(behind)

    def _entries(self, behind):
        # one call may show only some of them
        pieces = []
        while True:
            pieces.append(self._text(ENTRIES, behind))
            if not self._handle.answer.entries:
                return b"".join(pieces)
            behind += self._handle.answer.entries

    def checkpoint(self):
        """Takes a point, and returns the number of its part's file. It waits for the transactions that were open when it began."""
        self._must_be_own()
        self._must_be_alone("a point")
        for kind in (POINT, SEAL, CAPTURE):
            self._phase(kind)
        with self._lock:
            while self._must(self._handle.call(TAKE)) != NONE_LEFT:
                pass
            self._must(self._handle.call(DONE))
            file = self._handle.answer.file
        self._phase(REST)
        return file

    def _phase(self, kind):
        while True:
            with self._lock:
                if self._must(self._handle.call(kind)) != NOT_YET:
                    return
                gate = self._gate()
            self._wait(gate)


class Transaction:
    """A transaction of a store, which is open within its `with` block. `number` is its own, from 1 in the order of begins; `entry`, once it is
    committed, the number of its entry in the log."""

    def __init__(self, store):
        self._store, self._session, self.has_died, self.number, self.entry = store, None, False, None, None

    def __enter__(self):
        self.has_died, self.number, self.entry = False, None, None
        self._session = self._store._take()
        try:
            self.number = self._store._ask(BEGIN, self._session.number)[1]
        except BaseException:
            self._end()
            raise
        return self

    def __exit__(self, kind, value, trace):
        try:
            if kind is None and self.has_died:
                raise Died
            if kind is None:
                self.entry = self._store._ask(COMMIT, self._session.number)[1]
        finally:
            self._end()

    def _end(self):
        """Leaves its session, if that wasn't done before."""
        session, self._session = self._session, None
        if session is not None:
            self._store._leave(session, self.entry is None)

    def _ask(self, kind, key, value=b"", delta=0):
        if self._session is None:
            raise Error("the transaction isn't open")
        value, delta = _bytes(value, "a value is bytes"), _within(delta, -(2**63), 2**63 - 1, "a number to add")
        told, number, found = self._store._ask(kind, self._session.number, _key(key), value, delta)
        if told == DIED:
            self.has_died = True
            raise Died
        return number if told == SUM else found

    def get(self, key, default=None):
        """The key's value, or `default` if it has none."""
        value = self._ask(GET, key)
        return default if value is None else value

    def put(self, key, value):
        """Sets the key to the value."""
        self._ask(PUT, key, value)

    def delete(self, key):
        """Removes the key, which need not exist."""
        self._ask(DEL, key)

    def add(self, key, delta):
        """Adds to the key's number, 0 if it has no value, and returns the sum."""
        return self._ask(ADD, key, delta=delta)

    def __getitem__(self, key):
        value = self._ask(GET, key)
        if value is None:
            raise KeyError(key)
        return value

    __setitem__, __delitem__ = put, delete

    def __contains__(self, key):
        return self._ask(GET, key) is not None
