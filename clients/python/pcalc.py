"""A client of `pcalc serve`: transactions of any number of threads, over a store in a process of its own.

    import pcalc

    with pcalc.Store("shop", create=True) as store:
        with store.transaction() as t:          # committed at the end of the block, aborted if it raises
            t[b"fig"] = b"7"
            t.add(b"sold", 1)
            print(t[b"fig"], t.get(b"pear"))

        def sell(t):
            if t.add(b"stock", -1) < 0:
                raise ValueError("sold out")
        store.run(sell)                         # begun again if it dies

        with store.pipeline() as pipeline:      # many transactions under way
            for number in range(100_000):
                with pipeline.transaction() as t:
                    t[b"k%d" % number] = b"v"

A key is bytes, or a pair of a space (0 to 65,535) and bytes; the bytes alone are a key of space 0. A value is bytes. Where bytes are given,
a bytearray or a memoryview will do; other types raise TypeError. A commit that was answered is in the store's log: the next process that opens
the store has it, even if this one is killed.

A transaction locks what it reads and writes until it ends. A request that conflicts with another transaction waits if its own transaction is
the older one; otherwise its transaction dies, which raises `Died`: nothing of it is kept, and it may be begun again.

An exception out of a signal handler, as KeyboardInterrupt, ends a block as any other does, and the store goes on; whether a commit that it
interrupts is kept isn't known. The store's process has a session of the system's own, so ^C at a terminal doesn't reach it. A child that is
forked can't use its parent's store, and doesn't keep it open.

This module needs only Python 3.8 and its standard library; before Python 3.10 such an exception may leave the store locked. It isn't proved.
"""

import collections
import contextlib
import itertools
import operator
import os
import queue
import re
import subprocess
import tempfile
import threading
import weakref

__all__ = ["Store", "Transaction", "Pipeline", "Batch", "Error", "Refused", "Died", "Ended", "number_of", "value_of"]

MOST_SESSIONS = 64
MOST_WRITES = 256
MOST_KEY_BYTES = 255
MOST_VALUE_BYTES = 65_535
MOST_SPACE = 65_535
# how many transactions of a pipeline are sent together by default
DEPTH = 1000
# bytes that a read asks for
READ_BYTES = 65_536
# how long a transaction that died waits for the end of another one before it is begun again, in seconds: at first, and at most
FIRST_PAUSE, LONGEST_PAUSE = 0.001, 0.064
# how many ends in a row may be of transactions that died
MOST_DEAD = 7

_PLAIN = re.compile(rb"[!-\[\]-~]+")
_ESCAPED = re.compile(rb"\\x([0-9a-f]{2})")
_SPELLED = [bytes((it,)) if 0x21 <= it <= 0x7E and it != 0x5C else b"\\x%02x" % it for it in range(256)]


class Error(Exception):
    """A failure of a store, or a misuse of it."""


class Refused(Error):
    """A line was refused, and changed nothing. `word` is the store's name of the refusal, as "Full" or "NotNumber"."""

    def __init__(self, word):
        super().__init__(word)
        self.word = word


class Died(Error):
    """The transaction died in a conflict with another one; nothing of it is kept. It may be begun again: `Store.run` does so."""

    def __init__(self, told="the transaction has died, and nothing of it is kept: begin it again"):
        super().__init__(told)


class Ended(Error):
    """The process has ended, or can't be started. `status` is its status, if it has one. Whether a commit that wasn't answered is kept
    isn't known."""

    def __init__(self, told, status=None):
        super().__init__(told)
        self.status = status


# Words of lines.

def word(value):
    """The word that spells these bytes."""
    value = bytes(value)
    if _PLAIN.fullmatch(value) and value != b"-":
        return value
    if value == b"-":
        return b"\\x2d"
    return b"".join(map(_SPELLED.__getitem__, value)) or b"-"


def bytes_of(text):
    """The bytes that a printed word spells."""
    if text == b"-":
        return b""
    return _ESCAPED.sub(lambda it: bytes((int(it[1], 16),)), text) if b"\\" in text else text


def _bytes(value, what):
    if not isinstance(value, (bytes, bytearray, memoryview)):
        raise TypeError("%s, not %s" % (what, type(value).__name__))
    return bytes(value)


def key_word(key):
    """The word that spells this key: bytes, or a pair of a space and bytes. Raises `Refused` if the length isn't one of a key."""
    space, own = key if isinstance(key, tuple) and len(key) == 2 else (0, key)
    own = _bytes(own, "a key is bytes, or a pair of a space and bytes")
    if not 0 <= operator.index(space) <= MOST_SPACE:
        raise ValueError("a space is a number from 0 to 65,535")
    if not 1 <= len(own) <= MOST_KEY_BYTES:
        raise Refused("KeyLength")
    return (b"\\s%d:" % space if space else b"") + word(own)


def value_word(value):
    """The word that spells this value. Raises `Refused` if it is too long."""
    value = _bytes(value, "a value is bytes")
    if len(value) > MOST_VALUE_BYTES:
        raise Refused("ValueLength")
    return word(value)


def delta_word(delta):
    """The word that spells a number to add."""
    if not -(2**63) <= operator.index(delta) < 2**63:
        raise ValueError("a number to add has 64 signed bits")
    return b"%d" % delta


def number_of(value):
    """The number in a value of eight bytes, as `add` writes it."""
    if len(value) != 8:
        raise ValueError("a number has eight bytes")
    return int.from_bytes(value, "big", signed=True)


def value_of(number):
    """This number as a value of eight bytes."""
    return number.to_bytes(8, "big", signed=True)


def meaning_of(answer):
    """The result in the answer to an operation: a value, the sum of an add, or None. Raises if the answer has none of these."""
    if answer == b"ok" or answer == b"absent":
        return None
    if answer[:2] == b"= ":
        return bytes_of(answer[2:])
    if answer[:4] == b"sum ":
        return int(answer[4:])
    raise fault_of(answer)


def fault_of(answer):
    """The exception for an answer that isn't the expected one."""
    if answer == b"died" or answer == b"refused MustAbort":
        return Died()
    if answer[:8] == b"refused ":
        return Refused(answer[8:].decode())
    return Error("the store answered `%s`" % answer.decode(errors="replace"))


def command(folder, program="pcalc", create=False, sync=False, damaged=False, import_from=None, **numbers):
    """The words of a command that serves the store of the folder. `program` is a path, or a list of words; `import_from` is the folder of
    `--import`; the numbers are `sessions`, `capacity`, `every`, `roll`, `keep`, `lag` and `run`, as in docs/MANUAL.md."""
    unknown = sorted(set(numbers) - {"sessions", "capacity", "every", "roll", "keep", "lag", "run"})
    if unknown:
        raise TypeError("there is no option %s" % unknown[0])
    words = [program] if isinstance(program, (str, os.PathLike)) else list(program)
    words += ["serve", os.fspath(folder)]
    words += [flag for flag, is_given in (("--create", create), ("--sync", sync), ("--damaged", damaged)) if is_given]
    words += [] if import_from is None else ["--import", os.fspath(import_from)]
    for name, number in numbers.items():
        words += [] if number is None else ["--" + name, str(number)]
    return words


class _Asked:
    """Lines that are written together, and their answers so far. `gate` is released once all are answered, or the process has ended; `then` is
    called before. `ends` is then how many transactions have ended, of which `counted` by these lines. They may be the
    abort of one that died."""

    __slots__ = ("text", "count", "answers", "gate", "is_of_dead", "then", "ends", "counted")

    def __init__(self, lines, is_of_dead=False, then=None):
        self.text, self.count, self.answers, self.gate = b"\n".join(lines) + b"\n", len(lines), [], threading.Lock()
        self.is_of_dead, self.then, self.ends, self.counted = is_of_dead, then, 0, 0
        self.gate.acquire()

    def release(self):
        if self.then is not None:
            self.then()
        self.gate.release()

    def is_end(self):
        """Whether a transaction has ended that hadn't died. In many lines nobody looks, and one is taken to have."""
        last = self.answers[-1]
        return self.count > 1 or last[:10] == b"committed " or last == b"aborted" and not self.is_of_dead


class _Stream:
    """The stream to the process and back. Lines of one call stay together in it. One thread writes them, and one reads the answers and distributes
    them: as exceptions out of signal handlers are raised in the main thread alone, none comes between noting lines and writing all of them."""

    def __init__(self, words):
        # standard error goes to a file, so that nobody has to read it meanwhile
        self.errors, self.message, self.owner = tempfile.TemporaryFile(), "", os.getpid()
        try:
            self.process = subprocess.Popen(words, stdin=subprocess.PIPE, stdout=subprocess.PIPE, stderr=self.errors, bufsize=0, start_new_session=True)
        except OSError as fault:
            self.errors.close()
            raise Ended("the program can't be started: %s" % fault) from fault
        _streams.add(self)
        self.requests, self.sending, self.is_closed = queue.SimpleQueue(), threading.Lock(), False
        self.asked, self.noting, self.has_ended = collections.deque(), threading.Lock(), False
        # by session: has something once its request, which was answered `wait`, has been granted
        self.granted = [queue.SimpleQueue() for _ in range(MOST_SESSIONS + 1)]
        # how many transactions have ended, the last ones dead; who has `first` waits for the next end, at which `over` is released, or a pause
        self.ends, self.dead, self.first, self.over, self.pause = 0, 0, threading.Lock(), threading.Lock(), FIRST_PAUSE
        ready = _Asked([b""])
        self.asked.append(ready)
        self.writer, self.reader = (threading.Thread(target=it, name="pcalc " + it.__name__, daemon=True) for it in (self.write, self.read))
        self.writer.start()
        self.reader.start()
        try:
            ready.gate.acquire()
            self.ready = ready.answers[0] if ready.answers else b""
            if not re.fullmatch(rb"ready run [0-9]+ pairs [0-9]+", self.ready):
                if self.ready:
                    self.process.kill()
                raise self.fault()
        except BaseException:
            self.process.kill()
            self.close()
            raise

    def read(self):
        """Reads answers until there are no more, and then releases all who still wait for one."""
        rest, source = b"", self.process.stdout.fileno()
        try:
            while True:
                chunk = os.read(source, READ_BYTES)
                if not chunk:
                    break
                text = rest + chunk
                lines = text.split(b"\n")
                rest = lines.pop()
                self.deal(self.without_granted(lines) if b"granted " in text else lines)
        except BaseException:
            self.process.kill()  # it answers what wasn't asked
            raise
        finally:
            with self.noting:
                self.has_ended = True
            while self.asked:
                self.asked.popleft().release()
            for it in self.granted:
                it.put(None)

    def without_granted(self, lines):
        """The lines that are answers. Each other one says that the request for which a session waits is granted."""
        for line in lines:
            if line[:8] == b"granted ":
                self.granted[int(line[8:])].put(None)
        return [line for line in lines if line[:8] != b"granted "]

    def deal(self, answers):
        """Distributes the answers, in the order in which the lines were asked."""
        place = 0
        while place < len(answers):
            asked = self.asked[0]
            end = place + asked.count - len(asked.answers)
            asked.answers += answers[place:end]
            place = end
            if len(asked.answers) == asked.count:
                self.asked.popleft()
                self.finish(asked)

    def finish(self, asked):
        """Counts what has ended, and lets go on who waits for the answers or for an end. An end of one that died counts too, since another may
        have died in a conflict with it; but not of many in a row, as these all conflict with one that is still open."""
        is_end = asked.is_end()
        self.dead = 0 if is_end else self.dead + asked.is_of_dead
        asked.counted = int(is_end or asked.is_of_dead and self.dead <= MOST_DEAD)
        self.ends += asked.counted
        asked.ends = self.ends
        asked.release()
        if asked.counted and self.over.locked():
            self.over.release()

    def ask(self, lines):
        """The answer to each of the lines, which are written together. No other line comes between them."""
        return self.question(lines).answers

    def question(self, lines, is_of_dead=False):
        """Asks the lines, and waits for their answers."""
        asked = _Asked(lines, is_of_dead)
        self.must_be_own()
        with self.sending:
            if self.is_closed:
                raise Ended("the store is closed", self.process.returncode)
            self.requests.put(asked)
        asked.gate.acquire()
        if len(asked.answers) < asked.count:
            raise self.fault()
        return asked

    def must_be_own(self):
        if os.getpid() != self.owner:
            raise Error("the store belongs to the process that opened it, and this one was forked from that: it needs a store of its own")

    def write(self):
        """Writes what is asked until the stream is closed."""
        for it in iter(self.requests.get, None):
            texts = [self.noted(it)]
            while not self.requests.empty():
                it = self.requests.get()
                if it is None:
                    self.requests.put(None)
                    break
                texts.append(self.noted(it))
            with contextlib.suppress(OSError):  # the process has ended: so do its answers, and `read` releases all who wait
                rest = memoryview(b"".join(texts))
                while rest:
                    rest = rest[os.write(self.process.stdin.fileno(), rest):]
        self.process.stdin.close()

    def noted(self, asked):
        """The text to write for what is asked, whose answers come next but for those already noted. What is asked may be a lost session."""
        if isinstance(asked, _Watch):
            asked = _Asked([b"abort %d" % asked.number], then=asked.renew)
        with self.noting:
            if not self.has_ended:
                self.asked.append(asked)
                return asked.text
        asked.release()
        return b""

    def wait_until_granted(self, session):
        self.granted[session].get()
        if self.has_ended:
            raise self.fault()

    def forget_granted(self, session):
        while not self.granted[session].empty():
            self.granted[session].get()

    @contextlib.contextmanager
    def turn(self, ends):
        """A block in which a transaction that died is begun again: one such block at a time, unless one takes long. It begins once more
        transactions than these have ended, or after a pause, which gets longer until one ends."""
        is_first = self.first.acquire(timeout=LONGEST_PAUSE)
        try:
            self.over.acquire(blocking=False)
            if self.ends == ends and not self.has_ended:
                is_over = self.over.acquire(timeout=self.pause)
                self.pause = FIRST_PAUSE if is_over else min(2 * self.pause, LONGEST_PAUSE)
            yield
        finally:
            if is_first:
                self.first.release()

    def fault(self):
        """The exception for the end of the process."""
        status = self.process.wait()
        if not self.errors.closed:
            self.message = os.pread(self.errors.fileno(), READ_BYTES, 0).decode(errors="replace").strip()
        return Ended(self.message or "the store's process has ended with status %d" % status, status)

    def close(self):
        """Ends the input, and waits for the process. False if that was done before, or is another process' to do."""
        if self.errors.closed:
            return False
        with self.sending:
            self.is_closed = True
            self.requests.put(None)
        self.writer.join()
        self.fault()
        self.reader.join()
        self.process.stdout.close()
        self.errors.close()
        return True

    def leave_to_parent(self):
        """In a child that was forked: closes what it has of the stream, so that the store's process ends with the parent."""
        for it in (self.process.stdin, self.process.stdout, self.errors):
            it.close()


_streams = weakref.WeakSet()


def _leave_to_parent():
    for it in list(_streams):
        it.leave_to_parent()


os.register_at_fork(after_in_child=_leave_to_parent)


class _Session:
    """A session. Whoever has it may use its number; if it is dropped, what is open in it is aborted, and there is a new one of its number.
    So none is lost by an exception, wherever that is raised."""

    __slots__ = ("number", "thread", "__weakref__")

    def __init__(self, number):
        self.number, self.thread = number, None


class _Watch(weakref.ref):
    """Is asked once its session was dropped."""

    __slots__ = ("number", "renew")


class _Sessions:
    """The sessions of a store. Each thread has at most one of them."""

    def __init__(self, stream, count):
        self.stream, self.free, self.watches, self.threads = stream, queue.SimpleQueue(), {}, threading.local()
        for number in range(1, count + 1):
            self.add(number)

    def add(self, number):
        session = _Session(number)
        watch = self.watches[number] = _Watch(session, self.stream.requests.put)
        watch.number, watch.renew = number, lambda: self.add(number)
        self.stream.forget_granted(number)
        self.free.put(session)

    def take(self):
        self.stream.must_be_own()
        thread, taken = threading.get_ident(), getattr(self.threads, "session", lambda: None)()
        if taken is not None and taken.thread == thread:
            raise Error("this thread already has a transaction open, for which a second one could wait forever")
        session = self.free.get()
        session.thread = thread
        self.threads.session = weakref.ref(session)
        return session

    def abort(self, session, has_died=False):
        """Aborts the session's transaction, if it has one. How many ends were counted."""
        with contextlib.suppress(Error):  # if the process has ended, or is another one's, nothing of it is kept either
            return self.stream.question([b"abort %d" % session.number], has_died).counted
        return 0

    def leave(self, session):
        """Nothing is open in the session, and others may take it."""
        self.stream.forget_granted(session.number)
        session.thread = None
        self.free.put(session)


class Store:
    """The store of a folder, served by a process of its own, which ends with `close` or at the end of a `with` block. It may be used from
    any number of threads, each with one transaction at a time; while all sessions have a transaction open, a further one waits for one of
    these to end.

    `program` is the path of pcalc, or a list of words; `create` makes the folder and the store if there is none, from the state of the folder
    `import_from` if that is given, which is the option `--import`; `sync` answers a commit once it is on the disk; `lag`, `sessions`,
    `capacity`, `every`, `roll`, `keep`, `damaged` and `run` are as in docs/MANUAL.md. Raises
    `Ended`, with the program's message, if it can't be opened: "pcalc: shop: Busy" if another process has it.

    `run_number` is the number of the run with which the process began, and `pairs` the number of its pairs; a later generation is a run
    of its own (`current_run`), in which transactions and entries are numbered from 1 again. `process` is the process.
    """

    def __init__(self, folder, program="pcalc", create=False, sessions=MOST_SESSIONS, **options):
        self._stream = _Stream(command(folder, program, create, sessions=sessions, **options))
        self.process = self._stream.process
        _, _, run, _, pairs = self._stream.ready.split()
        self.run_number, self.pairs = int(run), int(pairs)
        self._sessions = _Sessions(self._stream, sessions)

    def __enter__(self):
        return self

    def __exit__(self, kind, value, trace):
        try:
            self.close()
        except Ended:
            if kind is None:
                raise

    def close(self):
        """Ends the process; open transactions are aborted. Raises `Ended` if the process failed, as each use of the store does from then on. May
        be called twice."""
        if self._stream.close() and self.process.returncode != 0:
            raise self._stream.fault()

    def transaction(self):
        """A transaction, for a `with` block: it is begun with the block, committed at its end, and aborted if the block raises. Raises
        `Died` if it dies, in the block or at its end."""
        return Transaction(self)

    def run(self, body, attempts=None):
        """Calls `body` with a transaction, commits it, and returns what `body` returned. If the transaction dies, `body` is called again with
        another one, at most `attempts` times in all, or until it is committed; so `body` must do nothing else that can't be repeated. It is
        called again once another transaction has ended; of those that died one is under way at a time, unless it takes long."""
        turn = contextlib.nullcontext()
        for attempt in itertools.count(1):
            transaction = self.transaction()
            try:
                with turn, transaction:
                    result = body(transaction)
                return result
            except Died:
                if attempt == attempts:
                    raise
            finally:
                transaction._end()
            turn = contextlib.nullcontext() if transaction._died_at is None else self._stream.turn(transaction._died_at)

    def pipeline(self, depth=DEPTH):
        """Transactions that are sent `depth` at a time, for a `with` block: see `Pipeline`."""
        return Pipeline(self, depth)

    def check(self):
        """Whether the store agrees with its own log; it takes as long as replaying all of it."""
        return self._stream.ask([b"check"])[0] == b"check ok"

    def current_run(self):
        """The number of the current generation's run."""
        return int(self._stream.ask([b"run"])[0].split()[1])

    def stats(self):
        """The numbers that the store counts, by name."""
        answer = self._stream.ask([b"stats"])[0].decode()
        return {name: int(number) for name, number in (it.split("=") for it in answer.split())}


class Transaction:
    """An open transaction. Each operation is answered before it returns; one that has to wait returns once it is granted. `number` is its
    number in the order of begins, and `entry`, once it is committed, the number of its entry in the run's log."""

    def __init__(self, store):
        self._sessions, self._stream, self._session, self._died_at = store._sessions, store._stream, None, None
        self.number = self.entry = None

    def __enter__(self):
        self._died_at, self.number, self.entry = None, None, None
        self._session = self._sessions.take()
        try:
            answer, = self._stream.ask([b"begin %d" % self._session.number])
            if answer[:6] != b"begun ":
                raise fault_of(answer)
            self.number = int(answer[6:])
        except BaseException:
            self._end()
            raise
        return self

    def __exit__(self, kind, value, trace):
        try:
            if kind is None and self._died_at is not None:
                raise Died()
            if kind is None:
                self._commit()
        finally:
            self._end()

    def _commit(self):
        answer, = self._stream.ask([b"commit %d" % self._session.number])
        if answer[:10] != b"committed ":
            raise fault_of(answer)
        self.entry = int(answer[10:])

    def _end(self):
        """Aborts it unless it was committed, and leaves its session, if that wasn't done before."""
        if self._session is not None:
            if self.entry is None:
                counted = self._sessions.abort(self._session, self._died_at is not None)
                self._died_at = None if self._died_at is None else self._died_at + counted
            session, self._session = self._session, None
            self._sessions.leave(session)

    def _ask(self, verb, rest):
        """The result of an operation. One that has to wait is asked again once it is granted."""
        if self._session is None:
            raise Error("the transaction isn't open")
        number = self._session.number
        line = b"%s %d %s" % (verb, number, rest)
        asked = self._stream.question([line])
        while asked.answers[0] == b"wait":
            self._stream.wait_until_granted(number)
            asked = self._stream.question([line])
        if asked.answers[0] in (b"died", b"refused MustAbort") and self._died_at is None:
            self._died_at = asked.ends
        return meaning_of(asked.answers[0])

    def get(self, key, default=None):
        """The key's value, or `default` if it has none."""
        value = self._ask(b"get", key_word(key))
        return default if value is None else value

    def put(self, key, value):
        """Sets the key to the value."""
        self._ask(b"put", key_word(key) + b" " + value_word(value))

    def delete(self, key):
        """Removes the key, which need not exist."""
        self._ask(b"del", key_word(key))

    def add(self, key, delta):
        """Adds to the key's number, which is 0 without a value, and returns the sum. Raises `Refused` with the word NotNumber if the key's
        value isn't eight bytes long, and with OutOfRange if the sum leaves 64 signed bits."""
        return self._ask(b"add", key_word(key) + b" " + delta_word(delta))

    def __getitem__(self, key):
        value = self._ask(b"get", key_word(key))
        if value is None:
            raise KeyError(key)
        return value

    def __setitem__(self, key, value):
        self.put(key, value)

    def __delitem__(self, key):
        self.delete(key)

    def __contains__(self, key):
        return self._ask(b"get", key_word(key)) is not None


class Batch:
    """A transaction of a pipeline, whose operations are recorded and sent later. Once it is committed, `entry` is the number of its entry in
    the log, and `results` has what they returned."""

    def __init__(self):
        self.lines, self.answers, self.keys, self.entry = [], [], set(), None

    def _note(self, verb, key, rest=b"", writes=True):
        if writes and key not in self.keys:
            if len(self.keys) == MOST_WRITES:
                raise Refused("TooManyWrites")
            self.keys.add(key)
        self.lines.append((verb, key + rest))

    def get(self, key):
        """Records a read of the key."""
        self._note(b"get", key_word(key), writes=False)

    def put(self, key, value):
        """Records that the key is set to the value."""
        self._note(b"put", key_word(key), b" " + value_word(value))

    def delete(self, key):
        """Records that the key, which need not exist, is removed."""
        self._note(b"del", key_word(key))

    def add(self, key, delta):
        """Records that the number is added to the key's number."""
        self._note(b"add", key_word(key), b" " + delta_word(delta))

    def __setitem__(self, key, value):
        self.put(key, value)

    def __delitem__(self, key):
        self.delete(key)

    def spelled(self, session):
        """Its lines that aren't answered yet, from its begin to its commit."""
        lines = [b"begin %d" % session, *(b"%s %d %s" % (verb, session, rest) for verb, rest in self.lines), b"commit %d" % session]
        return lines[len(self.answers):]

    def take(self, answers):
        """Takes the answers to its lines, after which others may follow. Returns None if it is committed, otherwise what stopped it: b"wait",
        b"died", or a refusal of its begin or commit. None of its lines after that did anything."""
        last = len(self.lines) + 1 - len(self.answers)
        if answers[last][:10] == b"committed ":
            self.answers += answers[:last]
            self.entry = int(answers[last][10:])
            return None
        for answer in answers[:last]:
            if answer == b"wait" or answer == b"died" or not self.answers and answer[:6] != b"begun ":
                return answer
            self.answers.append(answer)
        return answers[last]

    @property
    def results(self):
        """What each operation returned, once it is committed: a value or None for `get`, the sum for `add`, None for others, and the
        exception `Refused` for one that was refused, which changed nothing."""
        return [_result(it) for it in self.answers[1:]]


def _result(answer):
    try:
        return meaning_of(answer)
    except Refused as refused:
        return refused


class Pipeline:
    """Transactions that are sent many at a time, in order, by one session, from one thread. Each is recorded in a `with` block of
    `transaction()`, of which nothing is sent if the block raises; they are sent once there are `depth` of them, by `flush`, and at the end
    of the pipeline's own block, unless that raises. One that dies is begun again, with those after it.

    A commit is sent before its operations are answered. So an operation that the store refuses (`add` with NotNumber or
    OutOfRange, any with Full or OutOfMemory) is left out, and the rest of its transaction is committed. The first such refusal is
    raised once all that was sent is answered; each `Batch` has its own refusals. If a transaction has to be committed as a whole or not at
    all, and an operation may be refused, use `Store.transaction` or `Store.run`.

    `committed` is the number of committed transactions.
    """

    def __init__(self, store, depth):
        self._sessions, self._stream, self._depth, self._noted = store._sessions, store._stream, depth, []
        self.committed = 0

    def __enter__(self):
        return self

    def __exit__(self, kind, value, trace):
        if kind is None:
            self.flush()

    def transaction(self):
        """A transaction, for a `with` block."""
        return _Noting(self)

    def _note(self, batch):
        self._noted.append(batch)
        if len(self._noted) >= self._depth:
            self.flush()

    def flush(self):
        """Sends what was recorded, and returns once all of it is committed."""
        batches, self._noted = self._noted, []
        if not batches:
            return
        session = self._sessions.take()
        try:
            self._send(session.number, batches)
        except BaseException:
            self._sessions.abort(session)
            self._sessions.leave(session)
            raise
        self._sessions.leave(session)
        for batch in batches:
            for answer in batch.answers:
                if answer[:8] == b"refused ":
                    raise fault_of(answer)

    def _send(self, session, batches):
        done = 0
        while done < len(batches):
            pieces = [batch.spelled(session) for batch in batches[done:]]
            asked, place = self._stream.question([line for piece in pieces for line in piece]), 0
            for piece in pieces:
                stopped = batches[done].take(asked.answers[place:place + len(piece)])
                if stopped is not None:
                    self._go_on(session, batches[done], stopped, asked.ends)
                    break
                done, place = done + 1, place + len(piece)
                self.committed += 1

    def _go_on(self, session, batch, stopped, ends):
        """Prepares to send the rest. `ends` transactions had ended."""
        if stopped == b"wait":
            self._stream.wait_until_granted(session)
            return
        ends += self._stream.question([b"abort %d" % session], stopped == b"died").counted
        if stopped != b"died":
            raise fault_of(stopped)
        batch.answers.clear()
        with self._stream.turn(ends):
            pass


class _Noting:
    """The block of a transaction of a pipeline."""

    def __init__(self, pipeline):
        self.pipeline, self.batch = pipeline, Batch()

    def __enter__(self):
        return self.batch

    def __exit__(self, kind, value, trace):
        if kind is None:
            self.pipeline._note(self.batch)
