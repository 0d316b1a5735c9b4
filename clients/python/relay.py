#!/usr/bin/env python3
"""Shares a store over a socket: many clients of one `pcalc serve`, by its own lines or by a part of Redis' protocol.

    relay.py PATH DIR [--program PCALC] [OPTION..]       listens on the Unix socket PATH: the normal way
    relay.py :PORT DIR [--program PCALC] [OPTION..]      listens on 127.0.0.1, for all its users; on a free port if PORT is 0

The options are those of `pcalc serve`. `listening on ADDRESS` is printed once clients may connect. Each connection has one of the store's
sessions; if none is free, a connection is answered with an error, and closed.

SIGTERM and SIGINT end the relay: it ends the input of the store's process, which writes all that was asked, and waits for it. The status is
that of this process, 0 if it ended well; 1 also if a signal ended it, or if the relay can't listen; 2 after a fault of usage.

A connection uses Redis' protocol if its first byte is `*`, or if the first word of its first line is one of the commands below, in upper or
in lower case, and no word of the store's own lines; so `GET` is Redis', and `get` the store's. If that word is neither, or the line ends as
a request of HTTP, the answer is `bad line`, and the connection ends.

The store's own lines: the connection's session is session 1 in them, whatever its number in the store, and the only one. Each line is
answered by one line, in order; a line goes to the store once the one before it is answered, made anew from its words. One of no form of
docs/FORMATS.md is answered `bad line` by the relay. A connection sees neither `wait` nor
`granted`: the relay asks again once a request is granted, so an answer may take as long as another client's transaction. `quit` ends the
connection, not the store. A transaction that is open when its connection closes is aborted; until then it keeps its locks, however long.

Redis' protocol (RESP2, arrays and inline words without quotes): GET SET DEL INCR DECR INCRBY DECRBY MULTI EXEC DISCARD PING COMMAND QUIT. A single
command is a transaction, and so are the commands between MULTI and EXEC; one that dies is begun again. There is no WATCH, and SET takes only a
key and a value. Keys are of space 0, of 1 to 255 bytes. A command that would write a 257th key of a transaction is refused with
TooManyWrites, and all of a MULTI with it. Any other operation of a transaction that the store refuses is answered `-ERR NAME`, and
the others are committed, as with Redis. INCR, DECR and the like add to the store's own numbers, of eight bytes: GET returns the bytes as
they are, even a number's, since a text of eight bytes can't be distinguished from a number. `INCRBY key 0` returns a number in digits;
digits written by SET are no number.

Nothing of this is proved.
"""

import argparse
import collections
import contextlib
import errno
import os
import re
import select
import selectors
import signal
import socket
import subprocess
import sys
import time

import pcalc

READ_BYTES = 65_536
# at most, the bytes of one line or command, and of answers that a connection hasn't read
MOST_BYTES = 4_194_304
MOST_WORDS = 65_536
# how many words follow each command of Redis', at least and at most
COMMANDS = {b"GET": (1, 1), b"SET": (2, 2), b"DEL": (1, MOST_WORDS), b"INCR": (1, 1), b"DECR": (1, 1), b"INCRBY": (2, 2), b"DECRBY": (2, 2), b"MULTI": (0, 0),
            b"EXEC": (0, 0), b"DISCARD": (0, 0), b"PING": (0, 1), b"COMMAND": (0, MOST_WORDS), b"QUIT": (0, 0)}
NO_SESSION, BAD_LINE = b"refused NoSession\n", b"bad line\n"
NUMBER = re.compile(rb"[0-9]{1,9}")
DELTA = re.compile(rb"[+-]?[0-9]{1,19}")
VALUE = re.compile(rb"(?:[!-\[\]-~]|\\x[0-9a-f]{2})+")
KEY = re.compile(rb"(?:\\s([1-9][0-9]{0,4}):)?(?:[!-\[\]-~]|\\x[0-9a-f]{2})+")
HTTP = re.compile(rb"HTTP/[0-9.]+\s*\Z")
# how long a socket's path may be; for how many seconds no connection is accepted once there are too many files
MOST_PATH_BYTES = 107
PAUSE = 1.0
FILES_LACK = {errno.EMFILE, errno.ENFILE, errno.ENOBUFS, errno.ENOMEM}


class Malformed(Exception):
    """A client of Redis' protocol sent something of no known form."""


# The store's own lines. Each word is read for the connection's session, and None if it has no such form.

def session_in(word, session):
    return b"%d" % (session if int(word) == 1 else 0) if NUMBER.fullmatch(word) else None


def file_in(word, _):
    return b"0" if NUMBER.fullmatch(word) else None


def key_in(word, _):
    found = KEY.fullmatch(word)
    return word if found and int(found[1] or 0) <= pcalc.MOST_SPACE else None


def value_in(word, _):
    return word if VALUE.fullmatch(word) else None


def delta_in(word, _):
    is_known = DELTA.fullmatch(word) and not word.startswith(b"+") and -(2**63) <= int(word) < 2**63
    return b"%d" % int(word) if is_known else None


FORMS = {b"base": (key_in, value_in), b"begin": (session_in,), b"get": (session_in, key_in), b"put": (session_in, key_in, value_in),
         b"del": (session_in, key_in), b"add": (session_in, key_in, delta_in), b"abort": (session_in,), b"commit": (session_in,), b"point": (), b"seal": (),
         b"capture": (), b"take": (), b"done": (), b"rest": (), b"join": (file_in, file_in), b"state": (file_in,), b"text": (file_in,), b"check": (),
         b"run": (), b"stats": (), b"quit": ()}
# those that are the whole line
BARE = {b"run", b"stats", b"quit"}


def is_skipped(line):
    return line.startswith(b"#") or not line.strip(b" ")


def line_of(line, session):
    """The line that asks the store what a client's line asks, made of words that were checked; None if the line has no known form. The
    client's own session is its session 1. All other sessions, and all files, are sent as 0, which the store refuses."""
    verb, *words = [it for it in line.split(b" ") if it]
    form = FORMS.get(verb)
    if form is None or len(form) != len(words) or verb in BARE and line != verb:
        return None
    checked = [read(it, session) for read, it in zip(form, words)]
    return None if None in checked else b" ".join([verb, *checked])


# Redis' protocol.

def until_end(text, start):
    """The line that begins there, without its end, and where the next one begins; None if its end isn't there."""
    end = text.find(b"\n", start)
    if end < 0:
        return None
    return bytes(text[start:end]).rstrip(b"\r"), end + 1


def length_in(line, mark, most):
    if not line.startswith(mark) or not NUMBER.fullmatch(line[1:]) or int(line[1:]) > most:
        raise Malformed("Protocol error")
    return int(line[1:])


def command_in(text):
    """The words of the first command, and how many bytes it takes; None if it isn't whole."""
    found = until_end(text, 0)
    if found is None:
        return None
    line, place = found
    if not line.startswith(b"*"):
        return line.split(), place
    words = []
    for _ in range(length_in(line, b"*", MOST_WORDS)):
        found = until_end(text, place)
        if found is None:
            return None
        length = length_in(found[0], b"$", MOST_BYTES)
        place = found[1] + length + 2
        if len(text) < place:
            return None
        words.append(bytes(text[found[1]:found[1] + length]))
    return words, place


def bulk(value):
    return b"$-1\r\n" if value is None else b"$%d\r\n%s\r\n" % (len(value), value)


def failure(message):
    return b"-ERR %s\r\n" % message.encode()


class Operation:
    """A command of Redis' that is part of a transaction: the store's lines for it, without a session, the reply to their answers, and the keys
    that it writes."""

    def __init__(self, words):
        name, self.reply = words[0].upper(), None
        self.writes = frozenset() if name in (b"PING", b"COMMAND", b"GET") else frozenset(words[1:] if name == b"DEL" else words[1:2])
        if name == b"PING":
            self.lines, self.reply = [], lambda answers: bulk(words[1]) if len(words) > 1 else b"+PONG\r\n"
        elif name == b"COMMAND":
            self.lines, self.reply = [], lambda answers: b"*0\r\n"
        elif name == b"GET":
            self.lines, self.reply = [(b"get", pcalc.word(words[1]))], lambda answers: bulk(answers[0])
        elif name == b"SET":
            self.lines, self.reply = [(b"put", pcalc.word(words[1]) + b" " + pcalc.word(words[2]))], lambda answers: b"+OK\r\n"
        elif name == b"DEL":
            keys = [pcalc.word(it) for it in words[1:]]
            self.lines = [line for key in keys for line in ((b"get", key), (b"del", key))]
            self.reply = lambda answers: b":%d\r\n" % sum(it is not None for it in answers[::2])
        else:
            self.lines = [(b"add", pcalc.word(words[1]) + b" %d" % self.delta_of(name, words))]
            self.reply = lambda answers: b":%d\r\n" % answers[0]

    @staticmethod
    def delta_of(name, words):
        if len(words) > 2 and not DELTA.fullmatch(words[2]):
            raise Malformed("value is not an integer or out of range")
        delta = int(words[2]) if len(words) > 2 else 1
        delta = -delta if name.startswith(b"DECR") else delta
        if not -(2**63) <= delta < 2**63:
            raise Malformed("value is not an integer or out of range")
        return delta

    def told(self, answers):
        """The reply to the client: the first refusal, if there is one."""
        try:
            return self.reply([pcalc.meaning_of(it) for it in answers])
        except pcalc.Error as fault:
            return failure(str(fault))


class Job:
    """A transaction of a client of Redis' protocol: the lines of its operations between a begin and a commit, and the answers so far."""

    def __init__(self, operations, is_alone):
        self.operations, self.is_alone, self.answers = operations, is_alone, []

    def lines(self, session):
        """Its lines that aren't answered yet."""
        inner = [b"%s %d %s" % (verb, session, rest) for it in self.operations for verb, rest in it.lines]
        return [b"begin %d" % session, *inner, b"commit %d" % session][len(self.answers):]

    def told(self):
        """The reply to the client once it is committed."""
        answers, parts = iter(self.answers[1:-1]), []
        for it in self.operations:
            parts.append(it.told([next(answers) for _ in it.lines]))
        return parts[0] if self.is_alone else b"*%d\r\n" % len(parts) + b"".join(parts)


# The relay.

class Relay:
    """The store's process and its connections. The process answers in order: `asked` has who gets the next answers. It has a session of the
    system's own, so that a signal to the relay's group, as ^C at a terminal, doesn't end it."""

    def __init__(self, words, listener, sessions):
        self.selector, self.listener, self.paused_until = selectors.DefaultSelector(), listener, None
        self.process = subprocess.Popen(words, stdin=subprocess.PIPE, stdout=subprocess.PIPE, bufsize=0, start_new_session=True)
        self.source, self.target = self.process.stdout.fileno(), self.process.stdin.fileno()
        os.set_blocking(self.source, False), os.set_blocking(self.target, False)
        self.asked, self.out, self.rest = collections.deque(), bytearray(), b""
        self.free, self.owners = list(range(sessions, 0, -1)), {}
        # how many sessions are about to be free, and the connections that wait for one of these
        self.leaving, self.hopeful = 0, collections.deque()
        # how many transactions have ended without dying, and who begins again after the next such end: what they conflicted with was older, and is
        # open, or has ended so, or has died in a conflict with a still older one
        self.ends, self.dead = 0, []
        self.is_ending = False
        listener.setblocking(False)
        self.selector.register(listener, selectors.EVENT_READ, self.accept)
        self.selector.register(self.source, selectors.EVENT_READ, self.read)

    def end(self, _):
        self.is_ending = True

    def end_with(self, woken):
        """Ends `run` once this socket has something to read, after its current step."""
        self.woken = woken
        self.selector.register(woken, selectors.EVENT_READ, self.end)

    def first_line(self):
        """The first line of the store's process, whole unless it ends or the relay has to end before."""
        line = b""
        while not line.endswith(b"\n") and self.woken not in select.select([self.source, self.woken], [], [])[0]:
            with contextlib.suppress(BlockingIOError):
                byte = os.read(self.source, 1)
                if not byte:
                    break
                line += byte
        return line

    def run(self):
        while not self.is_ending:
            rest = None if self.paused_until is None else max(0, self.paused_until - time.monotonic())
            for key, events in self.selector.select(rest):
                key.data(events)
            if rest == 0:
                self.accept_again()
            self.send()

    def accept(self, _):
        try:
            sock, _ = self.listener.accept()
        except OSError as fault:
            if fault.errno in FILES_LACK:
                self.selector.unregister(self.listener)
                self.paused_until = time.monotonic() + PAUSE
            return
        Connection(self, sock)

    def accept_again(self):
        """Accepts connections again, after a pause for want of files, or since a file was closed."""
        if self.paused_until is not None:
            self.paused_until = None
            self.selector.register(self.listener, selectors.EVENT_READ, self.accept)

    def ask(self, owner, lines):
        """Asks lines that stay together, after those not yet sent; `owner.answered` gets each answer."""
        self.asked.extend([owner] * len(lines))
        self.out += b"\n".join(lines) + b"\n"

    def send(self, _=None):
        """Writes the lines that wait, as far as the process takes them."""
        try:
            while self.out:
                del self.out[:os.write(self.target, self.out[:READ_BYTES])]
        except BlockingIOError:
            pass
        except OSError:
            self.out.clear()  # the process has ended: so do its answers
        is_known = self.target in self.selector.get_map()
        if self.out and not is_known:
            self.selector.register(self.target, selectors.EVENT_WRITE, self.send)
        elif is_known and not self.out:
            self.selector.unregister(self.target)

    def read(self, _):
        try:
            chunk = os.read(self.source, READ_BYTES)
        except BlockingIOError:
            return
        if not chunk:
            self.is_ending = True
            return
        lines = (self.rest + chunk).split(b"\n")
        self.rest = lines.pop()
        for line in lines:
            if line.startswith(b"granted "):
                self.owners[int(line[8:])].granted()
            else:
                self.deliver(self.asked.popleft(), line)

    def deliver(self, owner, line):
        is_end = line.startswith(b"committed ") or line == b"aborted" and not owner.is_dying
        dead, self.dead = (self.dead, []) if is_end else ([], self.dead)
        owner.answered(line)
        self.ends += is_end
        for it in dead:
            it.begin_again()

    def take_back(self, session):
        """The session is free again, first for a connection that waits for one."""
        del self.owners[session]
        self.leaving -= 1
        self.free.append(session)
        while self.hopeful and self.free:
            self.hopeful.popleft().go_on()

    def close(self):
        """Ends the process's input, and returns its status. What waits is written whole before, since the beginning of a line may be
        another line."""
        while self.out:
            select.select([self.source], [self.target], [])
            self.send()
            self.discard_answers()
        self.process.stdin.close()
        os.set_blocking(self.source, True)
        self.discard_answers()
        return self.process.wait()

    def discard_answers(self):
        """Reads the answers that are there, and drops them."""
        with contextlib.suppress(BlockingIOError):
            while os.read(self.source, READ_BYTES):
                pass


class Connection:
    """A client's connection: its session, what it has sent, and what it is asking. It asks one thing at a time."""

    def __init__(self, relay, sock):
        self.relay, self.sock, self.session = relay, sock, 0
        self.into, self.out = bytearray(), bytearray()
        self.protocol, self.has_ended, self.is_gone, self.events = None, False, False, selectors.EVENT_READ
        sock.setblocking(False)
        if sock.family != socket.AF_UNIX:
            sock.setsockopt(socket.IPPROTO_TCP, socket.TCP_NODELAY, 1)
        relay.selector.register(sock, self.events, self.ready)

    def ready(self, events):
        if events & selectors.EVENT_READ:
            self.read()
        if not self.is_gone:
            self.go_on()

    def read(self):
        try:
            chunk = self.sock.recv(READ_BYTES)
        except BlockingIOError:
            return
        except OSError:
            chunk = b""
        self.into += chunk
        if not chunk:
            self.close()

    def go_on(self):
        """Takes the input as far as possible, and sends the replies."""
        self.send()
        if self.protocol is None and not self.is_gone:
            self.begin()
        if self.protocol is not None and not self.is_gone:
            self.protocol.take()
        self.send()

    def may_take(self):
        """Whether more of the client's input may be taken: not while it leaves many replies unread."""
        return not self.has_ended and len(self.out) <= MOST_BYTES

    def begin(self):
        """Finds out the client's protocol, and gives it a session."""
        while self.into.startswith((b"\n", b"\r\n")):
            del self.into[:self.into.index(b"\n") + 1]
        line = b"*" if self.into[:1] == b"*" else bytes(self.into.partition(b"\n")[0]) if b"\n" in self.into else None
        if line is None:
            self.has_ended = len(self.into) > MOST_BYTES
            return
        protocol = protocol_of(line[:-1] if line.endswith(b"\r") else line)
        if protocol is None:
            self.out += BAD_LINE
            self.has_ended = True
        elif self not in self.relay.hopeful:
            self.begin_with(protocol)

    def begin_with(self, protocol):
        relay = self.relay
        if not relay.free and len(relay.hopeful) < relay.leaving:
            relay.hopeful.append(self)
        elif not relay.free:
            self.out += failure("max number of clients reached") if protocol is Commands else NO_SESSION
            self.has_ended = True
        else:
            self.session = relay.free.pop()
            relay.owners[self.session] = self.protocol = protocol(self)

    def send(self):
        if self.is_gone:
            return
        try:
            while self.out:
                del self.out[:self.sock.send(self.out)]
        except BlockingIOError:
            pass
        except OSError:
            self.close()
        if self.has_ended and not self.out:
            self.close()
        if not self.is_gone:
            self.watch_for_more()

    def watch_for_more(self):
        is_reading = not self.has_ended and max(len(self.into), len(self.out)) <= MOST_BYTES
        events = (selectors.EVENT_READ if is_reading else 0) | (selectors.EVENT_WRITE if self.out else 0)
        self.watch(events)

    def watch(self, events):
        if events == self.events:
            return
        if not self.events:
            self.relay.selector.register(self.sock, events, self.ready)
        elif not events:
            self.relay.selector.unregister(self.sock)
        else:
            self.relay.selector.modify(self.sock, events, self.ready)
        self.events = events

    def close(self):
        """Ends the connection: its session is free again once nothing is open in it."""
        if self.is_gone:
            return
        self.is_gone = True
        self.watch(0)
        self.sock.close()
        self.relay.accept_again()
        if self.protocol is not None:
            self.protocol.leave()


class Protocol:
    """A client's protocol: takes the connection's input, one request at a time, and gets the store's answers."""

    def __init__(self, connection):
        self.connection, self.relay, self.session = connection, connection.relay, connection.session
        # the number of unanswered lines; whether a request waits; whether the connection is over, and its last line asked
        self.open, self.is_parked, self.is_over, self.is_leaving = 0, False, False, False
        # whether the abort of a transaction that died is asked
        self.is_dying = False

    def ask(self, lines):
        self.open += len(lines)
        self.relay.ask(self, lines)

    def answered(self, line):
        self.open -= 1
        if self.is_leaving:
            if self.open == 0:
                self.relay.take_back(self.session)
            return
        self.note(line)
        if self.is_over and self.open == 0:
            self.abort_last()

    def granted(self):
        if self.is_parked and not self.is_leaving:
            self.is_parked = False
            self.ask_again()

    def leave(self):
        """The connection is over. What is open is aborted, after what was already asked."""
        self.is_over = True
        self.relay.leaving += 1
        if self.open == 0:
            self.abort_last()

    def abort_last(self):
        if not self.is_leaving:
            self.is_leaving = True
            self.relay.dead = [it for it in self.relay.dead if it is not self]
            self.ask([b"abort %d" % self.session])

    def reply(self, text):
        """Replies to the client, and then takes more of its input."""
        if not self.is_over:
            self.connection.out += text
            self.connection.go_on()


class Lines(Protocol):
    """The store's own lines, in which session 1 is the connection's."""

    line = b""

    def take(self):
        into = self.connection.into
        while not self.open and not self.is_parked and self.connection.may_take():
            end = into.find(b"\n")
            if end < 0:
                self.connection.has_ended = len(into) > MOST_BYTES
                return
            line = bytes(into[:end])
            del into[:end + 1]
            self.take_line(line[:-1] if line.endswith(b"\r") else line)

    def take_line(self, line):
        if line == b"quit":
            self.connection.has_ended = True
        elif not is_skipped(line):
            asked = line_of(line, self.session)
            if asked is None:
                self.connection.out += BAD_LINE
            else:
                self.line = asked
                self.ask([asked])

    def note(self, line):
        if line == b"wait":
            self.is_parked = True
        else:
            self.reply(line + b"\n")

    def ask_again(self):
        self.ask([self.line])


class Commands(Protocol):
    """A part of Redis' protocol. `queued` has the operations after a MULTI, and `written` the keys that they write."""

    job, queued, written, is_spoiled, died_at = None, None, frozenset(), False, 0
    # the answer that stopped the transaction, b"aborting" once its abort is asked; then `fault` has that answer
    stopped = fault = None

    def take(self):
        connection = self.connection
        while self.job is None and connection.may_take():
            try:
                found = command_in(connection.into)
                if found is None:
                    connection.has_ended = len(connection.into) > MOST_BYTES
                    return
                del connection.into[:found[1]]
            except Malformed as fault:
                connection.out += failure(str(fault))
                connection.has_ended = True
                return
            if found[0]:
                connection.out += self.take_command(found[0])

    def take_command(self, words):
        """The immediate reply to a command."""
        name = words[0].upper()
        try:
            if name not in COMMANDS:
                raise Malformed("unknown command '%s'" % words[0][:64].decode(errors="replace").translate({10: " ", 13: " "}))
            least, most = COMMANDS[name]
            if not least <= len(words) - 1 <= most:
                raise Malformed("wrong number of arguments for '%s' command" % name.decode().lower())
            if name in (b"MULTI", b"EXEC", b"DISCARD", b"QUIT"):
                return getattr(self, name.decode().lower())()
            operation = Operation(words)
            written = self.written | operation.writes
            if len(written) > pcalc.MOST_WRITES:
                raise Malformed("TooManyWrites")
        except Malformed as fault:
            self.is_spoiled = self.queued is not None
            return failure(str(fault))
        if self.queued is not None:
            self.queued.append(operation)
            self.written = written
            return b"+QUEUED\r\n"
        return self.begin_job(Job([operation], True)) if operation.lines else operation.told([])

    def multi(self):
        if self.queued is not None:
            raise Malformed("MULTI calls can not be nested")
        self.queued, self.written = [], frozenset()
        return b"+OK\r\n"

    def discard(self):
        if self.queued is None:
            raise Malformed("DISCARD without MULTI")
        self.queued, self.written, self.is_spoiled = None, frozenset(), False
        return b"+OK\r\n"

    def exec(self):
        if self.queued is None:
            return failure("EXEC without MULTI")
        queued, is_spoiled, self.queued, self.written, self.is_spoiled = self.queued, self.is_spoiled, None, frozenset(), False
        if is_spoiled:
            return b"-EXECABORT Transaction discarded because of previous errors.\r\n"
        return self.begin_job(Job(queued, False))

    def quit(self):
        self.connection.has_ended = True
        return b"+OK\r\n"

    def begin_job(self, job):
        self.job = job
        self.ask_again()
        return b""

    def ask_again(self):
        """Asks what isn't answered yet of the transaction, in one piece: if one of its lines waits, none after it does anything."""
        self.stopped = None
        self.ask(self.job.lines(self.session))

    def begin_again(self):
        self.job.answers.clear()
        self.ask_again()

    def note(self, line):
        if self.stopped is None:
            self.go_on(line)
        elif self.stopped == b"aborting":
            self.end_aborted()
        elif self.open == 0:
            self.end_stopped()

    def go_on(self, line):
        job = self.job
        place, last = len(job.answers), self.open == 0
        if line in (b"wait", b"died") or place == 0 and not line.startswith(b"begun ") or last and not line.startswith(b"committed "):
            self.stopped, self.died_at = line, self.relay.ends
            if last:
                self.end_stopped()
            return
        job.answers.append(line)
        if last:
            self.job = None
            self.reply(job.told())

    def end_stopped(self):
        """All lines after the one that stopped the transaction are answered, and did nothing."""
        if self.stopped == b"wait":
            self.is_parked = True
            return
        self.fault, self.stopped = self.stopped, b"aborting"
        self.is_dying = self.fault == b"died"
        self.ask([b"abort %d" % self.session])

    def end_aborted(self):
        """The stopped transaction is aborted: it begins again after the end of another one, or its client gets the fault."""
        self.is_dying = False
        if self.fault != b"died":
            self.job = None
            self.reply(failure(str(pcalc.fault_of(self.fault))))
        elif self.is_over:
            return
        elif self.relay.ends > self.died_at:
            self.begin_again()
        else:
            self.relay.dead.append(self)


def protocol_of(line):
    """The protocol of a connection with this first line; None if it is of neither."""
    first = (line.split() or [b""])[0]
    if HTTP.search(line):
        return None
    if first[:1] == b"*" or first in (first.upper(), first.lower()) and first.upper() in COMMANDS and first not in FORMS:
        return Commands
    return Lines if is_skipped(line) or first in FORMS else None


# The program.

def address_in(word):
    """The port in the word, or the path of a Unix socket."""
    found = re.fullmatch(r"(?:127\.0\.0\.1|localhost)?:([0-9]{1,5})", word)
    if found and int(found[1]) <= 65_535:
        return int(found[1])
    if "/" not in word and (":" in word or word.isdigit()):
        raise argparse.ArgumentTypeError("%r is no port of 127.0.0.1, as :6400, and no path, as ./socket" % word)
    if not 1 <= len(os.fsencode(word)) <= MOST_PATH_BYTES:
        raise argparse.ArgumentTypeError("the path of a socket has 1 to %d bytes" % MOST_PATH_BYTES)
    return word


def listening(address):
    """A socket that listens, and its address as it is printed."""
    if isinstance(address, str):
        listener, name = socket.socket(socket.AF_UNIX), address
        clear(address)
        listener.bind(address)
    else:
        listener = socket.socket(socket.AF_INET)
        listener.setsockopt(socket.SOL_SOCKET, socket.SO_REUSEADDR, 1)
        listener.bind(("127.0.0.1", address))
        name = "127.0.0.1:%d" % listener.getsockname()[1]
    listener.listen(128)
    return listener, name


def clear(path):
    """Removes a socket that nobody listens on."""
    if not os.path.exists(path):
        return
    with socket.socket(socket.AF_UNIX) as probe:
        try:
            probe.connect(path)
        except ConnectionRefusedError:
            os.unlink(path)


def woken_by(*numbers):
    """A socket that has something to read once one of these signals has come; until then nothing else happens at them."""
    waker, woken = socket.socketpair()
    waker.setblocking(False)
    for number in numbers:
        signal.signal(number, lambda *_: None)
    signal.set_wakeup_fd(waker.detach())
    return woken


def main():
    words = argparse.ArgumentParser(description="Shares a store over a socket.", epilog="Other options go to `pcalc serve`.", allow_abbrev=False)
    words.add_argument("address", type=address_in, help="the path of a Unix socket, or :PORT of 127.0.0.1")
    words.add_argument("folder", help="the store's folder")
    words.add_argument("--program", default="pcalc", help="the path of pcalc")
    words.add_argument("--sessions", type=int, default=pcalc.MOST_SESSIONS, help="how many clients may be connected, 1 to 64")
    given, options = words.parse_known_args()
    woken = woken_by(signal.SIGTERM, signal.SIGINT)
    try:
        listener, name = listening(given.address)
    except OSError as fault:
        sys.exit("relay: %s: %s" % (given.address, fault.strerror))
    try:
        status = served(listener, name, [*pcalc.command(given.folder, given.program, sessions=given.sessions), *options], given.sessions, woken)
    finally:
        if listener.family == socket.AF_UNIX:
            os.unlink(name)
    if status < 0:
        sys.exit("relay: the store's process was ended by signal %d" % -status)
    sys.exit(status)


def served(listener, name, words, sessions, woken):
    """Serves until a signal comes or the store's process ends, and returns its status."""
    try:
        relay = Relay(words, listener, sessions)
    except OSError as fault:
        sys.exit("relay: %s: %s" % (words[0], fault.strerror))
    try:
        relay.end_with(woken)
        ready = relay.first_line()
        if ready.endswith(b"\n"):
            print(ready.decode().rstrip(), "listening on %s" % name, sep="\n", flush=True)
            relay.run()
    finally:
        status = relay.close()
    return status


if __name__ == "__main__":
    main()
