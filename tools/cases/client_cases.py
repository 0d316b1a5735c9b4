"""The client and the relay of `clients/python` over the built program, for `try_programs.py`: transactions of threads, those that wait and those that
die, what the folder has after the process was killed, and clients of the relay over sockets.

Stores are looked at by one that is opened anew, or by `serve_cases.state_of`, which reads the folder by plain forms.
"""

import contextlib
import os
import random
import signal
import socket
import subprocess
import sys
import threading
import time

from tools import ROOT
from tools.cases.serve_cases import state_of
from tools.oracle.plain_store import text_of

CLIENTS = os.path.join(ROOT, "clients", "python")
sys.path.insert(0, CLIENTS)

import pcalc  # noqa: E402

SECONDS = 60
THREADS, ADDS = 8, 200
KILLS = 8
SESSIONS = 64
SEED = 71
FUZZES, FUZZ_TURNS = 3, 300
HOT_THREADS, HOT_TURNS = 32, 20


def differing(got, wanted):
    return [] if got == wanted else [f"{got!r} instead of {wanted!r}"]


def together(*bodies):
    """Runs the bodies on threads of their own. Returns what they raised."""
    raised = []

    def guarded(body):
        try:
            body()
        except BaseException as fault:
            raised.append(repr(fault))

    threads = [threading.Thread(target=guarded, args=(body,), daemon=True) for body in bodies]
    for it in threads:
        it.start()
    for it in threads:
        it.join(SECONDS)
    return raised + [f"a thread doesn't end: {it.name}" for it in threads if it.is_alive()]


def opened(program, room, **settings):
    return pcalc.Store(os.path.join(room, "S"), program=program, create=True, **settings)


def all_of(store, keys):
    """The values of the keys, in one transaction."""
    with store.transaction() as t:
        return [t.get(key) for key in keys]


# The client.

EVERY = bytes(range(256))
ODD = {b"fig": b"7", b"-": b"-", (9, b"fig"): b"", (65_535, b"\\s7:k"): EVERY, EVERY[1:]: b"\\x41", b" #": b"a b\r\n", b"k" * 255: bytes(65_535)}


def operations(program, room):
    """What one transaction does, and what the next process recovers of it."""
    with opened(program, room, run=7) as store:
        with store.transaction() as t:
            for key, value in ODD.items():
                t[key] = value
            got = [t[key] for key in ODD], t.add(b"n", -5), t.add(b"n", 3), t.get(b"none", b"0")
            del t[b"fig"]
            got += (t.get(b"fig"), t.entry)
        counts = {name: number for name, number in store.stats().items() if name != "bytes"}
        got += (t.entry, store.run_number, store.pairs, store.check(), counts)
        yield "a transaction of the client", differing(got, (list(ODD.values()), -5, -2, b"0", None, None, 1, 7, 0, True, {"entries": 1, "commits": 1, "points": 0, "open": 0, "pairs": len(ODD)}))
        yield "one that raises leaves nothing", raises(store)
    with opened(program, room, sync=True, lag=0) as store:
        wanted = [None, *list(ODD.values())[1:], text_of(-2), None]
        yield "and the next process", differing((all_of(store, [*ODD, b"n", b"left"]), store.run_number, store.pairs), (wanted, 8, len(ODD)))


def raises(store):
    lines = []
    bodies = (lambda t: t[b"none"], KeyError), (lambda t: t.add(b"-", 1), pcalc.Refused), (lambda t: t.add(b"n", 2**63 - 1) and t.add(b"n", 9), pcalc.Refused)
    for body, fault in bodies:
        try:
            with store.transaction() as t:
                t[b"left"] = b"1"
                body(t)
            lines.append(f"no {fault.__name__} is raised")
        except fault:
            pass
    return lines + differing(all_of(store, [b"left", b"-", b"n"]), [None, b"-", text_of(-2)])


def refused(program, room):
    """Stores that can't be opened."""
    with opened(program, room):
        for words, message in (({"folder": "S"}, "pcalc: %s: Busy"), ({"folder": "none"}, "pcalc: %s: NoFile")):
            path = os.path.join(room, words["folder"])
            try:
                pcalc.Store(path, program=program).close()
                lines = ["it is opened"]
            except pcalc.Ended as fault:
                lines = differing((str(fault), fault.status), (message % path, 1))
            yield f"a client of a store that can't be opened, {words['folder']}", lines


def adds(store, calls, number):
    """A thread that moves amounts between accounts and counts itself, and counts how often it was begun."""
    chance = random.Random(SEED + number)
    for _ in range(ADDS):
        one, two = chance.sample(range(5), 2)

        def move(t):
            calls[number] += 1
            t.add(b"a%d" % one, -1)
            t.add(b"a%d" % two, 1)
            t.add(b"count", 1)

        store.run(move)


def threads(program, room):
    """Threads that use the same keys, more of them than there are sessions."""
    with opened(program, room, sessions=THREADS - 2) as store:
        calls = [0] * THREADS
        lines = together(*(lambda number=number: adds(store, calls, number) for number in range(THREADS)))
        values = [pcalc.number_of(it) for it in all_of(store, [b"count", *(b"a%d" % it for it in range(5))])]
        print(f"{THREADS} threads of the client, {THREADS * ADDS} transactions: begun {sum(calls)} times")
        yield "threads that want the same keys", lines + differing((values[0], sum(values[1:]), store.check()), (THREADS * ADDS, 0, True))
        yield "pipelines that want the same keys", pipelines(store)


def pipelines(store):
    def work(keys):
        with store.pipeline(depth=50) as pipeline:
            for _ in range(500):
                with pipeline.transaction() as t:
                    for key in keys:
                        t.add(key, 1)

    def alone():
        for _ in range(100):
            store.run(lambda t: (t.add(b"q", 1), t.add(b"p", 1)))

    lines = together(lambda: work((b"p", b"q")), lambda: work((b"q", b"p")), alone)
    return lines + differing(all_of(store, [b"p", b"q"]), [text_of(1100)] * 2)


def deaths(program, room):
    """The younger transaction dies; the older one waits until what it waits for is done."""
    with opened(program, room) as store:
        raised, is_begun, is_locked = [], threading.Event(), threading.Event()

        def dies():
            try:
                with store.transaction() as t:
                    t[b"a"] = b"2"
            except pcalc.Died as fault:
                raised.append(str(fault))

        with store.transaction() as t:
            t[b"a"] = b"1"
            lines = together(dies)
        yield "the younger transaction dies", lines + differing((raised, all_of(store, [b"a"])), ([str(pcalc.Died())], [b"1"]))

        def younger():
            is_begun.wait(SECONDS)
            with store.transaction() as t:
                t[b"b"] = b"younger"
                is_locked.set()
                threading.Event().wait(0.1)

        def older():
            with store.transaction() as t:
                is_begun.set()
                is_locked.wait(SECONDS)
                t[b"b"] = b"older"

        yield "the older transaction waits", together(younger, older) + differing(all_of(store, [b"b"]), [b"older"])


def killed(program, room):
    """Each answered commit is there again, wherever the process was killed, whether lines are sent one by one or many together."""
    chance, most = random.Random(SEED), [0] * THREADS
    for time in range(KILLS):
        store, answered = opened(program, room), list(most)

        def work(number):
            with contextlib.suppress(pcalc.Ended):
                while number % 2:
                    answered[number] = store.run(lambda t: t.add(b"k%d" % number, 1))
                pipeline = store.pipeline(depth=20)
                while True:
                    with contextlib.ExitStack() as blocks:
                        for _ in range(20):
                            blocks.enter_context(pipeline.transaction()).add(b"k%d" % number, 1)
                    answered[number] += 20

        killer = threading.Timer(chance.random() * 0.3, store.process.kill)
        killer.start()
        lines = together(*(lambda number=number: work(number) for number in range(THREADS)))
        killer.join()
        try:
            store.close()
            lines.append("the end isn't reported")
        except pcalc.Ended as fault:
            lines += differing(fault.status, -signal.SIGKILL)
        pairs = state_of(os.path.join(room, "S"))
        most = [int.from_bytes(pairs.get((0, b"k%d" % number), b""), "big") for number in range(THREADS)]
        # what was under way at the kill may be there too
        is_right = all(there <= got <= there + (1 if number % 2 else 20) for number, (there, got) in enumerate(zip(answered, most)))
        yield f"a client whose process is killed, the time {time + 1}", lines + ([] if is_right else [f"{most} after {answered} that were answered"])
    print(f"clients of processes that were killed {KILLS} times: {sum(most)} transactions in the end")


def hot(program, room):
    """More threads than the machine has processors that want one key, by adds, or by reads and then writes."""
    def put(t):
        t[b"m"] = text_of(pcalc.number_of(t.get(b"m", bytes(8))) + 1)

    with opened(program, room) as store:
        for key, body in ((b"n", lambda t: t.add(b"n", 1)), (b"m", put)):
            begun = []

            def work():
                for _ in range(HOT_TURNS):
                    store.run(lambda t: begun.append(t) or body(t))

            lines = together(*[work] * HOT_THREADS)
            total, wanted = pcalc.number_of(all_of(store, [key])[0]), HOT_THREADS * HOT_TURNS
            print(f"{HOT_THREADS} threads of the client that want the key {key.decode()}: {total} transactions, begun {len(begun)} times")
            lines += [f"they were begun {len(begun)} times"] if len(begun) > 8 * wanted else []
            yield f"many threads that want the key {key.decode()}", lines + differing(total, wanted)


# Programs of their own, each with a store in its folder: an interrupt of its group, and its end by SIGKILL while a child that it has forked lives.

INTERRUPTED = """
import os, signal, time, pcalc
store = pcalc.Store("S", program=os.environ["PCALC"], create=True, lag=1000)
store.run(lambda t: t.put(b"a", b"1"))
try:
    with store.transaction() as t:
        t[b"b"] = b"1"
        os.killpg(0, signal.SIGINT)
        while True:
            time.sleep(0.01)
except KeyboardInterrupt:
    store.run(lambda t: t.put(b"c", b"1"))
    store.close()
    print("closed")
"""
FORKED = """
import os, signal, pcalc
store = pcalc.Store("S", program=os.environ["PCALC"], create=True)
store.run(lambda t: t.put(b"a", b"1"))
child = os.fork()
if child == 0:
    signal.pause()
print(child, flush=True)
os.kill(os.getpid(), signal.SIGKILL)
"""


def own(program, room, text):
    """A process of the program text, in a group of its own, and the folder in which it runs."""
    folder = os.path.join(room, f"at{len(os.listdir(room))}")
    os.makedirs(folder)
    settings = {**os.environ, "PCALC": program, "PYTHONPATH": CLIENTS}
    return subprocess.Popen([sys.executable, "-c", text], cwd=folder, env=settings, stdout=subprocess.PIPE, start_new_session=True), folder


def programs(program, room):
    """An interrupt of a program's group doesn't end its store; a child that was forked doesn't keep its dead parent's store."""
    process, folder = own(program, room, INTERRUPTED)
    said = process.communicate(timeout=SECONDS)[0]
    pairs = state_of(os.path.join(folder, "S"))
    print(f"a program that was interrupted says {said}; its store has {sorted(key for _, key in pairs)}")
    yield "an interrupt of the group of a client", differing((said, process.returncode, pairs), (b"closed\n", 0, {(0, b"a"): b"1", (0, b"c"): b"1"}))
    process, folder = own(program, room, FORKED)
    with process.stdout:
        child = int(process.stdout.readline())
        lines = differing(process.wait(SECONDS), -signal.SIGKILL)
    try:
        lines += opens_again(program, folder)
        os.kill(child, 0)
        print("a client that was killed, whose child lives: its store can be opened again:", not lines)
    finally:
        os.kill(child, signal.SIGKILL)
    yield "a client that is killed while a child of it lives", lines


def opens_again(program, folder):
    """The store of a process that was killed is free once its own process has ended."""
    end = time.monotonic() + SECONDS
    while True:
        try:
            with pcalc.Store(os.path.join(folder, "S"), program=program) as store:
                return differing(all_of(store, [b"a"]), [b"1"])
        except pcalc.Ended as fault:
            if time.monotonic() > end:
                return [str(fault)]
            time.sleep(0.01)


def imports(program, room):
    """A new store with the state of another one's folder."""
    with opened(program, room) as store:
        store.run(lambda t: t.put(b"a", b"1"))
    with pcalc.Store(os.path.join(room, "T"), program=program, create=True, import_from=os.path.join(room, "S")) as store:
        yield "a client of a store that is imported", differing((store.pairs, all_of(store, [b"a"])), (1, [b"1"]))


# The relay.

@contextlib.contextmanager
def relayed(program, room, address, *words):
    """A relay of a store, in a group of processes of its own, and how it is reached."""
    command = [sys.executable, os.path.join(CLIENTS, "relay.py"), address, "S", "--program", program, "--create", *words]
    with subprocess.Popen(command, cwd=room, stdout=subprocess.PIPE, start_new_session=True) as process:
        process.stdout.readline()
        listening = process.stdout.readline().decode().removeprefix("listening on ").rstrip()
        try:
            yield (lambda: Client(room, listening)), process
        finally:
            os.killpg(process.pid, signal.SIGINT)


class Client:
    """A client of a relay's socket."""

    def __init__(self, room, address):
        host, _, port = address.rpartition(":")
        self.sock = socket.create_connection((host, int(port))) if host else socket.socket(socket.AF_UNIX)
        if not host:
            self.sock.connect(os.path.join(room, address))
        self.sock.settimeout(SECONDS)
        self.answers = self.sock.makefile("rb")

    def ask(self, text, count=1):
        """Sends the text, and reads `count` lines."""
        self.sock.sendall(text)
        return b"".join(self.answers.readline() for _ in range(count))

    def is_ended(self):
        return self.answers.read() == b""

    def close(self):
        self.answers.close()
        self.sock.close()


def command(*words):
    """A command in Redis' form of an array."""
    return b"*%d\r\n" % len(words) + b"".join(b"$%d\r\n%s\r\n" % (len(it), it) for it in words)


COMMANDS = (
    (command(b"SET", b"a", EVERY), b"+OK\r\n"),
    (command(b"GET", b"a"), b"$256\r\n" + EVERY + b"\r\n"),
    (command(b"SET", EVERY[1:], b""), b"+OK\r\n"),
    (command(b"GET", EVERY[1:]), b"$0\r\n\r\n"),
    (command(b"SET", EVERY, b""), b"-ERR KeyLength\r\n"),
    (command(b"SET", b"a", bytes(65_536)), b"-ERR ValueLength\r\n"),
    (command(b"INCRBY", b"n", b"9223372036854775807"), b":9223372036854775807\r\n"),
    (command(b"INCR", b"n"), b"-ERR OutOfRange\r\n"),
    (command(b"MULTI") + command(b"DECRBY", b"n", b"7") + command(b"DEL", b"a", b"none") + command(b"EXEC"),
     b"+OK\r\n+QUEUED\r\n+QUEUED\r\n*2\r\n:9223372036854775800\r\n:1\r\n"),
    (b"MULTI\r\n" + b"".join(b"SET k%d v\r\n" % it for it in range(256)) + b"EXEC\r\n", b"+OK\r\n" + b"+QUEUED\r\n" * 256 + b"*256\r\n" + b"+OK\r\n" * 256),
    (b"MULTI\r\n" + b"".join(b"SET k%d w\r\n" % it for it in range(257)) + b"EXEC\r\n",
     b"+OK\r\n" + b"+QUEUED\r\n" * 256 + b"-ERR TooManyWrites\r\n-EXECABORT Transaction discarded because of previous errors.\r\n"),
    (command(b"DEL", *(b"k%d" % it for it in range(257))), b"-ERR TooManyWrites\r\n"),
    (b"EVAL x\r\n", b"-ERR unknown command 'EVAL'\r\n"),
    (b"PING\r\nQUIT\r\n", b"+PONG\r\n+OK\r\n"),
)


def redis(program, room):
    """Commands of Redis', over a port of 127.0.0.1."""
    with relayed(program, room, ":0") as (connected, process):
        client = connected()
        for text, wanted in COMMANDS:
            client.sock.sendall(text)
            yield f"the relay, {text[:40]!r}", differing(client.answers.read(len(wanted)), wanted)
        yield "the relay closes after QUIT", [] if client.is_ended() else ["more is sent"]
        client.close()
    yield "the relay ends with status 0 at an interrupt of its group", differing(process.returncode, 0)
    with opened(program, room) as store:
        yield "the store of the relay", differing(all_of(store, [b"k255", b"k256", b"n", b"a"]), [b"v", None, text_of(2**63 - 8), None])


def lines(program, room):
    """The store's own lines, by two clients of a Unix socket."""
    with relayed(program, room, "socket") as (connected, _):
        one, two = connected(), connected()
        got = one.ask(b"begin 1\nadd 1 n 1\nput 1 \\s7:k 1\n", 3), two.ask(b"begin 1\nget 1 n\nbegin 2\nget 1\nabort 1\nbegin 1\nput 1 m 1\n", 7)
        yield "two clients of a relay", differing(got, (b"begun 1\nsum 1\nok\n", b"begun 2\ndied\nrefused NoSession\nbad line\naborted\nbegun 3\nok\n"))
        one.sock.sendall(b"put 1 m 2\ncommit 1\nbegin 1\nget 1 m\ncommit 1\n")
        got = two.ask(b"commit 1\n"), one.ask(b"", 5)
        yield "a waiting line is sent again", differing(got, (b"committed 1\n", b"ok\ncommitted 2\nbegun 4\n= 2\ncommitted 3\n"))
        yield "quit ends a connection alone", differing((one.ask(b"quit\n", 0), one.is_ended(), two.ask(b"stats\n")), (b"", True, b"entries=3 commits=3 points=0 open=0 bytes=91 pairs=3\n"))
        one.close()
        two.close()


def crowd(program, room):
    """As many clients as sessions, each of which counts, while some close meanwhile."""
    with relayed(program, room, "socket") as (connected, _):
        clients = [connected() for _ in range(SESSIONS)]
        got = {client.ask(command(b"PING")) for client in clients}
        more = connected()
        got = got, more.ask(b"stats\n"), more.is_ended()
        yield f"{SESSIONS} clients of a relay and one more", differing(got, ({b"+PONG\r\n"}, b"refused NoSession\n", True))
        more.close()
        counted = clients[:SESSIONS // 2]
        for client in clients[SESSIONS // 2:]:
            client.sock.sendall(b"MULTI\r\nINCR m\r\nINCR n\r\nEXEC\r\n" * 30)
            client.close()
        raised = together(*(lambda client=client: client.ask(b"MULTI\r\nINCR n\r\nINCR m\r\nEXEC\r\n" * 30, 6 * 30) for client in counted))
        for client in counted:
            client.close()
        yield "clients of a relay that want the same keys, and others that close", raised + counts(connected)
        yield "a transaction ends with its connection", gone(connected)


def counts(connected):
    """Both counts are equal, and include at least those that were answered."""
    client = connected()
    got = client.ask(b"MULTI\r\nINCRBY n 0\r\nINCRBY m 0\r\nEXEC\r\n", 6).split()[-2:]
    client.close()
    return [] if got[0] == got[1] and int(got[0][1:]) >= SESSIONS // 2 * 30 else [f"the counts are {got}"]


def gone(connected):
    """A client that closes with a transaction open that others wait for."""
    one, two = connected(), connected()
    got = one.ask(b"begin 1\nput 1 a 1\n", 2).split()[2:]
    two.sock.sendall(b"SET a 2\r\nGET a\r\n")
    one.close()
    got.append(two.ask(b"", 3))
    two.close()
    return differing(got, [b"ok", b"+OK\r\n$1\r\n2\r\n"])


# Lines that other clients must not feel, and those that end a connection.

HARMFUL = b"\r", b"quit\r", b"commit 1\r", b"abort 1\r", b"begin 7\r", b"state 1\r", b"check\r", b"put 1 k a\rb"
REQUEST = b"POST / HTTP/1.1\r\nHost: 127.0.0.1\r\nContent-Length: 33\r\n\r\nbegin 1\nput 1 hacked yes\ncommit 1\n"


def harmful(program, room):
    """Lines that the store would take for others, beside a client with a transaction, in a store that takes points; and a request of a web page."""
    with relayed(program, room, ":0", "--every", "1") as (connected, _):
        one, two = connected(), connected()
        got = [one.ask(b"begin 1\nput 1 secret 1\n", 2), two.ask(b"begin 1\nput 1 a 1\ncommit 1\n", 3)]
        got += [two.ask(line + b"\r\nget 1 k\n", 2) for line in HARMFUL]
        got.append(one.ask(b"get 1 secret\nabort 1\n", 2))
        wanted = [b"begun 1\nok\n", b"begun 2\nok\ncommitted 1\n", *[b"bad line\nrefused NoTransaction\n"] * len(HARMFUL), b"= 1\naborted\n"]
        print(f"lines with a CR: {len(HARMFUL)}, all answered by the relay: {got == wanted}")
        yield "lines with a CR", differing(got, wanted)
        page = connected()
        got = page.ask(REQUEST), page.is_ended(), two.ask(b"GET hacked\nbegin 1\nget 1 hacked\nabort 1\n", 4)
        yield "a request of HTTP", differing(got, (b"bad line\n", True, b"bad line\nbegun 3\nabsent\naborted\n"))
        for it in (one, two, page):
            it.close()
        yield from (fuzzed(connected, seed) for seed in range(FUZZES))


PIECES = (b"begin get put del add abort commit point seal capture take done rest join state text check run stats base SET GET INCR MULTI EXEC PING DEL granted # 1 2 0 01 "
          b"000000001 0000000001 +1 -1 k v \\s7:k \\x00 - \\x4A \xc3\xa9").split() + [b"\t", b"\r", b"\0", b"\x0b", b"\x1c", b"\x85", b"", b" "]


def drawn_line(chance):
    kind = chance.random()
    if kind < 0.75:
        text = chance.choice((b" ", b" ", b"  ", b"\t", b"")).join(chance.choices(PIECES, k=chance.randrange(5)))
    elif kind < 0.9:
        text = bytes(chance.choices(b"begin 12\r\t #kput\0\xff\\", k=chance.randrange(14)))
    else:
        text = command(*chance.choices(PIECES, k=chance.randrange(4)))[:-2]
    return text + chance.choice((b"\n", b"\r\n", b"\r\r\n", b"\n\n"))


def fuzzed(connected, seed):
    """Connections that send drawn lines, beside one that gets the answers to its own. Keys of both differ."""
    chance, own, sent, lines = random.Random(seed), connected(), 0, []
    for turn in range(FUZZ_TURNS):
        other = connected()
        with contextlib.suppress(OSError):
            other.sock.sendall(chance.choice((b"stats\n", b"PING\n", b"")))
            for _ in range(chance.randrange(1, 12)):
                other.sock.sendall(drawn_line(chance))
                sent += 1
            other.sock.settimeout(0.001)
            other.sock.recv(65_536)
        with contextlib.suppress(OSError):
            other.close()
        lines = lines or differing(own.ask(command(b"SET", b"own", b"%d" % turn) + command(b"GET", b"own"), 3), b"+OK\r\n$%d\r\n%d\r\n" % (len(b"%d" % turn), turn))
    own.close()
    print(f"drawn lines beside a client, seed {seed}: {sent} lines, {FUZZ_TURNS} of its own questions answered rightly: {not lines}")
    return f"drawn lines of seed {seed} beside a client", lines


def clients(program, folder):
    """What is wrong with each use of a client or the relay, by its name."""
    for cases in (operations, refused, threads, hot, deaths, killed, programs, imports, redis, lines, crowd, harmful):
        room = os.path.join(folder, cases.__name__)
        os.makedirs(room)
        yield from cases(program, room)
