"""Tests of the client and the relay of `clients/python`, over a plain store that a script serves."""

import contextlib
import os
import random
import re
import signal
import socket
import subprocess
import sys
import threading
import time
import unittest
import unittest.mock

from support import ROOT, InFolder, stored

CLIENTS = os.path.join(ROOT, "clients", "python")
sys.path.insert(0, CLIENTS)

import pcalc  # noqa: E402
import relay  # noqa: E402

FAKE = [sys.executable, os.path.join(os.path.dirname(os.path.abspath(__file__)), "fake_server.py")]
SECONDS = 60


class Words(unittest.TestCase):
    def test_bytes_are_spelled_as_words(self):
        for value, spelled in ((b"", b"-"), (b"-", b"\\x2d"), (b"--", b"--"), (b"a b", b"a\\x20b"), (b"\\", b"\\x5c"), (b"\0\xff~!", b"\\x00\\xff~!"), (b"#", b"#")):
            self.assertEqual((pcalc.word(value), pcalc.bytes_of(spelled)), (spelled, value))

    def test_every_byte_comes_back(self):
        for value in [bytes(range(256)), *(bytes((it,)) for it in range(256)), *(bytes((0x5c, it)) for it in range(256))]:
            self.assertEqual(pcalc.bytes_of(pcalc.word(value)), value)

    def test_keys_have_spaces(self):
        for key, spelled in ((b"k", b"k"), ((0, b"k"), b"k"), ((7, b":"), b"\\s7::"), ((65535, b"-"), b"\\s65535:\\x2d"), (b"\\s7:k", b"\\x5cs7:k")):
            self.assertEqual(pcalc.key_word(key), spelled)

    def test_what_is_no_key_or_value_is_refused(self):
        for call, given, fault in ((pcalc.key_word, b"", pcalc.Refused), (pcalc.key_word, b"k" * 256, pcalc.Refused), (pcalc.key_word, (65536, b"k"), ValueError),
                                   (pcalc.value_word, bytes(65_536), pcalc.Refused), (pcalc.delta_word, 2**63, ValueError), (pcalc.number_of, b"7", ValueError),
                                   *((pcalc.key_word, it, TypeError) for it in ("k", 7, None, [107], {107: 1}, 1.5, (1.5, b"k"), (b"k",), (1, 2, b"k"), (1, [107]))),
                                   *((pcalc.value_word, it, TypeError) for it in ("v", 7, None, [1, 2], {1: 2}, (1, 2), 1.5)),
                                   *((pcalc.delta_word, it, TypeError) for it in ("1", 1.5, None, [1], b"1"))):
            with self.assertRaises(fault, msg=given):
                call(given)

    def test_what_holds_bytes_is_taken(self):
        for value in (bytearray(b"a b"), memoryview(b"a b")):
            self.assertEqual((pcalc.key_word(value), pcalc.key_word((7, value)), pcalc.value_word(value)), (b"a\\x20b", b"\\s7:a\\x20b", b"a\\x20b"))

    def test_numbers_are_values_of_eight_bytes(self):
        for number in (0, 1, -1, 2**63 - 1, -(2**63)):
            self.assertEqual(pcalc.number_of(pcalc.value_of(number)), number)

    def test_answers_have_meanings(self):
        self.assertEqual([pcalc.meaning_of(it) for it in (b"ok", b"absent", b"= -", b"= a\\x20b", b"sum -5")], [None, None, b"", b"a b", -5])
        for answer, fault in ((b"died", pcalc.Died), (b"refused MustAbort", pcalc.Died), (b"refused Full", pcalc.Refused), (b"bad line", pcalc.Error)):
            with self.assertRaises(fault):
                pcalc.meaning_of(answer)

    def test_a_command_has_its_options(self):
        self.assertEqual(pcalc.command("d", "p", create=True, sync=True, lag=5, run=None), ["p", "serve", "d", "--create", "--sync", "--lag", "5"])
        self.assertEqual(pcalc.command("d", "p", every=7, roll=9, keep=2), ["p", "serve", "d", "--every", "7", "--roll", "9", "--keep", "2"])
        self.assertEqual(pcalc.command("d", "p", create=True, import_from="old"), ["p", "serve", "d", "--create", "--import", "old"])
        with self.assertRaises(TypeError):
            pcalc.command("d", rolls=5)


class OfStore(unittest.TestCase):
    """A test with a store; subclasses may change the settings of its process."""

    settings = {}

    def setUp(self):
        self.store = pcalc.Store("shop", program=FAKE, **self.settings)
        self.addCleanup(self.ended)

    def ended(self):
        with contextlib.suppress(pcalc.Ended):
            self.store.close()

    def value(self, key):
        with self.store.transaction() as t:
            return t.get(key)

    def started(self, body, *given):
        """A thread that runs the body, and ends with the test."""
        thread = threading.Thread(target=body, args=given)
        thread.start()
        self.addCleanup(thread.join, SECONDS)
        return thread


class Transactions(OfStore):
    def test_a_block_commits(self):
        with self.store.transaction() as t:
            t[b"fig"] = b"7"
            t[(9, b"a b")] = b""
            self.assertEqual((t[b"fig"], t[(9, b"a b")], t.get(b"pear"), t.get(b"pear", b"0"), b"pear" in t, t.add(b"n", 5), t.add(b"n", -7)),
                             (b"7", b"", None, b"0", False, 5, -2))
            with self.assertRaises(KeyError):
                t[b"pear"]
            del t[b"fig"]
        self.assertEqual((t.number, t.entry, self.value(b"fig"), self.value(b"n")), (1, 1, None, pcalc.value_of(-2)))

    def test_a_block_that_raises_aborts(self):
        with self.assertRaises(ZeroDivisionError):
            with self.store.transaction() as t:
                t[b"fig"] = b"7"
                t.add(b"n", 1 // 0)
        self.assertEqual((t.entry, self.value(b"fig")), (None, None))

    def test_a_transaction_may_be_begun_again(self):
        transaction = self.store.transaction()
        for value in (b"1", b"2"):
            with transaction as t:
                t[b"fig"] = value
        with contextlib.suppress(ZeroDivisionError):
            with transaction as t:
                t[b"fig"] = b"%d" % (1 // 0)
        self.assertEqual((transaction.number, transaction.entry, self.value(b"fig")), (3, None, b"2"))

    def test_a_refusal_has_its_word(self):
        with self.store.transaction() as t:
            t[b"fig"] = b"7"
            with self.assertRaises(pcalc.Refused) as refused:
                t.add(b"fig", 1)
        self.assertEqual((refused.exception.word, self.value(b"fig")), ("NotNumber", b"7"))

    def test_a_transaction_that_has_ended_takes_no_calls(self):
        with self.store.transaction() as t:
            pass
        with self.assertRaises(pcalc.Error):
            t[b"fig"] = b"7"

    def test_a_thread_has_one_transaction_at_a_time(self):
        with self.store.transaction():
            with self.assertRaises(pcalc.Error):
                with self.store.transaction():
                    pass
        self.assertIsNone(self.value(b"fig"))

    def test_the_younger_one_dies(self):
        with self.store.transaction() as t:
            t[b"fig"] = b"1"
            deaths = []
            self.started(self.note_death, deaths).join(SECONDS)
        self.assertEqual((deaths, self.value(b"fig")), ([True, True], b"1"))

    def note_death(self, deaths):
        """Notes that a transaction dies, also if the exception is ignored."""
        for is_passed_over in (False, True):
            with contextlib.suppress(pcalc.Died):
                with self.store.transaction() as t:
                    try:
                        t[b"fig"] = b"2"
                    except pcalc.Died:
                        if not is_passed_over:
                            raise
                deaths.append(False)
                continue
            deaths.append(True)

    def test_the_older_one_waits_and_continues(self):
        is_begun, is_locked = threading.Event(), threading.Event()

        def younger():
            is_begun.wait(SECONDS)
            with self.store.transaction() as t:
                t[b"fig"] = b"younger"
                is_locked.set()
                threading.Event().wait(0.05)

        self.started(younger)
        with self.store.transaction() as t:
            is_begun.set()
            is_locked.wait(SECONDS)
            self.assertEqual(t[b"fig"], b"younger")
            t[b"fig"] = b"older"
        self.assertEqual(self.value(b"fig"), b"older")

    def test_what_dies_is_begun_again(self):
        attempts = []

        def sell(t):
            attempts.append(t)
            return t.add(b"n", 1)

        with self.store.transaction() as t:
            t[b"n"] = pcalc.value_of(7)
            thread = self.started(lambda: attempts.append(self.store.run(sell)))
            while len(attempts) < 2:
                threading.Event().wait(0.001)
        thread.join(SECONDS)
        self.assertEqual(attempts[-1], 8)

    def test_attempts_may_be_counted(self):
        def dies(t):
            raise pcalc.Died()

        with self.assertRaises(pcalc.Died):
            self.store.run(dies, attempts=2)

    def test_threads_lose_no_add(self):
        def work():
            for _ in range(50):
                self.store.run(lambda t: t.add(b"n", 1))

        for thread in [self.started(work) for _ in range(4)]:
            thread.join(SECONDS)
        self.assertEqual((pcalc.number_of(self.value(b"n")), self.store.check()), (200, True))
        self.assertEqual(self.store.stats(), {"entries": 201})


class Alarm(Exception):
    pass


class Interruptions(OfStore):
    """Exceptions out of signal handlers, and children that are forked."""

    ALARMS = 200

    def alarm(self, *_):
        raise Alarm

    def is_free(self):
        """Whether all sessions are free again. What was dropped is aborted on another thread."""
        end = time.monotonic() + SECONDS
        while self.store._sessions.free.qsize() < pcalc.MOST_SESSIONS and time.monotonic() < end:
            time.sleep(0.001)
        return self.store._sessions.free.qsize() == pcalc.MOST_SESSIONS

    def test_exceptions_out_of_handlers_lose_nothing(self):
        self.addCleanup(signal.signal, signal.SIGALRM, signal.signal(signal.SIGALRM, self.alarm))
        chance, added = random.Random(5), 0
        for _ in range(self.ALARMS):
            try:
                signal.setitimer(signal.ITIMER_REAL, 0.0005 + 0.003 * chance.random())
                for _ in range(1000):
                    self.store.run(lambda t: t.add(b"n", 1))
                    added += 1
            except Alarm:
                pass
        signal.setitimer(signal.ITIMER_REAL, 0)
        self.assertTrue(self.is_free())
        self.assertEqual((self.store.check(), self.store.run(lambda t: t.add(b"n", 0)) - added in range(self.ALARMS + 1)), (True, True))

    def test_what_is_dropped_is_aborted(self):
        transaction = self.store.transaction()
        transaction.__enter__().put(b"fig", b"1")
        del transaction
        self.assertEqual((self.value(b"fig"), self.is_free()), (None, True))

    def forked(self, body):
        """The process of a child that runs the body, and whose status is 0 if that returns true."""
        child = os.fork()
        if child == 0:
            try:
                os._exit(not body())
            finally:
                os._exit(2)
        return child

    def uses(self):
        """What a child's uses of the store say; it must not have the store's pipes."""
        said = []
        for use in (lambda: self.value(b"fig"), self.store.stats, self.store.pipeline().flush):
            try:
                use()
            except pcalc.Error as fault:
                said.append("another" not in str(fault) and "forked" in str(fault))
        self.store.close()
        return said == [True, True] and self.store.process.stdin.closed and self.store.process.stdout.closed

    def test_a_child_cant_use_the_store(self):
        with self.store.transaction() as t:
            t[b"fig"] = b"1"
            self.assertEqual(os.waitpid(self.forked(self.uses), 0)[1], 0)
        self.assertEqual(self.value(b"fig"), b"1")

    def test_a_store_ends_while_a_child_lives(self):
        source, target = os.pipe()
        child = self.forked(lambda: os.close(target) or os.read(source, 1) == b"")
        self.store.close()
        self.assertEqual(os.waitpid(child, os.WNOHANG), (0, 0))
        os.close(target), os.close(source)
        self.assertEqual(os.waitpid(child, 0)[1], 0)

    def test_a_store_that_is_closed_says_so(self):
        self.store.close()
        for use in (self.store.stats, lambda: self.value(b"fig")):
            with self.assertRaisesRegex(pcalc.Ended, "^the store is closed$"):
                use()


class Pipelines(OfStore):
    def test_many_are_sent_together(self):
        with self.store.pipeline(depth=10) as pipeline:
            noted = []
            for number in range(25):
                with pipeline.transaction() as t:
                    t[b"k%d" % number] = b"%d" % number
                    t.add(b"n", 1)
                    t.get(b"k%d" % (number - 1))
                    noted.append(t)
        self.assertEqual(([it.entry for it in noted], pipeline.committed), (list(range(1, 26)), 25))
        self.assertEqual(noted[24].results, [None, 25, b"23"])

    def test_blocks_that_raise_send_nothing(self):
        with contextlib.suppress(ZeroDivisionError):
            with self.store.pipeline() as pipeline:
                with contextlib.suppress(KeyError):
                    with pipeline.transaction() as t:
                        t[b"a"] = b"1"
                        raise KeyError
                with pipeline.transaction() as t:
                    t[b"b"] = b"1"
                pipeline.flush()
                with pipeline.transaction() as t:
                    t[b"c"] = b"1"
                1 // 0
        self.assertEqual([self.value(it) for it in (b"a", b"b", b"c")], [None, b"1", None])

    def test_what_is_refused_is_left_out_and_raised(self):
        with self.assertRaises(pcalc.Refused) as refused:
            with self.store.pipeline() as pipeline:
                for key in (b"fig", b"n"):
                    with pipeline.transaction() as t:
                        t[b"fig"] = b"7"
                        t.add(key, 1)
        self.assertEqual((refused.exception.word, pipeline.committed, self.value(b"n")), ("NotNumber", 2, pcalc.value_of(1)))

    def test_a_transaction_has_at_most_256_keys(self):
        with self.store.pipeline() as pipeline:
            with pipeline.transaction() as t:
                for number in range(pcalc.MOST_WRITES):
                    t[b"%d" % number] = b""
                t[b"0"] = b"again"
                with self.assertRaises(pcalc.Refused):
                    t[b"more"] = b""
        self.assertEqual((len(t.results), self.value(b"0")), (pcalc.MOST_WRITES + 1, b"again"))

    def test_pipelines_of_threads_lose_nothing(self):
        """Two with opposite orders of keys, and one thread of transactions line by line."""
        def work(keys):
            with self.store.pipeline(depth=5) as pipeline:
                for _ in range(40):
                    with pipeline.transaction() as t:
                        for key in keys:
                            t.add(key, 1)

        def alone():
            for _ in range(20):
                self.store.run(lambda t: (t.add(b"b", 1), t.add(b"a", 1)))

        for thread in (self.started(work, (b"a", b"b")), self.started(work, (b"b", b"a")), self.started(alone)):
            thread.join(SECONDS)
        self.assertEqual([pcalc.number_of(self.value(it)) for it in (b"a", b"b")], [100, 100])

    def test_one_that_waits_continues_with_the_waiting_line(self):
        batch, line = pcalc.Batch(), b"put 1 b 2"
        batch[b"a"], batch[b"b"] = b"1", b"2"
        self.assertEqual(batch.take([b"begun 1", b"ok", b"wait", b"refused StillWaiting", b"begun 2"]), b"wait")
        self.assertEqual(batch.spelled(1), [line, b"commit 1"])
        self.assertEqual((batch.take([b"ok", b"committed 3"]), batch.entry, batch.results), (None, 3, [None, None]))

    def test_a_full_log_is_reported(self):
        for answers in ([b"refused LogFull", b"refused NoTransaction"], [b"begun 1", b"refused LogFull"]):
            self.assertEqual(pcalc.Batch().take(answers), b"refused LogFull")


class Ends(unittest.TestCase):
    def test_an_exception_while_a_store_is_opened_ends_its_process(self):
        def raising(*_):
            raise Alarm

        self.addCleanup(signal.signal, signal.SIGALRM, signal.signal(signal.SIGALRM, raising))
        started, popen = [], subprocess.Popen

        def starting(*words, **more):
            started.append(popen(*words, **more))
            signal.setitimer(signal.ITIMER_REAL, 1)
            return started[0]

        with unittest.mock.patch.object(subprocess, "Popen", starting), self.assertRaises(Alarm):
            pcalc.Store("shop", program=[sys.executable, "-c", "import time; time.sleep(600)"])
        self.assertEqual([it.returncode for it in started], [-signal.SIGKILL])

    def test_a_store_that_cant_be_opened_says_why(self):
        with self.assertRaises(pcalc.Ended) as ended:
            pcalc.Store("busy", program=FAKE)
        self.assertEqual((str(ended.exception), ended.exception.status), ("pcalc: busy: Busy", 1))

    def test_a_missing_program_is_reported(self):
        with self.assertRaises(pcalc.Ended):
            pcalc.Store("shop", program="/none/pcalc")

    def test_another_program_is_reported(self):
        with self.assertRaises(pcalc.Ended):
            pcalc.Store("shop", program=[sys.executable, "-c", "print('hello'); import time; time.sleep(60)"])

    def test_a_process_that_answers_more_than_was_sent_is_ended(self):
        program = "import sys, time; print('ready run 1 pairs 0', flush=True); sys.stdin.readline(); print('begun 1', 'ok', sep='\\n', flush=True); time.sleep(60)"
        store = pcalc.Store("shop", program=[sys.executable, "-c", program])
        with unittest.mock.patch.object(threading, "excepthook"):
            with self.assertRaises(pcalc.Ended):
                with store.transaction():
                    self.assertEqual(store.process.wait(SECONDS), -signal.SIGKILL)
        with self.assertRaises(pcalc.Ended):
            store.close()

    def test_a_process_that_fails_is_reported_to_all(self):
        store = pcalc.Store("shop", program=[*FAKE], sessions=4)
        store.process.kill()
        for _ in range(2):
            with self.assertRaises(pcalc.Ended) as ended:
                store.run(lambda t: t.add(b"n", 1))
        self.assertEqual(ended.exception.status, -signal.SIGKILL)
        with self.assertRaises(pcalc.Ended):
            store.close()
        store.close()

    def test_its_message_is_passed_on(self):
        with self.assertRaises(pcalc.Ended) as ended:
            with pcalc.Store("shop", program=[*FAKE, "--fails", "2"]) as store:
                with store.transaction() as t:
                    t[b"a"] = b"1"
                    t[b"b"] = b"1"
        self.assertEqual(str(ended.exception), "pcalc: log.pcl: Device")


class Pages(InFolder):
    def test_the_example_of_the_page_runs(self):
        code = re.search(r"(?s)```python\n(.*?)```", stored("clients", "README.md").decode())[1]
        os.chmod(self.write("pcalc", "#!/bin/sh\nexec %s %s \"$@\"\n" % tuple(FAKE)), 0o755)
        code = code.replace("10_000", "500")
        settings = {**os.environ, "PATH": self.folder + os.pathsep + os.environ["PATH"], "PYTHONPATH": CLIENTS}
        ran = subprocess.run([sys.executable, "-c", code], env=settings, capture_output=True, timeout=SECONDS)
        self.assertEqual((ran.returncode, ran.stdout, ran.stderr), (0, b"1\n500\n", b""))


class Commands(unittest.TestCase):
    def test_commands_are_read(self):
        for text, found in ((b"*2\r\n$3\r\nGET\r\n$1\r\nk\r\n*1", ([b"GET", b"k"], 20)), (b"GET  k\r\nSET", ([b"GET", b"k"], 8)), (b"*0\r\n", ([], 4)), (b"\r\n", ([], 2)),
                            (b"*1\r\n$2\r\n\r\n\r\n", ([b"\r\n"], 12)), (b"PING\n", ([b"PING"], 5))):
            self.assertEqual(relay.command_in(bytearray(text)), found)
            for end in range(found[1] - 1):
                self.assertIsNone(relay.command_in(bytearray(text[:end])))

    def test_what_is_no_command_is_refused(self):
        for text in (b"*x\r\n", b"*1\r\n:1\r\n", b"*1\r\n$-1\r\n", b"*-1\r\n", b"*1\r\n$999999999\r\n", b"*999999999\r\n"):
            with self.assertRaises(relay.Malformed):
                relay.command_in(bytearray(text))

    def test_operations_are_lines(self):
        for words, lines, answers, told in (
            ((b"get", b"a b"), [(b"get", b"a\\x20b")], [b"= x\\x0a"], b"$2\r\nx\n\r\n"),
            ((b"GET", b"k"), [(b"get", b"k")], [b"absent"], b"$-1\r\n"),
            ((b"SET", b"k", b""), [(b"put", b"k -")], [b"ok"], b"+OK\r\n"),
            ((b"SET", b"", b"v"), [(b"put", b"- v")], [b"refused KeyLength"], b"-ERR KeyLength\r\n"),
            ((b"DEL", b"k", b"l"), [(b"get", b"k"), (b"del", b"k"), (b"get", b"l"), (b"del", b"l")], [b"= -", b"ok", b"absent", b"ok"], b":1\r\n"),
            ((b"INCR", b"n"), [(b"add", b"n 1")], [b"sum 7"], b":7\r\n"),
            ((b"DECRBY", b"n", b"-3"), [(b"add", b"n 3")], [b"refused NotNumber"], b"-ERR NotNumber\r\n"),
            ((b"PING",), [], [], b"+PONG\r\n"),
            ((b"PING", b"x"), [], [], b"$1\r\nx\r\n"),
        ):
            operation = relay.Operation(words)
            self.assertEqual((operation.lines, operation.told(answers)), (lines, told))

    def test_what_is_no_number_is_refused(self):
        for words in ((b"INCRBY", b"n", b"x"), (b"INCRBY", b"n", b"9223372036854775808"), (b"DECRBY", b"n", b"-9223372036854775808"), (b"INCRBY", b"n", b"1.5")):
            with self.assertRaises(relay.Malformed):
                relay.Operation(words)


# one key more than a transaction writes
KEYS = b"".join(b" k%d" % it for it in range(257))


class OwnLines(unittest.TestCase):
    """What the relay makes of a client's line, whose session is 7."""

    def test_lines_are_made_anew(self):
        for line, asked in ((b"begin 1", b"begin 7"), (b" put  001 \\s9:a\\x0d - ", b"put 7 \\s9:a\\x0d -"), (b"add 1 n -007", b"add 7 n -7"), (b"get 2 k", b"get 0 k"),
                            (b"abort 007", b"abort 0"), (b"state 1", b"state 0"), (b"text 5", b"text 0"), (b"join 1 2", b"join 0 0"), (b"check", b"check"), (b"stats", b"stats"),
                            (b"base a #", b"base a #"), (b"del 1 \\s65535::", b"del 7 \\s65535::")):
            self.assertEqual(relay.line_of(line, 7), asked)

    def test_what_has_no_form_is_not_asked(self):
        for line in (b"\r", b"commit 1\r", b"quit\r", b"get 1", b"get 1 a b", b"put 1 k", b"begin", b"begin +1", b"begin 1234567890", b"granted 1", b"BEGIN 1", b"state",
                     b" run", b"stats ", b"add 1 n +1", b"add 1 n -", b"add 1 n 9223372036854775808", b"get 1 a\tb", b"get 1 \\x4A", b"get 1 \\s0:k", b"get 1 \\s07:k",
                     b"get 1 \\s65536:k", b"get 1 \\s7:", b"get 1 k\\s7:k", b"put 1 k \\s7:v", b"put 1 k \xc3", b"put 1 k \x7f", b"put 1 k a\rb", b"put 1 k \\", b"take 1"):
            self.assertIsNone(relay.line_of(line, 7), line)

    def test_a_first_line_tells_the_protocol(self):
        for line, protocol in ((b"*1", relay.Commands), (b"GET k", relay.Commands), (b"ping", relay.Commands), (b"get 1 k", relay.Lines), (b"# GET", relay.Lines), (b" ", relay.Lines),
                               (b"GET / HTTP/1.1", None), (b"get / HTTP/1.0", None), (b"begin 1 HTTP/1.1", None), (b"POST / HTTP/1.1", None), (b"\r", None), (b"Ping", None), (b"\x16\x03", None)):
            self.assertIs(relay.protocol_of(line), protocol, line)


class Usage(InFolder):
    def test_addresses_of_no_known_form(self):
        for word in ("6400", ":99999", "0.0.0.0:6400", "localhost:", "", "a" * 108):
            command = [sys.executable, os.path.join(CLIENTS, "relay.py"), word, "shop", "--program", "/none/pcalc"]
            done = subprocess.run(command, cwd=self.folder, capture_output=True, timeout=SECONDS, check=False)
            self.assertEqual((done.returncode, done.stdout, os.listdir(self.folder)), (2, b"", []), word)
            self.assertRegex(done.stderr, b"(?s)^usage: .*error: argument address: ")

    def test_addresses(self):
        for word, address in ((":0", 0), ("localhost:65535", 65_535), ("127.0.0.1:80", 80), ("socket", "socket"), ("./6400", "./6400"), ("/a:1", "/a:1")):
            self.assertEqual(relay.address_in(word), address)


def children_of(process):
    with open("/proc/%d/task/%d/children" % (process.pid, process.pid), encoding="ascii") as it:
        return [int(word) for word in it.read().split()]


def seconds_of(process):
    """The processor time that the process has taken."""
    with open("/proc/%d/stat" % process.pid, encoding="ascii") as it:
        return sum(map(int, it.read().rpartition(")")[2].split()[11:13])) / os.sysconf("SC_CLK_TCK")


class OfRelay(InFolder):
    """A test with a relay over a plain store, on a socket of the folder."""

    settings, files = {}, None

    def setUp(self):
        super().setUp()
        self.path = os.path.join(self.folder, "socket")
        program = self.write("server", "#!/bin/sh\nexec %s %s \"$@\"\n" % tuple(FAKE))
        os.chmod(program, 0o755)
        words = [sys.executable, os.path.join(CLIENTS, "relay.py"), self.path, "shop", "--program", program, "--sessions", "3"]
        if self.files:
            words = ["sh", "-c", "ulimit -n %d; exec \"$@\"" % self.files, "sh", *words]
        self.process = subprocess.Popen(words, stdout=subprocess.PIPE, stderr=subprocess.PIPE, **self.settings)
        self.addCleanup(self.stop)
        self.assertEqual([self.process.stdout.readline() for _ in range(2)], [b"ready run 1 pairs 0\n", b"listening on %s\n" % self.path.encode()])

    def stop(self):
        self.process.send_signal(signal.SIGTERM)
        self.assertEqual((self.process.communicate(timeout=SECONDS)[1], self.process.returncode, os.path.exists(self.path)), (b"", 0, False))

    def connected(self):
        sock = socket.socket(socket.AF_UNIX)
        self.addCleanup(sock.close)
        sock.settimeout(SECONDS)
        sock.connect(self.path)
        return sock

    def ask(self, sock, text, wanted):
        """Sends the text and tests its answer."""
        sock.sendall(text)
        self.assertEqual(self.received(sock, len(wanted)), wanted)

    def received(self, sock, length):
        got = b""
        while len(got) < length:
            chunk = sock.recv(length - len(got))
            if not chunk:
                break
            got += chunk
        return got

class Relays(OfRelay):
    def test_lines_of_two_clients(self):
        one, two = self.connected(), self.connected()
        self.ask(one, b"begin 1\n# x\n\n  \nput 1 k 1\nrun\n", b"begun 1\nok\nrun 1\n")
        self.ask(two, b"begin 1\r\nget 1 k\nget 2 k\nget 1\nabort 01\n", b"begun 2\ndied\nrefused NoSession\nbad line\naborted\n")
        self.ask(two, b"begin 1\nput 1 m 2\n", b"begun 3\nok\n")
        one.sendall(b"put 1 m 1\ncommit 1\n")
        self.ask(two, b"commit 1\n", b"committed 1\n")
        self.assertEqual(self.received(one, 15), b"ok\ncommitted 2\n")
        self.ask(two, b"begin 1\nget 1 m\nquit\nget 1 m\n", b"begun 4\n= 1\n")
        self.assertEqual(two.recv(1), b"")

    def test_a_transaction_ends_with_its_connection(self):
        one, two = self.connected(), self.connected()
        self.ask(one, b"begin 1\nput 1 k 1\n", b"begun 1\nok\n")
        self.ask(two, b"MULTI\r\nSET k 2\r\n", b"+OK\r\n+QUEUED\r\n")
        two.sendall(b"EXEC\r\n")
        one.close()
        self.assertEqual(self.received(two, 9), b"*1\r\n+OK\r\n")
        self.ask(two, b"GET k\r\n", b"$1\r\n2\r\n")

    def test_more_clients_than_sessions(self):
        for _ in range(5):
            clients = [self.connected() for _ in range(3)]
            for sock in clients:
                self.ask(sock, b"PING\r\n", b"+PONG\r\n")
            for text, answer in ((b"stats\n", b"refused NoSession\n"), (b"PING\r\n", b"-ERR max number of clients reached\r\n")):
                sock = self.connected()
                self.ask(sock, text, answer)
                self.assertEqual(sock.recv(1), b"")
            for sock in clients:
                self.ask(sock, b"QUIT\r\n", b"+OK\r\n")
                self.assertEqual(sock.recv(1), b"")

    def test_commands(self):
        sock = self.connected()
        for text, answer in (
            (b"*1\r\n$4\r\nPING\r\n", b"+PONG\r\n"),
            (b"SET a 1\r\nget a\r\nGET b\r\n", b"+OK\r\n$1\r\n1\r\n$-1\r\n"),
            (b"INCR n\r\nINCRBY n 9\r\nDECR n\r\nDECRBY n 10\r\n", b":1\r\n:10\r\n:9\r\n:-1\r\n"),
            (b"GET n\r\n", b"$8\r\n\xff\xff\xff\xff\xff\xff\xff\xff\r\n"),
            (b"INCR a\r\n", b"-ERR NotNumber\r\n"),
            (b"DEL a a n x\r\n", b":2\r\n"),
            (b"MULTI\r\nMULTI\r\nSET a 1\r\nPING\r\nINCR a\r\nGET a\r\nEXEC\r\n",
             b"+OK\r\n-ERR MULTI calls can not be nested\r\n" + b"+QUEUED\r\n" * 4 + b"-EXECABORT Transaction discarded because of previous errors.\r\n"),
            (b"MULTI\r\nSET a 1\r\nPING\r\nINCR a\r\nGET a\r\nEXEC\r\n",
             b"+OK\r\n+QUEUED\r\n+QUEUED\r\n+QUEUED\r\n+QUEUED\r\n*4\r\n+OK\r\n+PONG\r\n-ERR NotNumber\r\n$1\r\n1\r\n"),
            (b"MULTI\r\nWATCH a\r\nEXEC\r\n", b"+OK\r\n-ERR unknown command 'WATCH'\r\n-EXECABORT Transaction discarded because of previous errors.\r\n"),
            (b"MULTI\r\nSET a 2\r\nDISCARD\r\nDISCARD\r\nEXEC\r\n", b"+OK\r\n+QUEUED\r\n+OK\r\n-ERR DISCARD without MULTI\r\n-ERR EXEC without MULTI\r\n"),
            (b"MULTI\r\nEXEC\r\nCOMMAND DOCS\r\n", b"+OK\r\n*0\r\n*0\r\n"),
            (b"SET a\r\nSET a 1 EX 5\r\n", b"-ERR wrong number of arguments for 'set' command\r\n" * 2),
            (b"DEL" + KEYS + b"\r\nGET a\r\n", b"-ERR TooManyWrites\r\n$1\r\n1\r\n"),
            (b"MULTI\r\nSET a 3\r\nGET k9\r\nDEL" + KEYS.replace(b" k7 ", b" a ") + b"\r\nEXEC\r\n",
             b"+OK\r\n+QUEUED\r\n+QUEUED\r\n-ERR TooManyWrites\r\n-EXECABORT Transaction discarded because of previous errors.\r\n"),
            (b"MULTI\r\nSET k7 3\r\nDEL" + KEYS.replace(b" k256", b" k7") + b"\r\nEXEC\r\nGET a\r\n", b"+OK\r\n+QUEUED\r\n+QUEUED\r\n*2\r\n+OK\r\n:1\r\n$1\r\n1\r\n"),
            (b"GET a\r\n*1\r\n:\r\n", b"$1\r\n1\r\n-ERR Protocol error\r\n"),
        ):
            self.ask(sock, text, answer)
        self.assertEqual(sock.recv(1), b"")

    def test_clients_that_use_the_same_key(self):
        line, *clients = [self.connected() for _ in range(3)]
        self.ask(line, b"begin 1\nadd 1 n 1000\n", b"begun 1\nsum 1000\n")
        for sock in clients:
            sock.sendall(b"INCR n\r\nMULTI\r\nINCR m\r\nINCR n\r\nEXEC\r\n" * 40)
        self.ask(line, b"commit 1\n", b"committed 1\n")
        for sock in clients:
            got = b""
            while got.count(b"*2\r\n") < 40 or not got.endswith(b"\r\n") or got.count(b":") < 120:
                got += sock.recv(65_536)
        self.ask(clients[0], b"MULTI\r\nINCRBY n 0\r\nINCRBY m 0\r\nEXEC\r\n", b"+OK\r\n+QUEUED\r\n+QUEUED\r\n*2\r\n:1160\r\n:80\r\n")

    def test_a_line_with_a_cr_is_a_bad_line(self):
        one, two = self.connected(), self.connected()
        self.ask(one, b"begin 1\nput 1 k 1\n", b"begun 1\nok\n")
        self.ask(two, b"stats\n\r\n# \r\r\n", b"entries=0\n")
        for line in (b"\r", b"commit 1\r", b"commit 3\r", b"quit\r", b"begin 7\r", b"state 1\r", b"a\rbegin 3"):
            self.ask(two, line + b"\r\n", b"bad line\n")
            self.ask(two, b"get 1 k\r\n", b"refused NoTransaction\n")
        self.ask(one, b"get 1 k\nabort 1\n", b"= 1\naborted\n")

    def test_a_first_line_of_neither_protocol_ends_the_connection(self):
        for head in (b"POST / HTTP/1.1\r\nHost: a", b"GET / HTTP/1.1", b"get 1 k HTTP/1.0", b"HELLO 3", b"\r\r"):
            sock = self.connected()
            self.ask(sock, head + b"\r\n\r\nbegin 1\nput 1 k 1\ncommit 1\nSET k 1\r\n", b"bad line\n")
            with contextlib.suppress(ConnectionResetError):
                self.assertEqual(sock.recv(1), b"")
        self.ask(self.connected(), b"\n\r\n# x\nbegin 1\nget 1 k\n", b"begun 1\nabsent\n")

    def test_it_ends_as_the_store_does(self):
        sock = self.connected()
        self.ask(sock, b"PING\r\n", b"+PONG\r\n")
        os.kill(*children_of(self.process), signal.SIGKILL)
        self.assertEqual((self.process.wait(SECONDS), self.process.stderr.read()), (1, b"relay: the store's process was ended by signal 9\n"))

    def stop(self):
        if self.process.returncode is None:
            super().stop()
        else:
            self.process.stdout.close(), self.process.stderr.close()


class Interrupts(OfRelay):
    settings = {"start_new_session": True}

    def test_an_interrupt_of_the_group_ends_it_well(self):
        self.ask(self.connected(), b"PING\r\nbegin", b"+PONG\r\n")
        os.killpg(self.process.pid, signal.SIGINT)
        self.assertEqual(self.process.wait(SECONDS), 0)


class Files(OfRelay):
    """A relay that may have few files open."""

    files = 20

    def test_it_waits_for_files(self):
        clients = [self.connected() for _ in range(30)]
        self.ask(clients[0], b"PING\r\n", b"+PONG\r\n")
        before = seconds_of(self.process)
        time.sleep(1.5)
        self.assertLess(seconds_of(self.process) - before, 0.3)
        for it in clients[:20]:
            it.close()
        self.ask(clients[-1], b"PING\r\n", b"+PONG\r\n")


if __name__ == "__main__":
    unittest.main()
