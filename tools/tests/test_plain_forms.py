"""The output of plain forms is what is stored for the programs, and they agree with one another in their answers about locks."""

import collections
import contextlib
import io
import itertools
import pathlib
import random
import unittest

from support import ROOT, InFolder, stored

from tools.cases import soak
from tools.cases.program_cases import ADDS, ADDS_OUT
from tools.house import worked_examples
from tools.oracle import list_counts, lock_counts, plain_files, plain_store, walk_counts
from tools.oracle.plain_files import FIRST, SECOND, commit
from tools.oracle.plain_store import keyed

# For longer texts, each change of a byte takes seconds.
LONGEST_CHANGED = 45


def rows_of(text, begin):
    """The stored rows, each from its head up to the next one."""
    return [begin + row for row in ("\n" + text).removesuffix("\n").split("\n" + begin)[1:]]


def written(call, *given):
    """The bytes that a call writes to the standard output."""
    out = io.TextIOWrapper(io.BytesIO(), encoding="utf-8")
    with contextlib.redirect_stdout(out):
        call(*given)
        out.flush()
    return out.buffer.getvalue()


class Stored(unittest.TestCase):
    def test_scripts_and_folders(self):
        self.assertEqual(written(plain_files.print_rows, f"{ROOT}/crates/test_scripts/stdin"), stored("crates/test_scripts/stdout"))

    def test_scripts_by_their_own_reader(self):
        """`plain_store.py` finds the scripts among the same rows, and prints the same for them."""
        rows = {row for row in rows_of(stored("crates/test_scripts/stdout").decode(), "== ") if row.split("\n")[0].split(" ")[2] == "step"}
        found = rows_of(written(plain_store.main, f"{ROOT}/crates/test_scripts/stdin").decode(), "== ")
        self.assertEqual(set(found), rows)

    def test_texts_of_files(self):
        rows = iter(rows_of(stored("crates/test_files/stdout").decode(), "== "))
        count = 0
        for line in stored("crates/test_files/stdin").decode().splitlines():
            kind, name, verbs, *texts = line.split()
            texts = [bytes.fromhex(it) for it in texts]
            for verb in verbs.split(","):
                row = next(rows)
                if verb != "changes" or len(texts[0]) <= LONGEST_CHANGED:
                    self.assertEqual("\n".join([f"== {name} {verb}", *plain_files.verb_lines(kind, verb, texts)]), row)
                    count += 1
        self.assertIsNone(next(rows, None))
        self.assertGreater(count, 130)

    def test_crowds(self):
        def both():
            list_counts.print_crowds()
            list_counts.print_walk()

        self.assertEqual(written(both), stored("crates/test_crowds/stdout"))

    def test_lists(self):
        """The quickest families whole, and the number of lists of each family in which it is known."""
        rows = {row.split("\n")[0].removeprefix("== "): row for row in rows_of(stored("crates/test_lists/stdout").decode(), "== ")}
        self.assertEqual([*rows], [*list_counts.FAMILIES])
        for name in ("one session", "two sessions that add"):
            self.assertEqual(list_counts.family_text(name), rows[name] + "\n")
        for name, (_, _, start, _, _, _, lists) in list_counts.FAMILIES.items():
            if lists is not None:
                self.assertEqual(rows[name].split("\n")[1], f"replies {len(start) + lists}")

    def test_walks(self):
        self.assertEqual(written(walk_counts.main), stored("crates/test_walks/stdout"))


class Sums(unittest.TestCase):
    """The sums by which lists of replies are compared."""

    def test_a_sum_has_the_order_and_the_items(self):
        def text(*replies):
            sums = list_counts.Sums()
            for reply in replies:
                sums.note(reply)
            return sums.text("all")

        one, other = ("found", b"a"), ("found", b"b")
        self.assertEqual(len({text(one, other), text(other, one), text(one, one), text(one)}), 4)

    def test_a_sum_by_hand(self):
        sums = list_counts.Sums()
        sums.note(("committed", 7))
        first = (list_counts.START ^ 1) * list_counts.PRIME & list_counts.MASK
        self.assertEqual(sums.lines, {"committed": [1, (first ^ 7) * list_counts.PRIME & list_counts.MASK]})


ENDS = [(transaction, None, None) for transaction in (1, 2, 3)]
LETTERS = [it for it in lock_counts.EVENTS if it[1] is not None] + ENDS
NOTHING_YET = ((), ()), ((), (), ()), frozenset()
REPLIES = {("absent",): lock_counts.GRANTED, ("ok",): lock_counts.GRANTED, ("found", b"x"): lock_counts.GRANTED, ("wait",): lock_counts.QUEUED, ("died",): lock_counts.DIED}


def by_locks(events):
    """The answers of the lock rules to each request; an end releases all of the transaction's requests."""
    state = NOTHING_YET
    for event in events:
        answer, _, state = lock_counts.step(state, event)
        while event[1] is None and answer != lock_counts.NOTHING:
            answer, _, state = lock_counts.step(state, event)
        if event[1] is not None:
            yield answer


def by_store(events):
    """The plain store's answers to the same, with transactions that begin once and end in aborts."""
    store, ended = plain_store.Store((), 3, 2), set()
    for session in (1, 2, 3):
        store.step(("begin", session))
    for session, slot, writes in events:
        if slot is None:
            store.step(("abort", session))
            ended.add(session)
        elif session not in ended:
            reply = store.step(("put", session, b"ab"[slot:][:1], b"x") if writes else ("get", session, b"ab"[slot:][:1]))
            yield REPLIES.get(reply, lock_counts.NOT_ASKED)


class Locks(unittest.TestCase):
    def test_both_plain_forms_answer_the_same(self):
        """Each list of three requests and ends, and of four that begins with a request of the second transaction. None asks after its end."""
        beginnings = [(letter,) for letter in LETTERS if letter[0] == 2]
        count = 0
        for events in itertools.chain(itertools.product(LETTERS, repeat=3), (begin + rest for begin in beginnings for rest in itertools.product(LETTERS, repeat=3))):
            if any(later[0] == ended[0] for at, ended in enumerate(events) if ended[1] is None for later in events[at + 1 :]):
                continue
            self.assertEqual([*by_locks(events)], [*by_store(events)], events)
            count += 1
        self.assertGreater(count, 10_000)

    def test_lists_of_one_event(self):
        """Each of eight requests is granted and is in the queue of its slot, and there is nothing to release."""
        counts = lock_counts.Counts(10, 1)
        counts.go_through(NOTHING_YET, 1)
        self.assertEqual(counts.counts, {"lists": 10, "not asked": 0, "granted": 8, "queued": 0, "died": 0, "released": 0, "nothing": 2, "not foretold": 0, "waiting": 0, "standing": 8})

    def test_a_list_ends_with_what_was_not_asked(self):
        """The second transaction writes what the first one reads, and dies; its next request is not asked, and no list continues there."""
        asked = lock_counts.step(lock_counts.step(NOTHING_YET, (1, 0, False))[2], (2, 0, True))
        self.assertEqual(asked[0], lock_counts.DIED)
        self.assertEqual(lock_counts.step(asked[2], (2, 1, False)), (lock_counts.NOT_ASKED, 0, asked[2]))
        counts = lock_counts.Counts(10, 4)
        counts.go_through(NOTHING_YET, 1)
        shorter = lock_counts.Counts(10, 3)
        shorter.go_through(NOTHING_YET, 1)
        self.assertGreater(shorter.counts["not asked"], 0)
        self.assertEqual(counts.counts["lists"], 10 + 10 * (shorter.counts["lists"] - shorter.counts["not asked"]))

    def test_the_checksum_of_one_list(self):
        """Granted is 1, and the first slot has a request, which is 8."""
        counts = lock_counts.Counts(1, 1)
        counts.go_through(NOTHING_YET, 1)
        first = (lock_counts.FNV_OFFSET ^ 1) * lock_counts.FNV_PRIME & lock_counts.MASK
        self.assertEqual(counts.checksum, (first ^ 8) * lock_counts.FNV_PRIME & lock_counts.MASK)


def without_imports(text):
    """The words of a text of definitions or proofs, except those of its imports, which `rt tidy` leaves out if unused."""
    lines = text.split("\n")
    return " ".join(" ".join(line for line in lines if not line.startswith("use ")).split())


REPLIES_OF_ROW = ADDS_OUT + b"status 0\n"
LOG_OF_ROW = "5043414c434c3031 0000000000000001 00000000 00000010 01 01 0001 0001 6e 02 0000000000000003"
LOG_OF_ROW += "00000019 01 01 0002 0001 74 01 00000001 78 0001 6e 02 fffffffffffffffc"
SECOND_OF_ROW = "5043414c434c3032 0000000000000001 00000000 00000012 01 01 0001 0001 0000 6e 02 0000000000000003"
SECOND_OF_ROW += "0000001d 01 01 0002 0001 0000 74 01 00000001 78 0001 0000 6e 02 fffffffffffffffc"
GREATEST, LEAST = 2**63 - 1, -(2**63)


class Adds(unittest.TestCase):
    """Adds of the plain store and in plain logs."""

    def answers(self, script, **setting):
        """The plain store's answers to the lines, which are separated by `; `."""
        run = plain_store.Script(setting.get("sessions", 8), setting.get("capacity", 16), 1)
        return "; ".join(run.answer(line.encode()).decode().rstrip("\n") for line in script.split("; "))

    def test_the_worked_row(self):
        self.assertEqual(plain_store.run_script([], ADDS), REPLIES_OF_ROW)

    def test_spellings(self):
        answers = self.answers("begin 1; add 1 n -0; add 1 n 007; add 1 n 0000000000000000001; add 1 m 9223372036854775807; add 1 o -9223372036854775808")
        self.assertEqual(answers, "begun 1; sum 0; sum 7; sum 8; sum 9223372036854775807; sum -9223372036854775808")
        for wrong in ("", "+1", "-", "--1", "1-", "1_0", "0x1", "00000000000000000001", "9223372036854775808", "-9223372036854775809", "1 2"):
            self.assertEqual(self.answers(f"begin 1; add 1 n {wrong}"), "begun 1; bad line", wrong)

    def test_the_length_of_the_key(self):
        self.assertEqual(self.answers("add 9 - 1; add 9 - +1; add 0 k 1"), "refused KeyLength; bad line; refused NoSession")

    def test_values_that_are_no_numbers(self):
        answers = self.answers("base a 1234567; base b 12345678; base c 123456789; base d -; begin 1; add 1 a 0; add 1 b 1; add 1 c 0; add 1 d 0; get 1 b")
        self.assertEqual(answers, "ok; ok; ok; ok; begun 1; refused NotNumber; sum 3544952156018063161; refused NotNumber; refused NotNumber; = 12345679")

    def test_changes_are_merged(self):
        store = plain_store.Store({b"c": b"x"})
        for event in (("begin", 1), ("put", 1, b"a", plain_store.text_of(5)), ("add", 1, b"a", 2), ("del", 1, b"b"), ("add", 1, b"b", -3), ("add", 1, b"k", 4), ("add", 1, b"k", 5), ("add", 1, b"y", 1), ("put", 1, b"y", b"6"), ("add", 1, b"z", 1), ("del", 1, b"z"), ("del", 1, b"c"), ("add", 1, b"c", 0)):
            self.assertNotEqual(store.step(event)[0], "refused", event)
        writes = {b"a": plain_store.text_of(7), b"b": plain_store.text_of(-3), b"k": 9, b"y": b"6", b"z": None, b"c": bytes(8)}
        self.assertEqual([*store.open[1].writes.items()], [*writes.items()])

    def test_sums_of_deltas(self):
        """The number would fit, and the sum of all adds doesn't; after an own put only the number counts."""
        store = plain_store.Store({b"a": plain_store.text_of(-GREATEST)})
        steps = [(("begin", 1), ("begun", 1)), (("add", 1, b"a", GREATEST), ("sum", 0)), (("add", 1, b"a", GREATEST), ("refused", "OutOfRange"))]
        steps += [(("add", 1, b"a", 1), ("refused", "OutOfRange")), (("put", 1, b"a", bytes(8)), ("ok",)), (("add", 1, b"a", GREATEST), ("sum", GREATEST))]
        steps += [(("add", 1, b"a", LEAST), ("sum", -1)), (("add", 1, b"a", LEAST), ("refused", "OutOfRange"))]
        for event, reply in steps:
            self.assertEqual(store.step(event), reply, event)

    def test_locks_come_before_values(self):
        answers = self.answers("base k 1; begin 1; begin 2; get 2 k; add 1 k 1; commit 2; add 1 k 1; begin 2; put 2 k 12345678; add 1 k 1; commit 1")
        self.assertEqual(answers, "ok; begun 1; begun 2; = 1; wait; committed 1; refused NotNumber; begun 3; died; refused NotNumber; committed 2")
        answers = self.answers("base k 1; begin 1; begin 2; add 1 k 1; put 2 k 2; add 1 k 1")
        self.assertEqual(answers, "ok; begun 1; begun 2; refused NotNumber; ok; wait")

    def test_causes_in_order(self):
        answers = self.answers("base a 1234567; add 3 a 1; add 1 a 1; begin 1; add 1 b 1; add 1 a 9223372036854775807", sessions=2, capacity=1)
        self.assertEqual(answers, "ok; refused NoSession; refused NoTransaction; begun 1; refused Full; refused NotNumber")
        writes = "; ".join(f"add 1 k{number} {number}" for number in range(256))
        self.assertTrue(self.answers(f"begin 1; {writes}; add 1 k256 1; add 1 k255 1", capacity=1024).endswith("sum 255; refused TooManyWrites; sum 256"))

    def test_what_is_committed_is_the_log_replayed(self):
        """For random scripts: each add of the log finds a number, and the log replayed, also by a recovery of its text, gives the committed pairs."""
        kinds = collections.Counter()
        for number in range(150):
            (sessions, capacity, run), lines = soak.Scripts().draw(random.Random(f"adds {number}"))
            script, log = plain_store.Script(sessions, capacity, run), plain_files.Log(run)
            for line in lines:
                words = line.split(b" ")
                opened = script.store.open.get(int(words[1])) if script.store and words[0] == b"commit" else None
                writes = [*opened.writes.items()] if opened else []
                if script.answer(line).startswith(b"committed"):
                    log.entries.append(("commit", 1, writes))
            store = script.stored()
            pairs = dict(store.base)
            for _, _, writes in plain_files.read_log(log.text()).entries:
                for key, change in writes:
                    there = pairs.pop(key, bytes(8))
                    if isinstance(change, int):
                        self.assertEqual(len(there), 8)
                        pairs[key] = (int.from_bytes(there, "big", signed=True) + change).to_bytes(8, "big", signed=True)
                    elif change is not None:
                        pairs[key] = change
                    kinds[type(change).__name__] += 1
            self.assertEqual(pairs, store.committed, number)
            base = plain_files.Base(run, 0, store.base)
            self.assertEqual(plain_files.recover(base.text(), [], log.text()).pairs, store.committed, number)
        self.assertGreater(min(kinds["int"], kinds["bytes"], kinds["NoneType"]), 50)

    def test_the_log_of_the_row(self):
        log = plain_files.Log(1)
        log.entries = [commit(1, {b"n": 3}), commit(1, {b"t": b"x", b"n": -4})]
        for form, text, left in ((FIRST, LOG_OF_ROW, 29), (SECOND, SECOND_OF_ROW, 33)):
            text = bytes.fromhex(text)
            self.assertEqual(log.text(form), text)
            self.assertEqual(plain_files.read_log(text).entries, log.entries)
            lines = ["run 1", f"1 of 1 left {left}: commit of 1 6e + 3", "2 of 2 left 0: commit of 1 74 = 78 6e + -4"]
            self.assertEqual(plain_files.log_lines(plain_files.read_log(text), len(text)), lines)

    def test_logs_both_ways(self):
        for delta in (0, 1, -1, GREATEST, LEAST):
            log = plain_files.Log(1)
            log.entries = [commit(64, {b"k" * 255: delta, b"l": None})]
            text = log.text()
            self.assertEqual((plain_files.read_log(text).entries, plain_files.read_log(text).fault), (log.entries, None))
            self.assertEqual(plain_files.read_log(text[:-1]).fault, "Short")

    def test_damaged_adds(self):
        head = bytes.fromhex("5043414c434c3031 0000000000000001 00000000")

        def fault(body):
            return plain_files.read_log(head + (len(body) // 2).to_bytes(4, "big") + bytes.fromhex(body)).fault

        self.assertIsNone(fault("01 01 0001 0001 6e 02 0000000000000003".replace(" ", "")))
        self.assertEqual(fault("01010001 00016e 02 00000000000003".replace(" ", "")), "BadLength")
        self.assertEqual(fault("01010001 00016e 02 000000000000000300".replace(" ", "")), "Trailing")
        self.assertEqual(fault("01010001 00016e 03 0000000000000003".replace(" ", "")), "BadKind")
        self.assertEqual(fault("01010002 00016e 02 0000000000000003 00016e 02 0000000000000003".replace(" ", "")), "KeyOrder")
        part = bytes.fromhex("5043414c43503031 0000000000000001 00000001 00000001 00000001 0001 6e 00000001 02 0000000000000003 0000 00000001")
        self.assertRaisesRegex(plain_files.Refused, "BadKind", plain_files.read_part, part)

    def test_a_log_with_adds_gives_its_state(self):
        """Adds after the token of a part's point are added to the part's values; one that finds no number, or leaves 64 bits, does nothing."""
        log = plain_files.Log(1)
        log.entries = [commit(1, {b"a": 5, b"b": 1}), ("token", "prepare", 1), ("token", "resolve", 1), commit(1, {b"a": -7, b"c": 2, b"d": 3, b"e": 1})]
        base = plain_files.Base(1, 0, keyed({b"a": plain_store.text_of(10), b"d": b"1234567", b"e": plain_store.text_of(GREATEST)}))
        part = plain_files.Part(1, [(1, 1)], keyed({b"a": (1, plain_store.text_of(15)), b"b": (1, plain_store.text_of(1))}))
        wanted = {b"a": 8, b"b": 1, b"c": 2}
        for parts in ([], [(b"a.pcp", part.text())]):
            pairs = plain_files.recover(base.text(), parts, log.text()).pairs
            self.assertEqual((pairs.pop((0, b"d")), pairs.pop((0, b"e"))), (b"1234567", plain_store.text_of(GREATEST)))
            self.assertEqual(pairs, keyed({key: plain_store.text_of(number) for key, number in wanted.items()}))


def second_log(*bodies):
    """The text of a log of format 02 with these bodies, in digits."""
    bodies = [bytes.fromhex(body) for body in bodies]
    return bytes.fromhex("5043414c434c3032 0000000000000001 00000000") + b"".join(len(body).to_bytes(4, "big") + body for body in bodies)


class Spaces(InFolder):
    """Keys of spaces, and both formats."""

    KEYS = [(0, b"b"), (1, b"a"), (255, b"a"), (256, b"\xff"), (257, b"\0"), (65_535, b"k" * 255)]

    def test_words_both_ways(self):
        for key, word in (((0, b"k"), b"k"), ((7, b"k"), b"\\s7:k"), ((65_535, b"-"), b"\\s65535:\\x2d"), ((7, b""), b"\\s7:-"), ((7, b":\\"), b"\\s7::\\x5c")):
            self.assertEqual((plain_store.key_word(key), plain_store.key(word)), (word, key))
        self.assertEqual(plain_store.key(b"\\x5cs7:k"), (0, b"\\s7:k"))

    def test_words_that_are_no_keys(self):
        for word in (rb"\s0:k", rb"\s65536:k", rb"\s07:k", rb"\s7", rb"\s7:", rb"\s:k", rb"\s7:\s8:k", rb"k\s7:", rb"\s-7:k", rb"\s7:\xZZ", rb"\s100000:k", rb"\s"):
            self.assertRaises(plain_store.Malformed, plain_store.key, word)

    def test_the_worked_row(self):
        script = rb"begin 1;put 1 k 1;put 1 \s7:k 2;put 1 \s0:k 3;put 1 \s7:- 3;commit 1;point;seal;capture;take;take;done;state 1".replace(b";", b"\n")
        expected = rb"begun 1;ok;ok;bad line;refused KeyLength;committed 1;phase prepare 1;phase resolve 1;phase capture 1;took k 1;took \s7:k 2;"
        expected += rb"part 1 file 1 entries 2;state point 1 pairs 2;k 1;\s7:k 2;status 3;"
        self.assertEqual(plain_store.run_script([], script), expected.replace(b";", b"\n"))

    def test_keys_are_ordered_by_space_first(self):
        part = plain_files.Part(1, [(1, 1)], {key: (1, None) for key in self.KEYS[::-1]})
        self.assertEqual([*plain_files.read_part(part.text()).entries], self.KEYS)
        for low, high in zip(self.KEYS, self.KEYS[1:]):
            text = plain_files.Part(1, [(1, 1)], {low: (1, None), high: (1, None)}).text()
            entries = [len(own).to_bytes(2, "big") + space.to_bytes(2, "big") + own + b"\0\0\0\1\0" for space, own in (low, high)]
            self.assertIn(entries[0] + entries[1], text)
            self.assertRaisesRegex(plain_files.Refused, "KeyOrder", plain_files.read_part, text.replace(entries[0] + entries[1], entries[1] + entries[0]))

    def test_the_order_is_tested_after_the_whole_key(self):
        head = plain_files.Part(1, [(1, 1)], {(256, b"a"): (1, None)}).text()[:-6]
        for cut in (b"", b"\0", b"\0\1", b"\0\1\0", b"\0\1\0\xff"):
            self.assertRaisesRegex(plain_files.Refused, "Short", plain_files.read_part, head + cut)
        self.assertRaisesRegex(plain_files.Refused, "KeyOrder", plain_files.read_part, head + b"\0\1\0\xffa")

    def test_both_formats_hold_the_same(self):
        part = plain_files.Part(1, [(1, 1), (3, 3)], keyed({b"a": (1, b"1"), b"b" * 255: (3, None)}))
        base = plain_files.Base(7, 3, keyed({b"a": b"", b"b": b"x"}))
        log = plain_files.Log(1)
        log.entries = [commit(1, {b"b": b"1", b"a": None, b"n": -1}), ("token", "prepare", 1), commit(2, {})]
        for kind, file in (("part", part), ("base", base), ("log", log)):
            first, second = file.text(FIRST), file.text(SECOND)
            self.assertEqual((first[:8][-2:], second[:8][-2:], file.text()), (b"01", b"02", second))
            for text in (first, second):
                self.assertEqual(vars(plain_files.read(kind, text)) | {"ends": 0}, vars(file) | {"ends": 0})
                self.assertEqual(plain_files.rewritten(kind, text), ["text " + second.hex()])
            self.assertTrue(plain_files.found(kind, first).endswith(f"becomes {len(second)}"))
            self.assertTrue(plain_files.found(kind, second).endswith("same"))

    def test_magics(self):
        text = plain_files.Part(1, [(1, 1)], {}).text()
        for magic in (b"PCALCP00", b"PCALCP03", b"PCALCP12", b"PCALCB02", b"PCALCL01", b"pCALCP02"):
            self.assertRaisesRegex(plain_files.Refused, "BadMagic", plain_files.read_part, magic + text[8:])
        self.assertRaisesRegex(plain_files.Refused, "Short", plain_files.read_part, text[:7])

    def test_no_text_of_01_has_a_space(self):
        self.assertRaises(ValueError, plain_files.Base(1, 0, {(7, b"a"): b""}).text, FIRST)

    def test_the_body_of_a_log(self):
        """A commit may have one key in two spaces, but not twice in one; a body that ends within a key is BadLength."""
        twice = "01 01 0002 0001 0007 61 00 0001 0008 61 00"
        self.assertEqual(plain_files.read_log(second_log(twice)).entries, [("commit", 1, [((7, b"a"), None), ((8, b"a"), None)])])
        self.assertEqual(plain_files.read_log(second_log(twice.replace("8", "7"))).fault, "KeyOrder")
        for body in ("01 01 0001 0001", "01 01 0001 0001 00", "01 01 0001 0001 0007", "01 01 0001 0000 0007", "01 01 0001 0100 0007"):
            self.assertEqual(plain_files.read_log(second_log(body)).fault, "BadLength", body)

    def test_the_greatest_body(self):
        log = plain_files.Log(1)
        log.entries = [("commit", 64, [((space, bytes([space]) * 255), bytes(65_535)) for space in range(256)])]
        self.assertEqual(len(log.text()) - 24, 16_844_548)
        self.assertEqual(plain_files.read_log(log.text()).fault, None)
        for form, most in ((FIRST, 16_844_036), (SECOND, 16_844_548)):
            head = plain_files.Log(1).text(form)
            self.assertEqual(plain_files.read_log(head + most.to_bytes(4, "big")).fault, "Short")
            self.assertEqual(plain_files.read_log(head + (most + 1).to_bytes(4, "big")).fault, "BadLength")

    def test_a_collapse_of_both_formats(self):
        parts = [({b"a": (1, b"1"), b"b": (1, b"1")}, FIRST), ({b"a": (2, b"2")}, SECOND), ({b"b": (3, None)}, FIRST)]
        texts = [plain_files.Part(1, [(point, point)], keyed(entries)).text(form) for point, (entries, form) in enumerate(parts, 1)]
        wanted = "5043414c43503032 0000000000000001 00000001 00000001 00000003 0001 0000 61 00000002 01 00000001 32 0001 0000 62 00000003 00 0000 00000002"
        self.assertEqual(plain_files.joined(texts)[-1], "text " + wanted.replace(" ", ""))

    def test_recoveries_of_each_mixture(self):
        files = plain_files.Base(1, 0, keyed({b"a": b"0"})), plain_files.Part(1, [(1, 1)], keyed({b"a": (1, b"1")})), plain_files.Log(1)
        files[2].entries = [commit(1, {b"a": b"1"}), ("token", "prepare", 1), ("token", "resolve", 1), commit(1, {b"b": b"2"})]
        for base, part, log in itertools.product((FIRST, SECOND), repeat=3):
            found = plain_files.recover(files[0].text(base), [(b"a.pcp", files[1].text(part))], files[2].text(log))
            self.assertEqual(found.text(), b"point 1\nentries 4\npairs 2\na 1\nb 2\n")


class Worked(InFolder):
    def test_the_stored_files_are_made_of_the_texts(self):
        crate = pathlib.Path(self.folder)
        for part in ("specs", "proofs"):
            (crate / part).mkdir()
        self.replace(worked_examples, CRATE=crate)
        worked_examples.main()
        made = sorted(it.relative_to(crate) for it in crate.glob("*/*.antt"))
        self.assertEqual(len(made), 16)
        for file in made:
            self.assertEqual(without_imports((crate / file).read_text()), without_imports(stored("crates", "test_model", str(file)).decode()), file)

    def test_words(self):
        self.assertEqual(worked_examples.event("put 1 a 7"), "(asked.Put 1 a v7)")
        self.assertEqual(worked_examples.event("add 2 k -7"), "(asked.Add 2 k (negsuc 6))")
        self.assertEqual(worked_examples.event("put 1 a #-2"), "(asked.Put 1 a (" + "255 ∷ " * 7 + "254 ∷ []))")
        self.assertEqual(worked_examples.reply("sum 0"), "(told.Sum (pos 0))")
        self.assertEqual(worked_examples.reply("took a tombstone"), "(told.Took a None)")
        self.assertEqual(worked_examples.reply("file 3 points 1-2,4 entries 5"), "(told.File 3 (1 ∷ 2 ∷ 4 ∷ []) 5)")
        self.assertRaises(ValueError, worked_examples.event, "frob 1")
        self.assertRaises(KeyError, worked_examples.reply, "frob")

    def test_entries_of_the_log(self):
        self.assertEqual(worked_examples.logged("prepare 3"), "Token Prepare 3")
        writes = "write_of a (does.Set v7) ∷ write_of b does.Remove ∷ write_of k (does.Add (negsuc 0)) ∷ []"
        self.assertEqual(worked_examples.logged("2 sets a 7, removes b, adds -1 to k"), f"Commit 2 ({writes})")
        self.assertRaises(ValueError, worked_examples.logged, "2 frobs a")

    def test_an_example(self):
        path = pathlib.Path(self.write("one.txt", "about all\n\nexample first\nabout it begins\nbase a 1\nbegin 1: begun 1\ncontents: a 1\n\nexample second\nafter first\ncommit 1: committed 1\n"))
        about, (first, second) = worked_examples.read(path)
        self.assertEqual((about, first.steps, second.after), ("all", ["step (asked.Begin 1) (told.Begun 1)"], "first"))
        self.assertEqual([*first.statements()], [("first_runs", "RunsTo (holding a v1 plain) first ([]) ((a, v1) ∷ [])")])
        self.assertEqual(second.setting(), "(holding a v1 plain)")
        self.assertIn("second = first ++ step (asked.Commit 1) (told.Committed 1)", second.history())


if __name__ == "__main__":
    unittest.main()
