"""What `soak.py` finds in a program: stand-ins that are right, and ones that are wrong in one thing, which must be found."""

import os
import random
import re
import signal
import unittest
from unittest import mock

from support import InFolder

from tools.cases import json_cases, pair_cases, soak
from tools.cases.run_cases import files_of
from tools.oracle import plain_files, plain_serving, plain_store


def step(path, sessions, capacity, run):
    """What a script prints, and the status."""
    script = plain_store.Script(*(int(word.partition("=")[2]) for word in (sessions, capacity, run)))
    with open(path, "rb") as it:
        out = b"".join(script.answer(line) for line in plain_store.lines_of(it.read()))
    return script.status, out, b""


def recover(place):
    names = sorted(name for name in os.listdir(place) if name.startswith("gen-"))
    if names:
        return 0, plain_files.recover(*files_of(os.path.join(place, names[-1]))).text(), b"generation %d\n" % int(names[-1][4:])
    with open(os.path.join(place, "log.pcl"), "ab"):
        pass
    try:
        return 0, plain_files.recover(*files_of(place)).text(), b""
    except plain_files.Refused as fault:
        return 1, b"", b"pcalc: %s: %s\n" % (place.encode(), fault.name.encode())


def dump(place, *options):
    """A damaged folder is never refused here: the cases accept damage."""
    status, out, err = recover(place)
    lines = out[out.index(b"\n", out.index(b"pairs ")) + 1 :] if status == 0 else b""
    return status, json_cases.json_lines(pair_cases.loaded(lines)[0]) if "--json" in options else lines, err


def load(place, name, *options):
    with open(name, "rb") as it:
        pairs, _ = (json_cases if options else pair_cases).loaded(it.read())
    for file, text in (("base.pcb", plain_files.Base(1, 0, pairs).text()), ("log.pcl", plain_files.Log(1).text())):
        with open(os.path.join(place, file), "wb") as it:
            it.write(text)
    return 0, b"", b""


def collapse(out, *names):
    read = []
    for name in names:
        with open(name, "rb") as it:
            read.append(plain_files.read_as_far(it.read()))
    try:
        for part, fault in read:
            if part is None:
                raise fault
        if len({part.run for part, _ in read}) > 1:
            raise plain_files.Refused("OtherRun")
        for _, fault in read:
            if fault:
                raise fault
        joined = plain_files.all_joined([part for part, _ in read])
        with open(out, "wb") as it:
            it.write(joined.text())
    except plain_files.Refused as fault:
        return 1, b"", b"pcalc: %s: %s\n" % (out.encode(), fault.name.encode())
    return 0, b"points %s entries %d\n" % (plain_store.points_text(plain_files.points_of(joined)), len(joined.entries)), b""


def run(workload, option, place, *words):
    """The clients in turn, without points: `soak.py` looks at the lines up to the last two."""
    log, store, client = plain_files.Log(1), plain_store.Store((), 64, 1024), None
    with open(workload, "rb") as it:
        lines = [line.split() for line in it]
    for verb, *rest in lines[1:]:
        if verb == b"client":
            client = int(rest[0])
        elif verb == b"txn":
            store.step(("begin", client))
        elif verb == b"end":
            log.entries.append(("commit", client, [*store.open[client].writes.items()]))
            store.step(("commit", client))
        elif verb == b"add":
            store.step(("add", client, plain_store.key(rest[0]), int(rest[1])))
        else:
            store.step((verb.decode(), client, plain_store.key(rest[0]), *map(plain_store.content, rest[1:])))
    for name, text in (("base.pcb", plain_files.Base(1, 0, {}).text()), ("log.pcl", log.text())):
        with open(os.path.join(place, name), "wb") as it:
            it.write(text)
    return 0, b"commits %d\ngave up 0\npoints 0\ncollapsed none\ncheck ok\n" % len(log.entries), b""


def served(folder, words, lines, most):
    """A served store: it leaves one generation, whose log has what was answered, and is killed after this number of lines."""
    options = {name: int(number) for name, _, number in (word[2:].partition("=") for word in words if "=" in word)}
    place = os.path.join(folder, "S")
    os.makedirs(place, exist_ok=True)
    names, pairs, run = sorted(os.listdir(place)), {}, options.get("run")
    if names:
        texts = files_of(os.path.join(place, names[-1]))
        pairs, run = plain_files.recover(*texts).pairs, plain_files.read_log(texts[2]).run + 1
    store = plain_serving.Served(pairs, run, options["sessions"], options["capacity"], options["roll"])
    out = store.ready()
    for line in lines:
        if most is not None and out.count(b"\n") >= most:
            break
        out += store.answer(line)
    generation = os.path.join(place, "gen-%07d" % (len(names) + 1))
    os.makedirs(generation)
    for name, text in (("base.pcb", plain_files.Base(store.store.run, 0, store.store.base).text()), ("log.pcl", store.log.text())):
        with open(os.path.join(generation, name), "wb") as it:
            it.write(text)
    return (0 if most is None else -signal.SIGKILL), out, b""


COMMANDS = {"step": step, "recover": recover, "collapse": collapse, "run": run, "dump": dump, "load": load}


def stand_in(folder, command, *words):
    before = os.getcwd()
    os.chdir(folder)
    try:
        return COMMANDS[command](*words)
    finally:
        os.chdir(before)


class Soaks(InFolder):
    """Cases of each kind, by stand-ins."""

    def setUp(self):
        super().setUp()
        self.program = soak.ran
        self.patch(soak, "ran", stand_in)
        self.patch(soak, "served", served)

    def patch(self, where, name, by):
        patched = mock.patch.object(where, name, by)
        patched.start()
        self.addCleanup(patched.stop)

    def found(self, kind, most=60):
        """The lines printed of the first case that differs, none if none of these does."""
        for number in range(most):
            _, lines = soak.case(kind, "tests", number)
            if lines:
                return lines
        return []

    def without_points(self):
        draw = soak.Runs.draw

        def drawn(kind, chance):
            (_, *rest), pieces = draw(kind, chance)
            return (0, *rest), pieces

        self.patch(soak.Runs, "draw", drawn)
        self.patch(soak.Runs, "RECOVERIES", 3)

    def test_what_is_right(self):
        self.without_points()
        for kind in soak.KINDS:
            self.assertEqual(self.found(kind, 20), [], kind.name)

    def test_a_case_follows_from_its_number(self):
        for kind in soak.KINDS:
            self.assertEqual(kind.draw(random.Random("5")), kind.draw(random.Random("5")))

    def test_the_smallest_pieces(self):
        self.assertEqual(soak.smallest([*range(20)], lambda some: 3 in some and 17 in some), [3, 17])
        self.assertEqual(soak.smallest([1, 2], lambda some: True), [])

    def test_a_script_whose_take_shows_no_tombstone(self):
        def wrong(*words):
            status, out, err = step(*words)
            return status, out.replace(b" tombstone\n", b" -\n"), err

        with mock.patch.dict(COMMANDS, step=wrong):
            lines = self.found(soak.Scripts(), 400)
        self.assertCountEqual([line.split(" ")[0] for line in lines[2:-2]], ["begin", "del", "commit", "point", "seal", "capture", "take"])

    def test_a_script_whose_adds_forget_the_sign(self):
        def wrong(*words):
            status, out, err = step(*words)
            return status, out.replace(b"sum -", b"sum "), err

        with mock.patch.dict(COMMANDS, step=wrong):
            lines = self.found(soak.Scripts(), 400)
        self.assertEqual([line.split(" ")[0] for line in lines[2:-2]], ["begin", "add"])

    def test_a_recovery_that_leaves_out_adds(self):
        def wrong(place):
            with mock.patch.object(plain_files, "changed", lambda there, change: there if isinstance(change, int) else change):
                return recover(place)

        with mock.patch.dict(COMMANDS, recover=wrong):
            self.assertIn("recoveries", self.found(soak.Recoveries())[0])

    def test_a_run_whose_adds_replace_one_another(self):
        self.without_points()

        def wrong(workload, option, place, *words):
            with open(workload, "rb") as it:
                lines = it.read().replace(b"add ", b"put ")
            with open(workload, "wb") as it:
                it.write(lines)
            return run(workload, option, place, *words)

        with mock.patch.dict(COMMANDS, run=wrong):
            lines = self.found(soak.Runs())
        self.assertIn("runs", lines[0])
        self.assertEqual(lines[2].count("txn"), 1)

    def test_a_recovery_that_reads_a_whole_entry_too_few(self):
        def wrong(place):
            status, out, err = recover(place)
            return status, out.replace(b"entries 1", b"entries 0"), err

        with mock.patch.dict(COMMANDS, recover=wrong):
            lines = self.found(soak.Recoveries())
        self.assertIn("recoveries", lines[0])
        self.assertIn("entries 1", lines[-2])

    def test_a_dump_that_leaves_out_the_last_pair(self):
        def wrong(place, *options):
            status, out, err = dump(place)
            return status, b"".join(out.splitlines(keepends=True)[:-1]), err

        with mock.patch.dict(COMMANDS, dump=wrong):
            self.assertIn("recoveries", self.found(soak.Recoveries())[0])

    def test_a_load_that_leaves_out_the_last_line(self):
        def wrong(place, name):
            with open(name, "rb") as it:
                lines = it.read().splitlines(keepends=True)[:-1]
            with open(name, "wb") as it:
                it.write(b"".join(lines))
            return load(place, name)

        with mock.patch.dict(COMMANDS, load=wrong):
            self.assertIn("recoveries", self.found(soak.Recoveries())[0])

    def test_a_collapse_that_drops_tombstones(self):
        def wrong(out, *names):
            with mock.patch.object(plain_files, "join", lambda first, second: without_tombstones(first, second)):
                return collapse(out, *names)

        join = plain_files.join

        def without_tombstones(first, second):
            part = join(first, second)
            part.entries = {key: entry for key, entry in part.entries.items() if entry[1] is not None}
            return part

        with mock.patch.dict(COMMANDS, collapse=wrong):
            lines = self.found(soak.Collapses())
        self.assertEqual((lines[0].split(" ")[0], len(lines)), ("collapses", 4), "two inputs are enough")

    def test_a_run_whose_log_leaves_out_an_empty_commit(self):
        self.without_points()
        text = plain_files.Log.text

        def wrong(log):
            log.entries = [entry for entry in log.entries if entry[2]]
            return text(log)

        self.patch(plain_files.Log, "text", wrong)
        lines = self.found(soak.Runs())
        self.assertIn("runs", lines[0])
        self.assertEqual(lines[2].count("txn"), 1)

    def test_a_run_that_gives_up(self):
        self.without_points()

        def wrong(*words):
            status, out, err = run(*words)
            return status, out.replace(b"gave up 0", b"gave up 1"), err

        with mock.patch.dict(COMMANDS, run=wrong):
            self.assertIn("gave up 1", self.found(soak.Runs())[-1])

    def test_a_served_store_that_loses_a_commit(self):
        def wrong(*words):
            ended = served(*words)
            if words[3] is not None:
                with open(self.last_log(words[0]), "r+b") as it:
                    it.truncate(max(20, os.path.getsize(it.name) - 1))
            return ended

        self.patch(soak, "served", wrong)
        self.assertIn("serves", self.found(soak.Serves())[0])

    def last_log(self, folder):
        place = os.path.join(folder, "S")
        return os.path.join(place, max(os.listdir(place)), "log.pcl")

    def test_a_served_store_that_reports_no_grant(self):
        def wrong(*words):
            status, out, err = served(*words)
            return status, re.sub(rb"granted [0-9]+\n", b"", out), err

        self.patch(soak, "served", wrong)
        lines = self.found(soak.Serves(), 400)
        self.assertCountEqual([line.split(" ")[0] for line in lines[2:-3] if line.split(" ")[0] in ("begin", "commit", "abort")][:2], ["begin", "begin"])

    def test_a_program_without_an_end(self):
        with mock.patch.multiple(soak, PROGRAM="sleep", SECONDS=0):
            self.assertEqual(self.program(self.folder, "100"), (None, b"", b"no end in 0 s"))

    def test_clashes(self):
        parts = [plain_files.Part(3, [(1, 2)], plain_store.keyed(entries)) for entries in ({b"a": (1, b"1")}, {b"a": (1, b"2")}, {b"a": (2, b"3")})]
        self.assertEqual(soak.clashes(parts[:2]), (True, True))
        self.assertEqual(soak.clashes(parts), (False, True))
        self.assertEqual(soak.clashes(parts[1:]), (False, False))

    def test_what_was_tried_is_counted(self):
        counts, differing = soak.soak(0.0, "tests")
        self.assertEqual((dict(counts), differing), ({}, 0))


if __name__ == "__main__":
    unittest.main()
