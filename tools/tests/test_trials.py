"""What killed runs and refused growths are tested for: `crash_cases.py`, `refused_growths.py`, and the pipes of `case.py`."""

import os
import subprocess
import unittest
from unittest import mock

from support import InFolder

from tools.cases import case, crash_cases, refused_growths
from tools.oracle import plain_files


class Crashes(InFolder):
    """Folders of two clients, of whom the first has committed three transactions and the second two."""

    def setUp(self):
        super().setUp()
        self.replace(crash_cases, CLIENTS=2, KEYS=2)
        self.commits = [("commit", client, self.writes(client, number)) for client, number in ((1, 0), (2, 0), (1, 1), (1, 2), (2, 1))]
        self.pairs = {writes[0][0]: writes[0][1] for _, _, writes in self.commits}
        self.pairs.update({(0, b"an"): bytes(7) + b"\3", (1, b"an"): bytes(7) + b"\2"})

    def writes(self, client, number):
        return [(crash_cases.key_of(b"a", client, number), b"%d" % number), ((client - 1, b"an"), 1)]

    def faults(self, least=0):
        log = plain_files.Log(1)
        log.entries = self.commits
        case.written(self.folder, "log.pcl", log.text())
        return crash_cases.faults_of(self.folder, b"a", self.pairs, least)

    def test_what_is_right(self):
        puts = {key: value for key, value in self.pairs.items() if len(value) == 1}
        self.assertEqual(puts, {(0, b"ak00"): b"2", (0, b"ak01"): b"1", (1, b"ak00"): b"0", (1, b"ak01"): b"1"})
        self.assertEqual(self.faults(5), [])

    def test_what_is_lost(self):
        self.assertEqual(self.faults(6), ["the log has 5 commits, and must have at least 6", "5 commits are recovered, and at least 6 must be"])

    def test_a_log_that_leaves_one_out(self):
        del self.commits[2]
        self.assertEqual(self.faults(), ["the log doesn't have the first transactions of client 1"])

    def test_pairs_that_are_no_state(self):
        self.pairs[0, b"ak01"] = b"0"
        self.assertEqual(self.faults(), ["what is recovered of client 1 is no state of it"])

    def test_pairs_older_than_the_log(self):
        self.pairs[0, b"ak00"] = b"0"
        del self.pairs[1, b"ak01"]
        faults = ["what is recovered of client %d is no state of it", "client %d has not counted its transactions"]
        self.assertEqual(self.faults(), [line % client for client in (1, 2) for line in faults])

    def test_an_add_that_is_applied_twice_or_lost(self):
        self.pairs[0, b"an"] = bytes(7) + b"\4"
        del self.pairs[1, b"an"]
        self.assertEqual(self.faults(), [f"client {client} has not counted its transactions" for client in (1, 2)])

    def test_an_add_that_the_log_lacks(self):
        del self.commits[4][2][1]
        self.assertEqual(self.faults(), ["the log doesn't have the first transactions of client 2"])

    def test_a_workload_is_each_clients(self):
        text = crash_cases.workload(b"a")
        self.assertEqual(text.count(b"client "), crash_cases.CLIENTS)
        self.assertEqual(text.count(b"\nput "), crash_cases.CLIENTS * crash_cases.COUNT)
        self.assertIn(b"put ak01 999\nadd an 1\nend\n", text)
        self.assertIn(b"put \\s1:ak01 999\nadd \\s1:an 1\nend\n", text)

    def test_the_lines_of_a_terminal(self):
        end, other = os.pipe()
        line = b"\r\x1b[?7l%d commits, point 1, 0 joins, lag 0, given up 0\x1b[K\x1b[?7h"
        os.write(other, b"other\n" + line % 3 + line % 12 + b"\r\x1b[?7l13 comm")
        os.close(other)
        self.assertEqual([*crash_cases.lines_of(end)], [3, 12])
        os.close(end)

    def test_what_a_program_recovers(self):
        """It is right if the program prints the state of the files, and nothing else."""
        for name, text in (("base.pcb", plain_files.Base(1, 0, {}).text()), ("log.pcl", plain_files.Log(1).text())):
            case.written(self.folder, name, text)
        ended = lambda status, out, err=b"": mock.patch.object(subprocess, "run", return_value=subprocess.CompletedProcess([], status, out, err))
        right = b"point 0\nentries 0\npairs 0\n"
        for result, lines in (((0, right), 0), ((1, right), 1), ((0, right + b"a 1\n"), 1), ((0, right, b"skipped"), 1)):
            with ended(*result):
                self.assertEqual(len(crash_cases.recovered("pcalc", self.folder)[0]), lines, result)
        os.remove(os.path.join(self.folder, "base.pcb"))
        self.assertEqual(len(crash_cases.recovered("pcalc", self.folder)[0]), 1)


class Growths(InFolder):
    def calls(self, growths, end=0):
        """A call that asks for this number of growths."""
        return lambda number: (end, b"", b"", number <= growths)

    def test_each_growth_is_refused_once(self):
        for growths in (0, 1, 3, 4, 5, 9):
            self.replace(refused_growths, LANES=4)
            self.assertEqual([number for number, _ in refused_growths.refused_each(self.calls(growths))], [*range(1, growths + 1)])

    def test_a_call_without_an_end_is_the_last(self):
        self.replace(refused_growths, LANES=2)
        found = [*refused_growths.refused_each(self.calls(9, None))]
        self.assertEqual([number for number, _ in found], [1, 2])

    def test_growths_without_an_end_are_reported(self):
        self.replace(refused_growths, LANES=2, MOST_GROWTHS=5)
        self.assertEqual([*refused_growths.refused_each(self.calls(100))][-1], (5, (None, b"", b"no end of growths", True, False, False)))

    def test_how_a_run_may_end(self):
        run = refused_growths.COMMANDS[0]
        whole, less = refused_growths.printed_with(0), refused_growths.printed_with(1)
        for right in ((0, whole, b""), (0, less, b""), (1, b"", b""), (1, b"", b"pcalc: growths.pcw: OutOfMemory\n"), (1, b"", b"pcalc: growths.pcw: NoThread\n")):
            self.assertTrue(run.is_right(*right, True, True), right)
        self.assertFalse(run.is_right(0, whole, b"", False, True))
        self.assertTrue(run.is_right(1, b"", b"", False, True))
        self.assertFalse(run.is_right(1, b"", b"", False, False))
        for wrong in (
            (0, refused_growths.printed_with(2), b""),
            (0, whole, b"pcalc: growths.pcw: OutOfMemory\n"),
            (1, whole, b""),
            (1, b"", b"pcalc: growths.pcw: Full\n"),
            (1, b"", b"pcalc: growths.pcw: OutOfMemory\n" * 2),
            (1, b"", b"pcalc: other.pcw: OutOfMemory\n"),
            (101, b"", b""),
            (None, b"", b""),
        ):
            self.assertFalse(run.is_right(*wrong, True, True), wrong)

    def test_what_is_wrong_with_runs(self):
        """Some must end with status 1; without a line only the first, and no log is left without a base."""
        done, silent = (0, refused_growths.printed_with(0), b"", True, True, True), (1, b"", b"", True, False, True)
        lost = (1, b"", b"pcalc: left: OutOfMemory\n", True, False, True)
        right = ([done, lost], [silent, silent, lost, done])
        wrong = ([done, done], [done, lost, (2, b"", b"", True, True, True)], [lost, (*done[:4], False, True)], [done, silent], [silent, lost, silent], [(*lost[:5], False)])
        for ends, wrong in [*((ends, 0) for ends in right), *((ends, 1) for ends in wrong)]:
            with mock.patch.object(refused_growths, "refused_each", return_value=enumerate(ends, 1)):
                found = self.printed(refused_growths.ended, "library", "pcalc", self.folder, refused_growths.COMMANDS[0])[0]
                self.assertEqual(len(found), wrong)

    def test_what_a_command_writes(self):
        """It is right if it is the file's text, and wrong if it is another or none."""
        for written, is_right in (("right", True), ("wrong", False), ("", False)):
            script = f"printf {written} >out" if written else "true"
            command = refused_growths.Command("one", ("-c", script), {"in": b"x"}, [b""], ("out", b"right"))
            self.assertEqual(command.call("", "sh", self.folder, 3)[-2:], (is_right, True))
        self.assertEqual(os.listdir(self.folder), [])

    def test_what_is_wrong_with_a_test(self):
        for ends, wrong in (([(0,), (0,)], []), ([(0,), (101,)], ["growth 2: status 101"]), ([], ["it asked for no growth"])):
            with mock.patch.object(refused_growths, "refused_each", return_value=enumerate(ends, 1)):
                self.assertEqual(self.printed(refused_growths.test, "library", "tests", self.folder, "one")[0], wrong)

    def test_a_crate_without_tests_is_reported(self):
        [(name, lines)] = refused_growths.tester_growths("library", "test_nothing", self.folder)
        self.assertEqual((name, len(lines)), ("test_nothing has tests of growths", 1))
        with mock.patch.object(refused_growths, "tests_of", return_value=[]):
            self.assertEqual([*refused_growths.tester_growths("library", "test_nothing", self.folder)], [(name, ["none has a name that ends in at_each_refused_growth"])])

    def test_tests_are_found_by_their_names(self):
        listed = "one_at_each_refused_growth: test\nother: test\nat_each_refused_growth_no: test\n2 tests\n"
        with mock.patch.object(subprocess, "run", return_value=subprocess.CompletedProcess([], 0, listed, "")):
            self.assertEqual(refused_growths.tests_of("tests"), ["one_at_each_refused_growth"])

    def test_the_growth_that_is_refused_is_seen_by_its_number(self):
        """The note of the refusal is removed from the program's standard error."""
        script = self.write("noted.sh", "echo $REFUSED_GROWTH $LD_PRELOAD; echo a growth was refused >&2; echo other >&2; exit 1\n")
        self.assertEqual(refused_growths.refused("", 7, ("sh", script), self.folder), (1, b"7\n", b"other\n", True))


class Pipes(InFolder):
    def test_a_pipe_is_fed_once_it_is_read(self):
        path, done = case.piped(self.folder, "pipe"), []
        with case.concurrently(lambda: case.feed(path, b"text", lambda: done.append(1))):
            with open(path, "rb") as it:
                self.assertEqual(it.read(), b"text")
        self.assertEqual(done, [1])

    def test_a_pipe_that_nobody_reads(self):
        self.replace(case, PATIENCE=0)
        case.feed(case.piped(self.folder, "pipe"), b"text", self.fail)


if __name__ == "__main__":
    unittest.main()
