"""Which bodies `try_bodies.py` and `try_meetings.py` try again: those whose text, or that of what refuses them, has changed since they were tried."""

import os
import unittest
from unittest import mock

from support import InFolder

from tools.house import check_edits, gate_times, reach, spec_guide, try_bodies, try_meetings

EDIT = "file: src/lib.rt\nold: 1\nnew: 2\npromise: one\n"
SOURCE = """\
/// What it gives.
pub fn low() -> u64
    ensures { result < 9 }
{
    1
}
"""
ONE, TWO, HIGH = ("pc_low", "one"), ("pc_high", "one"), ("pc_high", "two")


class Bodies(InFolder):
    """Two crates, each with a body that is tried on demand, and one with none."""

    def setUp(self):
        super().setUp()
        self.move(check_edits, gate_times, reach, spec_guide, try_bodies)
        self.write("crates.txt", "pc_low: std\npc_mid: pc_low\npc_high: pc_mid\n")
        self.write("crates/pc_low/src/lib.rt", SOURCE)
        self.write("crates/pc_mid/src/lib.rt", SOURCE.replace("low", "mid"))
        self.write("crates/pc_high/src/lib.rt", SOURCE.replace("fn low", "fn high").replace("    1\n", "    low() + 1\n"))
        self.write("crates/pc_low/tried/one.edit", EDIT)
        self.write("crates/pc_high/tried/one.edit", EDIT)
        self.write("crates/pc_high/tried/two.edit", EDIT.replace("new: 2", "new: 3"))
        os.makedirs(os.path.join(self.folder, "tools", "house"))

    def noted(self, *bodies, reason="clause"):
        record, today = try_bodies.Record(), try_bodies.Today()
        for it in bodies:
            record.note(*it, reason, today.sums(*it))
        record.write()

    def states(self):
        return try_bodies.states_today(try_bodies.Record(), try_bodies.Today())

    def change(self, name, old, new):
        path = f"crates/{name}/src/lib.rt"
        self.write(path, self.read(path).replace(old, new))

    def test_a_body_is_what_it_changes(self):
        before = try_bodies.body_sum("pc_low", "one")
        self.write("crates/pc_low/tried/one.edit", EDIT.replace("one", "two"))
        self.assertEqual(try_bodies.body_sum("pc_low", "one"), before)
        self.write("crates/pc_low/tried/one.edit", EDIT.replace("new: 2", "new: 3"))
        self.assertNotEqual(try_bodies.body_sum("pc_low", "one"), before)

    def test_what_was_refused_is_not_tried_again(self):
        self.assertEqual(try_bodies.chosen_of([], True), {"pc_low": ["one"], "pc_high": ["one", "two"]})
        self.noted(ONE, HIGH)
        self.assertEqual(try_bodies.chosen_of([], True), {"pc_high": ["one"]})
        self.assertEqual(try_bodies.chosen_of([], False), {"pc_low": ["one"], "pc_high": ["one", "two"]})

    def test_an_edit_of_another_form_is_not_tried(self):
        self.assertEqual(try_bodies.faults_in({"pc_low": ["one"], "pc_high": ["two"]}), [])
        self.write("crates/pc_low/tried/one.edit", EDIT + "  + 1\n")
        self.assertEqual(try_bodies.faults_in({"pc_low": ["one"], "pc_high": ["two"]}), ["pc_low/one: a line of another form:   + 1"])

    def test_the_list_and_its_sums(self):
        self.noted(ONE)
        self.noted(TWO, reason="fits")
        self.noted(HIGH, reason="refused")
        lines = ["pc_low: 1 bodies, 1 refused on today's text (1 seen by a clause), 0 void, 0 never tried"]
        lines += ["pc_high: 2 bodies, 1 refused on today's text (0 seen by a clause), 0 void, 0 never tried, 1 refused by the shape of a proof"]
        lines += ["to improve (fits): pc_high/one"]
        sums = "3 wrong bodies on demand: 2 refused on today's text (1 seen by a clause), 0 void, 0 never tried, 1 refused by the shape of a proof"
        self.assertEqual(self.printed(try_bodies.list_states), (0, "\n".join([*lines, sums, ""])))

    def test_a_change_of_what_refuses_it_makes_a_note_void(self):
        self.noted(ONE, TWO, HIGH)
        self.change("pc_low", "result < 9", "result < 10")
        self.assertEqual(self.states(), {ONE: "void", TWO: "void", HIGH: "void"})
        self.change("pc_low", "result < 10", "result < 9")
        self.change("pc_low", "    1\n", "    1 + 0\n")
        self.change("pc_mid", "result < 9", "result < 10")
        self.assertEqual(self.states(), {ONE: "void", TWO: "clause", HIGH: "clause"})
        self.write("crates/pc_high/tried/two.edit", EDIT.replace("new: 2", "new: 4"))
        self.assertEqual(self.states()[HIGH], "void")

    def test_a_note_of_an_earlier_text_is_void(self):
        self.write("tools/house/tried", "# one\npc_low earlier 2026-11-28: one:123456\n")
        self.assertEqual(self.states(), {ONE: "void", TWO: "never", HIGH: "never"})
        self.assertEqual(self.printed(try_bodies.list_forgotten)[0], 0)

    def test_a_function_that_changed_and_whose_body_was_not_tried_again(self):
        self.noted(ONE, TWO)
        self.noted(HIGH, reason="limit")
        self.change("pc_low", "result < 9", "result < 10")
        status, out = self.printed(try_bodies.list_forgotten)
        self.assertEqual((status, out.splitlines()[0].partition(":")[0], len(out.splitlines())), (1, "pc_low/one", 2))
        self.noted(ONE)
        self.assertEqual(self.printed(try_bodies.list_forgotten)[0], 0)
        self.change("pc_high", "result < 9", "result < 10")
        out = self.printed(try_bodies.list_forgotten)[1].splitlines()
        self.assertEqual([it.partition(":")[0] for it in out[:-1]], ["pc_high/one"])
        self.change("pc_high", "1", "7")
        self.assertEqual(self.printed(try_bodies.list_forgotten)[0], 1)

    def test_why_a_body_was_refused(self):
        goal = "it is not proved that what the function ensures holds when it returns (`returns`)"
        for said, reason in (
            (f": note: src/lib.rt:2:1: {goal}", "clause"),
            (f": note: src/lib.rt:2:1: {goal}; the facts known there allow values at which this goal is false", "clause"),
            (f": note: src/lib.rt:2:1: {goal}; `search` gave up at one of its limits", "limit"),
            (f": note: src/lib.rt:2:1: {goal}; `grind` gave up at one o", "limit"),
            (" (only by a limit of the prover, which gave no verdict): src/lib.rt:2:1: error: it ran out of steps", "limit"),
            (" (only because a proof file names what the edit took away): proofs/f/Answers.antt:2:1: error: `c` has no field", "fits"),
            (": ./proofs/f/Answers.antt:8:13: error: `returns`: as printed, the two types differ", "fits"),
            ("", "fits"),
        ):
            with self.subTest(said=said):
                self.assertEqual(try_bodies.reason_of(said), reason)

    def test_the_record_has_a_body_once_and_none_that_is_gone(self):
        self.noted(ONE, TWO)
        self.change("pc_low", "1", "1 + 0")
        os.remove(os.path.join(self.folder, "crates/pc_high/tried/one.edit"))
        self.noted(ONE)
        lines = self.read("tools/house/tried").splitlines()
        self.assertEqual(len(lines), 2)
        self.assertRegex(lines[1], r"^pc_low clause \d{4}-\d\d-\d\d: one:%s$" % ":".join(try_bodies.Today().sums(*ONE)))

    def test_chosen_by_name(self):
        self.assertEqual(try_bodies.chosen_of(["pc_high/two"], False), {"pc_high": ["two"]})
        self.assertEqual(try_bodies.chosen_of(["pc_high"], False), {"pc_high": ["one", "two"]})
        self.assertEqual(self.ended(try_bodies.chosen_of, ["pc_high/three"], False), "no such body in tried/: pc_high/three")
        self.assertEqual(try_bodies.needed_by(["pc_high"]), ["pc_low", "pc_mid"])

    def test_the_copy_in_which_they_are_tried(self):
        """It has no body of the gate, and shares no file with the repository that may be written."""
        self.write("repository/crates.txt", "pc_low: std\n")
        self.write("repository/crates/pc_low/must-fail/old.edit", EDIT)
        self.write("repository/crates/pc_low/tried/one.edit", EDIT)
        self.write("repository/.git/HEAD", "")
        self.write("repository/crates/pc_low/out/pc_low.rlib/a", "")
        here, room = os.path.join(self.folder, "repository"), os.path.join(self.folder, "room")
        for module in (gate_times, try_bodies):
            self.replace(module, ROOT=here)
        copies = try_bodies.copies_in(room, ["pc_low"], 2)
        both = [copies.get(), copies.get()]
        self.assertTrue(copies.empty())
        for copy, other in zip(both, (here, both[0])):
            self.assertEqual(os.listdir(os.path.join(copy, "crates/pc_low/must-fail")), [])
            self.assertFalse(os.path.exists(os.path.join(copy, ".git")))
            self.assertFalse(os.path.samefile(os.path.join(copy, "crates.txt"), os.path.join(other, "crates.txt")))

    def tried(self, *said):
        """The results of both bodies of a crate if checks print these texts, in turn."""
        texts, left = iter(said), []

        def check(_, words):
            left.append(words)
            return next(texts)

        found, out = self.printed(try_bodies.try_crate, self.folder, "pc_high", ["one", "two"], reach.tree_here(), check)
        return found, out, left

    def test_bodies_of_one_function_are_tried_one_by_one(self):
        goal = "note: src/lib.rt:3:1: it is not proved that what the function ensures holds when it returns (`returns`)%s\n"
        shape = "./proofs/high/Answers.antt:1:1: error: b\n"
        for first, second, wanted in (
            (goal % "" + "fn pc_high::high: no proof", shape + "fn pc_high::high: not proved", {"one": "clause", "two": "fits"}),
            (goal % "; `search` gave up at one of its limits" + "fn pc_high::high: no proof", "fn pc_high::high: proved", {"one": "limit"}),
        ):
            found, out, left = self.tried(first, second)
            self.assertEqual((found, left), (wanted, [["high"], ["high"]]))
            self.assertEqual(out.splitlines()[0], f"pc_high: {int('clause' in found.values())} of 2 refused by a clause")
        self.assertIn("pc_high/two: NOT REFUSED", out)
        self.assertEqual(self.read("crates/pc_high/src/lib.rt"), SOURCE.replace("fn low", "fn high").replace("    1\n", "    low() + 1\n"))


class Meetings(InFolder):
    """A body that is seen in a meeting, one that a workload shows, and one that a test sees."""

    def setUp(self):
        super().setUp()
        self.move(try_meetings)
        self.write("crates/pc_low/src/lib.rt", "let a = 1;\nlet b = 2;\n")
        self.write("crates/test_threads/src/main.rt", "a\n")
        self.write("crates/pcalc/src/main.rt", "a\n")
        self.write("crates/test_threads/stdout", "two meet: met true, commits 2\n")
        self.write("examples/small.out", "commits 2\npoints 0\n")
        change = "file: pc_low/src/lib.rt\nold: a = 1\nnew: a = 3\nold: a = 3\nnew: a = 4\n"
        self.write("tools/house/meetings/meet.edit", "meeting: two meet\n" + change)
        self.write("tools/house/meetings/work.edit", "workload: small --lag 0\n" + change)
        self.write("tools/house/meetings/test.edit", "test: test_units it_is_one\n" + change)

    def wrong(self, name, *printed):
        """What is wrong with the body if the copies print these lines, in turn."""
        return self.wrong_by(name, *[(lines, "the end") for lines in printed])

    def wrong_by(self, name, *runs):
        """The same for these lines with their ends."""
        with mock.patch.object(try_meetings, "run_copy", side_effect=runs):
            return try_meetings.wrong_with(try_meetings.lines_of(name))

    def test_the_changes_of_a_body(self):
        try_meetings.applied(try_meetings.lines_of("meet"), os.path.join(self.folder, "crates"))
        self.assertEqual(self.read("crates/pc_low/src/lib.rt"), "let a = 4;\nlet b = 2;\n")
        self.assertIn("the old text occurs 0 times: a = 1", self.ended(try_meetings.applied, try_meetings.lines_of("meet"), os.path.join(self.folder, "crates")))

    def test_where_a_body_is_seen(self):
        self.assertEqual([try_meetings.crate_of(try_meetings.lines_of(name)) for name in ("meet", "work", "test")], ["test_threads", "pcalc", "test_units"])

    def test_a_meeting(self):
        self.assertEqual(self.wrong("meet", ["two meet: met false, commits 2"]), "")
        self.assertEqual(self.wrong("meet", ["two meet: met true, commits 2"]), "two meet: met true, commits 2")
        self.assertEqual(self.wrong("meet", ["three meet: met false"]), "no line: the end")
        self.write("crates/test_threads/stdout", "two meet: met false\n")
        self.assertEqual(self.wrong("meet", ["two meet: met false"]), "two meet shows it without the edit")

    def test_a_meeting_that_never_ends(self):
        self.write("tools/house/meetings/meet.edit", "meeting: two meet\nends: never\nfile: pc_low/src/lib.rt\nold: a = 1\nnew: a = 5\n")
        without_edit, without_end = (["two meet: met true"], "the end"), ([], try_meetings.NO_END)
        wrong = lambda *runs: self.wrong_by("meet", *runs)
        self.assertEqual(wrong(without_edit, without_end), "")
        self.assertEqual(wrong(without_edit, without_edit), "with the edit: the end")
        self.assertEqual(wrong(without_edit, (["two meet: met true"], try_meetings.NO_END)), "two meet: met true")
        self.assertEqual(wrong(without_end), f"without the edit: no line: {try_meetings.NO_END}")

    def test_a_workload(self):
        self.assertEqual(self.wrong("work", ["commits 1", "points 0"]), "")
        self.assertEqual(self.wrong("work", ["commits 2", "points 0", "report"]), "the run prints what it must")
        self.assertEqual(self.wrong("work", ["broken"]), "no run: the end")

    def test_a_test(self):
        passes, fails = ["test it_is_one ... ok"], ["test it_is_one ... FAILED"]
        self.assertEqual(self.wrong("test", passes, fails), "")
        self.assertEqual(self.wrong("test", passes, passes), "with the edit: test it_is_one ... ok")
        self.assertEqual(self.wrong("test", fails), "without the edit: test it_is_one ... FAILED")
        self.assertEqual(self.wrong("test", []), "without the edit: the end")

    def test_what_was_seen_is_noted_with_its_text(self):
        self.assertFalse(try_meetings.is_tried("meet"))
        for name in ("meet", "work"):
            try_meetings.note(name)
        self.assertEqual([name for name in try_meetings.bodies() if try_meetings.is_tried(name)], ["meet", "work"])
        self.write("crates/test_threads/src/main.rt", "b\n")
        self.assertEqual([name for name in try_meetings.bodies() if try_meetings.is_tried(name)], ["work"])
        self.write("crates/pc_low/src/lib.rt", "let a = 1;\n")
        self.assertEqual([name for name in try_meetings.bodies() if try_meetings.is_tried(name)], [])
        self.assertEqual(self.printed(try_meetings.list_bodies, try_meetings.is_tried)[0], 1)

    def test_the_text_has_the_test_crates_below(self):
        with mock.patch.object(try_meetings, "crates_of", return_value={"test_threads": ["pc_high", "test_low"]}):
            try_meetings.note("meet")
            self.write("crates/pc_high/src/lib.rt", "a\n")
            self.assertTrue(try_meetings.is_tried("meet"))
            self.write("crates/test_low/src/lib.rt", "a\n")
            self.assertFalse(try_meetings.is_tried("meet"))

    def test_a_body_is_known_as_long_as_it_stays(self):
        for name in ("meet", "work", "test"):
            self.assertEqual(self.printed(try_meetings.list_bodies, try_meetings.is_known)[0], 1)
            try_meetings.note(name)
        self.write("crates/pc_low/src/lib.rt", "let a = 1;\n")
        self.assertEqual(self.printed(try_meetings.list_bodies, try_meetings.is_known)[0], 0)
        self.write("tools/house/meetings/meet.edit", "meeting: two meet\nfile: pc_low/src/lib.rt\nold: a = 1\nnew: a = 5\n")
        self.assertEqual([name for name in try_meetings.bodies() if not try_meetings.is_known(name)], ["meet"])

    def test_the_record_has_none_that_is_gone(self):
        for name in ("meet", "work", "test"):
            try_meetings.note(name)
        self.assertEqual(self.printed(try_meetings.list_bodies, try_meetings.is_tried)[0], 0)
        os.remove(os.path.join(self.folder, "tools/house/meetings/work.edit"))
        try_meetings.note("meet")
        self.assertEqual([*try_meetings.record()], ["meet", "test"])


class Stored(InFolder):
    """The bodies of the repository."""

    def test_each_of_the_meetings_can_be_applied(self):
        self.assertTrue(try_meetings.bodies())
        for name in try_meetings.bodies():
            lines = try_meetings.lines_of(name)
            for word, path in lines:
                if word == "file":
                    self.write(path, try_meetings.text_of(os.path.join(try_meetings.ROOT, "crates", path)))
            with self.subTest(body=name):
                try_meetings.applied(lines, self.folder)


if __name__ == "__main__":
    unittest.main()
