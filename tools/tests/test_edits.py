"""What `check_edits.py` reports of wrong bodies."""

import shutil
import unittest
from unittest import mock

from support import InFolder

from tools.house import check_edits, gate_times

CACHES = (check_edits.functions_near, check_edits.below, check_edits.names_in, check_edits.sources_of)


class Edits(InFolder):
    """A crate over another one, over a kit whose library has one method."""

    def setUp(self):
        super().setUp()
        self.move(check_edits, gate_times)
        for cache in CACHES:
            cache.cache_clear()
            self.addCleanup(cache.cache_clear)
        kit = mock.patch.object(shutil, "which", return_value=self.write("kit/bin/rt", ""))
        kit.start()
        self.addCleanup(kit.stop)
        self.write("kit/rattle/std/src/lib.rt", "pub fn reserve(&mut self)\n{\n}\n")
        self.write("crates.txt", "# store\npc_low: std\npc_high: pc_low\n")
        self.write("crates/pc_low/src/lib.rt", "pub fn lowest(a: u64) -> u64\n{\n    a\n}\n")
        self.write("crates/pc_high/src/lib.rt", "use pc_low::lowest;\n// gone(a)\npub fn twice(a: u64) -> u64\n{\n    lowest(a) + lowest(a)\n}\n")

    def faults(self, *lines):
        return [*check_edits.faults_of(self.write("crates/pc_high/must-fail/body.edit", "file: src/lib.rt\n" + "".join(f"{line}\n" for line in lines)))]

    def test_a_body_without_a_fault(self):
        self.assertEqual(self.faults("old: lowest(a) + lowest(a)", "new: lowest(a)", "promise: doubling"), [])

    def test_an_old_text_that_does_not_occur_once(self):
        self.assertEqual(self.faults("old: lowest(b)", "new: lowest(a)"), ["the old text occurs 0 times in its file: lowest(b)"])
        self.assertEqual(self.faults("old: lowest(a)", "new: a"), ["the old text occurs 2 times in its file: lowest(a)"])

    def test_a_second_change_is_applied_after_the_first(self):
        self.assertEqual(self.faults("old: + lowest(a)", "new: + 7", "old: + 7", "new: + 8"), [])

    def test_a_body_that_changes_nothing(self):
        self.assertEqual(self.faults("old: pub fn", "new: pub fn"), ["the new text is the old one: pub fn"])
        self.assertEqual(self.faults(), ["nothing is changed"])

    def test_a_line_of_another_form(self):
        self.assertEqual(self.faults("old: + lowest(a)", "new: + {", "    7 }"), ["a line of another form:     7 }"])

    def test_calls_of_what_is_not_there(self):
        self.assertEqual(self.faults("old: + lowest(a)", "new: + gone(a)"), ["no source of the crate names gone"])
        self.assertEqual(self.faults("old: + lowest(a)", "new: + a.gone()"), ["no source has a method gone"])
        self.assertEqual(self.faults("old: + lowest(a)", "new: + a.reserve() + a.lowest()"), [])

    def test_bodies_by_their_promises(self):
        self.faults("old: + lowest(a)", "new: + 7", "promise: doubling; adding")
        self.write("crates/pc_low/tried/other.edit", "file: src/lib.rt\nold: {\nnew: { 7;\npromise: doubling\n")
        self.assertEqual(check_edits.bodies(), {"doubling": {("pc_high", "body"): True, ("pc_low", "other"): False}, "adding": {("pc_high", "body"): True}})
        self.assertEqual(self.printed(check_edits.main, []), (0, "2 edits, 0 faults\n"))

    def test_a_body_without_a_promise(self):
        self.faults("old: + lowest(a)", "new: + 7")
        self.assertEqual(self.printed(check_edits.main, []), (1, "pc_high/must-fail/body.edit: it names no promise\n1 edits, 1 faults\n"))


if __name__ == "__main__":
    unittest.main()
