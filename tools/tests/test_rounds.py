"""How wrong bodies of different functions are tried in one text (`rounds.py`)."""

import os
import unittest

from support import InFolder

from tools.house import gate_times, reach, rounds, rt_source, spec_guide, try_bodies

SOURCE = """\
/// One of two with this name.
pub struct One;

impl One {
    /// It gives one.
    pub fn new() -> u64 {
        1
    }
}

impl From<u8> for One {
    fn from(number: u8) -> One {
        One
    }
}

/// It gives two.
pub fn new() -> u64 {
    2
}

const LIMIT: u64 = 3;
"""


def edit(old, new, more=""):
    return f"file: src/lib.rt\nold: {old}\nnew: {new}\npromise: one\n{more}"


class Rounds(InFolder):
    def setUp(self):
        super().setUp()
        self.move(gate_times, reach, spec_guide, try_bodies)
        self.write("crates.txt", "pc_one: std\n")
        self.write("crates/pc_one/src/lib.rt", SOURCE)
        self.texts = {"method": edit("        1", "        7"), "trait": edit("        One", "        Two"), "free": edit("    2", "    7"), "again": edit("    2", "    8"), "const": edit("u64 = 3", "u64 = 4")}
        tree = reach.tree_here()
        self.functions = {it: rounds.functions_of(tree, "pc_one", text) for it, text in self.texts.items()}
        self.copy = rounds.Copy(os.path.join(self.folder, "crates/pc_one"))

    def tried(self, bodies, *said):
        texts, self.asked = iter(said), []

        def run(_, words):
            self.asked.append(words)
            return next(texts)

        return rounds.try_round(self.copy, bodies, self.functions, self.texts, run)

    def test_bodies_of_different_functions_are_tried_together(self):
        self.assertIsNone(self.functions["const"])
        some = {it: own for it, own in self.functions.items() if own}
        self.assertEqual(rounds.rounds_of(some), [["method", "trait", "free"], ["again"]])

    def test_a_function_is_found_by_its_type(self):
        lines = rt_source.owners_in(SOURCE)
        names = {number: lines[number] for number, line in enumerate(SOURCE.split("\n"), 1) if line.lstrip().startswith(("1", "2", "One"))}
        self.assertEqual([*names.values()], [("One", "new"), ("One", "from"), ("", "new")])
        for full, wanted in (("pc_one::One::new", "method"), ("pc_one::OneFromU8::from", "trait")):
            self.assertEqual([it for it in ("method", "trait") for own in self.functions[it] if rounds.is_of(full, own)], [wanted])

    def test_a_name_that_several_functions_have_is_written_out(self):
        several = "rattle: error: several functions are named `new`: help: write one of `pc_one::new`, `pc_one::One::new`\n"
        said = "note: src/lib.rt:19:5: it is not proved that what the function ensures holds (`returns`)\nfn pc_one::new: no proof: x\nfn pc_one::One::new: proved\n"
        self.assertEqual(self.tried(["method", "free"], several, said), {"method": "none", "free": "clause"})
        self.assertEqual(self.asked, [["One::new", "new"], ["One::new", "pc_one::new"]])
        self.assertEqual(self.copy.read("src/lib.rt"), SOURCE)

    def test_one_that_does_not_compile_is_left_out(self):
        said = "fn pc_one::One::new: not proved\n"
        self.assertEqual(self.tried(["method", "trait"], "error[E0425]: no `Two`\n", said, "error[E0425]: no `Two`\n"), {"method": "fits"})

    def test_a_note_at_an_attribute_is_of_the_function_below_it(self):
        source = SOURCE.replace("    fn from", "    #[inline(always)]\n    #[tactic(auto)]\n    fn from")
        self.write("crates/pc_one/src/lib.rt", source)
        line = source.split("\n").index("    #[inline(always)]") + 1
        lines = rt_source.owners_in(source)
        self.assertEqual(lines[line - 1 : line + 3], [("One", "new"), ("One", "from"), ("One", "from"), ("One", "from")])
        said = f"note: src/lib.rt:{line}:5: it is not proved that what the function ensures holds (`returns`)\nfn pc_one::OneFromU8::from: no proof: x\n"
        self.assertEqual(self.tried(["trait"], said), {"trait": "clause"})

    def test_a_body_that_no_longer_applies_is_left_out(self):
        self.texts["free"] = edit("no such text", "7")
        self.assertEqual(self.tried(["free"]), {})

    def test_what_is_said_of_a_library_below_is_ignored(self):
        for place in ("elsewhere.rt:19", "lib.rt:1900"):
            said = f"note: src/{place}:5: it is not proved that what the function ensures holds (`returns`)\nfn pc_one::One::new: no proof: x\n"
            self.assertEqual(self.tried(["method"], said), {"method": "fits"})
        self.assertEqual(self.tried(["method"], "fn pc_below::One::new: not proved\n"), {})
        self.assertEqual(self.copy.first, {})


if __name__ == "__main__":
    unittest.main()
