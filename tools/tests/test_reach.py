"""What `reach.py` counts to what refuses a wrong body: which changes of a text change its checksums."""

import unittest

from support import InFolder

from tools.house import reach, spec_guide

BASE = """\
-- The least number.
use Rattle.std.specs.Prelude.{ℕ}

-- it
abbrev pub least : ℕ
least = 1

-- another
abbrev pub greatest : ℕ
greatest = 9
"""
WORDS = """\
-- What counts.
use Rattle.std.specs.Prelude.{ℕ}
use Rattle.pc_low.specs.Base.{least, greatest}

abbrev pub IsCount : ℕ → Type 0
IsCount n = least ≤ n

abbrev pub IsOther : ℕ → Type 0
IsOther n = n ≤ greatest
"""
LOW = """\
//! What is low.
ghost use Rattle.pc_low.specs.Words.{IsCount, IsOther};

pub const MOST: u64 = 9;

/// The place of a count.
#[derive(Clone, Copy)]
pub enum Place {
    First,
    Last,
}

/// A number, of which the value alone is seen.
pub struct Number {
    inner: u64,
}

impl Model for Number {
    ghost Value = { ℕ };

    ghost view = { λ n. n.inner };
}

impl Number {
    /// It.
    pub fn value(&self) -> u64
        ensures { result ≡ self.now }
    {
        self.inner
    }
}

// One count.
pub fn one() -> u64
    ensures { IsCount result }
{
    1
}

pub fn other() -> u64
    ensures { IsOther result }
{
    2
}
"""
HIGH = """\
//! What is high.
use pc_low::{Number, one, other};

/// The sum.
pub fn sum(number: &Number) -> u64
    ensures { result < 100 }
{
    number.value() + one()
}

fn aside() -> u64 {
    other()
}

#[cfg(test)]
mod tests {
    fn it_is_one() {}
}
"""
EDIT = "file: src/lib.rt\nold: + one()\nnew: + one() + one()\npromise: sums\n"


class Reach(InFolder):
    """A crate over another one, with a body of a function that calls two below."""

    def setUp(self):
        super().setUp()
        self.move(reach, spec_guide)
        self.write("crates.txt", "pc_low: std\npc_high: pc_low\n")
        self.write("crates/pc_low/specs/Base.antt", BASE)
        self.write("crates/pc_low/specs/Words.antt", WORDS)
        self.write("crates/pc_low/src/lib.rt", LOW)
        self.write("crates/pc_high/src/lib.rt", HIGH)
        self.edit = EDIT

    def changed_by(self, path, old, new):
        """Which of both checksums differ after this change: of what the body changes, and of what that reaches."""
        before = reach.tree_here().sums("pc_high", self.edit)
        text = self.read(path)
        self.assertEqual(text.count(old), 1, old)
        self.write(path, text.replace(old, new))
        after = reach.tree_here().sums("pc_high", self.edit)
        self.write(path, text)
        return tuple(one != other for one, other in zip(before, after))

    def low(self, old, new):
        return self.changed_by("crates/pc_low/src/lib.rt", old, new)

    def high(self, old, new):
        return self.changed_by("crates/pc_high/src/lib.rt", old, new)

    def test_comments_and_blank_lines(self):
        self.assertEqual(self.high("/// The sum.\n", "/// A sum.\n\n// It is one.\n"), (False, False))
        self.assertEqual(self.low("// One count.\n", ""), (False, False))
        self.assertEqual(self.changed_by("crates/pc_low/specs/Base.antt", "-- it\n", "-- the least\n\n"), (False, False))

    def test_the_function_itself(self):
        self.assertEqual(self.high("result < 100", "result < 200"), (True, False))
        self.assertEqual(self.high("number.value() +", "2 * number.value() +"), (True, False))

    def test_what_it_calls(self):
        self.assertEqual(self.low("ensures { IsCount result }", "ensures { IsOther result }"), (False, True))
        self.assertEqual(self.low("pub fn value(&self) -> u64", "pub fn value(&self) -> u32"), (False, True))
        self.assertEqual(self.low("    1\n", "    2\n"), (False, False))
        self.assertEqual(self.low("        self.inner\n", "        self.inner + 0\n"), (False, False))

    def test_what_the_wrong_text_alone_calls(self):
        self.assertEqual(self.low("ensures { IsOther result }", "ensures { IsCount result }"), (False, False))
        self.edit = EDIT.replace("new: + one() + one()", "new: + other()")
        self.assertEqual(self.low("ensures { IsOther result }", "ensures { IsCount result }"), (False, True))

    def test_a_definition_two_imports_away(self):
        self.assertEqual(self.changed_by("crates/pc_low/specs/Base.antt", "least = 1", "least = 2"), (False, True))
        self.assertEqual(self.changed_by("crates/pc_low/specs/Base.antt", "greatest = 9", "greatest = 8"), (False, False))

    def test_an_unrelated_function(self):
        self.assertEqual(self.high("    other()\n", "    other() + 1\n"), (False, False))
        self.assertEqual(self.high("fn aside() -> u64 {", "fn aside() -> u32 {"), (False, False))
        self.assertEqual(self.high("    fn it_is_one() {}", "    fn it_is_two() {}"), (False, False))

    def test_types(self):
        """Of a type below that has a model its value is seen; of an enum what is named."""
        self.assertEqual(self.low("    inner: u64,", "    inner: u64,\n    hint: u64,"), (False, False))
        self.assertEqual(self.low("ghost view = { λ n. n.inner };", "ghost view = { λ n. n.inner + 0 };"), (False, False))
        self.assertEqual(self.low("ghost Value = { ℕ };", "ghost Value = { ℕ × ℕ };"), (False, True))
        self.edit = EDIT.replace("new: + one() + one()", "new: + if let Place::First = place { 1 } else { 2 }")
        self.assertEqual(self.low("    Last,\n", "    Last,\n    Middle,\n"), (False, False))
        self.assertEqual(self.low("    First,\n", "    First(u64),\n"), (False, True))

    def test_constants(self):
        self.edit = EDIT.replace("new: + one() + one()", "new: + MOST")
        self.assertEqual(self.low("MOST: u64 = 9", "MOST: u64 = 8"), (False, True))

    def test_a_constant_that_is_changed_is_refused_by_who_names_it(self):
        self.write("crates/pc_high/src/lib.rt", HIGH.replace("+ one()", "+ LEAST").replace("fn aside", "const LEAST: u64 = 3;\n\nfn aside"))
        self.edit = "file: src/lib.rt\nold: = 3\nnew: = 4\n"
        self.assertEqual(self.high("result < 100", "result < 200"), (False, True))
        self.assertEqual(self.high("fn aside() -> u64 {", "fn aside() -> u32 {"), (False, False))

    def test_an_edit_of_definitions(self):
        self.edit = "file: specs/Own.antt\nold: one =\nnew: one = 2 +\n"
        self.write("crates/pc_high/specs/Own.antt", "abbrev pub one : ℕ\none = 1\n\nabbrev pub two : ℕ\ntwo = 2\n")
        self.assertEqual([*map(lambda it: it.name, reach.tree_here().changed("pc_high", self.edit)[0])], ["one"])
        self.assertEqual(self.changed_by("crates/pc_high/specs/Own.antt", "one : ℕ", "one : List ℕ"), (True, False))
        self.assertEqual(self.changed_by("crates/pc_high/specs/Own.antt", "one = 1", "one = two"), (True, True))
        self.assertEqual(self.changed_by("crates/pc_high/specs/Own.antt", "two = 2", "two = 3"), (False, False))

    def test_an_edit_that_cannot_be_applied(self):
        self.assertIsNone(reach.tree_here().sums("pc_high", EDIT.replace("+ one()", "+ two()")))
        self.assertIsNone(reach.tree_here().sums("pc_high", EDIT.replace("src/lib.rt", "src/gone.rt")))


class Stored(unittest.TestCase):
    """The repository's present text."""

    def test_a_method_its_contract_and_its_type(self):
        tree = reach.tree_here()
        found = {(it.owner, it.trait, it.name): it for it in tree.items["crates/pc_shared/src/session.rt"] if it.kind == "fn"}
        put = found["Shared", "", "put"]
        self.assertTrue(put.contract.lstrip().startswith("pub fn put<"))
        self.assertIn("ensures call", put.contract)
        self.assertNotIn("put_as", put.contract)
        self.assertIn("put_as", put.text)


if __name__ == "__main__":
    unittest.main()
