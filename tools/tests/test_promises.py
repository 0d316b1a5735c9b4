"""What `promises.py` makes of promises, and what it reports of missing contracts and of functions that no promise names."""

import unittest

from support import InFolder

from tools.house import check_edits, gate_times, promises, spec_guide

LOW = """\
mod chest;
mod hidden;

pub use chest::{Chest, Lid, open, opened_again as again};
pub use pc_other::gone;
"""
CHEST = """\
/// A chest.
pub struct Chest(u64);

impl Model for Chest {
    ghost invariant = { λ c. c ≤ 7 };
}

impl Chest {
    pub fn new() -> Chest
        ensures empty { result ≡ 0 }
    {
        Chest(0)
    }

    pub fn len(&self) -> u64
        ensures { result ≡ self.now }
        ensures most { result ≤ 7 }
    {
        self.0
    }

    pub fn shake(&self) {
    }

    fn inner(&self) -> u64
        ensures most { result ≤ 7 }
    {
        7
    }
}

impl Lid for Chest {
    fn lift(&mut self) {
    }
}

pub trait Lid {
    fn lift(&mut self)
        ensures lifted { IsOpen self.new };
}

pub fn open() -> u64
    requires shut { IsShut }
    ensures opened { result ≡ 1 }
    ensures { result ≤ 1 }
{
    1
}

pub fn opened_again() -> u64
    ensures opened { result ≡ 1 }
{
    1
}

pub fn unexported() -> u64
    ensures opened { result ≡ 1 }
{
    1
}
"""
HIDDEN = "pub fn unexported() -> u64\n    ensures { result ≡ 2 }\n{\n    2\n}\n"
HIGH = "pub fn twice(a: u64) -> u64\n    ensures doubled { result ≡ a + a }\n{\n    a + a\n}\n"
SPECS = "abbrev pub IsOpen : ℕ → Type 0\nIsOpen n = n ≡ 1\n\npub record Whole (n : ℕ) : Type 0 where\n  pub once : n ≡ 1\n"
TEXT = """\
# Promises

What is promised.

## `pc_low`

promise chests: Up to seven
  pc_low Chest::new: empty; Chest::len
  pc_low law by_sevens
promise lids: Open if and only if lifted
  pc_low Lid::lift
  pc_low definition Chests.Whole.once, Chests.IsOpen
promise opened: Once
  pc_low open, opened_again: opened

Between them.

## `pc_high`

promise doubling: Twice as much
  pc_high twice
  note for all numbers

laws: as named.
  pc_high twice

unnamed: a movement, of which nothing is promised
  pc_low Chest::shake
"""
PAGE = """\
# Promises

What is promised.

## `pc_low`

| promise | contract | wrong bodies |
|---|---|---|
| **chests**: Up to seven | `Chest::new` `empty`, `len`; `by_sevens` |  |
| **lids**: Open if and only if lifted | `Lid::lift`; `Whole` `once`, `IsOpen` |  |
| **opened**: Once | `open`, `opened_again` `opened` |  |

Between them.

## `pc_high`

| promise | contract | wrong bodies |
|---|---|---|
| **doubling**: Twice as much | `twice`; for all numbers | `gated`, +1 |

- `twice`: as named.
"""


class Made(InFolder):
    def setUp(self):
        super().setUp()
        self.move(check_edits, gate_times, promises, spec_guide)
        for cache in (promises.functions_of, promises.public_in):
            cache.cache_clear()
            self.addCleanup(cache.cache_clear)
        self.write("crates.txt", "# store\npc_low: std\npc_high: pc_low\ntest_low: pc_low\n")
        for name, text in (("pc_low/src/lib.rt", LOW), ("pc_low/src/chest.rt", CHEST), ("pc_low/src/hidden.rt", HIDDEN), ("pc_high/src/lib.rt", HIGH)):
            self.write(f"crates/{name}", text)
        self.write("crates/test_low/src/lib.rt", "pub fn tested() {\n}\n")
        self.write("crates/pc_low/specs/Chests.antt", SPECS)
        self.write("crates/pc_low/proofs/Lib.antt", "pub by_sevens : (n : ℕ) → n ≤ 7\n")
        edit = "file: src/lib.rt\nold: a + a\nnew: a\npromise: doubling\n"
        self.write("crates/pc_high/must-fail/gated.edit", edit)
        self.write("crates/pc_high/tried/other.edit", edit)

    def faults(self, *changes):
        """The faults of the text after these changes."""
        text = TEXT
        for old, new in changes:
            self.assertIn(old, text)
            text = text.replace(old, new)
        self.write("docs/promises.txt", text)
        return [*promises.faults_in(promises.parts_of(text), check_edits.bodies())]

    def cell(self, *lines, before=()):
        """The contract's cell of a promise with these references, below one with those."""
        pair = [promises.Promise("", "", [promises.reference_in(it) for it in some], []) for some in (before, lines)]
        return promises.contract_text(pair[1], pair[0] if before else None, ["pc_low"])


class Pages(Made):
    def test_the_page_and_the_report_of_a_stale_one(self):
        self.write("docs/promises.txt", TEXT)
        stale = "docs/PROMISES.md differs from what docs/promises.txt gives: tools/house/promises.py --mark\n"
        last = "4 promises, 7 public functions, %d faults\n"
        self.assertEqual(self.printed(promises.main, []), (1, stale + last % 1))
        self.assertEqual(self.printed(promises.main, ["--mark"]), (0, last % 0))
        self.assertEqual(self.read("docs/PROMISES.md"), PAGE)
        self.assertEqual(self.printed(promises.main, []), (0, last % 0))
        self.write("crates/pc_high/tried/third.edit", self.read("crates/pc_high/tried/other.edit"))
        self.assertEqual(self.printed(promises.main, [])[0], 1)

    def test_other_words(self):
        self.assertIn("promises.py --mark", self.ended(promises.main, ["--marked"]))

    def test_a_name_of_two_rows_counts_the_bodies_of_the_heading_s_crates(self):
        found = {"kept": {("pc_low", "a"): True, ("pc_high", "b"): True, ("pc_high", "c"): False}}
        text = "## `pc_low`\npromise kept: it is\n  pc_low open\n\n## `pc_high`, `pc_more`\npromise kept: it is\n  pc_high twice\n"
        rows = [line for line in promises.page_of(promises.parts_of(text), found).split("\n") if line.startswith("| **")]
        self.assertEqual(rows, ["| **kept**: it is | `open` | `a` |", "| **kept**: it is | `twice` | `b`, +1 |"])

    def test_functions_of_one_type_and_of_several_crates(self):
        self.assertEqual(self.cell("pc_low Chest::new, len: most; open"), "`Chest::new`, `len` `most`, `open`")
        self.assertEqual(self.cell("pc_high twice: doubled", "pc_low open"), "`pc_high` `twice` `doubled`; `open`")
        self.assertEqual(self.cell("pc_low hidden::unexported", "pc_low invariant Chest"), "`hidden::unexported`; invariant of `Chest`")

    def test_names_that_match_several(self):
        self.assertEqual(self.cell("pc_low Chest::*, Lid::*: most; open"), "each `Chest::..`, `Lid::..` `most`; `open`")
        self.assertEqual(self.cell("pc_low open, opened*, Chest::new"), "`open`, each `opened..`; `Chest::new`")

    def test_the_same_as_the_row_above(self):
        self.assertEqual(self.cell("pc_low open: opened", before=["pc_low open: opened"]), "the same")
        self.assertEqual(self.cell("pc_low open: shut", "pc_low law by_sevens", before=["pc_low open: opened"]), "the same, `shut`; `by_sevens`")
        self.assertEqual(self.cell("pc_low open", before=["pc_low open: opened"]), "`open`")
        self.assertEqual(self.cell("pc_low open: opened; opened_again", before=["pc_low open; opened_again: opened"]), "`open` `opened`, `opened_again`")


class Faults(Made):
    def test_none(self):
        self.assertEqual(self.faults(), [])

    def test_what_is_not_there(self):
        for old, new, fault in (
            ("pc_low open", "pc_gone open", "opened: there is no crate pc_gone"),
            ("open, opened_again", "opne, opened_again", "opened: pc_low has no function opne"),
            ("opened_again: opened", "opened_again: shut", "opened: pc_low opened_again has no clause shut"),
            ("law by_sevens", "law by_eights", "chests: pc_low has no law by_eights"),
            ("law by_sevens", "invariant Lid", "chests: pc_low has no invariant Lid"),
            ("Chests.Whole.once", "Chests.Whole.twice", "lids: pc_low has no definition Chests.Whole.twice"),
            ("Chests.IsOpen", "Lids.IsOpen", "lids: pc_low has no definition Lids.IsOpen"),
            ("Chest::len", "Chest::*: opened; Chest::len", "chests: pc_low has no function Chest::* with opened"),
            ("Chest::len", "Chest::len, shake", "chests: pc_low Chest::shake has no clause"),
        ):
            with self.subTest(fault=fault):
                self.assertIn(fault, self.faults((old, new)))

    def test_a_function_of_a_trait_has_the_trait_s_clauses(self):
        self.assertEqual(self.faults(("pc_low Lid::lift", "pc_low Lid::lift, Chest::lift")), [])

    def test_functions_of_one_name(self):
        self.assertEqual(self.faults(("pc_low open,", "pc_low unexported, open,")), ["opened: pc_low has several functions unexported: name the file too"])
        self.assertEqual(self.faults(("pc_low open,", "pc_low chest::unexported; open,")), [])

    def test_names_of_promises(self):
        self.assertEqual(self.faults(("promise lids:", "promise chests:")), ["chests: two promises of a section have this name"])
        self.assertEqual(self.faults(("promise doubling:", "promise tripling:")), ["doubling: no promise has this name, which wrong bodies name"])

    def test_a_promise_without_a_contract(self):
        self.assertEqual(self.faults(("  pc_high twice\n  note", "  note")), ["doubling: it names no contract"])

    def test_a_note_that_names_code(self):
        self.assertEqual(self.faults(("for all numbers", "for all `u64`")), ["a note names code: for all `u64`"])

    def test_a_public_function_that_nothing_names(self):
        self.assertEqual(self.faults(("; Chest::len", "")), ["nothing names the public function pc_low Chest::len"])
        self.assertEqual(self.faults(("Chest::shake", "Chest::*")), [])
        self.assertEqual(self.faults(("; Chest::len", ""), ("Chest::shake", "*")), ["nothing names the public function pc_low Chest::len"])
        self.assertEqual(self.faults(("; Chest::len", ""), ("Chest::shake", "Chest::shake, len")), [])

    def test_a_function_that_is_unnamed_and_named_or_none(self):
        self.assertEqual(self.faults(("Chest::shake", "Chest::shake, len")), ["unnamed: pc_low Chest::len is named above"])
        self.assertEqual(self.faults(("Chest::shake", "Chest::shake; unexported")), ["unnamed: pc_low unexported is no public function"])
        self.assertEqual(self.faults(("Chest::shake", "Chest::shake\n  pc_high *")), ["unnamed: pc_high * is no public function"])

    def test_wide_names_cover_functions_with_a_clause_alone(self):
        self.assertEqual(self.faults(("Chest::new: empty; Chest::len", "Chest::*")), [])
        self.assertEqual(self.faults(("Chest::new: empty; Chest::len", "Chest::*: most; Chest::new")), [])
        self.assertEqual(self.faults(("Chest::new: empty; Chest::len", "Chest::*"), ("unnamed: a movement, of which nothing is promised\n  pc_low Chest::shake\n", "")),
                         ["nothing names the public function pc_low Chest::shake"])


class Repository(InFolder):
    def test_the_page_is_made_and_each_public_function_is_named(self):
        status, out = self.printed(promises.main, [])
        self.assertEqual(status, 0, out)


if __name__ == "__main__":
    unittest.main()
