"""What `crate_tables.py` and `spec_guide.py` write into pages, and what they report of a stale page."""

import re
import unittest

from support import InFolder, stored

from tools.house import crate_tables, spec_guide

CRATES = "# The store.\npc_low: std\npc_mid: pc_low\npc_high: pc_low pc_mid\n# What the gate runs.\ntest_low: pc_low\n"
TABLES = """\
<!-- crates store -->
| crate | what it has | depends on |
|---|---|---|
| `pc_low` | What is low. |  |
| `pc_mid` | What is in the middle. | `pc_low` |
| `pc_high` | What is high. | `pc_mid` |

Between them.

<!-- crates gate -->
| crate | what it has | depends on |
|---|---|---|
| `test_low` | Tests of what is low. | `pc_low` |

After them.
"""


class Tables(InFolder):
    def setUp(self):
        super().setUp()
        self.move(crate_tables)
        self.write("crates.txt", CRATES)
        for name, text in (("pc_low", "is low"), ("pc_mid", "is in the\n//! middle"), ("pc_high", "is high")):
            self.write(f"crates/{name}/src/lib.rt", f"//! What {text}. A second sentence.\n//!\n//! More of it.\nmod a;\n")
        self.write("crates/test_low/src/main.rt", "//! Tests of what is low.\n")
        self.write("docs/ARCHITECTURE.md", TABLES)

    def test_tables_that_are_current(self):
        self.assertEqual(self.printed(crate_tables.main, []), (0, ""))

    def test_tables_that_are_not(self):
        message = "docs/ARCHITECTURE.md: the tables of crates are stale: tools/house/crate_tables.py --mark\n"
        self.write("docs/ARCHITECTURE.md", TABLES.replace("What is high.", "What was high."))
        self.assertEqual(self.printed(crate_tables.main, []), (1, message))
        self.assertEqual(self.printed(crate_tables.main, ["--mark"]), (0, ""))
        self.assertEqual(self.read("docs/ARCHITECTURE.md"), TABLES)

    def test_a_sentence_ends_at_a_colon_that_has_enough_before_it(self):
        self.write("crates/pc_low/src/lib.rt", "//! What is low: all of it.\nmod a;\n")
        self.assertEqual(crate_tables.page_of("pc_low"), "What is low: all of it.")
        self.write("crates/pc_low/src/lib.rt", "//! What is very low: all\n//! of it; and more.\nmod a;\n")
        self.assertEqual(crate_tables.page_of("pc_low"), "What is very low.")
        self.write("crates/pc_low/src/lib.rt", "//! Reads a file to its end, over any reader.\n")
        self.assertEqual(crate_tables.page_of("pc_low"), "Reads a file to its end.")
        self.write("crates/pc_low/src/lib.rt", "//! Files, over any reader.\n")
        self.assertEqual(crate_tables.page_of("pc_low"), "Files, over any reader.")

    def test_a_table_that_is_not_marked(self):
        self.write("docs/ARCHITECTURE.md", TABLES.replace("<!-- crates gate -->\n", ""))
        self.assertEqual(self.printed(crate_tables.main, [])[0], 1)

    def test_a_crate_that_is_new(self):
        self.write("crates.txt", CRATES + "test_high: pc_high\n")
        self.write("crates/test_high/src/lib.rt", "//! Tests of what is high.\n")
        self.assertEqual(self.printed(crate_tables.main, [])[0], 1)


def tokens_of(code):
    """The code without comments and layout."""
    return re.sub(r"\s+", "", re.sub(r"//.*", "", code)).replace(",)", ")")


class Example(unittest.TestCase):
    def test_the_example_of_the_readme_is_in_its_crate(self):
        code = re.search(r"(?s)```rust\n(.*?)```", stored("README.md").decode())[1]
        self.assertIn(tokens_of(code), tokens_of(stored("crates", "example_store", "src", "lib.rt").decode()))


LOW = """\
-- What is small.
use Rattle.std.specs.Prelude.{ℕ, ◌≤◌}

abbrev pub least : ℕ
least = 1

abbrev pub IsSmall : ℕ → Type 0
IsSmall n = n ≤ least
"""
HIGH = """\
-- What is shut.
use Rattle.pc_low.specs.Small.{IsSmall as Tiny}
use Rattle.pc_low.specs.Other as other

abbrev pub IsShut : ℕ → Type 0
IsShut n = Tiny n
"""
SOURCE = """\
ghost use Rattle.pc_high.specs.Shut.{IsShut};

impl Lid {
    pub fn open(&self) -> u64
    {
        1
    }
}

impl Chest {
    pub fn open(&self) -> u64
        requires { IsShut self }
    {
        1
    }
}
"""
PAGE = """\
# Architecture

## What has to be believed

These lists are made.

%s
## Words

Nothing.
"""
LIST = "- **`pc_high` `Chest::open`**: 14 lines in 2 files. `pc_low` `Small` (8); `pc_high` `Shut` (6).\n"


class Guide(InFolder):
    def setUp(self):
        super().setUp()
        self.move(spec_guide)
        self.replace(spec_guide, HEADLINES=[[("pc_high", "Chest::open")]])
        self.write("crates.txt", CRATES)
        self.write("crates/pc_low/specs/Small.antt", LOW)
        self.write("crates/pc_low/specs/Other.antt", "abbrev pub other : ℕ\nother = 2\n")
        self.write("crates/pc_high/specs/Shut.antt", HIGH)
        self.write("crates/pc_high/src/lib.rt", SOURCE)
        self.write("docs/ARCHITECTURE.md", PAGE % LIST)

    def test_the_files_that_a_contract_reaches(self):
        self.assertEqual(self.printed(spec_guide.print_one, "pc_high", "Chest::open")[1], "    8  `pc_low` `Small`: IsSmall least\n    6  `pc_high` `Shut`: IsShut\n   14  in total\n")
        self.assertEqual(self.printed(spec_guide.print_one, "pc_high", "Lid::open")[1], "    0  in total\n")

    def test_a_word_after_a_module(self):
        self.write("crates/pc_high/specs/Shut.antt", HIGH.replace("Tiny n", "other.other ≡ n"))
        self.assertEqual(self.printed(spec_guide.print_one, "pc_high", "Chest::open")[1], "    2  `pc_low` `Other`: other\n    6  `pc_high` `Shut`: IsShut\n    8  in total\n")

    def test_the_path_to_a_word(self):
        path = "`pc_low` `Small` least < `pc_low` `Small` IsSmall < `pc_high` `Shut` IsShut\n"
        self.assertEqual(self.printed(spec_guide.print_path, "pc_high", "Chest::open", "least")[1], path)

    def test_a_page_that_is_current(self):
        spec_guide.check()

    def test_a_page_that_is_not(self):
        self.write("docs/ARCHITECTURE.md", PAGE % LIST.replace("14", "15"))
        self.assertIn("are stale", self.ended(spec_guide.check))
        spec_guide.mark()
        self.assertEqual(self.read("docs/ARCHITECTURE.md"), PAGE % LIST)

    def test_a_definition_that_is_longer(self):
        self.write("crates/pc_low/specs/Small.antt", LOW + "\n-- one line more\n")
        self.assertIn("are stale", self.ended(spec_guide.check))

    def test_a_function_that_is_not_there(self):
        self.assertEqual(self.ended(spec_guide.reach, [("pc_high", "gone")]), "spec_guide: pc_high has no public function gone")


if __name__ == "__main__":
    unittest.main()
