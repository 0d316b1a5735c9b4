"""What `house.py` counts in made-up crates and in the repository."""

import unittest

from support import InFolder

from tools.house import gate_times, house, rt_source

SOURCE = '''\
//! What is small.

// so many words, fn of_no_code(a, b)
pub fn first<R: Read, F: Fn(u8) -> u8>(rt: &R, pair: (u8, u8), [a, b]: [u8; 2], f: F) -> Result<[u8; 2], Refusal>
    requires { A < B }
    ensures found { Result { a, b } }
{
    let text = "fn second(a: u8, b: u8) { }";

    // a comment
    f(text)
}

pub trait Third {
    fn third(&mut self);
}

pub fn fourth(
    one: u8, two: u8, three: u8,
    four: u8, five: u8, six: u8, seven: u8,
) -> u8 {
    one
}

#[cfg(test)]
mod tests {
    fn fifth(a: u8) {}
}
'''
SPECS = "-- it stands\nabbrev pub rest_of : ℕ → ℕ\nrest_of n = n\n\nabbrev pub IsShut : ℕ → Type 0\nIsShut n = n ≤ 1\n"


class Counts(InFolder):
    def setUp(self):
        super().setUp()
        self.move(house, gate_times)
        self.write("crates.txt", "pc_low: std\npc_mid: pc_low\npc_high: pc_low pc_mid\ntest_low: pc_low\n")
        for name in ("pc_low", "pc_mid", "pc_high", "test_low"):
            self.write(f"crates/{name}/src/lib.rt", SOURCE)
        self.write("crates/pc_low/specs/Small.antt", SPECS)
        self.write("crates/pc_low/proofs/Lib.antt", "-- a comment\n\none\ntwo\n")
        self.write("crates/pc_low/must-fail/one.edit", "")
        self.write("crates/pc_low/tried/two.edit", "")
        self.write("README.md", "four words of it\n")

    def test_functions_with_their_parameters_and_bodies(self):
        found = [*rt_source.sizes_in("lib.rt", rt_source.without_tests("lib.rt", SOURCE))]
        self.assertEqual(found, [("lib.rt", "first", 4, 2), ("lib.rt", "third", 1, 0), ("lib.rt", "fourth", 7, 1)])

    def test_a_crate(self):
        self.assertEqual(house.described("pc_low"), ("pc_low", SOURCE.partition("\n#[cfg")[0].count("\n"), 3, 14, 2, 1, 1))

    def test_what_is_counted_of_all(self):
        _, found = house.counted()
        self.assertEqual(found["longest chain of crates"], ["pc_low", "pc_mid", "pc_high"])
        self.assertEqual(found["crates of the product without a wrong body"], ["pc_mid", "pc_high"])
        self.assertEqual(house.size(found["functions of more than 6 parameters"]), 4)
        self.assertEqual(house.size(found["words of the pages"]), 4)
        self.assertEqual(house.size(found["words to avoid"]), 5)
        self.assertEqual(found["lower-case words of definitions with two homes"], [])

    def test_words_to_avoid_in_comments_and_docstrings(self):
        self.write("README.md", "it stands\n")
        self.write("embedding/include/a.h", 'char *text = "// it stands"; /* it\nstands */ // worth\n')
        self.write("embedding/tests/b.cpp", "// exactly where it stood\n")
        self.write("bench/c.c", "int worth; /* it is told */\n")
        self.write("clients/python/d.py", '"""It stands."""\n\n\nclass Worth:\n    """It lends."""\n\n    def stood(self):\n        """It\n        stood."""\n        return "it stands"  # it was told\n')
        self.write("tools/cases/e.py", "stands = 'worth'  # so many\n")
        for name in ("tools/tests/f.py", "tools/house/house.py", "bench/deeper/g.c"):
            self.write(name, "# it stands\n// it stands\n")
        found = house.counted()[1]["words to avoid"]
        wanted = {"README.md": 1, "embedding/include/a.h": 2, "embedding/tests/b.cpp": 2, "bench/c.c": 1, "clients/python/d.py": 4, "tools/cases/e.py": 1}
        self.assertEqual({name: count for name, count in found.items() if count and not name.startswith("crates/")}, wanted)

    def test_words_with_two_homes(self):
        self.write("crates/pc_mid/specs/Other.antt", SPECS)
        self.write("crates/test_low/specs/Other.antt", SPECS)
        _, found = house.counted()
        self.assertEqual(found["lower-case words of definitions with two homes"], ["rest_of: crates/pc_low/specs/Small.antt crates/pc_mid/specs/Other.antt"])
        self.assertEqual(house.size(found["types and facts of definitions with two homes"]), 1)

    def test_a_file_and_a_function_that_are_too_long(self):
        self.write("crates/pc_mid/src/long.rt", "fn long() {\n" + "    step();\n" * 801 + "}\n")
        _, found = house.counted()
        self.assertEqual(found["files of more than 800 lines"], ["crates/pc_mid/src/long.rt"])
        self.assertEqual(found["functions of more than 40 lines"], ["crates/pc_mid/src/long.rt long 801"])

    def test_a_count_over_its_limit_fails(self):
        self.replace(house, LIMITS={what: (100, 0) for what in house.LIMITS})
        self.assertEqual(self.printed(house.main, [])[0], 0)
        self.replace(house, LIMITS={**house.LIMITS, "longest chain of crates": (2, 2)})
        status, out = self.printed(house.main, [])
        self.assertEqual((status, out.splitlines()[-1]), (1, "over its limit: longest chain of crates"))

    def test_what_is_over_its_goal_is_named(self):
        self.replace(house, LIMITS={**{what: (100, 100) for what in house.LIMITS}, "longest chain of crates": (100, 2)})
        self.assertEqual(self.printed(house.main, ["--over"])[1], "longest chain of crates\n  pc_low\n  pc_mid\n  pc_high\n")


class House(InFolder):
    def test_the_repository_keeps_its_limits(self):
        status, out = self.printed(house.main, [])
        self.assertEqual(status, 0, out)
        self.assertTrue(all(most >= goal for most, goal in house.LIMITS.values()))

    def test_each_crate_has_its_line(self):
        _, out = self.printed(house.main, ["--crates"])
        self.assertEqual([line.split()[0] for line in out.splitlines()[1:]], [*gate_times.crates_of()])


if __name__ == "__main__":
    unittest.main()
