"""What `rt_source.py` reads of sources, and that it reads each function of the repository."""

import os
import re
import unittest

from support import ROOT, InFolder

from tools import text_of
from tools.house import rt_source

SOURCE = '''\
//! What is read.
#![tactic(auto)]

use pc_low::lowest; // fn of_no_code()

/// A box, with `fn inside()` in its page.
#[derive(Copy)]
pub struct Chest(u64);

impl<R: Read, F: Fn(u8) -> u8> Lid for Chest<R, F> {
    /// It lifts.
    fn lift(&mut self, text: &str) -> bool
        requires { IsShut self.old }
        // half of it
        ensures open { IsOpen self.new } // and the other half
        ensures* same { Result { a = self.old } }
    {
        text == "// fn of_no_code() {"
    }
}

impl Chest {
    pub(crate) fn depth(&self) -> u64 {
        1
    }

    #[inline(always)]
    #[tactic(auto)]
    pub const fn deep<T>(
        first: u8,
        second: T,
    ) -> u64
        ensures { result ≡ 1 }
    {
        1
    }
}

pub trait Lid {
    ghost type Of;

    fn lift(&mut self, text: &str) -> bool
        ensures { IsOpen self.new };

    fn shut(&mut self) {}
}

/// For other languages.
#[unsafe(no_mangle)]
pub extern "C" fn handed(handle: &mut Handle) -> u32
    ensures kept { handle.new ≡ handle.old }
{
    0
}

fn private() {
}

#[cfg(test)]
mod tests {
    #[test]
    fn it_is_one() {
        deep(1, 2);
    }
}
'''


def by_name(text):
    return {rt_source.full_name(it): it for it in rt_source.functions_in(text)}


class Sources(unittest.TestCase):
    def setUp(self):
        self.found = [*rt_source.functions_in(SOURCE)]

    def test_each_function_with_its_type_and_trait(self):
        found = [(it.owner, it.trait, it.name) for it in self.found]
        methods = [("Chest", "Lid", "lift"), ("Chest", "", "depth"), ("Chest", "", "deep"), ("Lid", "Lid", "lift"), ("Lid", "Lid", "shut")]
        self.assertEqual(found, [*methods, ("", "", "handed"), ("", "", "private"), ("", "", "it_is_one")])

    def test_which_are_public(self):
        found = [rt_source.full_name(it) for it in self.found if rt_source.is_public(it)]
        self.assertEqual(found, ["Chest::lift", "Chest::deep", "Lid::lift", "Lid::shut", "handed"])

    def test_a_signature_has_its_clauses_and_no_layout(self):
        lift, _, deep, of_trait, shut, handed, *_ = map(rt_source.signature_in, self.found)
        clauses = "requires { IsShut self.old }\nensures open { IsOpen self.new }\nensures* same { Result { a = self.old } }"
        self.assertEqual(lift, "fn lift(&mut self, text: &str) -> bool\n" + clauses)
        self.assertEqual(deep, "pub const fn deep<T>(\nfirst: u8,\nsecond: T,\n) -> u64\nensures { result ≡ 1 }")
        self.assertEqual((of_trait, shut), ("fn lift(&mut self, text: &str) -> bool\nensures { IsOpen self.new };", "fn shut(&mut self) {}"))
        self.assertEqual(handed.partition("\n")[0], 'pub extern "C" fn handed(handle: &mut Handle) -> u32')

    def test_clauses_one_by_one(self):
        lift, depth, deep, *_ = self.found
        found = [("requires", "", "IsShut self.old"), ("ensures", "open", "IsOpen self.new"), ("ensures", "same", "Result { a = self.old }")]
        self.assertEqual([*rt_source.clauses_in(lift)], found)
        self.assertEqual(([*rt_source.clauses_in(depth)], [*rt_source.clauses_in(deep)]), ([], [("ensures", "", "result ≡ 1")]))
        self.assertEqual((rt_source.clauses_text(depth), rt_source.clauses_text(deep)), ("", "ensures { result ≡ 1 }"))

    def test_sizes(self):
        found = [it[1:] for it in rt_source.sizes_in("lib.rt", rt_source.without_tests("lib.rt", SOURCE))]
        self.assertEqual(found, [("lift", 2, 1), ("depth", 1, 1), ("deep", 2, 1), ("lift", 2, 0), ("shut", 1, 0), ("handed", 1, 1), ("private", 0, 0)])

    def test_files_of_tests_have_no_code(self):
        self.assertEqual(rt_source.without_tests("pair_tests.rt", SOURCE), "")
        self.assertNotIn("it_is_one", rt_source.without_tests("lib.rt", SOURCE))

    def test_comments_end_where_literals_begin(self):
        self.assertEqual(rt_source.without_comments("a // b\n\"//\" '/' '\\'' /* c\nd */ e // f"), "a \n\"//\" '/' '\\''  e ")
        self.assertEqual(rt_source.blanked("a // b\n\"//\" /* c\nd */ e"), "a \n\"\" \n e")


class Exports(InFolder):
    def test_what_a_root_exports(self):
        root = "//! pub use a::gone;\nmod a;\npub mod codes;\npub use a::{Chest, open as opened, put};\npub use a::b::Lid;\npub use a::{\n    first,\n    second,\n};\n"
        self.assertEqual(rt_source.exports(root), ({"Chest", "open", "put", "Lid", "first", "second"}, {"codes"}))

    def test_public_functions(self):
        """Those that the root exports, of its types and traits and of public modules; not those of a trait's `impl`."""
        self.write("src/lib.rt", "mod a;\npub mod codes;\npub use a::{Chest, Lid, handed};\n")
        self.write("src/a.rt", SOURCE + "pub fn hidden() {\n}\n\nimpl Other {\n    pub fn of_no_one() {\n    }\n}\n")
        self.write("src/codes.rt", "pub fn code() {\n}\n")
        found = [rt_source.full_name(it) for it in rt_source.public_functions(self.folder)]
        self.assertEqual(found, ["Chest::deep", "Lid::lift", "Lid::shut", "handed", "code"])


class Repository(unittest.TestCase):
    def test_each_function_is_read_with_all_its_clauses(self):
        """As many functions as heads, and as many clauses as lines of their signatures that begin with one."""
        for name in sorted(os.listdir(os.path.join(ROOT, "crates"))):
            for path in rt_source.sources(os.path.join(ROOT, "crates", name)):
                text = text_of(path)
                heads = re.findall(r"(?m)^\s*(?:pub(?:\([a-z]+\))? )?(?:(?:const|unsafe|final|extern \"C\") )*fn (\w+)", rt_source.without_comments(text))
                found = [*rt_source.functions_in(text)]
                self.assertEqual([it.name for it in found], heads, path)
                for it in found:
                    lines = re.findall(r"(?m)^(?:requires|ensures)\b", rt_source.signature_in(it))
                    self.assertEqual(len([*rt_source.clauses_in(it)]), len(lines), f"{path}: {it.name}")


if __name__ == "__main__":
    unittest.main()
