"""What `contracts.py` reports of contracts that differ."""

import subprocess
import unittest
from unittest import mock

from support import InFolder

from tools.house import contracts

SOURCE = """\
/// A box.
pub struct Chest(u64);

impl Chest {
    /// It opens.
    pub fn open(&self) -> u64
        requires { IsShut self }
        ensures one { result ≡ 1 }
        ensures same { self.new ≡ self.old }
    {
        1
    }

    fn hidden(&self) -> u64
        ensures { result ≡ 2 }
    {
        2
    }
}

pub fn open(a: u64) -> u64 {
    a
}

pub trait Lid {
    fn lift(&self)
        ensures { IsUp self };
}

fn lowered() {
}
"""
OPEN = "pub fn open(&self) -> u64\nrequires { IsShut self }\nensures one { result ≡ 1 }\nensures same { self.new ≡ self.old }"


def read(text, is_all=False):
    return {name: [contract] for name, contract in contracts.contracts_in(text, is_all)}


class Contracts(InFolder):
    def test_the_contracts_of_a_text(self):
        lid = "fn lift(&self)\nensures { IsUp self };"
        self.assertEqual(read(SOURCE), {"Chest::open": [OPEN], "open": ["pub fn open(a: u64) -> u64"], "Lid::lift": [lid]})
        self.assertEqual(read(SOURCE, True).keys() - read(SOURCE), {"Chest::hidden", "lowered"})

    def test_bodies_and_comments_are_no_contract(self):
        self.assertEqual(read(SOURCE.replace("        1\n", "        3\n").replace("It opens", "It shuts")), read(SOURCE))

    def test_a_clause_that_is_lost_or_changed(self):
        lost = SOURCE.replace("        ensures same { self.new ≡ self.old }\n", "")
        self.assertEqual([*contracts.differences(read(SOURCE), read(lost))], ["Chest::open:\n-ensures same { self.new ≡ self.old }"])
        other = SOURCE.replace("result ≡ 1", "result ≡ 3")
        self.assertEqual([*contracts.differences(read(SOURCE), read(other))], ["Chest::open:\n-ensures one { result ≡ 1 }\n+ensures one { result ≡ 3 }"])
        self.assertEqual([*contracts.differences(read(SOURCE), read(SOURCE))], [])

    def test_functions_that_one_text_has(self):
        other = SOURCE.replace("pub fn open(a", "pub fn shut(a")
        self.assertEqual([*contracts.differences(read(SOURCE), read(other))], ["open: gone", "shut: new"])
        words = contracts.words_of(self.write("words", "open shut\n\n"))
        self.assertEqual([*contracts.differences(contracts.renamed({"open": ["open opened"]}, words), {"shut": ["shut opened"]})], [])

    def test_two_trees(self):
        self.replace(contracts, ROOT=self.folder)
        source = self.write("crates/pc_low/src/lib.rt", SOURCE)
        self.git("init", "-q")
        self.git("add", ".")
        self.git("-c", "user.name=a", "-c", "user.email=a@b", "commit", "-q", "-m", "one")
        self.assertEqual(self.compared("HEAD", "."), (0, "3 and 3 functions, 0 differences\n"))
        with open(source, "a", encoding="utf-8") as it:
            it.write("\npub fn shut() {\n}\n")
        self.assertEqual(self.compared("HEAD", "."), (1, "shut: new\n3 and 4 functions, 1 differences\n"))
        self.assertEqual(self.compared("HEAD", "HEAD", "--all"), (0, "5 and 5 functions, 0 differences\n"))

    def git(self, *words):
        subprocess.run(("git", "-C", self.folder, *words), check=True, stdin=subprocess.DEVNULL)

    def compared(self, *words):
        with mock.patch("sys.argv", ["contracts.py", *words]):
            return self.printed(contracts.main)


if __name__ == "__main__":
    unittest.main()
