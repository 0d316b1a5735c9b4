"""What `tutorial_cases.py` reads from a page, and what it reports of commands with another output."""

import unittest

from support import InFolder, stored

from tools.cases import tutorial_cases

PAGE = "Text.\n\n```console\n$ echo a\na\n$ true\n```\n\n```\n$ not run\n```\n\n```console\n$ printf 'b\\nc\\n'\nb\nc\n```\n"


class Tutorials(InFolder):
    def test_commands_with_what_they_print(self):
        self.assertEqual(tutorial_cases.commands_in(PAGE), [["echo a", "a\n"], ["true", ""], ["printf 'b\\nc\\n'", "b\nc\n"]])

    def test_a_block_that_begins_with_an_output(self):
        with self.assertRaises(ValueError):
            tutorial_cases.commands_in("```console\na\n```\n")

    def test_what_a_shell_prints(self):
        commands = ["x=1; echo a", "echo $x; echo b >&2", "ls clients.pcw"]
        self.assertEqual(tutorial_cases.printed(commands, "/bin/true", self.folder + "/room"), ["a\n", "1\nb\n", "clients.pcw\n"])

    def test_a_shell_that_ends_too_early(self):
        self.assertEqual(tutorial_cases.printed(["echo a", "exit 3", "echo b"], "/bin/true", self.folder + "/room"), ["a\n"])

    def test_differences(self):
        commands = [["a", "1\n"], ["b", "2\n"], ["c", ""]]
        self.assertEqual(list(tutorial_cases.differences(commands, ["1\n", "3\n"])), [("a", []), ("b", ["-2", "+3"]), ("c", ["it was not run"])])

    def test_the_page_has_commands(self):
        self.assertGreater(len(tutorial_cases.commands_in(stored("docs", "TUTORIAL.md").decode())), 5)


if __name__ == "__main__":
    unittest.main()
