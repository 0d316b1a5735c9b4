"""The bytes in docs/FORMATS.md are those of the files named there, by the plain readers."""

import re
import unittest

from support import stored

from tools.oracle import plain_files

KINDS = {b"P": "part", b"B": "base", b"L": "log"}
# Two hexadecimal digits a byte, up to the words about them.
LINE = re.compile(r"((?:[0-9a-f]{2} {1,12})*[0-9a-f]{2})(?:   .*)?")


def shown():
    """The bytes of each block of the page that begins with a magic. A block with two columns of files isn't among them."""
    for block in stored("docs/FORMATS.md").decode().split("```")[1::2]:
        lines = [LINE.fullmatch(line.strip()) for line in block.strip().split("\n")]
        text = b"".join(bytes.fromhex(line[1]) for line in lines if line)
        if text.startswith(b"PCALC") and text.count(b"PCALC") == 1:
            yield text


def read(text):
    return plain_files.read(KINDS[text[5:6]], text)


class Shown(unittest.TestCase):
    def test_each_block_is_a_text_of_its_format(self):
        texts = [*shown()]
        for text in texts:
            self.assertEqual(read(text).text(text[6:8]), text)
        self.assertEqual(sorted(text[5:8] for text in texts), [b"B02", b"L01", b"L02", b"L02", b"P01", b"P02", b"P02", b"P02"])

    def test_both_formats_hold_the_same(self):
        texts = {read(text).text() for text in shown()}
        for text in shown():
            if text[6:8] == plain_files.FIRST:
                self.assertIn(read(text).text(), texts)

    def test_they_are_those_of_the_examples(self):
        texts = [*shown()]
        for folder in ("folder", "folder-02"):
            self.assertIn(stored("examples", folder, "log.pcl"), texts)
        for name, number in (("points", 1), ("spaces", 1)):
            written = [bytes.fromhex(line[5:]) for line in stored("examples", name + ".out").decode().split("\n") if line.startswith("text ")]
            self.assertIn(written[number - 1], texts)
        parts = [stored("examples", "parts", f"{number}.pcp") for number in (1, 2, 3)]
        self.assertIn(plain_files.all_joined([plain_files.read_part(text) for text in parts]).text(), texts)


if __name__ == "__main__":
    unittest.main()
