"""The plain form of a served store, by rows that were worked by hand."""

import unittest

import support  # noqa: F401

from tools.cases import serve_cases
from tools.oracle import plain_serving, plain_store


class Served(unittest.TestCase):
    def test_rows(self):
        store, pairs = None, {}
        for run, rows in ((7, serve_cases.FIRST), (8, serve_cases.SECOND), (9, serve_cases.THIRD)):
            store = plain_serving.Served(pairs, run)
            self.assertEqual(store.ready(), rows[0][1] + b"\n")
            for line, answer in rows[1:]:
                self.assertEqual(store.answer(line.removesuffix(b"\r")), b"" if answer is None else answer + b"\n", line)
            pairs = store.pairs()

    def test_a_generation_rolls_if_no_transaction_is_open(self):
        store = plain_serving.Served(run=5, roll=1)
        answers = [store.answer(line) for line in (b"begin 1", b"begin 2", b"put 1 a 1", b"commit 1", b"run", b"abort 2", b"run", b"stats")]
        self.assertEqual(answers[4:7], [b"run 5\n", b"aborted\n", b"run 6\n"])
        self.assertEqual(answers[7], b"entries=0 commits=0 points=0 open=0 bytes=20 pairs=1\n")
        self.assertEqual(store.pairs(), plain_store.keyed({b"a": b"1"}))


if __name__ == "__main__":
    unittest.main()
