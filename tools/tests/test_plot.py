"""Tests of what `bench/plot.py` draws, and of what it reports of files that it can't use."""

import os
import subprocess
import sys
import unittest

from support import InFolder

PLOT = os.path.join(os.path.dirname(os.path.abspath(__file__)), "..", "..", "bench", "plot.py")


class Plots(InFolder):
    def drawn(self, times, picture="run.svg", *words):
        """The status, standard error, and the picture."""
        path = os.path.join(self.folder, picture)
        if times is not None:
            with open(os.path.join(self.folder, "run.times"), "w", encoding="utf-8") as out:
                out.write(times)
        ran = subprocess.run([sys.executable, PLOT, "run.times", picture, *words], cwd=self.folder, capture_output=True, text=True)
        if not os.path.exists(path):
            return ran.returncode, ran.stderr, ""
        with open(path, encoding="utf-8") as it:
            return ran.returncode, ran.stderr, it.read()

    def test_a_run_is_drawn(self):
        status, err, picture = self.drawn("# times\n0 3 rest\n1 0 capture\n2 5 rest\n", "run.svg", "--title", "2 keys & more")
        self.assertEqual((status, err), (0, ""))
        for part in ("2 keys &amp; more", "8 transactions commit", "The longest time without a commit is 10 ms.", 'fill="#7fc487"'):
            self.assertIn(part, picture)

    def test_many_hundredths_share_a_bar(self):
        times = "".join(f"{number} 2 rest\n" for number in range(3_000))
        status, _, picture = self.drawn(times)
        self.assertEqual((status, picture.count("#3b6ea8")), (0, 600))
        self.assertIn("mean of 5", picture)

    def test_what_is_no_such_file_is_reported(self):
        for times, message in ((None, "No such file or directory"), ("0 x rest\n", "line 1 isn't one of --times"), ("# a\n0 1 rest\n2 1 rest\n", "line 3 isn't one of --times"),
                            ("0 1\n", "line 1 isn't one of --times"), ("0 1 late\n", "line 1 isn't one of --times"), ("# a\n", "no transaction commits in it")):
            self.assertEqual(self.drawn(times), (1, f"run.times: {message}\n", ""))

    def test_a_picture_that_cant_be_written_is_reported(self):
        self.assertEqual(self.drawn("0 1 rest\n", "none/run.svg"), (1, "none/run.svg: No such file or directory\n", ""))


if __name__ == "__main__":
    unittest.main()
