"""What `bench/beside.py` counts and draws, of made-up answers and times."""

import os
import subprocess
import sys
import unittest

from support import ROOT, InFolder

sys.path.insert(0, os.path.join(ROOT, "bench"))

import beside  # noqa: E402

TIMES = "# a run\npcalc 0 3000 0\npcalc 1 1000 1\npcalc 2 1000 0\nredis 0 2000 0\nredis 1 0 1\nredis 2 9000 0\n"


class Counts(unittest.TestCase):
    def test_commits_and_spans_by_tenths(self):
        found = beside.counted([10.05, 10.06, 10.25], 10.0, [(10.21, 10.22)])
        self.assertEqual(found, [(2000, 0), (0, 0), (1000, 1)])

    def test_spans_of_points_in_a_log(self):
        log = [b"%d commit session 1 put k v" % number for number in range(1, 3001)]
        log[1000:1000] = [b"1001 prepare 1", b"1002 resolve 1", b"1003 capture 1"]
        log[2500:2500] = [b"2501 complete 1", b"2502 rest 1"]
        log += [b"3006 prepare 2"]
        self.assertEqual(beside.spans_in(log, [1.0, 2.0, 3.0]), [(2.0, 3.0), (3.0, 3.0)])

    def test_answers_in_pieces_are_counted_once(self):
        sent = []
        answers = iter([b"begun 1\nok\ncommi", b"tted 7\n" + b"committed 8\n" * 998, b"committed 9\n", b"committed 1\n" * 1000])
        asker = beside.Asker(beside.Pcalc, lambda _: next(answers), lambda some: sent.append(bytes(some)) or len(some), [b"one\n", b"two\n"])
        counts = []
        self.assertEqual(len(asker.run(2, counts.append)), 2)
        self.assertEqual((sent, counts), ([b"one\n", b"two\n"], [1000, 2000]))

    def test_rates_leave_the_last_tenth_out(self):
        self.assertEqual([beside.rate_of([(3000, 0), (1000, 1), (1000, 0)], busy) for busy in (0, 1)], [30000, 10000])


class Pictures(InFolder):
    def drawn(self, times):
        self.write("times", times)
        ran = subprocess.run([sys.executable, os.path.join(ROOT, "bench", "beside.py"), "draw", "times", "out.svg", "--title", "a & b"], cwd=self.folder,
                             capture_output=True, text=True)
        return ran.returncode, ran.stderr

    def test_both_servers_are_drawn(self):
        self.assertEqual(self.drawn(TIMES), (0, ""))
        picture = self.read("out.svg")
        for part in ("a &amp; b", "pcalc serve, checkpoints: 30,000 commits a second, 10,000 in the green spans", "Redis, background saves: 20,000 commits a second, 0 in"):
            self.assertIn(part, picture)
        self.assertEqual((picture.count(beside.BARS), picture.count(beside.BUSY)), (6, 2))

    def test_what_is_no_such_file_is_reported(self):
        for times, message in (("", "it has no times"), ("pcalc 1 0 0\n", "line 1 isn't one"), ("other 0 0 0\n", "line 1 isn't one"), ("pcalc 0 0 2\n", "line 1 isn't one"), ("pcalc 0 x 0\n", "line 1 isn't one")):
            status, error = self.drawn(times)
            self.assertEqual(status, 1)
            self.assertIn(message, error)


if __name__ == "__main__":
    unittest.main()
