"""What the gate makes of its runs: the times of `gate_times.py`, what `try_programs.py` compares, and the last line of `.ci/run`."""

import json
import os
import shutil
import signal
import subprocess
import sys
import time
import unittest

from support import ROOT, TOOLS, InFolder

from tools.cases import try_programs
from tools.house import gate_times

# A program that takes longer than this is stuck.
SECONDS = 120
SOURCE = """\
//! What is low.
pub fn lowest() -> u64
{
    1
}

pub(crate) const fn hidden() -> u64 {
    2
}

#[cfg(test)]
mod tests {
    fn it_is_one() {}
}
"""
BUDGET = """\
## The gate

### The gate's budget

| what | at most |
|---|---|
| functions | 60 |
| lines of code | 1000 |
| proof from nothing | 180 |
| wrong bodies with their first check | 480 |
| tests | 500 |
| processor minutes | 180 |

| crate | what | at most | why |
|---|---|---|---|
| `pc_high` | proof from nothing | 200 | a reason |

## Other figures

| functions | 1 |
"""


def crate(below=(), proof=0.0, tests=0.0, edits=0.0, bodies=0, lines=100):
    return {"below": [*below], "lines": lines, "code": lines, "functions": 3, "bodies": bodies, "proof": proof, "tests": tests, "edits": edits}


class Times(InFolder):
    def setUp(self):
        super().setUp()
        self.move(gate_times)
        self.write("docs/BENCHMARKS.md", BUDGET)
        self.write("crates.txt", "# store\npc_low: std # the lowest\npc_mid: pc_low\npc_high: pc_mid\n")

    def times(self, minutes=60, **crates):
        return self.write("times.json", json.dumps({"minutes": 30, "all": 60 * minutes, "crates": crates}))

    def test_the_crates_with_all_below_them(self):
        self.assertEqual([*gate_times.crates_of().items()], [("pc_low", []), ("pc_mid", ["pc_low"]), ("pc_high", ["pc_low", "pc_mid"])])

    def test_what_a_crate_is(self):
        self.write("crates/pc_mid/src/lib.rt", SOURCE)
        self.write("crates/pc_mid/src/more_tests.rt", "fn other() {}\n")
        self.write("crates/pc_mid/must-fail/a.edit", "")
        self.write("crates/pc_mid/tried/b.edit", "")
        self.assertEqual(gate_times.described("pc_mid"), {"below": ["pc_low"], "lines": 15, "code": 9, "functions": 2, "bodies": 1})

    def test_the_part_that_a_check_works_for(self):
        check = ["/kit/bin/rattle", "check", "--crate-name", "pc_low"]
        self.assertEqual(gate_times.part_of(check), ("pc_low", "edits"))
        self.assertEqual(gate_times.part_of([*check, "-o", "out"]), ("pc_low", "proof"))
        self.assertEqual(gate_times.part_of([*check, "-o", "out", "--incremental"]), ("pc_low", "edits"))
        self.assertEqual(gate_times.part_of([*check, "-o", "out", "--test"]), ("pc_low", "tests"))
        self.assertIsNone(gate_times.part_of(["/kit/bin/rattle", "fmt"]))
        self.assertIsNone(gate_times.part_of(["/kit/bin/other", *check[1:]]))

    def test_checks_at_work(self):
        """Those below a process are noted, with their greatest use."""
        # A shell that waits for a line, and so starts no process of its own, which would have the shell's words until it runs its program.
        words = ["/kit/bin/rattle", "-c", "read line", "--crate-name", "pc_low"]
        settings = {"stdin": subprocess.PIPE, "start_new_session": True}
        with subprocess.Popen(words, executable="/bin/sh", **settings) as check, subprocess.Popen(["sleep", str(SECONDS)], **settings) as idle:
            try:
                key = (str(check.pid), "pc_low", "proof")
                while gate_times.part_of(self.words_of(check.pid)) is None:
                    time.sleep(0.01)
                seen, others = {key: 5.0}, {}
                self.assertEqual(gate_times.look(os.getpid(), seen), {("pc_low", "proof")})
                self.assertEqual(seen, {key: 5.0})
                self.assertEqual((gate_times.look(idle.pid, others), others), (set(), {}))
            finally:
                for it in (check, idle):
                    os.killpg(it.pid, signal.SIGKILL)

    def words_of(self, pid):
        with open(f"/proc/{pid}/cmdline", encoding="utf-8") as it:
            return it.read().split("\0")

    def test_a_run_within_the_budget(self):
        status, out = self.printed(gate_times.report, self.times(180, pc_low=crate(proof=180.4, edits=480), pc_high=crate(proof=200)))
        self.assertEqual((status, out.splitlines()[-2:]), (0, ["processor minutes: proof 6, tests 0, edits 8; all 180, in 30 minutes", "within the budget"]))

    def test_a_run_over_the_budget(self):
        status, out = self.printed(gate_times.report, self.times(181, pc_low=crate(proof=200, edits=481), pc_high=crate(proof=201)))
        faults = ["pc_low: proof from nothing 200, at most 180", "pc_low: wrong bodies with their first check 481, at most 480"]
        faults += ["pc_high: proof from nothing 201, at most 200", "all: processor minutes 181, at most 180"]
        self.assertEqual((status, out.splitlines()[-4:]), (1, faults))

    def test_a_page_without_a_budget(self):
        self.write("docs/BENCHMARKS.md", "")
        self.assertEqual(self.printed(gate_times.report, self.times(1))[0], 1)

    def test_lanes(self):
        """Two crates of a minute each, one over the other, and four wrong bodies of a minute after the check that they begin with: 1 + 1 + 1 + 4."""
        one, other = crate(proof=60), crate(["pc_low"], proof=60, edits=300, bodies=4)
        times = self.times(pc_low=one, pc_mid=other)
        self.assertEqual(self.printed(gate_times.lanes, times, 1), (0, "7 minutes with 1 processors\n"))
        self.assertEqual(self.printed(gate_times.lanes, times, 2), (0, "4 minutes with 2 processors\n"))
        self.assertEqual(self.printed(gate_times.lanes, times, 4), (0, "3 minutes with 4 processors\n"))

    def test_what_each_check_has_used(self):
        """Each is counted once, with its greatest use; one of no crate of the repository is left out."""
        seen = {("1", "pc_low", "proof"): 1.5, ("2", "pc_low", "proof"): 2.0, ("3", "pc_low", "edits"): 4.0, ("4", "other", "proof"): 8.0}
        crates = gate_times.times_of(seen, 0)["crates"]
        self.assertEqual([crates["pc_low"][part] for part in gate_times.PARTS], [3.5, 0.0, 4.0])
        self.assertEqual([crates["pc_mid"][part] for part in gate_times.PARTS], [0.0, 0.0, 0.0])


class Follower(InFolder):
    """A copy of the tool that follows a run; it is a program of its own, since it takes signals."""

    def follow(self, script):
        for name in ("__init__.py", "house/__init__.py", "house/gate_times.py", "house/rt_source.py"):
            shutil.copy(os.path.join(TOOLS, name), self.write(f"tools/{name}", ""))
        self.write("crates.txt", "pc_low: std\n")
        env = {**os.environ, "RT_JOBS": "3", "GATE_TIMES": "times.json"}
        words = (sys.executable, "tools/house/gate_times.py", "follow", "log", "sh", self.write("run.sh", script))
        return subprocess.Popen(words, cwd=self.folder, env=env, stdin=subprocess.DEVNULL, stdout=subprocess.PIPE, text=True)

    def said(self, text):
        """The lines, each without its time."""
        return [line.partition("] ")[2] for line in text.splitlines()]

    def test_a_run_that_ends(self):
        """Its output goes into the log, the lines of its progress are printed, its status is kept, and its use is written."""
        printed = "rt: pc_low proved\nrt: pc_low: its tests are NOT proved\n| other\nrt: pc_low: trying its must-fail edits (2)\nrt: pc_low: 1 FAILED\n"
        with self.follow(f"printf '{printed}'\necho jobs $RT_JOBS >&2\nexit 3\n") as run:
            lines = self.said(run.communicate(timeout=SECONDS)[0])
        self.assertEqual(run.returncode, 3)
        self.assertEqual(self.read("log"), printed + "jobs 3\n")
        self.assertEqual(lines[1:-1], ["pc_low proved", "pc_low: its tests are NOT proved", "pc_low: trying its must-fail edits (2)", "pc_low: 1 FAILED"])
        self.assertTrue(lines[-1].startswith("processor minutes: proof 0, tests 0, edits 0; all "))
        self.assertEqual([*json.loads(self.read("times.json"))["crates"]], ["pc_low"])

    def test_a_run_that_is_stopped(self):
        with self.follow(f"echo 'rt: pc_low proved'\necho 'rt: pc_low: trying its must-fail edits (2)'\nexec sleep {SECONDS}\n") as run:
            begun = [run.stdout.readline() for _ in range(3)]
            run.terminate()
            lines = self.said(run.communicate(timeout=SECONDS)[0])
        self.assertEqual(self.said(begun[2]), ["pc_low: trying its must-fail edits (2)"])
        self.assertEqual((run.returncode, lines), (143, ["stopped by signal 15: 1 proofs of crates and tests done, wrong bodies of 1 crates begun; running: nothing"]))


class Programs(InFolder):
    def test_what_is_as_expected(self):
        self.assertEqual(try_programs.differences((0, b"a\nb\n", b""), 0, b"a\nb\n", b""), [])
        self.assertEqual(try_programs.differences((2, b"a\nb\n", b"of c and d"), 2, [b"b", b"a"], [b"c", b"d"]), [])

    def test_what_is_not(self):
        self.assertEqual(try_programs.differences((1, b"", b""), 0, b"", b""), ["status 1 (expected 0)"])
        lines = ["its output (+) instead of the expected one (-):", "@@ -1,2 +1 @@", " a", "-b"]
        self.assertEqual(try_programs.differences((0, b"a\n", b""), 0, b"a\nb\n", b""), lines)
        self.assertEqual(try_programs.differences((0, b"", b"c"), 0, b"", b"")[0], "its standard error (+) instead of the expected one (-):")
        self.assertEqual(try_programs.differences((0, b"", b"c"), 0, b"", [b"c", b"d"])[1:], ["@@ -1,2 +1 @@", " c", "-d"])

    def test_calls(self):
        self.assertEqual(try_programs.ran([sys.executable, "-c", "print(1); exit(3)"]), (3, b"1\n", b""))
        self.assertEqual(try_programs.ran([os.path.join(self.folder, "gone")])[:2], (-1, b""))

    def test_the_stored_calls_of_the_measuring_program(self):
        self.replace(try_programs, ROOT=self.folder)
        self.write("bench/counts.txt", "# a comment\n$ one 1\na\nb\n$ two\n")
        program = try_programs.program_of("bench_calls")
        self.assertEqual([*try_programs.counts()], [("bench_calls one 1", (program, "one", "1"), 0, "a\nb\n"), ("bench_calls two", (program, "two"), 0, "")])

    def test_the_stored_examples(self):
        self.replace(try_programs, ROOT=self.folder)
        for name, text in (("a.pcs", ""), ("a.out", "x"), ("a.status", "3"), ("b.pcw", ""), ("b.out", "y"), ("c/1.pcp", ""), ("c.out", "z"), ("d/base.pcb", ""), ("d.out", "w")):
            self.write(f"examples/{name}", text)
        found = [(name, words[1:2], status, out) for name, (_, *words), status, out in try_programs.examples()]
        self.assertEqual([it[0] for it in found], ["examples/a.pcs", "examples/b.pcw", "examples/c", "examples/d"])
        self.assertEqual([it[2:] for it in found], [(3, "x"), (0, "y"), (0, "z"), (0, "w")])
        self.assertEqual([words[0] for _, (_, *words), *_ in try_programs.examples()], ["step", "run", "collapse", "recover"])


    def test_cases_are_counted(self):
        """A part that raises has failed, and those after it are counted too."""

        def one():
            yield "a", []
            yield "b", ["differs"]
            yield "c", []

        def broken():
            yield "d", []
            raise OSError("gone")

        found, out = self.printed(try_programs.counted, (one, broken, one))
        self.assertEqual(found, (5, 3))
        self.assertEqual(out.splitlines()[:3], ["b:", "differs", "broken raised:"])
        self.assertIn("OSError: gone", out)


class Gate(InFolder):
    """A gate whose two parts print given texts."""

    def run_with(self, checks, programs, statuses=(0, 0)):
        shutil.copytree(os.path.join(ROOT, ".ci"), os.path.join(self.folder, ".ci"), dirs_exist_ok=True)
        script = "import sys\nsys.stdout.write(%r)\nsys.exit(%d)\n"
        self.write("tools/house/gate_times.py", "import sys\nopen(sys.argv[2], 'w').write(%r)\nsys.exit(%d)\n" % (checks, statuses[0]))
        self.write("tools/cases/try_programs.py", script % (programs, statuses[1]))
        self.write("tools/house/try_bodies.py", script % ("forgotten\n5 bodies\n", 1))
        os.chmod(self.write("bin/rt", "#!/bin/sh\n"), 0o755)
        env = {**os.environ, "PATH": os.path.join(self.folder, "bin") + os.pathsep + os.environ["PATH"]}
        ran = subprocess.run(["bash", ".ci/run"], cwd=self.folder, env=env, capture_output=True, text=True, timeout=SECONDS)
        return ran.returncode, ran.stdout.splitlines()

    def test_both_parts_pass(self):
        self.assertEqual(self.run_with("a\n600 passed, 0 failed\n", "b\n7 passed, 0 failed\n"), (0, ["b", "5 bodies", "607 passed, 0 failed"]))

    def test_one_part_fails(self):
        self.assertEqual(self.run_with("599 passed, 1 failed\n", "7 passed, 0 failed\n", (1, 0))[1][-1], "606 passed, 1 failed")
        self.assertEqual(self.run_with("600 passed, 0 failed\n", "b\n6 passed, 1 failed\n", (0, 1)), (1, ["600 passed, 0 failed", "b", "6 passed, 1 failed", "5 bodies", "606 passed, 1 failed"]))
        self.assertEqual(self.run_with("600 passed, 0 failed\n", "6 passed, 1 failed\n")[0], 1)

    def test_a_part_that_fails_and_counts_none(self):
        self.assertEqual(self.run_with("600 passed, 0 failed\n", "7 passed, 0 failed\n", (1, 0))[0], 1)
        self.assertEqual(self.run_with("600 passed, 0 failed\n", "7 passed, 0 failed\n", (0, 1))[0], 1)

    def test_a_part_without_its_last_line(self):
        self.assertEqual(self.run_with("", "7 passed, 0 failed\n")[0], 1)
        self.assertEqual(self.run_with("600 passed, 0 failed\n", "7 passed, 0 failed\nbroken")[1][-1], "600 passed, 1 failed")

    def test_a_body_that_was_not_read(self):
        checks = "must-fail pc_low/a.edit: BAD EDIT: b\nmust-fail pc_low/a.edit: BAD EDIT: b\n600 passed, 0 failed\n"
        status, lines = self.run_with(checks, "7 passed, 0 failed\n")
        self.assertEqual((status, lines[0], lines[-1]), (1, "must-fail pc_low/a.edit: BAD EDIT: b", "607 passed, 1 failed"))


if __name__ == "__main__":
    unittest.main()
