#!/usr/bin/env python3
"""Follows the merge gate, reports what it uses, in processor seconds by crate and part, and compares that with the budget in docs/BENCHMARKS.md.

    gate_times.py follow LOG COMMAND..      what .ci/run does with `rt ci`: runs the command, writes its output to LOG, prints its progress,
                                            and at its end the minutes by part; if it is stopped, how far it got
    gate_times.py run TIMES.json            runs .ci/run, and writes TIMES.json
    gate_times.py tell TIMES.json           prints the table, and what is over the budget; the status is 1 if something is
    gate_times.py lanes TIMES.json N        how long the gate would take with N processors

A crate's parts are its proof (with the programs that are built of it), its tests (proved and built), and its wrong bodies with the check from nothing
that they begin with. The use of each check is read twice a second; checks of less than half a second are missed, and the sum of all is exact.
The gate gives each check one processor (RT_JOBS), since one with several uses up to twice the processor time, and runs as many concurrently as there are
processors, and memory for each. The lanes are then those of `rt ci`: a proof waits for the proofs below it, tests too, wrong bodies for the proof and the
tests of their crate; the task with the longest chain of lines that wait for it comes first, and wrong bodies fill what proofs leave free.
"""

import glob
import json
import os
import re
import resource
import signal
import subprocess
import sys
import threading
import time

if __name__ == "__main__":
    sys.path.insert(0, os.path.join(os.path.dirname(os.path.abspath(__file__)), "..", ".."))

from tools import ROOT
from tools.house.rt_source import without_tests

PARTS = ("proof", "tests", "edits")
TICKS = os.sysconf("SC_CLK_TCK")
PROGRESS = re.compile(r"^rt: (\w+( is kept|:? (its tests are )?(NOT )?proved|: trying its must-fail edits \(\d+\)|.* FAILED))")
# The memory that one check takes at most, in bytes.
MEMORY = 4e9


# Measuring.


def part_of(words):
    """The crate and the part that a process works for, by its command line; None if it is no check."""
    if not words or not words[0].endswith("rattle") or "--crate-name" not in words:
        return None
    crate = words[words.index("--crate-name") + 1]
    return crate, "edits" if "--incremental" in words or words[1:2] == ["check"] and "-o" not in words else "tests" if "--test" in words else "proof"


def stat_of(pid):
    """The fields of the process's line of numbers, from its state on."""
    with open(f"/proc/{pid}/stat", encoding="utf-8", errors="replace") as it:
        return it.read().rpartition(")")[2].split()


def is_below(pid, top):
    """Whether the process was started by the top one, or by one that was."""
    while pid not in (0, 1, top):
        pid = int(stat_of(pid)[1])
    return pid == top


def look(top, seen):
    """Notes what each check below the top process has used so far, with its ended children, by its number and its part; returns what is running."""
    working = set()
    for pid in filter(str.isdigit, os.listdir("/proc")):
        try:
            with open(f"/proc/{pid}/cmdline", "rb") as it:
                part = part_of(it.read().decode(errors="replace").split("\0"))
            if part and is_below(int(pid), top):
                working.add(part)
                seconds = sum(map(int, stat_of(pid)[11:15])) / TICKS
                seen[pid, *part] = max(seen.get((pid, *part), 0), seconds)
        except OSError:
            pass
    return working


def times_of(seen, began):
    """What was seen, as TIMES.json has it."""
    used = resource.getrusage(resource.RUSAGE_CHILDREN)
    crates = {it: {**described(it), **dict.fromkeys(PARTS, 0.0)} for it in crates_of()}
    for (_, crate, part), seconds in seen.items():
        if crate in crates:
            crates[crate][part] = round(crates[crate][part] + seconds, 1)
    return {"minutes": round((time.time() - began) / 60, 1), "all": round(used.ru_utime + used.ru_stime), "crates": crates}


def lanes_here():
    """As many concurrent checks as there are processors that may be used, and memory for each."""
    with open("/proc/meminfo", encoding="ascii") as it:
        free = int(re.search(r"MemAvailable:\s+(\d+)", it.read())[1]) * 1024
    return max(1, min(len(os.sched_getaffinity(0)), int(free / MEMORY)))


class Follower:
    """A run of the gate's checks: its output and its use so far."""

    def __init__(self):
        self.began, self.seen, self.progress, self.working, self.ran = time.time(), {}, [], set(), None

    def say(self, text):
        print(f"[{(time.time() - self.began) / 60:5.1f} min] {text}", flush=True)

    def read(self, log):
        """Writes each line of the run to the log, and prints those that report progress."""
        with open(log, "w", encoding="utf-8") as out:
            for line in self.ran.stdout:
                out.write(line)
                found = PROGRESS.match(line)
                if found:
                    self.progress.append(found[1])
                    self.say(found[1])

    def stop(self, number, _frame):
        """Ends the run, and prints how far it got."""
        proved = sum(it.endswith(" proved") and "NOT" not in it for it in self.progress)
        tried = sum("must-fail" in it for it in self.progress)
        self.say(f"stopped by signal {number}: {proved} proofs of crates and tests done, wrong bodies of {tried} crates begun; running: "
                 + (", ".join(f"{crate} {part}" for crate, part in sorted(self.working)) or "nothing"))
        os.killpg(self.ran.pid, signal.SIGTERM)
        os._exit(128 + number)

    def follow(self, log, command):
        lanes = os.environ.get("RT_JOBS") or str(lanes_here())
        self.say(f"{' '.join(command)}, {lanes} checks at a time")
        self.ran = subprocess.Popen(command, stdin=subprocess.DEVNULL, stdout=subprocess.PIPE, stderr=subprocess.STDOUT, text=True, errors="replace",
                                    env={**os.environ, "RT_JOBS": lanes}, start_new_session=True)
        for it in (signal.SIGTERM, signal.SIGINT, signal.SIGHUP):
            signal.signal(it, self.stop)
        reader = threading.Thread(target=self.read, args=(log,))
        reader.start()
        while self.ran.poll() is None:
            self.working = look(self.ran.pid, self.seen)
            time.sleep(0.5)
        reader.join()
        found = times_of(self.seen, self.began)
        self.say("processor minutes: " + sums_of(found))
        if os.environ.get("GATE_TIMES"):
            with open(os.environ["GATE_TIMES"], "w", encoding="utf-8") as it:
                json.dump(found, it, indent=1)
        return self.ran.returncode


def sums_of(found):
    parts = {part: sum(it[part] for it in found["crates"].values()) / 60 for part in PARTS}
    return ", ".join(f"{part} {parts[part]:.0f}" for part in PARTS) + f"; all {found['all'] / 60:.0f}, in {found['minutes']} minutes"


# What a crate is.


def crates_of():
    """The crates of crates.txt, each with those of the repository on which it depends, directly or not, lowest first."""
    with open(os.path.join(ROOT, "crates.txt"), encoding="utf-8") as it:
        return crates_in(it.read())


def crates_in(text):
    """The same for the text of crates.txt."""
    named = {}
    for line in text.splitlines():
        name, colon, rest = line.partition("#")[0].strip().partition(":")
        if colon:
            named[name.split(" ")[0]] = rest.split()
    below = {}

    def find(name):
        if name not in below:
            direct = [it for it in named[name] if it in named]
            below[name] = sorted({*direct, *(lower for it in direct for lower in find(it))})
        return below[name]

    for name in named:
        find(name)
    return dict(sorted(below.items(), key=lambda it: len(it[1])))


def texts(name, *patterns):
    for pattern in patterns:
        for file in glob.glob(os.path.join(ROOT, "crates", name, pattern), recursive=True):
            with open(file, encoding="utf-8") as it:
                yield os.path.basename(file), it.read()


def described(name):
    """A crate's lines and functions, those of its tests, and the number of its wrong bodies that the gate tries."""
    code = [without_tests(*it) for it in texts(name, "src/**/*.rt")]
    lines, all_lines = (sum(it.count("\n") for it in found) for found in (code, [text for _, text in texts(name, "src/**/*.rt")]))
    return {
        "below": crates_of()[name],
        "lines": all_lines,
        "code": lines,
        "functions": sum(len(re.findall(r"(?m)^\s*(?:pub(?:\([a-z]+\))? )?(?:const )?fn \w", it)) for it in code),
        "bodies": sum(1 for _ in texts(name, "must-fail/*.edit")),
    }


# The budget.


def budget():
    """The rows `| what | at most |` and, of crates that are over it, `| crate | what | at most | why |`, below the budget's heading."""
    with open(os.path.join(ROOT, "docs", "BENCHMARKS.md"), encoding="utf-8") as it:
        text = it.read().partition("### The gate's budget\n")[2].partition("\n## ")[0]
    most = {row[0]: int(row[1]) for row in re.findall(r"(?m)^\| ([a-z ]+) \| (\d+) \|$", text)}
    over = {(row[0], row[1]): int(row[2]) for row in re.findall(r"(?m)^\| `(\w+)` \| ([a-z ]+) \| (\d+) \|(?: .*\|)?$", text)}
    return most, over


def measured(crate):
    return {
        "functions": crate["functions"],
        "lines of code": crate["code"],
        "proof from nothing": round(crate["proof"]),
        "wrong bodies with their first check": round(crate["edits"]),
        "tests": round(crate["tests"]),
    }


def read_times(file):
    with open(file, encoding="utf-8") as it:
        return json.load(it)


def report(file):
    found = read_times(file)
    print(f"{'crate':16} {'code':>5} {'fns':>4} {'bodies':>6} {'proof':>7} {'tests':>7} {'edits':>7}")
    for name, crate in found["crates"].items():
        print(f"{name:16} {crate['code']:5} {crate['functions']:4} {crate['bodies']:6} " + " ".join(f"{crate[part]:7.0f}" for part in PARTS))
    print("processor minutes: " + sums_of(found))
    most, over = budget()
    if not most:
        print("docs/BENCHMARKS.md has no budget")
        return 1
    values = [(name, what, value, over.get((name, what), most[what])) for name, crate in found["crates"].items() for what, value in measured(crate).items()]
    values.append(("all", "processor minutes", round(found["all"] / 60), most["processor minutes"]))
    faults = [f"{name}: {what} {value}, at most {limit}" for name, what, value, limit in values if value > limit]
    print("\n".join(faults) or "within the budget")
    return 1 if faults else 0


# The lanes.


def tasks_of(crates):
    """What each task waits for, the lines that it is ranked by, and its seconds; the check that a crate's wrong bodies begin with is counted for the first one."""
    tasks = {}
    for name, crate in crates.items():
        waits = [(below, "proof") for below in crate["below"]]
        tasks[name, "proof"] = waits, crate["lines"], crate["proof"]
        tasks[name, "tests"] = waits, crate["lines"] if crate["tests"] else 0, crate["tests"]
        seed = min(crate["edits"], crate["proof"])
        tasks[name, "seed"] = waits, 0, seed
        for number in range(crate["bodies"]):
            tasks[name, number] = [(name, "proof"), (name, "tests"), (name, "seed")], crate["lines"], (crate["edits"] - seed) / crate["bodies"]
    return tasks


def ranks_of(tasks):
    rank = {key: it[1] for key, it in tasks.items()}
    for key in reversed([*tasks]):
        for below in tasks[key][0]:
            rank[below] = max(rank[below], tasks[below][1] + rank[key])
    return rank


def lanes(file, count):
    tasks = tasks_of(read_times(file)["crates"])
    rank = ranks_of(tasks)
    left = sorted(tasks, key=lambda it: (it[1] not in ("proof", "tests"), -rank[it]))
    running, ended, now = {}, set(), 0.0
    while left or running:
        for key in [it for it in left if all(below in ended for below in tasks[it][0])][: count - len(running)]:
            left.remove(key)
            running[key] = now + tasks[key][2]
        now = min(running.values())
        for key in [it for it, end in running.items() if end <= now]:
            ended.add(key)
            del running[key]
    print(f"{now / 60:.0f} minutes with {count} processors")
    return 0


def run(file):
    return subprocess.run(["bash", ".ci/run"], cwd=ROOT, env={**os.environ, "GATE_TIMES": os.path.abspath(file)}).returncode


def main(words):
    match words:
        case ["follow", log, *command] if command:
            return Follower().follow(log, command)
        case ["run", file]:
            return run(file)
        case ["tell", file]:
            return report(file)
        case ["lanes", file, count]:
            return lanes(file, int(count))
    print(__doc__, file=sys.stderr)
    return 2


if __name__ == "__main__":
    sys.exit(main(sys.argv[1:]))
