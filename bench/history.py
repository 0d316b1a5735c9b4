"""Records figures if a script is run with `--note`: a row of bench/history.csv for each, with the date, the commit and the machine.

The machine is the number and the name of its processors. A `+` marks uncommitted changes.
"""

import csv
import datetime
import os
import subprocess
import sys

ROOT = os.path.join(os.path.dirname(os.path.abspath(__file__)), "..")
FILE = os.path.join(ROOT, "bench", "history.csv")
HEAD = ("date", "commit", "machine", "figure", "value", "unit")
NOTES = "--note" in sys.argv

if NOTES:
    sys.argv.remove("--note")


def git(*words):
    return subprocess.run(["git", "-C", ROOT, *words], check=True, capture_output=True, text=True).stdout.strip()


def commit():
    return git("rev-parse", "--short=7", "HEAD") + ("+" if git("status", "--porcelain", "--untracked-files=no", "--", "crates", "bench") else "")


def machine():
    with open("/proc/cpuinfo", encoding="utf-8") as it:
        names = [line.partition(":")[2].strip() for line in it if line.startswith("model name")]
    return f"{len(names)} x {names[0]}" if names else "unknown"


def note(figure, value, unit):
    """Records the figure, with at most three decimals, if `--note` was given."""
    if not NOTES:
        return
    new = not os.path.exists(FILE)
    with open(FILE, "a", encoding="utf-8", newline="") as out:
        rows = csv.writer(out, lineterminator="\n")
        if new:
            rows.writerow(HEAD)
        rows.writerow((datetime.date.today().isoformat(), commit(), machine(), figure, f"{value:.3f}".rstrip("0").rstrip("."), unit))
