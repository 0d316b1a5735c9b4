#!/usr/bin/env python3
"""Draws a run of `pcalc run WORKLOAD --times FILE`: how many transactions committed over its time, and the phases of its checkpoints.

    bench/plot.py FILE SVG [--title TEXT]     reads the times from FILE and writes the picture to SVG

TEXT is its title: what was run, as its keys, its clients and the machine. A bar is a hundredth of a second or, for a run of more than 7 seconds, the mean
of several. The strip below the bars has the colour of the phase at the end of each hundredth of a second, so that a phase which begins and ends within
one isn't shown. A fault of FILE or SVG is reported in a line, and the status is 1.
"""

import argparse
import html
import itertools
import sys

WIDTH, HEIGHT = 860, 420
LEFT, RIGHT, TOP, BOTTOM = 70, 20, 104, 92
# the strip of the phases, and how far below the bars it begins
STRIP, BELOW = 14, 26
MOST_BARS = 700
# hundredths in a second
SECOND = 100
TICKS = 6
COLOURS = {"rest": "#f2f2f2", "prepare": "#f2c94c", "resolve": "#e2765a", "capture": "#7fc487", "complete": "#b294d4"}
MEANINGS = {
    "prepare": "waits for the transactions begun before it",
    "resolve": "the point; waits for those begun in prepare",
    "capture": "takes the keys that the point is to save",
    "complete": "waits for those begun in resolve and capture",
}


class NoTimes(Exception):
    """What is wrong with a file that isn't one of `--times`."""


def read(path):
    """The commits and the phase of each hundredth of a second, from the first on."""
    commits, phases = [], []
    with open(path, encoding="ascii", errors="replace") as it:
        for number, line in enumerate(it, 1):
            if line.startswith("#"):
                continue
            words = line.split()
            if len(words) != 3 or words[0] != str(len(commits)) or not words[1].isdecimal() or words[2] not in COLOURS:
                raise NoTimes(f"line {number} isn't one of --times")
            commits.append(int(words[1]))
            phases.append(words[2])
    if not any(commits):
        raise NoTimes("no transaction commits in it")
    return commits, phases


def longest_pause(commits):
    """The most hundredths in a row without a commit, between the first and the last that have some."""
    runs = [(has_some, sum(1 for _ in run)) for has_some, run in itertools.groupby(commits, bool)]
    return max((length for place, (has_some, length) in enumerate(runs) if not has_some and 0 < place < len(runs) - 1), default=0)


def grouped(commits, size):
    """The mean of each `size` in a row; the last ones may be fewer."""
    groups = (commits[at : at + size] for at in range(0, len(commits), size))
    return [sum(group) / len(group) for group in groups]


def nice(most):
    """A step for about TICKS marks up to this: 1, 2 or 5 times a power of ten."""
    least = most / TICKS
    step = 10.0 ** -2
    while True:
        for factor in (1, 2, 5):
            if step * factor >= least:
                return step * factor
        step *= 10


def marks(most):
    step = nice(most)
    return [step * number for number in range(int(most / step) + 1)]


def text(x, y, words, more=""):
    return f'<text x="{x:.1f}" y="{y:.1f}"{more}>{words}</text>\n'


def box(x, y, width, height, colour):
    return f'<rect x="{x:.1f}" y="{y:.1f}" width="{width:.2f}" height="{height:.1f}" fill="{colour}"/>\n'


def line(x1, y1, x2, y2):
    return f'<line x1="{x1:.1f}" y1="{y1:.1f}" x2="{x2:.1f}" y2="{y2:.1f}" stroke="#444444"/>\n'


def strip(phases, across):
    """Below the bars a box for each phase, from its first hundredth to its last."""
    top = HEIGHT - BOTTOM + BELOW
    drawn, at = text(LEFT - 7, top + 11, "phase", ' text-anchor="end"'), 0
    for phase, run in itertools.groupby(phases):
        length = sum(1 for _ in run)
        drawn += box(LEFT + at * across, top, max(length * across, 1), STRIP, COLOURS[phase])
        at += length
    return drawn


def legend():
    """What the colours mean, in two columns."""
    drawn = ""
    for place, (phase, meaning) in enumerate(MEANINGS.items()):
        x, y = LEFT + place // 2 * (WIDTH - LEFT) / 2, TOP - 46 + place % 2 * 18
        drawn += f'<rect x="{x:.1f}" y="{y:.1f}" width="12" height="12" fill="{COLOURS[phase]}"/>\n' + text(x + 18, y + 10, f"{phase}: {meaning}")
    return drawn


def axes(seconds, most, size):
    """Both axes with their marks, names and units; a bar is the mean of `size` hundredths of a second."""
    bottom, up, across = HEIGHT - BOTTOM, HEIGHT - TOP - BOTTOM, (WIDTH - LEFT - RIGHT) / seconds
    drawn = line(LEFT, bottom, WIDTH - RIGHT, bottom) + line(LEFT, TOP, LEFT, bottom)
    for second in marks(seconds):
        x = LEFT + second * across
        drawn += line(x, bottom, x, bottom + 4) + text(x, bottom + 17, f"{second:g}", ' text-anchor="middle"')
    for count in marks(most):
        y = bottom - count * up / most
        drawn += line(LEFT - 4, y, LEFT, y) + text(LEFT - 7, y + 4, f"{count:g}", ' text-anchor="end"')
    drawn += text((LEFT + WIDTH - RIGHT) / 2, HEIGHT - 18, "time since the beginning of the run, in seconds", ' text-anchor="middle"')
    middle, mean = (TOP + bottom) / 2, "" if size == 1 else f", mean of {size}"
    return drawn + text(14, middle, f"commits in a hundredth of a second{mean}", f' text-anchor="middle" transform="rotate(-90 14 {middle:.1f})"')


def drawn(commits, phases, title):
    """The picture."""
    size = -(-len(commits) // MOST_BARS)
    bars, across = grouped(commits, size), (WIDTH - LEFT - RIGHT) / len(commits)
    most, bottom, up = max(bars), HEIGHT - BOTTOM, HEIGHT - TOP - BOTTOM
    shown = "".join(box(LEFT + place * size * across, bottom - bar * up / most, max(size * across * 0.8, 0.5), bar * up / most, "#3b6ea8") for place, bar in enumerate(bars))
    pause = longest_pause(commits)
    longest = f"The longest time without a commit is {pause * 1_000 // SECOND} ms." if pause else "There is no hundredth of a second without a commit."
    means = f"{sum(commits):,} transactions commit while checkpoints are taken. {longest}"
    return f"""<svg xmlns="http://www.w3.org/2000/svg" viewBox="0 0 {WIDTH} {HEIGHT}" font-family="sans-serif" font-size="12">
<rect width="{WIDTH}" height="{HEIGHT}" fill="white"/>
{text(LEFT, 22, html.escape(title), ' font-size="15"')}{text(LEFT, 43, means)}{legend()}{shown}{strip(phases, across)}{axes(len(commits) / SECOND, most, size)}</svg>
"""


def main():
    words = argparse.ArgumentParser(description=__doc__.splitlines()[0])
    words.add_argument("times", metavar="FILE")
    words.add_argument("picture", metavar="SVG")
    words.add_argument("--title", metavar="TEXT", default="A run with checkpoints")
    asked = words.parse_args()
    try:
        picture = drawn(*read(asked.times), asked.title)
    except (OSError, NoTimes) as fault:
        sys.exit(f"{asked.times}: {getattr(fault, 'strerror', None) or fault}")
    try:
        with open(asked.picture, "w", encoding="utf-8") as out:
            out.write(picture)
    except OSError as fault:
        sys.exit(f"{asked.picture}: {fault.strerror}")


if __name__ == "__main__":
    main()
