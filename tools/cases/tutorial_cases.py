"""The tutorial, for `try_programs.py`: each command of docs/TUTORIAL.md prints what the page has below it.

A block that begins with ```console has commands, each after `$ `, and after each what both of its streams print. One bash runs them all, in their order, in a
folder with the files of examples/ and with the program as `pcalc`.
"""

import os
import re
import shutil
import subprocess

from tools import ROOT

PAGE = os.path.join(ROOT, "docs", "TUTORIAL.md")
SECONDS = 60
MARK = "-- the end of a command --"


def commands_in(text):
    """Each command of a page, with its expected output."""
    commands = []
    for block in re.findall(r"(?ms)^```console\n(.*?)^```$", text):
        for line in block.splitlines(keepends=True):
            if line.startswith("$ "):
                commands.append([line[2:].rstrip("\n"), ""])
            elif not commands:
                raise ValueError("a block begins with no command")
            else:
                commands[-1][1] += line
    return commands


def printed(commands, program, folder):
    """What each of the commands prints, as far as the shell gets."""
    shutil.copytree(os.path.join(ROOT, "examples"), folder, dirs_exist_ok=True)
    script = "exec 2>&1\n" + "".join(f"{command}\necho '{MARK}'\n" for command in commands)
    path = os.path.join(os.path.dirname(folder), "out")
    settings = {"cwd": folder, "env": {**os.environ, "PATH": f"{os.path.dirname(program)}:{os.environ['PATH']}", "LC_ALL": "C"}}
    with open(path, "wb") as out:
        subprocess.run(["bash", "-c", script], stdin=subprocess.DEVNULL, stdout=out, timeout=SECONDS, **settings)
    with open(path, encoding="utf-8", errors="replace") as it:
        return it.read().split(f"{MARK}\n")[:-1]


def differences(commands, got):
    """By command what it prints (+) and what the page has (-), if they differ."""
    for number, (command, wanted) in enumerate(commands):
        if number >= len(got):
            yield command, ["it was not run"]
        elif got[number] != wanted:
            yield command, [*(f"-{line}" for line in wanted.splitlines()), *(f"+{line}" for line in got[number].splitlines())]
        else:
            yield command, []


def tutorial(program, folder):
    """What is wrong with each command of the tutorial, by its name."""
    with open(PAGE, encoding="utf-8") as it:
        commands = commands_in(it.read())
    room = os.path.join(folder, "room")
    for command, lines in differences(commands, printed([command for command, _ in commands], program, room)):
        yield f"docs/TUTORIAL.md: {command}", lines
