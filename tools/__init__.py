"""The tools of the repository, in plain Python.

    build, shell_pages.py     what the Makefiles call: a program without proofs; its man page and completions
    oracle/                   slow, plain forms of the store and of its files, which share no code with it: expected outputs come from them
    cases/                    what the built program and the library are run on; the gate runs all by `cases/try_programs.py`
    house/                    readers of sources and contracts, makers and checks of pages, wrong bodies, what the gate costs
    tests/                    the tests of these tools

A module names another one from the repository on: `from tools.oracle import plain_files`. A script that does so first puts the repository on the path of
imports, since Python puts only the script's own folder there; the tests do so once, in `tests/support.py`.
"""

import os

ROOT = os.path.dirname(os.path.dirname(os.path.abspath(__file__)))


def text_of(*path):
    """What a file has, as text."""
    with open(os.path.join(*path), encoding="utf-8") as it:
        return it.read()
