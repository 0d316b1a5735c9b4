"""Serves a plain store over standard input and output as `pcalc serve` does, and keeps nothing: for tests of clients.

    fake_server.py [--fails N] serve DIR [--sessions N] ..      further options are ignored

With DIR `busy` it ends as if another process had the folder. With `--fails` it ends after N lines, as if its log couldn't be written.
"""

import os
import sys

if __name__ == "__main__":
    sys.path.insert(0, os.path.join(os.path.dirname(os.path.abspath(__file__)), "..", ".."))

from tools.oracle.plain_store import Script, lines_of


class Server:
    def __init__(self, sessions):
        self.script, self.sessions, self.waiting = Script(sessions, 1024, 1), sessions, set()
        self.script.stored()

    def waits(self, session):
        return self.script.store.why_not(session) == ("refused", "StillWaiting")

    def answer(self, line):
        """The answer to the line, and after it the sessions that wait no more."""
        if line in (b"run", b"stats"):
            return b"run 1\n" if line == b"run" else b"entries=%d\n" % self.script.store.log
        answer = self.script.answer(line)
        own = int(line.split()[1]) if answer and line.split()[1:] and line.split()[1].isdigit() else 0
        if answer == b"wait\n":
            self.waiting.add(own)
        granted = sorted(session for session in self.waiting if not self.waits(session))
        self.waiting.difference_update(granted)
        return answer + b"".join(b"granted %d\n" % session for session in granted if session != own)


def number_after(option, otherwise):
    return int(sys.argv[sys.argv.index(option) + 1]) if option in sys.argv else otherwise


def main():
    if "busy" in sys.argv:
        sys.exit("pcalc: busy: Busy")
    server, left = Server(number_after("--sessions", 64)), number_after("--fails", -1)
    out = sys.stdout.buffer
    out.write(b"ready run 1 pairs 0\n")
    out.flush()
    for text in sys.stdin.buffer:
        line, = lines_of(text)
        if line == b"quit":
            return
        if left == 0:
            sys.exit("pcalc: log.pcl: Device")
        left -= 1
        out.write(server.answer(line))
        out.flush()


if __name__ == "__main__":
    main()
