"""A slow, plain served store, which shares no code with the crates: the answers of `pcalc serve` without points, written from "pcalc
serve" in docs/MANUAL.md, over the plain store.
"""

from tools.oracle import plain_files, plain_store

CHECKPOINTS = (b"point", b"seal", b"capture", b"take", b"done", b"rest")
REFUSED = b"refused WrongPhase\n"


class Served:
    """A store that starts from these pairs, as the run of this number; if its log has `roll` entries and no transaction is open, the next generation
    begins before the next line."""

    def __init__(self, pairs=(), run=1, sessions=64, capacity=1_048_576, roll=1_000_000):
        self.sessions, self.capacity, self.roll = sessions, capacity, roll
        self.has_ended = False
        self.begin(pairs, run)

    def begin(self, pairs, run):
        self.script = plain_store.Script(self.sessions, self.capacity, run)
        self.script.base = dict(pairs)
        self.store = self.script.stored()
        self.log, self.waiting = plain_files.Log(run), set()

    def ready(self):
        """The line that says that the process serves."""
        return b"ready run %d pairs %d\n" % (self.store.run, len(self.store.base))

    def pairs(self):
        """The committed pairs."""
        return dict(self.store.committed)

    def answer(self, line):
        """The answer to the line, given without its end; nothing after `quit`."""
        if self.has_ended:
            return b""
        if len(self.log.entries) >= self.roll and not self.store.open:
            self.begin(self.store.committed, self.store.run + 1)
        if line in (b"quit", b"run", b"stats"):
            return getattr(self, line.decode())()
        words = [it for it in line.split(b" ") if it]
        if words and not line.startswith(b"#") and self.is_of_the_process(words):
            return REFUSED
        return self.answer_script(line, words)

    def is_of_the_process(self, words):
        """Whether a line is one that clients may not send: a step of a point, a join, or a pair of the base."""
        if words[0] not in (*CHECKPOINTS, b"join", b"base") or len(words) != 1 + len(plain_store.FORMS[words[0]]):
            return False
        try:
            given = [read(it) for read, it in zip(plain_store.FORMS[words[0]], words[1:])]
        except plain_store.Malformed:
            return False
        return plain_store.wrong_length(words[0], given) is None

    def answer_script(self, line, words):
        session = self.session_of(words)
        mine = self.store.open.get(session)
        answer = self.script.answer(line)
        if answer == b"wait\n":
            self.waiting.add(session)
        if answer.startswith(b"committed "):
            self.log.entries.append(("commit", session, [*mine.writes.items()]))
        granted = sorted(it for it in self.waiting if not self.is_waiting(it))
        self.waiting -= set(granted)
        return answer + b"".join(b"granted %d\n" % it for it in granted if it != session)

    def session_of(self, words):
        try:
            return plain_store.number(words[1]) if len(words) > 1 else 0
        except plain_store.Malformed:
            return 0

    def is_waiting(self, session):
        """Whether a request of the session's transaction waits."""
        mine = self.store.open.get(session)
        if mine is None:
            return False
        return any(number == mine.number and not is_granted for key in mine.requested for number, _, is_granted in self.store.queues[key])

    def quit(self):
        self.has_ended = True
        return b""

    def run(self):
        return b"run %d\n" % self.store.run

    def stats(self):
        entries, pairs = len(self.log.entries), len(self.store.committed)
        return b"entries=%d commits=%d points=0 open=%d bytes=%d pairs=%d\n" % (entries, entries, len(self.store.open), len(self.log.text()), pairs)
