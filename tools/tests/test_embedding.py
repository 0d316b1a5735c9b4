"""The numbers of the border are the same in `crates/pc_wire`, in `embedding/include/pcalc.h`, and in `embedding/python/pcalc_embedded.py`; the parts of
the examples that the pages show are theirs; what `embedding_cases` and `embedding_border` decide."""

import contextlib
import io
import os
import re
import subprocess
import sys
import threading
import types
import unittest
from unittest import mock

from support import ROOT, InFolder

from tools import text_of
from tools.cases import embedding_border, embedding_cases
from tools.oracle import plain_store

sys.path.insert(0, os.path.join(ROOT, "embedding", "python"))

import pcalc_embedded  # noqa: E402


def bare(text):
    """The text of C without its comments."""
    return re.sub(r"/\*.*?\*/", "", text, flags=re.DOTALL)


def enum_of(header, name):
    """The numbers of an enum by their names, without their common prefix."""
    number, found = -1, {}
    for item in re.search(rf"enum {name} {{(.*?)}}", bare(header), re.DOTALL)[1].split(","):
        word, _, given = item.partition("=")
        if word.strip():
            number = int(given) if given else number + 1
            found[word.strip().removeprefix("PCALC_")] = number
    return found


def constants_of(source):
    """The constants in their order, in groups separated by comments."""
    return [dict((name, int(number)) for name, number in re.findall(r"pub const (\w+): u32 = (\d+);", group)) for group in source.split("// ---- ")[1:]]


class Numbers(unittest.TestCase):
    def setUp(self):
        self.header = text_of(ROOT, "embedding", "include", "pcalc.h")
        self.events, self.kinds, self.texts = constants_of(text_of(ROOT, "crates", "pc_wire", "src", "codes.rt"))

    def test_events_of_the_header(self):
        self.assertEqual(enum_of(self.header, "pcalc_event"), self.events)

    def test_kinds_of_the_header(self):
        self.assertEqual(enum_of(self.header, "pcalc_kind"), self.kinds)

    def test_the_kind_of_threads_is_none_of_the_archive(self):
        self.assertEqual(list(enum_of(self.header, "pcalc_kind_of_threads")), ["UNKNOWN"])
        self.assertGreater(enum_of(self.header, "pcalc_kind_of_threads")["UNKNOWN"], max(self.kinds.values()))

    def test_names_of_refusals(self):
        table = re.search(r"names\[\] = {(.*?)}", self.header, re.DOTALL)[1]
        names = {number: name for number, name in enumerate(re.findall(r'"(.*?)"', table)) if name != "?"}
        self.assertEqual(names, {number: name.title().replace("_", "") for name, number in enum_of(self.header, "pcalc_refusal").items()})

    def test_texts_of_the_header(self):
        self.assertEqual(enum_of(self.header, "pcalc_text"), self.texts)

    def test_refusals_of_the_header(self):
        source = text_of(ROOT, "crates", "pc_wire", "src", "answers.rt")
        wanted = {re.sub(r"(?<!^)(?=[A-Z])", "_", name).upper(): int(number) for name, number in re.findall(r"Refusal::(\w+)(?:\(_\))? => (\d+),", source)
                  if number != "0"}
        self.assertEqual(enum_of(self.header, "pcalc_refusal"), wanted)

    def test_python(self):
        source = text_of(ROOT, "embedding", "python", "pcalc_embedded.py")
        ranges = re.findall(r"^\(?([A-Z_, \n]+)\)? = range\((?:(\d+), )?(\d+)\)", source, re.MULTILINE)
        found = [dict(zip((it.strip() for it in names.split(",")), range(int(first or 0), int(last)), strict=True)) for names, first, last in ranges]
        self.assertEqual(found, [self.events, self.kinds, self.texts])

    def test_refusals_of_python(self):
        source = text_of(ROOT, "embedding", "python", "pcalc_embedded.py")
        first = re.search(r'enumerate\("""(.*?)"""', source, re.DOTALL)[1].split()
        names = {number: name for number, name in enumerate(first, 1)} | {int(number): name for number, name in re.findall(r'(\d+): "(\w+)"', source)}
        wanted = {number: name.title().replace("_", "") for name, number in enum_of(self.header, "pcalc_refusal").items()}
        self.assertEqual(names, wanted)

def blocks_of(page, language):
    """The blocks of a language in a page."""
    return re.findall(rf"```{language}\n(.*?)```", text_of(page), re.DOTALL)


class Pages(unittest.TestCase):
    def test_the_readme_shows_parts_of_the_examples(self):
        for language, name in (("c", "first.c"), ("python", "first.py")):
            source = text_of(ROOT, "embedding", "examples", name)
            shown = [it for it in blocks_of("README.md", language) if it in source]
            self.assertEqual(len(shown), 1, name)
            self.assertGreaterEqual(len(shown[0].splitlines()), 10)

    def test_the_page_shows_the_first_example(self):
        first = text_of(ROOT, "embedding", "examples", "first.c")
        self.assertEqual([first.endswith(it) for it in blocks_of("docs/EMBEDDING.md", "c")], [True])


class Wrong(plain_store.Store):
    """A store whose third add gives a sum that is one too large."""

    added = 0

    def step(self, event):
        reply = super().step(event)
        self.added += event[0] == "add"
        return ("sum", reply[1] + 1) if reply[0] == "sum" and self.added == 3 else reply

    def close(self):
        pass


class Scripts(unittest.TestCase):
    LINES = [b"begin 1", b"add 1 a 1", b"add 1 a 1", b"get 1 a", b"add 1 a 1", b"commit 1"]

    def differences(self, store, lines):
        with mock.patch.object(embedding_border, "Border", store):
            return list(embedding_border.different_script((1, 10, 1), lines))

    def test_a_line_with_another_answer_is_found(self):
        self.assertEqual(self.differences(Wrong, self.LINES[:4]), [])
        self.assertEqual(self.differences(Wrong, self.LINES), ["line 5, b'add 1 a 1': b'sum 4\\n' instead of b'sum 3\\n'"])

    def test_rows_are_of_steps(self):
        self.assertGreater(sum(1 for _ in embedding_border.rows()), 300)


class Some(pcalc_embedded.Store):
    """A store whose log has these entries, of which a call shows two at most. It has no library."""

    def __init__(self, entries):
        self._lock, self._owner, self.shown = threading.Lock(), os.getpid(), entries
        self._handle = types.SimpleNamespace(show=self.show, copied=lambda: (b"", self.text), answer=types.SimpleNamespace(entries=0))

    def show(self, what, number):
        shown = [b"header "] if what == pcalc_embedded.LOG else self.shown[number:number + 2]
        self.text, self._handle.answer.entries = b"".join(shown), len(shown)
        return pcalc_embedded.TEXT


class Module(InFolder):
    def test_all_entries_are_shown(self):
        store = Some([b"a", b"b", b"c", b"d", b"e"])
        self.assertEqual([store.entries(it) for it in (0, 1, 4, 5, 9)], [b"abcde", b"bcde", b"e", b"", b""])
        self.assertEqual((store.log(), Some([]).log()), (b"header abcde", b"header "))

    def test_where_the_library_is(self):
        module = self.write("lib/python/pcalc_embedded.py", text_of(ROOT, "embedding", "python", "pcalc_embedded.py"))
        settings = {name: value for name, value in os.environ.items() if name != "PCALC_SO"} | {"PYTHONPATH": os.path.dirname(module)}
        program = "import ctypes, pcalc_embedded; ctypes.CDLL = print; pcalc_embedded._library()"

        def found(**more):
            return subprocess.run([sys.executable, "-c", program], cwd=self.folder, env={**settings, **more}, capture_output=True, text=True, check=False).stdout

        self.assertEqual(found(), "libpcalc.so\n")
        for place in ("lib/out/libpcalc.so", "libpcalc.so", "lib/libpcalc.so", "lib/python/libpcalc.so"):
            path = self.write(place, "")
            self.assertEqual(found(), os.path.realpath(path) + "\n")
        for given, wanted in (("a/x.so", os.path.join(os.path.realpath(self.folder), "a", "x.so")), ("x.so", "x.so"), ("/a/x.so", "/a/x.so")):
            self.assertEqual(found(PCALC_SO=given), wanted + "\n")


class Archives(InFolder):
    def test_an_archive_is_current_after_its_sources(self):
        source, archive = self.write("a.rt", "a"), os.path.join(self.folder, "a.a")
        self.assertFalse(embedding_cases.is_current(archive, [source]))
        self.write("a.a", "")
        os.utime(source, (5, 5)), os.utime(archive, (5, 5))
        self.assertTrue(embedding_cases.is_current(archive, [source]))
        os.utime(source, (6, 6))
        self.assertFalse(embedding_cases.is_current(archive, [source]))

    def test_an_archive_without_proofs_says_so(self):
        self.write("a.a", "..pc_c: not proved; commit 1..")
        self.assertEqual(embedding_cases.unmarked((0, b"", b""), os.path.join(self.folder, "a.a")), [])
        self.write("b.a", "..pc_c..")
        self.assertEqual(len(embedding_cases.unmarked((0, b"", b""), os.path.join(self.folder, "b.a"))), 1)
        self.assertEqual(embedding_cases.unmarked((1, b"why", b""), "none"), ["status 1", "why"])

    def test_commits_that_are_kept_wrongly_are_found(self):
        told = ["1 2 1", "2 1 0", "unshare: full"]
        self.assertEqual(embedding_cases.kept_wrongly(told, {"1-0", "1-1", "2-0"}),
                         ([], "3 commits are answered COMMITTED, 1 UNKNOWN, 3 are recovered; unshare: full"))
        self.assertEqual(embedding_cases.kept_wrongly(told, {"1-0", "1-1", "1-2", "2-0", "other"})[0], [])
        for words, session in (({"1-0", "1-1"}, 2), ({"1-0", "1-1", "2-0", "2-1"}, 2), ({"1-0", "2-0"}, 1), ({"1-0", "1-1", "1-3", "2-0"}, 1)):
            self.assertEqual([line.split(":")[0] for line in embedding_cases.kept_wrongly(told, words)[0]], [f"session {session}"])
        self.assertEqual(embedding_cases.kept_wrongly([], set())[0], ["too few commits are answered"])

    def test_without_a_compiler_nothing_is_counted(self):
        out = io.StringIO()
        with mock.patch("shutil.which", lambda name: None if name == "cc" else name), contextlib.redirect_stdout(out):
            self.assertEqual(list(embedding_cases.embedded("pcalc", self.folder)), [])
        self.assertEqual(out.getvalue(), "embedding: there is no cc, so nothing is tried\n")


if __name__ == "__main__":
    unittest.main()
