"""What the tests of the tools share: the repository on the path of imports, and a folder of its own for each test."""

import contextlib
import io
import os
import sys
import tempfile
import unittest
from unittest import mock

TOOLS = os.path.dirname(os.path.dirname(os.path.abspath(__file__)))
ROOT = os.path.dirname(TOOLS)
sys.path.insert(0, ROOT)


def stored(*path):
    """The bytes of a file of the repository."""
    with open(os.path.join(ROOT, *path), "rb") as it:
        return it.read()


class InFolder(unittest.TestCase):
    """A test with a folder, which is empty when the test begins."""

    def setUp(self):
        room = tempfile.TemporaryDirectory()
        self.addCleanup(room.cleanup)
        self.folder = room.name

    def write(self, name, text):
        """Writes a file of the folder, and returns its path."""
        path = os.path.join(self.folder, name)
        os.makedirs(os.path.dirname(path), exist_ok=True)
        with open(path, "w", encoding="utf-8") as it:
            it.write(text)
        return path

    def read(self, name):
        with open(os.path.join(self.folder, name), encoding="utf-8") as it:
            return it.read()

    def replace(self, module, **values):
        """Gives the module these values while the test runs."""
        for name, value in values.items():
            patch = mock.patch.object(module, name, value)
            patch.start()
            self.addCleanup(patch.stop)

    def move(self, *modules):
        """Makes the folder the repository of these tools while the test runs."""
        for module in modules:
            paths = {name: value for name, value in vars(module).items() if isinstance(value, str) and value.startswith(module.ROOT)}
            self.replace(module, **{name: self.folder + value.removeprefix(module.ROOT) for name, value in paths.items()})

    def printed(self, call, *given):
        """What the call returns, and what it prints."""
        with contextlib.redirect_stdout(io.StringIO()) as out:
            found = call(*given)
        return found, out.getvalue()

    def ended(self, call, *given):
        """What a call that ends the program says."""
        with self.assertRaises(SystemExit) as end:
            call(*given)
        return str(end.exception.code)
