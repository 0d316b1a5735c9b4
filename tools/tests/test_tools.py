"""How the tools find each other: each script can be started from any folder, and the tools named in pages and sources exist."""

import ast
import glob
import os
import re
import subprocess
import sys
import unittest

from support import ROOT, TOOLS

from tools import text_of

PATH = 'if __name__ == "__main__":\n    sys.path.insert(0, os.path.join(os.path.dirname(os.path.abspath(__file__)), "..", ".."))\n'
NAMED = re.compile(r"(?<![\w/])tools/\w[\w/]*(?:\.py)?")
NAMING = ("*.md", "docs/**/*.md", "clients/*.md", ".ci/run", "Makefile", "embedding/Makefile", "bench/*", "crates/*/src/**/*.rt", "tools/*.py", "tools/[och]*/*.py", "tools/build")


def modules():
    return sorted(it for folder in ("oracle", "cases", "house") for it in glob.glob(os.path.join(TOOLS, folder, "*.py")))


def is_script(tree):
    return isinstance(tree.body[-1], ast.If) and "__name__" in ast.dump(tree.body[-1].test)


class Tools(unittest.TestCase):
    def test_each_script_that_names_others_puts_the_repository_on_the_path(self):
        found = {}
        for path in modules():
            text = text_of(path)
            before = text.partition("\nfrom tools")[0]
            if is_script(ast.parse(text)) and before != text:
                found[os.path.basename(path)] = before.endswith(PATH)
        self.assertEqual([name for name, is_right in found.items() if not is_right], [])
        self.assertIn("check_edits.py", found)

    def test_a_script_is_started_from_another_folder(self):
        ran = subprocess.run([sys.executable, os.path.join(TOOLS, "house", "contracts.py"), "--help"], cwd="/", capture_output=True, text=True)
        self.assertEqual((ran.returncode, ran.stderr), (0, ""))

    def test_modules_name_each_other_from_the_repository_on(self):
        names = {os.path.basename(path).removesuffix(".py") for path in modules()}
        for path in modules():
            for it in ast.walk(ast.parse(text_of(path))):
                words = [name.name for name in it.names] if isinstance(it, ast.Import) else [it.module] if isinstance(it, ast.ImportFrom) else []
                self.assertEqual([word for word in words if word in names], [], path)

    def test_the_plain_forms_share_no_code_with_the_others(self):
        for path in glob.glob(os.path.join(TOOLS, "oracle", "*.py")):
            self.assertEqual(set(re.findall(r"(?m)^from tools\.?(\w*)", text_of(path))) - {"oracle"}, set(), path)

    def test_the_tools_that_are_named_exist(self):
        paths = [path for pattern in NAMING for path in glob.glob(os.path.join(ROOT, pattern), recursive=True) if os.path.isfile(path)]
        gone = {(os.path.relpath(path, ROOT), name) for path in paths for name in NAMED.findall(text_of(path)) if not os.path.exists(os.path.join(ROOT, name))}
        self.assertEqual(gone, set())


if __name__ == "__main__":
    unittest.main()
