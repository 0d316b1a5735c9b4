"""What `build`, `shell_pages.py` and the Makefile decide."""

import importlib.machinery
import importlib.util
import os
import re
import shutil
import subprocess
import unittest

from support import TOOLS, InFolder, stored

from tools import shell_pages


def loaded():
    """`tools/build`, whose name has no ending."""
    loader = importlib.machinery.SourceFileLoader("build", os.path.join(TOOLS, "build"))
    module = importlib.util.module_from_spec(importlib.util.spec_from_loader("build", loader))
    loader.exec_module(module)
    return module


build = loaded()

HELP = """\
Prints what is there

Usage: pcalc show [OPTIONS] <DIR>

Arguments:
  <DIR>  The folder - it's there

Options:
      --many <N>     How many [default: 1]
      --from <OLD>
          A folder of before
  -h, --help         Print help

What each fault means: docs/MANUAL.md
"""


class Builds(unittest.TestCase):
    def test_a_crate_has_all_its_dependencies_once(self):
        depends_on = build.graph("# Lowest first.\nlow: kit_b\nmid may_wait=2: low kit_a # why\npcalc: mid low\n")
        self.assertEqual(depends_on, {"low": ["kit_b"], "mid": ["low", "kit_a"], "pcalc": ["mid", "low"]})
        self.assertEqual(build.closure("pcalc", depends_on), ["pcalc", "mid", "low", "kit_a", "kit_b"])

    def test_the_version_says_that_nothing_is_proved(self):
        self.assertEqual(build.marked_version('a\nconst VERSION: &str = "1.2.3";\nb\n', "commit 1"), 'a\nconst VERSION: &str = "1.2.3 (not proved; commit 1)";\nb\n')
        with self.assertRaises(SystemExit):
            build.marked_version("const OTHER: u8 = 1;\n", "commit 1")

    def test_the_options_have_one_version(self):
        build.marked_version(stored("crates", build.OPTIONS, "src", build.OPTIONS_FILE).decode(), "commit 1")

    def test_checks_are_left_out_only_on_request(self):
        lines = ['define void @"rattle-llvm-checks::x"() {\n', "  call void @llvm.trap()\n", "}\n", "define void @f() {\n"]
        lines += ['  call void @"rattle-llvm-checks::x"()\n', "  call void @llvm.memset.p0.i64(ptr %a, i8 -86, i64 8, i1 false)\n", "  call void @g()\n", "}\n"]
        attributes = "attributes #0 = { sanitize_address }\n"
        self.assertEqual(list(build.rewritten([*lines, attributes], False)), [*lines, "attributes #0 = {  }\n"])
        self.assertEqual(list(build.rewritten(lines, True)), lines[:4] + lines[6:])

    def test_what_the_library_exports_is_visible_outside(self):
        source = 'pub extern "C" fn one(\n    alloc: Global,\n    bytes: &[u8],\n) -> u32\n    ensures x { y }\npub extern "C" fn two(handle: &mut Handle)\npub fn three(a: u8)\n'
        self.assertEqual(build.exported(source), {"one": 2, "two": 1})
        lines = ['define internal i32 @"pc_c::one"(ptr %a) #0 {\n', '  call void @"pc_c::main"()\n', "define i32 @main() #0 {\n", 'define internal void @"pc_c::oneself"() {\n']
        wanted = ["define i32 @one(ptr %a) #0 {\n", lines[1], "define internal i32 @main() #0 {\n", lines[3], 'module asm ".ident \\22pc_c: not proved; commit 1\\22"\n']
        self.assertEqual(list(build.exported_only(lines, ["one", "two"], "commit 1")), wanted)

    def test_the_library_exports_what_its_header_declares(self):
        header = stored("embedding", "include", "pcalc.h").decode()
        declared = set(re.findall(r"(?m)^(?:uint32_t|void) (pcalc_\w+)\(", header))
        self.assertEqual(set(build.exported(stored("crates", build.LIBRARY, "src", "lib.rt").decode())), declared)


class Pages(unittest.TestCase):
    def setUp(self):
        self.help = shell_pages.help_of(HELP)
        self.commands = {"show": self.help}

    def test_a_help_is_taken_apart(self):
        self.assertEqual((self.help.about, self.help.usage), ("Prints what is there", "pcalc show [OPTIONS] <DIR>"))
        self.assertEqual(self.help.sections["Arguments"], [("<DIR>", "The folder - it's there")])
        options = [("--many <N>", "How many [default: 1]"), ("--from <OLD>", "A folder of before"), ("-h, --help", "Print help")]
        self.assertEqual(self.help.sections["Options"], options)
        self.assertEqual(self.help.after, ["What each fault means: docs/MANUAL.md"])

    def test_the_man_page_has_each_option(self):
        page = shell_pages.man_page("pcalc 1.2.3", shell_pages.help_of("A store\n\nUsage: pcalc <COMMAND>\n"), self.commands, "/p/share/doc/pcalc")
        self.assertIn('.TH PCALC 1 "" "pcalc 1.2.3"', page)
        self.assertIn(".B \\-\\-many <N>\nHow many [default: 1]\n", page)
        self.assertIn('.SH "pcalc show"\nPrints what is there.\n', page)
        self.assertIn("What each fault means: /p/share/doc/pcalc/MANUAL.md\n", page)

    def test_completions_know_what_takes_a_file(self):
        self.assertIn("show) words='--many --from --help' ;;", shell_pages.bash_completion(self.commands))
        self.assertIn("'--from[A folder of before]:OLD:_files' '--help[Print help]'", shell_pages.zsh_completion(self.commands))
        lines = shell_pages.fish_completion(self.commands).splitlines()
        self.assertEqual(lines[1], "complete -c pcalc -n '__fish_seen_subcommand_from show' -l many -x -d 'How many  default  1 '")
        self.assertEqual(lines[2], "complete -c pcalc -n '__fish_seen_subcommand_from show' -l from -r -d 'A folder of before'")


@unittest.skipUnless(shutil.which("make"), "make is not there")
class Installs(InFolder):
    def commands(self):
        """What `make install` runs."""
        words = ["make", "-n", "-f", os.path.join(os.path.dirname(TOOLS), "Makefile"), "install", "PREFIX=/p"]
        out = subprocess.run(words, cwd=self.folder, capture_output=True, text=True, check=True).stdout
        return out.splitlines()

    def installed(self):
        """The program that `make install` takes."""
        return [line for line in self.commands() if line.startswith("install -m 755")]

    def test_the_proved_program_goes_first(self):
        for name in ("crates.txt", "tools/build", "out/pcalc"):
            self.write(name, "")
        self.assertEqual(self.installed(), ['install -m 755 "out/pcalc" "/p/bin/pcalc"'])
        self.write("crates/pcalc/out/pcalc", "")
        self.assertEqual(self.installed(), ['install -m 755 "crates/pcalc/out/pcalc" "/p/bin/pcalc"'])

    def test_the_pages_and_the_clients_are_installed(self):
        for name in ("crates.txt", "tools/build", "out/pcalc"):
            self.write(name, "")
        copies = [line.split()[3:] for line in self.commands() if line.startswith("install -m 644")]
        files = [os.path.relpath(it, os.path.dirname(TOOLS)) for *some, _ in copies for it in some]
        self.assertEqual(files, ["docs/MANUAL.md", "docs/FORMATS.md", "docs/OPERATIONS.md", "clients/README.md", "clients/python/pcalc.py", "clients/python/relay.py"])
        self.assertEqual([some[-1] for some in copies], ['"/p/share/doc/pcalc/"', '"/p/share/doc/pcalc/clients.md"', '"/p/lib/python/"'])

    def test_the_module_of_python_is_installed_below_the_library(self):
        makefile = os.path.join(os.path.dirname(TOOLS), "embedding", "Makefile")
        archive = self.write("libpc_c.a", "")
        words = ["make", "-n", "-f", makefile, "install", "PREFIX=/p", f"ARCHIVE={archive}", f"HEAP={archive}", f"OUT={self.folder}/out"]
        out = subprocess.run(words, cwd=self.folder, capture_output=True, text=True, check=True).stdout
        copies = {line.split()[-1]: line.split()[1:-1] for line in out.splitlines() if line.startswith("cp ")}
        self.assertIn(f"{self.folder}/out/libpcalc.so", copies["/p/lib/"])
        self.assertEqual([os.path.relpath(it, os.path.dirname(TOOLS)) for it in copies["/p/lib/python/"]], ["embedding/python/pcalc_embedded.py"])
