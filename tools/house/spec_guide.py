#!/usr/bin/env python3
"""Lists the files of definitions that have to be read, and believed, with a contract: those that its clauses' words reach.

    spec_guide.py                     the lists of the headline contracts
    spec_guide.py --mark              writes them into docs/ARCHITECTURE.md
    spec_guide.py --check             tests whether the page has the present lists; the status is 1 if it doesn't
    spec_guide.py CRATE FUNCTION      the list of one function, with the words of each file
    spec_guide.py CRATE FUNCTION WORD why the word is reached: the path to it from the clauses

The words of its clauses are followed through the imports of its file to the definition of each, and so on from that definition. A
file counts if one of its words is reached, with all its lines. The files are listed in the order in which they can be read: each
after those from which it imports words. Rust's types and the words of the standard library are not followed.
"""

import itertools
import os
import re
import sys

if __name__ == "__main__":
    sys.path.insert(0, os.path.join(os.path.dirname(os.path.abspath(__file__)), "..", ".."))

from tools import ROOT, text_of
from tools.house import rt_source

CRATES = os.path.join(ROOT, "crates")
PAGE = os.path.join(ROOT, "docs", "ARCHITECTURE.md")
HEADLINES = [
    [("pc_engine", "World::step")],
    [("pc_engine", "run")],
    [("pc_engine", "World::check")],
    [("pc_recover", "recover"), ("pc_restarts", "every_cut_of_a_world_is_recovered")],
    [("pc_script", "run_script")],
    [("pc_runs", "run_workload")],
]
IMPORT = re.compile(r"^\s*(?:ghost )?use Rattle\.((?:pc|test|bench)_\w+)\.specs\.([\w.]+?)(?:\.\{(.*?)\}| as (\w+));?\s*$", re.M)
HEAD = re.compile(r"^(?:abbrev |unfoldable )?(?:pub )?(?:(?:record|data) )?([^\s:(){}]+) (?::|\(|\{)|^(?:pub )?(?:record|data) ([^\s:(){}]+)")
WORD = re.compile(r"[\w◌]+(?:-[\w]+)*|[^\w\s(){}\[\],.;:]+")


def spec_path(crate, module):
    return os.path.join(CRATES, crate, "specs", module.replace(".", os.sep) + ".antt")


class Imports:
    """The meanings of the words of a text: a file and a word of it."""

    def __init__(self, text):
        self.words, self.modules = {}, {}
        for crate, module, names, alias in IMPORT.findall(text):
            parts = module.split(".")
            if parts[0] == "declared":
                continue
            path = spec_path(crate, parts[0])
            if alias:
                self.modules[alias] = path
            for name in filter(None, (it.strip() for it in names.split(","))):
                own, _, other = name.partition(" as ")
                self.words[other or own] = (path, own)

    def reached(self, text):
        """The files and words that the text names."""
        symbols = {name.replace("◌", ""): name for name in self.words if "◌" in name}
        for module, name in re.findall(r"\b(\w+)\.(\w+)", text):
            if module in self.modules:
                yield self.modules[module], name
        for word in WORD.findall(text):
            if word in self.words:
                yield self.words[word]
            elif word in symbols:
                yield self.words[symbols[word]]
        if ">>=" in symbols and re.search(r"\bdo\b", text):
            yield self.words[symbols[">>="]]


class Spec:
    """A file of definitions: the text of each, by its word."""

    def __init__(self, text):
        self.lines = text.count("\n")
        self.imports = Imports(text)
        self.definitions = {}
        name = None
        for line in text.split("\n"):
            if not line or line.startswith(("--", "use ")):
                continue
            if not line[0].isspace():
                head = HEAD.match(line)
                if head:
                    name = head.group(1) or head.group(2)
                elif line.split(" ")[0] in self.definitions:
                    name = line.split(" ")[0]
            if name:
                self.definitions[name] = self.definitions.get(name, "") + line + "\n"

    def reached(self, word, path):
        """The files and words that the definition names. A constructor counts as its type."""
        text = self.definitions.get(word)
        if text is None:
            word = next((it for it in self.definitions if re.search(r"^  (pub )?%s :" % re.escape(word), self.definitions[it], re.M)), word)
            text = self.definitions.get(word, "")
            yield path, word
        yield from self.imports.reached(text)
        for own in WORD.findall(text):
            if own in self.definitions:
                yield path, own


def clauses_of(crate, function):
    """The clauses of the function, and the meanings of the words of its file."""
    owner, _, name = function.rpartition("::")
    for path in rt_source.sources(os.path.join(CRATES, crate)):
        text = text_of(path)
        for item in rt_source.functions_in(text, path):
            if item.name == name and owner in ("", item.owner) and rt_source.signature_in(item).startswith("pub "):
                return rt_source.clauses_text(item), Imports(text)
    sys.exit("spec_guide: %s has no public function %s" % (crate, function))


def reach(functions):
    """The words that are reached, each with the one that it was first reached from, and the files that have them."""
    came, specs, wait = {}, {}, []
    for crate, function in functions:
        clauses, imports = clauses_of(crate, function)
        wait += [(it, None) for it in imports.reached(clauses)]
    while wait:
        (path, word), source = wait.pop(0)
        if (path, word) in came:
            continue
        came[path, word] = source
        if path not in specs:
            specs[path] = Spec(text_of(path))
        wait += [(it, (path, word)) for it in specs[path].reached(word, path)]
    return came, specs


def in_order(specs):
    """The files, lower crates first, and each after those that it imports from."""
    order, seen = [], set()

    def visit(path):
        if path in seen or path not in specs:
            return
        seen.add(path)
        imports = specs[path].imports
        for other in sorted({it[0] for it in imports.words.values()} | set(imports.modules.values())):
            visit(other)
        order.append(path)

    crates = re.findall(r"^(\w+)(?: staticlib)?:", text_of(os.path.join(ROOT, "crates.txt")), re.M)
    for path in sorted(specs, key=lambda it: (crates.index(crate_of(it)), it)):
        visit(path)
    return order


def crate_of(path):
    return os.path.relpath(path, CRATES).split(os.sep)[0]


def name_of(path):
    return "`%s` `%s`" % (crate_of(path), word_of(path))


def word_of(path):
    return os.path.basename(path).removesuffix(".antt")


def headlines():
    """The list of each headline contract, a line each."""
    known = set()
    for functions in HEADLINES:
        _, specs = reach(functions)
        order = in_order(specs)
        total = sum(specs[it].lines for it in order)
        names = " with ".join("`%s` `%s`" % it for it in functions)
        yield "- **%s**: %d lines in %d files. %s." % (names, total, len(order), listed(order, specs, known))
        known |= set(order)


def listed(order, specs, known):
    """The files that no list before has named, in order; of the others their number."""
    old = [it for it in order if it in known]
    parts = ["%d files named above (%d lines)" % (len(old), sum(specs[it].lines for it in old))] if old else []
    for crate, paths in itertools.groupby((it for it in order if it not in known), crate_of):
        parts.append("`%s` %s" % (crate, ", ".join("`%s` (%d)" % (word_of(it), specs[it].lines) for it in paths)))
    return "; ".join(parts)


def marked(page):
    """The page with the present lists instead of its own."""
    before, title, rest = page.partition("\n## What has to be believed\n")
    text, plan, after = rest.partition("\n## Words\n")
    kept = [line for line in text.rstrip().split("\n") if not line.startswith("- **")]
    return before + title + "\n".join(kept).rstrip() + "\n\n" + "\n".join(headlines()) + "\n" + plan + after


def mark():
    page = marked(text_of(PAGE))
    with open(PAGE, "w", encoding="utf-8") as it:
        it.write(page)


def check():
    page = text_of(PAGE)
    if marked(page) != page:
        sys.exit("docs/ARCHITECTURE.md: the lists of what has to be believed are stale: tools/house/spec_guide.py --mark")


def print_one(crate, function):
    came, specs = reach([(crate, function)])
    total = 0
    for path in in_order(specs):
        words = [word for at, word in came if at == path]
        total += specs[path].lines
        print("%5d  %s: %s" % (specs[path].lines, name_of(path), " ".join(words)))
    print("%5d  in total" % total)


def print_path(crate, function, word):
    came, _ = reach([(crate, function)])
    for at in [it for it in came if it[1] == word]:
        path = []
        while at:
            path.append("%s %s" % (name_of(at[0]), at[1]))
            at = came[at]
        print(" < ".join(path))


def main():
    words = sys.argv[1:]
    if not words:
        print("\n".join(headlines()))
    elif words == ["--mark"]:
        mark()
    elif words == ["--check"]:
        check()
    elif len(words) == 2:
        print_one(*words)
    elif len(words) == 3:
        print_path(*words)
    else:
        sys.exit(__doc__)


if __name__ == "__main__":
    main()
