#!/usr/bin/env python3
"""Counts the house: sizes of crates, functions and files, proofs, wrong bodies, words of definitions, and words of the pages.

    house.py             one table: what is counted, the count now, its limit, and the goal; the status is 1 if a count is over its limit
    house.py --crates    the same counts of each crate
    house.py --over      the items of each count that is over its goal: files, functions, crates or words
    house.py --limits    the limits if today's counts were the limits

`LIMITS` has the limits. A limit is the present count if the goal isn't met yet: a change that lowers a count lowers its limit, and none raises it.
Lines of code are those of crates/*/src without tests, as the gate's budget counts them. For the ratio of proof to code, lines are counted that are neither blank nor a
comment, and of code none that begin with a clause or a ghost. A body is what follows a function's clauses. A word of definitions has its home in a file of
specs/ of the product. Words to avoid are counted in the pages, and in the comments and docstrings of `SPOKEN`.
"""

import ast
import glob
import io
import os
import re
import sys
import tokenize
from collections import Counter, defaultdict, namedtuple

if __name__ == "__main__":
    sys.path.insert(0, os.path.join(os.path.dirname(os.path.abspath(__file__)), "..", ".."))

from tools import ROOT, text_of
from tools.house import gate_times, spec_guide
from tools.house.rt_source import LITERAL, blanked, sizes_in, without_tests

CRATES = os.path.join(ROOT, "crates")
FUNCTIONS, LINES, PARAMETERS, BODY, FILE, SMALL = 60, 1000, 6, 40, 800, 200
# The limit and the goal of each count.
LIMITS = {
    "longest chain of crates": (13, 12),
    "crates of more than 60 functions": (2, 0),
    "crates of more than 1000 lines of code": (8, 0),
    "crates of the product without a wrong body": (8, 0),
    "files of more than 800 lines": (0, 0),
    "functions of more than 40 lines": (1, 0),
    "functions of more than 6 parameters": (8, 6),
    "lines of proof for 100 of code": (191, 191),
    "the same of the worst crate": (969, 700),
    "lower-case words of definitions with two homes": (7, 7),
    "types and facts of definitions with two homes": (0, 0),
    "words of the pages": (30_000, 30_000),
    "words to avoid": (21, 21),
}
PAGES = ("README.md", "CHANGELOG.md", "CONTRIBUTING.md", "docs/*.md")
AVOIDED = re.compile(r"\b(?:so many|(?:is|are|was|were) told|stands?|stood|worth|exactly where|want of memory|memory (?:is|was) wanting|lent|lends?)\b", re.I)
# The files in which words to avoid are counted, besides the pages, and those in which they aren't: tests, and this list itself.
SPOKEN = ("crates/*/src/**/*.rt", "crates/*/specs/**/*.antt", "embedding/**/*.[hc]", "embedding/**/*.[hc]pp", "bench/*.c", "bench/*.cpp",
          "embedding/**/*.py", "clients/**/*.py", "bench/*.py", "tools/**/*.py")
UNSPOKEN = ("tools/tests/", "tools/house/house.py")
COMMENTS = re.compile(r"(?m)(?://|--)(.*)$")
DOCUMENTED = (ast.Module, ast.ClassDef, ast.FunctionDef, ast.AsyncFunctionDef)
NO_CODE = re.compile(r"\s*(?:$|requires\b|ensures\b|ghost\b)")
Crate = namedtuple("Crate", "name code functions without_clauses proof gate tried")


def files(pattern):
    return sorted(glob.glob(os.path.join(ROOT, pattern), recursive=True))


def near(path):
    return os.path.relpath(path, ROOT)


def is_product(crate):
    return not crate.startswith(("test_", "bench_"))


def described(name):
    """The counts of a crate."""
    found = gate_times.described(name)
    lines = (line for it in gate_times.texts(name, "src/**/*.rt") for line in blanked(without_tests(*it)).split("\n"))
    code = sum(1 for line in lines if not NO_CODE.match(line))
    proof = sum(1 for _, text in gate_times.texts(name, "proofs/**/*.antt") for line in text.split("\n") if line.strip() and not line.lstrip().startswith("--"))
    tried = len(files(f"crates/{name}/tried/*.edit"))
    return Crate(name, found["code"], found["functions"], code, proof, found["bodies"], tried)


def chain(below):
    """The longest chain of crates, lowest first: each depends on the one before."""
    longest = {}
    for name, names in below.items():
        longest[name] = max((longest[it] for it in names), key=len, default=[]) + [name]
    return max(longest.values(), key=len)


def homes():
    """The files that define each word of the product's definitions."""
    found = defaultdict(list)
    for path in files("crates/*/specs/**/*.antt"):
        if is_product(near(path).split(os.sep)[1]):
            for word in spec_guide.Spec(text_of(path)).definitions:
                found[word].append(near(path))
    return found


def spoken(path):
    """The comments and docstrings of a file, or the whole of a page."""
    text = text_of(path)
    match os.path.splitext(path)[1]:
        case ".md":
            return text
        case ".rt" | ".antt":
            return "\n".join(COMMENTS.findall(text))
        case ".py":
            docstrings = [ast.get_docstring(it) or "" for it in ast.walk(ast.parse(text)) if isinstance(it, DOCUMENTED)]
            comments = [it.string for it in tokenize.generate_tokens(io.StringIO(text).readline) if it.type == tokenize.COMMENT]
            return "\n".join(docstrings + comments)
    return "\n".join(it[0] for it in LITERAL.finditer(text) if it[0].startswith("/"))


def avoided(pages):
    """The number of words to avoid in each file."""
    paths = pages + [path for pattern in SPOKEN for path in files(pattern) if not near(path).startswith(UNSPOKEN)]
    return Counter({near(path): len(AVOIDED.findall(spoken(path))) for path in paths})


def counted():
    """The crates, and the items of each count; of lines and words a `Counter` by file or crate."""
    crates = [described(name) for name in gate_times.crates_of()]
    product = [it for it in crates if is_product(it.name)]
    sources, specs, pages = files("crates/*/src/**/*.rt"), files("crates/*/specs/**/*.antt"), [path for page in PAGES for path in files(page)]
    written = [*sources, *specs, *files("crates/*/proofs/**/*.antt"), *files("tools/**/*.py"), *files("bench/*.py"), *files("clients/**/*.py")]
    functions = [it for path in sources for it in sizes_in(near(path), without_tests(os.path.basename(path), text_of(path)))]
    twice = {word: paths for word, paths in homes().items() if len(paths) > 1}
    code, proof = sum(it.without_clauses for it in product), sum(it.proof for it in product)
    return crates, {
        "longest chain of crates": chain(gate_times.crates_of()),
        f"crates of more than {FUNCTIONS} functions": [f"{it.name} {it.functions}" for it in crates if it.functions > FUNCTIONS],
        f"crates of more than {LINES} lines of code": [f"{it.name} {it.code}" for it in crates if it.code > LINES],
        "crates of the product without a wrong body": [it.name for it in product if it.functions and not it.gate + it.tried],
        f"files of more than {FILE} lines": [near(path) for path in written if text_of(path).count("\n") > FILE],
        f"functions of more than {BODY} lines": [f"{it.file} {it.name} {it.body}" for it in functions if it.body > BODY],
        f"functions of more than {PARAMETERS} parameters": [f"{it.file} {it.name} {it.parameters}" for it in functions if it.parameters > PARAMETERS],
        "lines of proof for 100 of code": Counter({"the product": round(100 * proof / max(1, code))}),
        "the same of the worst crate": worst(product),
        "lower-case words of definitions with two homes": homes_in(twice, str.islower),
        "types and facts of definitions with two homes": homes_in(twice, str.isupper),
        "words of the pages": Counter({near(path): len(text_of(path).split()) for path in pages}),
        "words to avoid": avoided(pages),
    }


def worst(crates):
    """The crate with the most lines of proof for its code, of those that aren't too small to compare."""
    found = Counter({it.name: round(100 * it.proof / it.without_clauses) for it in crates if it.without_clauses > SMALL})
    return Counter(dict(found.most_common(1)))


def homes_in(twice, case):
    return [f"{word}: {' '.join(paths)}" for word, paths in sorted(twice.items()) if case(word[0])]


def size(things):
    return sum(things.values()) if isinstance(things, Counter) else len(things)


def lines_of(things):
    return [f"{name} {count}" for name, count in things.most_common()] if isinstance(things, Counter) else things


def put(rows):
    wide = [max(len(str(row[at])) for row in rows) for at in range(len(rows[0]))]
    for row in rows:
        print("  ".join(str(it).rjust(wide[at]) if at else str(it).ljust(wide[at]) for at, it in enumerate(row)).rstrip())


def main(words):
    if words not in ([], ["--crates"], ["--over"], ["--limits"]):
        sys.exit(__doc__)
    crates, found = counted()
    if words == ["--crates"]:
        ratios = ["%.1f" % (it.proof / max(1, it.without_clauses)) for it in crates]
        head = "crate", "code", "functions", "proof", "proof/code", "must-fail", "tried"
        put([head] + [(it.name, it.code, it.functions, it.proof, ratio, it.gate, it.tried) for it, ratio in zip(crates, ratios, strict=True)])
    elif words == ["--over"]:
        print("\n".join(line for what, things in found.items() if size(things) > LIMITS[what][1] for line in [what, *("  " + it for it in lines_of(things))]))
    elif words == ["--limits"]:
        print("\n".join(f'    "{what}": ({size(things)}, {LIMITS[what][1] if what in LIMITS else 0}),' for what, things in found.items()))
    else:
        put([("counted", "now", "at most", "goal")] + [(what, size(things), *LIMITS[what]) for what, things in found.items()])
        over = [what for what, things in found.items() if size(things) > LIMITS[what][0]]
        print("\n".join(f"over its limit: {what}" for what in over) or "within the limits")
        return 1 if over else 0
    return 0


if __name__ == "__main__":
    sys.exit(main(sys.argv[1:]))
