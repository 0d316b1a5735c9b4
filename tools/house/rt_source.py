"""Reads the sources of the crates (`.rt`) as text: their items, the signatures and clauses of functions, and the lengths of bodies.

The readers of contracts all go through this module: `contracts.py` compares them, `spec_guide.py` and `reach.py` follow their words to definitions,
`check_edits.py` looks up which functions there are, `rounds.py` which function a line belongs to, and `house.py` counts. Nothing is parsed beyond the
layout of `rt fmt`: an item begins at the depth of its block, and a body at a `{` at the end of a line.
"""

import glob
import os
import re
from collections import namedtuple

from tools import text_of

# A literal or a comment. What begins with a slash is a comment.
LITERAL = re.compile(r"\"(?:[^\"\\]|\\.)*\"|'(?:[^'\\\n]|\\[^\n]{1,8}?)'|//[^\n]*|/\*.*?\*/", re.S)
VISIBLE = r"(?:pub(?:\([a-z]+\))? )?(?:(?:const|unsafe|final|extern \"C\") )*"
HEAD = r"%s(?:#!?\[|ghost |" + VISIBLE + r"(?:fn|struct|enum|trait|impl|mod|use|type|static|const)\b)"
NAMED = re.compile(r"\s*%s(fn|struct|enum|trait|mod|type|static|const) (\w+)" % VISIBLE)
FN = re.compile(r"\s*%sfn (\w+)" % VISIBLE)
TYPE = re.compile(r"\b[A-Z]\w*")
TESTS = "\n#[cfg(test)]\nmod tests {"
CLAUSE = re.compile(r"(requires|ensures)\*?(?: (\w+))? (?=\{)")
CLAUSE_WORD = re.compile(r"(?:requires|ensures)\b")
# An item of a source: its kind, the type (or, of a trait's function, the trait) and the trait that it belongs to, its name, text and contract.
Item = namedtuple("Item", "kind owner trait name text contract path")
# The size of a function: its file and name, its number of parameters, and the lines of its body.
Size = namedtuple("Size", "file name parameters body")
Clause = namedtuple("Clause", "kind name text")


# Comments, literals and tests.


def without_comments(text):
    return LITERAL.sub(lambda it: "" if it[0].startswith("/") else it[0], text)


def plain(text):
    """The lines of a text without comments and blank ones."""
    return [line.rstrip() for line in without_comments(text).split("\n") if line.strip()]


def blanked(text):
    """The code with empty comments and literals; each line stays."""
    return LITERAL.sub(lambda it: ("" if it[0].startswith("/") else it[0][0] * 2) + "\n" * it[0].count("\n"), text)


def without_tests(file, text):
    """A source without the tests at its end; nothing of a file of tests."""
    return "" if "test" in file else text.split(TESTS)[0]


# Items.


def chunks(lines, indent):
    """The lines of each item at this depth, its attributes first; lines before the first one are one more."""
    head, found = re.compile(HEAD % indent), [[]]
    for line in lines:
        if head.match(line) and not (found[-1] and all(it.startswith(indent + "#") for it in found[-1])):
            found.append([])
        found[-1].append(line)
    return [it for it in found if it]


def contract_in(lines):
    """The lines of a function before its body."""
    found = []
    for line in lines:
        if line.strip() in ("{", "{}"):
            break
        found.append(line)
        if line.endswith("{") and not line.lstrip().startswith(("requires", "ensures", "#[")):
            break
    return "\n".join(found)


def first_name(text):
    found = TYPE.search(text)
    return found[0] if found else ""


def owner_of(head):
    """The type and the trait of an `impl`, by its first lines."""
    text = " ".join(it.strip() for it in head if not it.strip().startswith("#")).partition("{")[0]
    depth, at = 0, len("impl")
    if text.startswith("impl<"):
        for at, sign in enumerate(text):
            depth += (sign == "<") - (sign == ">" and text[at - 1] != "-")
            if sign == ">" and depth == 0:
                break
    trait, of, kind = text[at:].partition(" for ")
    return (first_name(kind), first_name(trait)) if of else (first_name(trait), "")


def items_in(text, path):
    """The items of a source, those of an `impl` or a trait one by one, and the rest of such a block as one."""
    for lines in chunks(plain(text), ""):
        body = [it for it in lines if not it.startswith("#")] or [""]
        named = NAMED.match(body[0])
        if named and named[1] != "trait":
            contract = contract_in(lines) if named[1] == "fn" else "\n".join(lines)
            yield Item(named[1], "", "", named[2], "\n".join(lines), contract, path)
        elif named or re.match(r"(?:unsafe )?impl\b", body[0]):
            owner, trait = (named[2], named[2]) if named else owner_of(lines)
            parts = chunks(lines, "    ")
            functions = [it for it in parts if any(re.match(r"    %sfn \w" % VISIBLE, line) for line in it)]
            head = "\n".join(line for it in parts if it not in functions for line in it)
            yield Item("trait" if named else "impl", owner, trait, owner, head, head, path)
            for it in functions:
                name = next(found[2] for found in map(NAMED.match, it) if found)
                yield Item("fn", owner, trait, name, "\n".join(it).removesuffix("\n}"), contract_in(it), path)
        else:
            yield Item("other", "", "", body[0], "\n".join(lines), "\n".join(lines), path)


# Functions and their contracts.


def functions_in(text, path=""):
    """The functions of a source, those of its inline modules too."""
    for item in items_in(text, path):
        if item.kind == "fn":
            yield item
        elif item.kind == "mod" and item.text.endswith("\n}"):
            inner = item.text.partition("{\n")[2].removesuffix("\n}")
            yield from functions_in(re.sub(r"(?m)^    ", "", inner), path)


def sources(folder):
    """The paths of a crate's sources."""
    return sorted(glob.glob(os.path.join(folder, "src", "**", "*.rt"), recursive=True))


def full_name(item):
    """A function's name, after that of its type or trait if it has one."""
    return f"{item.owner}::{item.name}" if item.owner else item.name


def is_public(item):
    """Whether other crates may call the function, by its own words; those of a trait are as public as the trait."""
    head = signature_in(item).partition("\n")[0]
    return head.startswith("pub ") or bool(item.trait) and not head.startswith("pub(")


def exports(text):
    """The words that the root of a crate exports from its modules, and the modules that are public themselves."""
    text = without_comments(text)
    uses = re.findall(r"(?m)^pub use (?:self::)?([\w:]+?)(?:::\{([^}]*)\}|::(\w+)(?: as \w+)?)?;", text)
    names = {it.split(" as ")[0].strip() for path, some, one in uses for it in (some or one or path).split(",")}
    return names - {""}, set(re.findall(r"(?m)^pub mod (\w+)", text))


def public_functions(folder):
    """The functions of a crate that others may call: of what its root exports the functions, and the methods of types and traits; not those of a trait's
    `impl`, whose contract is the trait's."""
    roots = [it for it in sources(folder) if os.path.basename(it) in ("lib.rt", "main.rt")]
    names, modules = exports("\n".join(text_of(it) for it in roots))
    for path in sources(folder):
        module = os.path.relpath(path, os.path.join(folder, "src")).removesuffix(".rt").split(os.sep)[0]
        is_open = path in roots or module in modules
        for item in functions_in(without_tests(os.path.basename(path), text_of(path)), path):
            if is_public(item) and (is_open or (item.owner or item.name) in names) and item.trait in ("", item.owner):
                yield item


def signature_in(item):
    """A function's signature and clauses, a line each as they are written, without its attributes and layout."""
    lines = item.contract.split("\n")
    first = next(number for number, line in enumerate(lines) if FN.match(line))
    found = []
    for line in lines[first:]:
        found.append(line.strip())
        if line.endswith((";", "{}")):
            break
    return "\n".join(found).rstrip("{").rstrip()


def clauses_text(item):
    """The clauses of a function alone."""
    found = re.search(r"(?m)^(?:requires|ensures)\b", signature_in(item))
    return signature_in(item)[found.start() :] if found else ""


def clauses_in(item):
    """The clauses of a function one by one: whether it requires or ensures, its name, which may be nothing, and its text."""
    text, at = clauses_text(item), 0
    while found := CLAUSE.search(text, at):
        at = past(text, found.end(), "{}")
        yield Clause(found[1], found[2] or "", text[found.end() + 1 : at - 1].strip())


def owners_in(text):
    """The owner and name of the function that each line of a source is in, or None, by the number of the line, from 1."""
    owner, name, found = "", None, [None]
    lines = text.split("\n")
    for at, line in enumerate(lines):
        if re.match(r"(?:unsafe )?impl\b", line):
            owner = owner_of(lines[at : at + 12])[0]
        elif trait := re.match(r"%strait (\w+)" % VISIBLE, line):
            owner = trait[1]
        elif line.startswith("}"):
            owner = ""
        named = FN.match(line)
        if named:
            name = (owner if line.startswith(" ") else "", named[1])
            above = at
            while lines[above - 1].lstrip().startswith("#["):
                found[above] = name  # the checker reports a function at its first attribute
                above -= 1
        found.append(name)
    return found


# How large functions are.


def filled(text):
    """How many lines of a text aren't blank."""
    return sum(1 for line in text.split("\n") if line.strip())


def past(text, at, pairs):
    """The place after the closing sign of the one at this place."""
    depth = 0
    for at in range(at, len(text)):
        depth += (text[at] in pairs[0]) - (text[at] in pairs[1] and text[at - 1 : at + 1] not in ("->", "=>"))
        if not depth:
            return at + 1
    return len(text)


def parameters_in(text):
    """The number of parameters in a list, its receiver too."""
    depth, count, any_of_it = 0, 0, False
    for at, sign in enumerate(text):
        depth += (sign in "([{<") - (sign in ")]}" or (sign == ">" and text[at - 1] not in "-="))
        if sign == "," and not depth:
            count, any_of_it = count + any_of_it, False
        elif sign.strip():
            any_of_it = True
    return count + any_of_it


def body_at(text, at):
    """The body that follows a function's parameters and clauses, or nothing if it has none."""
    while at < len(text):
        if text[at] in "([":
            at = past(text, at, ("([", ")]"))
        elif text[at] == ";":
            return ""
        elif text[at] == "{":
            return text[at + 1 : past(text, at, "{}") - 1]
        elif CLAUSE_WORD.match(text, at) and not re.match(r"\w", text[at - 1]):
            at = past(text, text.index("{", at), "{}")
        else:
            at += 1
    return ""


def sizes_in(file, text):
    """The functions of a source, each with its number of parameters, and the lines of its body."""
    text = blanked(text)
    for head in re.finditer(r"\bfn\s+(\w+)", text):
        at = head.end()
        if text[at : at + 1] == "<":
            at = past(text, at, "<>")
        if text[at : at + 1] == "(":
            end = past(text, at, "()")
            yield Size(file, head[1], parameters_in(text[at + 1 : end - 1]), filled(body_at(text, end)))
