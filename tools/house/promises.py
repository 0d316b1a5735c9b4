#!/usr/bin/env python3
"""Makes docs/PROMISES.md from docs/promises.txt, and compares each promise with the contracts that it names.

    promises.py           prints what is wrong; the status is 1 if anything is
    promises.py --mark    writes docs/PROMISES.md

docs/promises.txt has the text of the page, with these instead of tables:

    promise NAME: SENTENCE
      CRATE FUNCTION, FUNCTION: CLAUSE, CLAUSE; FUNCTION     functions, each group with the clauses that carry the promise, or all of theirs
      CRATE law NAME, NAME                                   lemmas of the crate's proofs/ that other crates may use
      CRATE definition MODULE.WORD, MODULE.WORD.FIELD        definitions of the crate's specs/
      CRATE invariant TYPE                                   what each value of the type keeps
      note TEXT                                              words to add, which name no code

After `TYPE::name` the type of a further method may be left out. `file::name` is a function of src/file.rt, if several files have one of that name. A
name with `*` means all functions that it matches and that have a clause, or these clauses. Two entries have such lines too:

    laws: TEXT           functions whose contracts are laws: an item of a list, or `Laws:` with their names if there is no text
    unnamed: REASON      public functions that nothing else names; the page doesn't have these. With `*` only functions without a clause count

Reported are: a missing function, clause, law, definition or invariant; a named function without a clause, unless its contract is that of a trait; a
name that two promises of a section have, or that wrong bodies name and no promise has; a public function of the product that no entry names, or that is
named and listed as unnamed; a page that differs. The wrong bodies of a promise are those whose edits name it (check_edits.py): those that the gate
tries by name, and after a plus how many more are tried on demand. Of a name that several promises have, those of the crates in the heading above count.
"""

import fnmatch
import functools
import glob
import os
import re
import sys
from collections import Counter, namedtuple

if __name__ == "__main__":
    sys.path.insert(0, os.path.join(os.path.dirname(os.path.abspath(__file__)), "..", ".."))

from tools import ROOT, text_of
from tools.house import check_edits, rt_source, spec_guide
from tools.house.gate_times import crates_of

CRATES = os.path.join(ROOT, "crates")
TEXT = os.path.join(ROOT, "docs", "promises.txt")
PAGE = os.path.join(ROOT, "docs", "PROMISES.md")
KINDS = ("law", "definition", "invariant")
HEAD = ["| promise | contract | wrong bodies |", "|---|---|---|"]
Promise = namedtuple("Promise", "name sentence references notes")
# Names of one crate: groups of names with their clauses, or names of one of the other kinds.
Reference = namedtuple("Reference", "crate kind groups")
Laws = namedtuple("Laws", "text references notes")
Unnamed = namedtuple("Unnamed", "reason references")


# The text.


def listed(text, sign=","):
    return [it.strip() for it in text.split(sign) if it.strip()]


def reference_in(line):
    crate, _, rest = line.strip().partition(" ")
    kind, _, names = rest.partition(" ")
    if kind in KINDS:
        return Reference(crate, kind, [(listed(names), [])])
    groups = [re.split(r"(?<!:):(?!:)", group, maxsplit=1) for group in listed(rest, ";")]
    return Reference(crate, "functions", [(with_types(crate, listed(names)), listed(clauses[0]) if clauses else []) for names, *clauses in groups])


def with_types(crate, names):
    """The names; a method of the type of the name before it is preceded by that type."""
    found, kind = [], ""
    for name in names:
        kind = name.rpartition("::")[0] or kind
        is_method = "::" not in name and (f"{kind}::{name}" in functions_of(crate) or "*" in name and fitting(crate, f"{kind}::{name}", []))
        found.append(f"{kind}::{name}" if is_method else name)
    return found


def parts_of(text):
    """The text's parts in order: plain lines, and entries with their references."""
    parts = []
    for line in text.split("\n"):
        if line.startswith("promise "):
            name, _, sentence = line.removeprefix("promise ").partition(": ")
            parts.append(Promise(name, sentence, [], []))
        elif line.startswith("laws:"):
            parts.append(Laws(line.removeprefix("laws:").strip(), [], []))
        elif line.startswith("unnamed: "):
            parts.append(Unnamed(line.removeprefix("unnamed: "), []))
        elif line.startswith("  note ") and parts and isinstance(parts[-1], (Promise, Laws)):
            parts[-1].notes.append(line.removeprefix("  note "))
        elif line.startswith("  ") and parts and not isinstance(parts[-1], str):
            parts[-1].references.append(reference_in(line))
        else:
            parts.append(line)
    return parts


def promises_in(parts):
    """Each promise with the crates of the heading above it."""
    crates = []
    for part in parts:
        if isinstance(part, str) and part.startswith("## "):
            crates = re.findall(r"`(\w+)`", part)
        elif isinstance(part, Promise):
            yield part, crates


# What there is.


@functools.cache
def functions_of(crate):
    """Each function of a crate, by its name, and by its file's name and its own."""
    found = {}
    for path in rt_source.sources(os.path.join(CRATES, crate)):
        text = rt_source.without_tests(os.path.basename(path), text_of(path))
        for item in rt_source.functions_in(text, path):
            found.setdefault(rt_source.full_name(item), []).append(item)
            if not item.owner:
                found.setdefault(f"{os.path.basename(path).removesuffix('.rt')}::{item.name}", []).append(item)
    return found


@functools.cache
def public_in(crate):
    """The public functions of a crate."""
    return [*rt_source.public_functions(os.path.join(CRATES, crate))]


def clauses_of(item):
    return [it.name for it in rt_source.clauses_in(item)]


def fitting(crate, name, clauses):
    """The functions that a name with `*` matches."""
    some = [item for full, items in functions_of(crate).items() for item in items if full == rt_source.full_name(item) and fnmatch.fnmatchcase(full, name)]
    return [item for item in some if clauses_of(item) and set(clauses) <= set(clauses_of(item))]


def found_of(crate, name, clauses):
    """The functions that a reference's name means."""
    return fitting(crate, name, clauses) if "*" in name else functions_of(crate).get(name, [])


def has_law(crate, name):
    paths = glob.glob(os.path.join(CRATES, crate, "proofs", "**", "*.antt"), recursive=True)
    return any(re.search(rf"(?m)^\s*pub {re.escape(name)} :", text_of(path)) for path in paths)


def has_definition(crate, name):
    module, _, rest = name.partition(".")
    word, _, field = rest.partition(".")
    path = spec_guide.spec_path(crate, module)
    text = spec_guide.Spec(text_of(path)).definitions.get(word) if os.path.exists(path) else None
    return text is not None and (not field or re.search(rf"(?m)^\s+(?:pub )?{re.escape(field)} :", text) is not None)


def has_invariant(crate, name):
    """Whether the type's model has an invariant."""
    for path in rt_source.sources(os.path.join(CRATES, crate)):
        for item in rt_source.items_in(text_of(path), path):
            if item.kind == "impl" and (item.owner, item.trait) == (name, "Model") and "ghost invariant" in item.text:
                return True
    return False


# What is wrong.


def faults_of(reference):
    """What a reference names that doesn't exist."""
    if reference.crate not in crates_of():
        yield f"there is no crate {reference.crate}"
    elif reference.kind != "functions":
        has = {"law": has_law, "definition": has_definition, "invariant": has_invariant}[reference.kind]
        yield from (f"{reference.crate} has no {reference.kind} {name}" for names, _ in reference.groups for name in names if not has(reference.crate, name))
    else:
        yield from (fault for names, clauses in reference.groups for name in names for fault in faults_of_function(reference.crate, name, clauses))


def faults_of_function(crate, name, clauses):
    items = found_of(crate, name, clauses)
    known = {it for item in items for it in clauses_of(item)}
    if not items:
        yield f"{crate} has no function {name}" + (f" with {', '.join(clauses)}" if "*" in name and clauses else "")
    elif "*" not in name and len(items) > 1 and not items[0].owner:
        yield f"{crate} has several functions {name}: name the file too"
    elif not known and not any(item.trait not in ("", item.owner) for item in items):
        yield f"{crate} {name} has no clause"
    else:
        yield from (f"{crate} {name} has no clause {clause}" for clause in clauses if clause not in known)


def key_of(crate, item):
    return crate, item.path, rt_source.full_name(item)


def named_by(references):
    """The functions that references name."""
    for crate, kind, groups in references:
        if kind == "functions" and crate in crates_of():
            for names, clauses in groups:
                yield from (key_of(crate, item) for name in names for item in found_of(crate, name, clauses))


def product():
    """The public functions of the product."""
    return {key_of(crate, item): item for crate in crates_of() if crate.startswith("pc") for item in public_in(crate)}


def unnamed_by(reference, public, named):
    """The public functions that a reference lists as unnamed; with `*` those without a clause that nothing else names."""
    for names, _ in reference.groups:
        for name in names:
            if "*" in name:
                fits = {key for key, item in public.items() if key[0] == reference.crate and fnmatch.fnmatchcase(key[2], name) and not clauses_of(item)}
                yield name, fits - named
            else:
                yield name, {key_of(reference.crate, item) for item in found_of(reference.crate, name, [])}


def faults_of_coverage(parts):
    """Public functions of the product that nothing names, or that are wrongly listed as unnamed."""
    public, listed_ones = product(), set()
    named = {it for part in parts if isinstance(part, (Promise, Laws)) for it in named_by(part.references)}
    for part in parts:
        for reference in part.references if isinstance(part, Unnamed) else ():
            for name, keys in unnamed_by(reference, public, named):
                what = f"unnamed: {reference.crate} {name}"
                listed_ones |= keys
                if not keys & public.keys():
                    yield f"{what} is no public function"
                elif keys & named:
                    yield f"{what} is named above"
    yield from (f"nothing names the public function {crate} {name}" for crate, path, name in public if not {(crate, path, name)} & (named | listed_ones))


def faults_in(parts, found):
    """What is wrong with the text, given the wrong bodies."""
    seen = set()
    for promise, crates in promises_in(parts):
        if not promise.references:
            yield f"{promise.name}: it names no contract"
        if (promise.name, *crates) in seen:
            yield f"{promise.name}: two promises of a section have this name"
        seen.add((promise.name, *crates))
        yield from (f"{promise.name}: {fault}" for it in promise.references for fault in faults_of(it))
    yield from (f"{name}: no promise has this name, which wrong bodies name" for name in found if name not in {promise.name for promise, _ in promises_in(parts)})
    yield from (f"laws: {fault}" for part in parts if isinstance(part, Laws) for it in part.references for fault in faults_of(it))
    yield from (f"a note names code: {note}" for part in parts if isinstance(part, (Promise, Laws)) for note in part.notes if "`" in note)
    yield from faults_of_coverage(parts)


# The page.


def ticked(names):
    return ", ".join(f"`{it}`" for it in names)


def functions_text(groups, kind):
    """The groups of a reference as they are printed, after a function of the type `kind`, and the type of the last one."""
    text, is_wide = "", False
    for names, clauses in groups:
        for at, name in enumerate(names):
            before, (kind, _, own) = kind, name.rpartition("::")
            is_first = "*" in name and (at == 0 or "*" not in names[at - 1])
            text += ("; " if is_wide and (is_first or "*" not in name) else ", " if text else "") + ("each " if is_first else "")
            text += f"`{(own if kind == before else name).replace('*', '..')}`"
            is_wide, kind = "*" in name, "" if "*" in name else kind
        text += f" {ticked(clauses)}" if clauses else ""
        is_wide = is_wide or len(clauses) > 1
    return text, kind


def groups_of(promise):
    return [(it.crate, *group) for it in promise.references if it.kind == "functions" for group in it.groups]


def same_text(promise, before):
    """What is printed of a promise whose functions are those of the row above, otherwise nothing."""
    own, other = groups_of(promise), groups_of(before) if before else []
    if not own or own == other:
        return "the same" if own else ""
    return f"the same, {ticked(own[0][2])}" if len(own) == len(other) == 1 and own[0][:2] == other[0][:2] and own[0][2] else ""


def contract_text(promise, before, crates):
    """The contract's cell, after the promise `before` in the row above."""
    same = same_text(promise, before)
    texts, crate, kind = [same] if same else [], "", ""
    for it in promise.references:
        if same and it.kind == "functions":
            continue
        head = f"`{it.crate}` " if it.crate not in (*crates, crate) else ""
        kind = kind if crate == it.crate else ""
        if it.kind == "functions":
            text, kind = functions_text(it.groups, kind)
        else:
            text = other_text(it.kind, it.groups[0][0])
        crate = it.crate
        texts.append(head + text)
    return "; ".join([*texts, *promise.notes])


def laws_text(laws, crates):
    """The line of laws: their names, each after its crate if the heading has another one, and what they say."""
    names = "; ".join((f"`{it.crate}` " if it.crate not in crates else "") + functions_text(it.groups, "")[0] for it in laws.references)
    names = "; ".join([names, *laws.notes])
    return f"- {names}: {laws.text}" if laws.text else f"Laws: {names}."


def other_text(kind, names):
    if kind == "definition":
        return ", ".join(" ".join(f"`{word}`" for word in name.split(".")[1:]) for name in names)
    return ("invariant of " if kind == "invariant" else "") + ticked(names)


def bodies_text(name, crates, is_only, found):
    """The cell of wrong bodies of a promise."""
    named = {}
    for (crate, body), is_gated in found.get(name, {}).items():
        if is_only or crate in crates:
            named[body] = named.get(body, False) or is_gated
    gate = [f"`{body}`" for body in sorted(named) if named[body]]
    others = len(named) - len(gate)
    return ", ".join(gate + ([f"+{others}"] if others else []))


def page_of(parts, found):
    """The page."""
    counts = Counter(promise.name for promise, _ in promises_in(parts))
    lines, before, crates = [], None, []
    for part in parts:
        if isinstance(part, Laws):
            lines.append(laws_text(part, crates))
        elif isinstance(part, str):
            crates = re.findall(r"`(\w+)`", part) if part.startswith("## ") else crates
            lines.append(part)
            before = None
        elif isinstance(part, Promise):
            lines += HEAD if before is None else []
            cells = contract_text(part, before, crates), bodies_text(part.name, crates, counts[part.name] == 1, found)
            lines.append(f"| **{part.name}**: {part.sentence} | {cells[0]} | {cells[1]} |")
            before = part
    return "\n".join(lines).rstrip("\n") + "\n"


def main(words):
    if words not in ([], ["--mark"]):
        sys.exit(__doc__)
    parts = parts_of(text_of(TEXT))
    found = check_edits.bodies()
    page = page_of(parts, found)
    faults = [f"docs/promises.txt: {fault}" for fault in faults_in(parts, found)]
    if words:
        with open(PAGE, "w", encoding="utf-8") as it:
            it.write(page)
    elif not os.path.exists(PAGE) or text_of(PAGE) != page:
        faults.append("docs/PROMISES.md differs from what docs/promises.txt gives: tools/house/promises.py --mark")
    print("\n".join([*faults, f"{len([*promises_in(parts)])} promises, {len(product())} public functions, {len(faults)} faults"]))
    return 1 if faults else 0


if __name__ == "__main__":
    sys.exit(main(sys.argv[1:]))
