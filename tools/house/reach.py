"""What refuses a wrong body, as far as the text shows: the functions that it changes, and what their proof sees of everything else.

`Tree.sums(crate, edit)` returns two checksums of a body, or None if it can't be applied. The first is of the items that it changes: a function with its
signature, contract and body, a type, the head of an `impl`; of a file of specs/ or proofs/ the definitions. The second is of what they reach:

- the contracts (signature and clauses) of the functions that these items name, before or after the change, and no bodies; if a name follows
  `TYPE::`, those of that type, and otherwise all of that name in the crate and in those below it;
- the types and traits that items and contracts name: of the crate itself whole, with views, invariants and the contracts of their traits; of one below
  with a model its value alone, since no more is seen of it; of enums the variants that something reached names;
- the constants that they name, and the definitions that clauses, views and constants reach, through the specs/ of all crates.

Comments, blank lines, tests and places don't count. A few things too many do, as all methods of one name; the kit's library doesn't.
`tree_here()` is the repository's text; a `Tree` is made of any texts by their paths.
"""

import functools
import glob
import hashlib
import os
import re

from tools import ROOT
from tools.house import rt_source, spec_guide
from tools.house.gate_times import crates_in
from tools.house.rt_source import TYPE, VISIBLE, Item

READ = re.compile(r"crates\.txt|crates/\w+/(?:src/.*\.rt|(?:specs|proofs)/.*\.antt)")
CALL = re.compile(r"(?:\b([A-Z]\w*)(?:::<[^()]*?>)?::)?\b([a-z_]\w*)\b(?=(?:::<[^()]*?>)?\()|(?:\b([A-Z]\w*)(?:::<[^()]*?>)?)::([a-z_]\w*)\b")
WORD = re.compile(r"\b[a-z_]\w*\b")
DECLARED = re.compile(r"^\s*(?:ghost )?use Rattle\.\w+\.specs\.declared\.([\w.]+?)(?:\.\{(.*?)\}| as (\w+));?\s*$", re.M)


def plain_definition(text):
    return "\n".join(it for it in (re.sub(r"(?:^|\s)--(?:\s.*)?$", "", line).rstrip() for line in text.split("\n")) if it)


def items_of(text, path):
    """The items of a source but its tests."""
    return rt_source.items_in(rt_source.without_tests(os.path.basename(path), text), path)


def changes_in(edit):
    """The changes of a wrong body: file, old and new text."""
    path = old = None
    for line in edit.split("\n"):
        word, _, rest = line.partition(":")
        rest = rest.removeprefix(" ")
        if word == "file":
            path = rest.strip()
        elif word == "old":
            old = rest
        elif word == "new" and old is not None:
            yield path, old, rest
            old = None


class Declared:
    """The Rust types and constants of a crate that the words of a text mean."""

    def __init__(self, text):
        self.words = {}
        for path, names, alias in DECLARED.findall(text):
            types = [it for it in path.split(".") if it[0].isupper() and not it.startswith("The")]
            for name in filter(None, (alias, *(it.strip() for it in names.split(",")))):
                own, _, other = name.partition(" as ")
                self.words.setdefault(other or own, set()).update(types or [own])

    def reached(self, text):
        return {it for word in words_in(text) & self.words.keys() for it in self.words[word]}


class Tree:
    """The texts of a repository, by path."""

    def __init__(self, texts):
        self.texts = texts
        self.below = crates_in(texts["crates.txt"])
        self.items, self.specs, self.edges, self.imported = {}, {}, {}, {}
        self.named, self.kept, self.types = {}, {}, {}
        for path, text in texts.items():
            if path.endswith(".rt"):
                self.items[path] = [*items_of(text, path)]
                for it in self.items[path]:
                    self.named.setdefault((path.split("/")[1], it.owner if it.kind == "impl" else it.name), []).append(it)

    # What an edit changes.

    def applied(self, crate, edit):
        """The texts that the edit changes, each before and after it; None if it can't be applied."""
        found = {}
        for file, old, new in changes_in(edit):
            path = f"crates/{crate}/{file}"
            before, text = found.get(path) or (self.texts.get(path),) * 2
            if text is None or text.count(old) != 1:
                return None
            found[path] = before, text.replace(old, new)
        return found or None

    def changed(self, crate, edit):
        """The items that the edit changes, before and after it; None if it can't be applied."""
        texts = self.applied(crate, edit)
        if texts is None:
            return None
        before, after = [], []
        for path, (_, text) in texts.items():
            old, new = self.parts(path), parts_of(text, path)
            before += [it for key, it in old.items() if key not in new or new[key].text != it.text]
            after += [it for key, it in new.items() if key not in old or old[key].text != it.text]
        return before, after

    def parts(self, path):
        if ("", path) not in self.kept:
            self.kept["", path] = parts_of(self.texts[path], path)
        return self.kept["", path]

    # What is reached.

    def sums(self, crate, edit):
        found = self.changed(crate, edit)
        if found is None:
            return None
        own, after = found
        users = self.users(crate, own)
        return sum_of(it.text for it in own), sum_of({*self.reached(crate, own + users, after), *(it.text for it in users)})

    def users(self, crate, own):
        """The functions of the crate that name what is changed, if that is no function: their contracts refuse it."""
        names = {it.name for it in own if it.kind not in ("fn", "impl", "definition")}
        if not names:
            return []
        sources = [it for path, items in self.items.items() if path.split("/")[1] == crate for it in items]
        return [it for it in sources if it.kind == "fn" and it not in own and names & words_in(it.text)]

    def find(self, crate, name, kinds):
        return [it for below in (crate, *self.below[crate]) for it in self.named.get((below, name), ()) if it.kind in kinds]

    def called(self, crate, items):
        """The functions that these items name."""
        found = {}
        for item in items:
            words = {(it[0] or it[2], it[1] or it[3]) for it in CALL.findall(item.text)}
            for kind, name in words:
                known = self.find(crate, name, ("fn",))
                kind = item.owner if kind == "Self" else kind
                found.update((id(it), it) for it in [it for it in known if kind and it.owner == kind] or known)
            # A function that is handed on by its name.
            brought = self.brought(item.path)
            for name in {*WORD.findall(item.text)} - {name for _, name in words}:
                known = [it for it in self.find(crate, name, ("fn",)) if not it.owner and (name in brought or it.path.split("/")[1] == crate)]
                found.update((id(it), it) for it in known)
        return [*found.values()]

    def reached(self, crate, own, after):
        """The texts of all that the items reach, except their own."""
        texts, enums, wait, types = set(), set(), [], {}
        callees = [it for it in self.called(crate, [*own, *after]) if it not in own]
        for item in [*own, *after, *callees]:
            whole = item.contract if item in callees else item.text
            if item in callees:
                texts.add(item.contract)
            wait += self.definition((item.path, item.name))[1] if item.kind == "definition" else self.words(item.path, item.contract)
            for name in {*TYPE.findall(whole), item.owner, item.trait}:
                types.setdefault(name, False)
        seen, done = set(), {}
        while wait or types.keys() - done.keys() or any(types[it] and not done[it] for it in types):
            while wait:
                key = wait.pop()
                if key in seen:
                    continue
                seen.add(key)
                text, more, declared = self.definition(key)
                texts.add(text)
                wait += more
                types.update(dict.fromkeys(declared, True))
            for name in [it for it in types if it not in done or types[it] and not done[it]]:
                done[name] = types[name]
                for text, named, more, is_enum in self.type_texts(crate, name, types[name]):
                    (enums if is_enum else texts).add(text)
                    wait += named
                    for it in more:
                        types.setdefault(it, False)
        texts.discard("")
        words = set().union(*map(words_in, texts), *(words_in(it.text) for it in (*own, *after))) if enums else ()
        return texts | {named_variants(it, words) for it in enums}

    def type_texts(self, crate, name, is_declared):
        """What is seen of the types, traits and constants of this name: texts, each with the definitions and the types that it names."""
        key = crate, name, is_declared
        if key not in self.types:
            found = self.seen_of(*key)
            self.types[key] = [(item_text, self.words(path, item_text), TYPE.findall(visible(item_text, path, crate)) if is_followed else (),
                                is_followed and " enum " in item_text) for item_text, path, is_followed in found]
        return self.types[key]

    def seen_of(self, crate, name, is_declared):
        """The same as texts alone, each with its path, and whether the types that it names are followed."""
        for item in self.find(crate, name, ("struct", "enum", "type", "trait", "impl", "const", "static")):
            is_own = item.path.split("/")[1] == crate
            has_model = any(it.kind == "impl" and it.trait == "Model" for it in self.named[item.path.split("/")[1], name])
            if item.kind == "impl" and item.trait == "Model" and not is_own:
                yield "\n".join(it for it in item.text.split("\n") if "ghost Value" in it), item.path, False
            elif item.kind == "impl" and item.trait:
                yield item.text, item.path, False
                yield from ((it.contract, it.path, False) for it in self.items[item.path] if it.kind == "fn" and (it.owner, it.trait) == (name, item.trait))
            elif item.kind == "trait":
                yield item.text, item.path, False
                yield from ((it.contract, it.path, False) for it in self.items[item.path] if it.kind == "fn" and it.trait == it.owner == name)
            elif item.kind != "impl" and (is_own or is_declared or not has_model):
                yield item.text, item.path, True

    def brought(self, path):
        """The words of a source's `use` lines."""
        if ("use", path) not in self.kept:
            self.kept["use", path] = {word for it in self.items.get(path, ()) if re.match(VISIBLE + "use ", it.text) for word in WORD.findall(it.text)}
        return self.kept["use", path]

    def imports(self, path):
        if path not in self.imported:
            self.imported[path] = spec_guide.Imports(self.texts[path]), Declared(self.texts[path])
        return self.imported[path]

    def words(self, path, text):
        """The definitions that a clause of the file names, and the types and constants as such."""
        if (path, text) not in self.kept:
            imports, declared = self.imports(path)
            self.kept[path, text] = [*((place_of(at), word) for at, word in imports.reached(text)), *(("", it) for it in declared.reached(text))]
        return self.kept[path, text]

    def definition(self, key):
        """A definition's text, the definitions that it names, and the types and constants."""
        if key not in self.edges:
            path, word = key
            if not path or path not in self.texts:
                self.edges[key] = "", [], [word] if not path else []
            else:
                if path not in self.specs:
                    self.specs[path] = spec_guide.Spec(self.texts[path])
                spec = self.specs[path]
                text = spec.definitions.get(word, "")
                more = {(place_of(at), it) for at, it in spec.reached(word, spec_path(path))}
                self.edges[key] = plain_definition(text), sorted(more - {key}), sorted(self.imports(path)[1].reached(text))
        return self.edges[key]


@functools.lru_cache(maxsize=None)
def place_of(path):
    """The path in the repository of a file of definitions."""
    return "crates/" + os.path.relpath(path, spec_guide.CRATES)


def spec_path(path):
    return os.path.join(spec_guide.CRATES, path.removeprefix("crates/"))


def visible(text, path, crate):
    """A type's text; of one below without the private fields."""
    if path.split("/")[1] == crate or not re.search(r"^pub(?:\([a-z]+\))? struct ", text, re.M):
        return text
    return "\n".join(it for it in text.split("\n") if re.match(r"\s*pub ", it))


@functools.lru_cache(maxsize=None)
def words_in(text):
    return frozenset(re.findall(r"\w+", text))


def named_variants(text, words):
    """An enum without the variants that nothing names: one more of these makes no wrong body right."""
    first, *variants = chunks_at(text.split("\n"), "    ")
    return "\n".join([*first, *(line for it in variants if set(re.findall(r"\w+", it[0])[:1]) <= words for line in it)])


def chunks_at(lines, indent):
    """The lines before the first one at this depth, and from each of those on."""
    found = [[]]
    for line in lines:
        if line.startswith(indent) and re.match(r"\w", line[len(indent) :]):
            found.append([])
        found[-1].append(line)
    return found


def parts_of(text, path):
    """The items of a source, or the definitions of a file of those, each by a key that it keeps if its text changes."""
    if path.endswith(".rt"):
        items = items_of(text, path)
    else:
        items = [Item("definition", "", "", word, plain_definition(it), plain_definition(it), path) for word, it in spec_guide.Spec(text).definitions.items()]
    found = {}
    for it in items:
        key = it.kind, it.owner, it.trait, it.name
        found[(*key, sum(other[:4] == key for other in found))] = it
    return found


def sum_of(texts):
    return hashlib.sha256("\0".join(sorted(texts)).encode()).hexdigest()[:8]


def tree_here():
    """The repository's present text."""
    texts = {}
    for path in ["crates.txt", *glob.glob("crates/*/*/**/*.*", root_dir=ROOT, recursive=True)]:
        if READ.fullmatch(path):
            with open(os.path.join(ROOT, path), encoding="utf-8") as it:
                texts[path] = it.read()
    return Tree(texts)
