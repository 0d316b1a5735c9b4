"""Pairs dumped from folders and loaded into them, for `try_programs.py`. The expected output comes from `plain_files.py`, which shares no code with the program."""

import os
import random
import re

from tools.cases import json_cases, look_cases
from tools.cases.case import FULL, Case, written
from tools.oracle import plain_files
from tools.oracle.plain_files import commit
from tools.oracle.plain_store import key_word, keyed, word

SEED = 67
ODD = [b"a", b"-", b"--", b"\\", b"\\x2d", b"#k", b" ", b"a b", b"\xff\x00", b"\r", b"\n", b"\\s1:", b"x" * 255, bytes(range(255))]


def lines_of(pairs):
    """The lines of pairs, ascending by key."""
    return b"".join(b"%s %s\n" % (key_word(key), word(pairs[key])) for key in sorted(pairs))


def odd_pairs():
    """Pairs of several spaces, of keys and values that are printed with escapes."""
    pairs = {(space, own): own[:7] * 3 for space in (0, 1, 255, 256, 65_535) for own in ODD}
    pairs[(0, b"empty")] = b""
    pairs[(0, b"long")] = b"v" * 65_535
    return pairs


def folder_of(folder, name, pairs, entries=()):
    log = plain_files.Log(1)
    log.entries = list(entries)
    written(folder, f"{name}/base.pcb", plain_files.Base(1, 0, pairs).text())
    written(folder, f"{name}/log.pcl", log.text())


def dump_cases(folder):
    """Folders whose pairs are printed."""
    pairs = odd_pairs()
    folder_of(folder, "odd", pairs)
    yield Case("a dump", ("dump", "odd"), 0, lines_of(pairs))
    for space in (0, 1, 2, 256, 65_535):
        yield Case(f"a dump of space {space}", ("dump", "odd", "--space", str(space)), 0, lines_of({key: pairs[key] for key in pairs if key[0] == space}))
    for prefix in (b"a", b"\\", b"-", b"\xff", b"zz"):
        chosen = {key: pairs[key] for key in pairs if key[1].startswith(prefix)}
        yield Case(f"a dump of {prefix}", ("dump", "odd", "--prefix", word(prefix).decode()), 0, lines_of(chosen))
    chosen = {key: pairs[key] for key in pairs if key[0] == 1 and key[1].startswith(b"a")}
    yield Case("a dump of a space and a prefix", ("dump", "odd", "--space=1", "--prefix=a"), 0, lines_of(chosen))
    yield Case("a dump of a prefix that is no word", ("dump", "odd", "--prefix=\\q"), 2, err=b"pcalc: --prefix: no word of bytes\n")
    yield Case("a dump to a full output", ("dump", "odd"), 1, output=FULL)
    yield Case("a dump of no folder", ("dump", "nowhere"), 1, err=b"pcalc: base.pcb: NoFile\n")
    folder_of(folder, "logged", keyed({b"a": b"1", b"b": b"2"}), [commit(1, {b"b": None, b"c": b"3"})])
    yield Case("a dump of a base and a log", ("dump", "logged"), 0, b"a 1\nc 3\n")
    os.remove(os.path.join(folder, "logged", "log.pcl"))
    yield Case("a dump without its log", ("dump", "logged"), 1, err=b"log NoFile\npcalc: logged: Damaged\n")
    yield Case("a dump without its log, with damage accepted", ("dump", "logged", "--damaged"), 0, b"a 1\nb 2\n", b"log NoFile\n")
    yield Case("dump --help", ("dump", "--help"), 0, parts=[b"<DIR>", b"--space <N>", b"--prefix <WORD>", b"--json", b"--point <N>", b"--damaged"])


def hostile_cases(folder):
    """Folders whose files are truncated, changed or foreign: what is recovered from them is printed, or why nothing is."""
    base = plain_files.Base(1, 0, keyed({b"a": b"1", b"k": b"v"})).text()
    texts = [("base.pcb", base[:size]) for size in range(0, len(base), 5)] + [("log.pcl", text) for _, text in look_cases.texts() if len(text) < 1_000]
    written(folder, "hostile/base.pcb", base)
    for number, (name, text) in enumerate(texts):
        files = {"base.pcb": base, "log.pcl": plain_files.Log(1).text(), name: text}
        for each, content in files.items():
            written(folder, f"hostile/{each}", content)
        try:
            found = plain_files.recover(files["base.pcb"], [], files["log.pcl"])
        except plain_files.Refused as fault:
            yield Case(f"a dump of a hostile folder, {number}", ("dump", "hostile"), 1, err=b"pcalc: hostile: %s\n" % fault.name.encode())
            continue
        is_damaged = len(files["log.pcl"]) < 20 or found.fault not in (None, "Short")
        err = [b"pcalc: hostile: Damaged\n"] if is_damaged else b""
        yield Case(f"a dump of a hostile folder, {number}", ("dump", "hostile"), 1 if is_damaged else 0, b"" if is_damaged else lines_of(found.pairs), err)
        yield Case(f"the same, with damage accepted, {number}", ("dump", "hostile", "--damaged"), 0, lines_of(found.pairs), [])


def pointed_run(points):
    """The base of a run at point 0, its parts by point, and its log: there are commits before each token, and after the last."""
    base = plain_files.Base(1, 0, {**keyed({b"a": b"0", b"b": b"0", b"gone": b"0"}), (7, b"a"): b"0"})
    log, state, before, parts = plain_files.Log(1), dict(base.pairs), dict(base.pairs), {}

    def committed(word_of):
        entry = ("commit", 1, [*keyed({b"a": word_of, b"k" + word_of: word_of, b"gone": None}).items(), ((7, b"n"), len(log.entries))])
        log.entries.append(entry)
        for key, change in entry[2]:
            plain_files.apply(state, key, change)

    for point in range(1, points + 1):
        for phase in ("prepare", "resolve", "capture", "complete", "rest"):
            committed(b"%d%s" % (point, phase[:2].encode()))
            if phase == "resolve":
                touched = {key for key in {*state, *before} if state.get(key) != before.get(key)}
                parts[point] = plain_files.Part(1, [(point, point)], {key: (point, state.get(key)) for key in touched})
                before = dict(state)
            log.entries.append(("token", phase, point))
    committed(b"end")
    return base, parts, log


def point_state(point, base_text, parts, log_text):
    """The pairs of the point's state, or None if the parts (names with texts) and the log don't reach it."""
    base = plain_files.read_base(base_text)
    kept = [(name, text) for name, text in parts if not is_above(point, text)]
    found = plain_files.recover(base_text, kept, b"")
    if found.point == point:
        return found.pairs
    log = plain_files.Log(base.run) if len(log_text) < 20 else plain_files.read_log(log_text)
    if log.run != base.run:
        raise plain_files.Refused("OtherRun")
    token = ("token", "resolve", point)
    start = log.entries.index(("token", "resolve", found.point)) + 1 if found.point and ("token", "resolve", found.point) in log.entries else 0
    if (found.point and not start) or token not in log.entries[start:]:
        return None
    for entry in log.entries[start : log.entries.index(token, start)]:
        for key, change in entry[2] if entry[0] == "commit" else ():
            plain_files.apply(found.pairs, key, change)
    return found.pairs


def is_above(point, text):
    try:
        return plain_files.read_part(text).greatest() > point
    except plain_files.Refused:
        return False


def pointed_folders():
    """Folders by name: the texts of a base, of parts by name, and of a log, or None."""
    base, parts, log = pointed_run(4)
    texts = [(b"%d.pcp" % point, parts[point].text()) for point in sorted(parts)]
    two_three = (b"2-3.pcp", plain_files.join(parts[2], parts[3]).text())
    one_three = (b"1,3.pcp", plain_files.join(parts[1], parts[3]).text())
    collapsed = plain_files.lay(base, plain_files.join(parts[1], parts[2]))
    damaged = (b"2.pcp", parts[2].text()[:-9])
    foreign = (b"3.pcp", plain_files.Part(2, [(3, 3)], {}).text())
    other_log = plain_files.Log(2).text()
    whole, bare = log.text(), base.text()
    yield "both", (bare, texts, whole)
    yield "first format", (plain_files.Base(1, 0, keyed({b"a": b"0"})).text(plain_files.FIRST), [], whole)
    yield "parts alone", (bare, texts, None)
    yield "log alone", (bare, [], whole)
    yield "a part of two points", (bare, [texts[0], two_three, texts[3]], whole)
    yield "the same alone", (bare, [texts[0], two_three, texts[3]], None)
    yield "a part of points apart", (bare, [one_three, texts[1]], whole)
    yield "the same alone, apart", (bare, [one_three, texts[1]], None)
    yield "a base of point 2", (collapsed.text(), texts[2:], whole)
    yield "a base of point 2, without its log", (collapsed.text(), texts, None)
    yield "a damaged part", (bare, [texts[0], damaged, texts[2]], whole)
    yield "a damaged part alone", (bare, [texts[0], damaged, texts[2]], None)
    yield "a foreign part", (bare, [*texts[:2], foreign], whole)
    yield "a log of another run", (bare, texts[:2], other_log)
    yield "a log of another kind", (bare, texts[:2], b"PCALCL99" + whole[8:])
    yield "a log without entries", (bare, texts[:1], whole[:20])
    for size in range(0, len(whole), 41):
        yield f"a log of {size} bytes", (bare, texts[:1], whole[:size])
    yield "parts in conflict", (bare, [*texts[:2], (b"2b.pcp", plain_files.Part(1, [(2, 2)], {key: (2, b"other") for key in parts[2].entries}).text())], whole)


def point_cases(folder):
    """The states of points of folders."""
    for number, (name, (base, parts, log)) in enumerate(pointed_folders()):
        dir_name = f"pointed{number}"
        for file, text in [(b"base.pcb", base), *parts, *([(b"log.pcl", log)] if log is not None else [])]:
            written(folder, os.path.join(dir_name, file.decode()), text)
        for point in (1, 2, 3, 4, 5, 65_535):
            words = ("dump", dir_name, "--point", str(point))
            try:
                pairs = point_state(point, base, parts, log or b"")
            except plain_files.Refused as fault:
                yield Case(f"point {point} of {name}", words, 1, err=b"pcalc: %s: %s\n" % (dir_name.encode(), fault.name.encode()))
                continue
            if pairs is None:
                yield Case(f"point {point} of {name}", words, 1, err=b"pcalc: %s: NoPoint\n" % dir_name.encode())
                continue
            yield Case(f"point {point} of {name}", words, 0, lines_of(pairs))
    base, parts, log = pointed_run(4)
    pairs = point_state(2, base.text(), [], log.text())
    words = ("dump", "pointed0", "--point=2")
    yield Case("a point in a space", (*words, "--space", "7"), 0, lines_of({key: pairs[key] for key in pairs if key[0] == 7}))
    yield Case("a point of a prefix", (*words, "--prefix", "k1"), 0, lines_of({key: pairs[key] for key in pairs if key[1].startswith(b"k1")}))
    yield Case("a point in JSON", (*words, "--json"), 0, json_cases.json_lines(pairs))
    lacked = b"pcalc: pointed0: NoPoint\n  neither its parts nor its log reach the point of --point\n"
    yield Case("a missing point, explained", ("dump", "pointed0", "--point", "9", "--explain"), 1, err=lacked)
    yield Case("a point to a full output", words, 1, output=FULL)
    yield Case("a point of no folder", ("dump", "nowhere", "--point", "1"), 1, err=b"pcalc: base.pcb: NoFile\n")
    yield Case("point 0", ("dump", "pointed0", "--point", "0"), 2, err=[b"error: invalid value '0' for '--point <N>': 0 is not in 1..=65535\n"])
    yield Case("a point of a damaged folder", (*words, "--damaged"), 2, err=[b"cannot be used with"])
    served = os.path.join("pointed_served", "gen-0000001")
    for file, text in (("base.pcb", base.text()), ("1.pcp", parts[1].text()), ("log.pcl", log.text())):
        written(folder, os.path.join(served, file), text)
    yield Case("a point of a served folder", ("dump", "pointed_served", "--point", "2"), 0, lines_of(pairs), [])
    yield Case("a point that a served folder lacks", ("dump", "pointed_served", "--point", "9"), 1, err=[b"pcalc: pointed_served/gen-0000001: NoPoint\n"])


def foreign_cases(folder):
    """Lines that are bytes of files, or changed: they are refused, or loaded as they say."""
    chance = random.Random(SEED)
    lines = lines_of(odd_pairs())[:3_000]
    texts = [plain_files.Base(1, 0, keyed({b"a": b"1"})).text(), bytes(range(256)) * 40, b"\n" * 1_000, b" \n" * 9]
    for _ in range(40):
        at = chance.randrange(len(lines))
        texts.append(lines[:at] + bytes([chance.randrange(256)]) + lines[at + 1 :])
    for number, text in enumerate(texts):
        written(folder, "foreign", text)
        made = f"foreign{number}"
        os.makedirs(os.path.join(folder, made), exist_ok=True)
        pairs, fault = loaded(text)
        if fault:
            yield Case(f"foreign lines, {number}", ("load", made, "foreign"), 3, err=b"bad line %d %s\n" % fault, files={f"{made}/base.pcb": None})
        else:
            yield Case(f"foreign lines, {number}", ("load", made, "foreign"), 0, files={f"{made}/base.pcb": plain_files.Base(1, 0, pairs).text()})


def loaded(text):
    """The pairs of lines, and the number of the first line at fault with the fault, if one is."""
    pairs = {}
    for number, line in enumerate(lines_in(text), 1):
        first, space, second = line.partition(b" ")
        key, value = key_in(first), bytes_in(second)
        if not space or key is None or value is None:
            return pairs, (number, b"Malformed")
        if not 1 <= len(key[1]) <= 255:
            return pairs, (number, b"KeyLength")
        if len(value) > 65_535:
            return pairs, (number, b"ValueLength")
        if key in pairs:
            return pairs, (number, b"Twice")
        pairs[key] = value
    return pairs, None


def lines_in(text):
    """The lines of a text: a line feed ends each, with a carriage return before it or without, but the last one may lack its end."""
    lines = text.split(b"\n")
    if not lines[-1]:
        lines.pop()
    elif lines:
        return [line.removesuffix(b"\r") for line in lines[:-1]] + [lines[-1]]
    return [line.removesuffix(b"\r") for line in lines]


def bytes_in(text):
    """The bytes of a word, or None if it isn't one."""
    if text == b"-":
        return b""
    found = re.fullmatch(rb"(?:[!-\[\]-~]|\\x[0-9a-f]{2})*", text)
    return found and re.sub(rb"\\x(..)", lambda escape: bytes.fromhex(escape[1].decode()), text)


def key_in(text):
    """The space and the own bytes of a key's word, or None if it isn't one."""
    found = re.match(rb"\\s([1-9][0-9]{0,8}):", text)
    if not found:
        own = bytes_in(text)
        return None if own is None else (0, own)
    own = bytes_in(text[found.end() :])
    return None if own is None or int(found[1]) > 65_535 or found.end() == len(text) else (int(found[1]), own)


# Lines at fault, and why they are.
REASONS = {
    b"a": b"Malformed a word is missing", b"": b"Malformed a word is missing", b"a b c": b"Malformed there are too many words", b"a  b": b"Malformed there are too many words",
    b"\\s0:a b": b"Malformed the first word is no key", b"a\tb c": b"Malformed the first word is no key", b"a \\q": b"Malformed the second word is no value",
    b"a b\r\r": b"Malformed a CR stands at its end", b" a": b"KeyLength the first word is no key of 1 to 255 bytes", b"- b": b"KeyLength the first word is no key of 1 to 255 bytes",
    b"a " + b"v" * 65_536: b"ValueLength the second word is no value of at most 65535 bytes", b"k 1": b"Twice an earlier line has its key",
}


def reason_cases(folder, reasons, lines, *words):
    """What `load --explain` says of the third line."""
    os.makedirs(os.path.join(folder, "reasons"), exist_ok=True)
    for line, why in reasons.items():
        fault, _, reason = why.partition(b" ")
        written(folder, "lines", lines + line + b"\nm x\n")
        err = b"bad line 3 %s\nlines:3: %s\n" % (fault, reason)
        yield Case(f"why a line is bad that is {line[:40]}", ("load", "reasons", "lines", "--explain", *words), 3, err=err, files={"reasons/base.pcb": None})


def load_cases(folder):
    """Folders that are made of lines."""
    pairs = odd_pairs()
    lines = lines_of(pairs)
    base, log = plain_files.Base(1, 0, pairs).text(), plain_files.Log(1).text()
    shuffled = lines.splitlines(keepends=True)
    random.Random(SEED).shuffle(shuffled)
    texts = {"ascending": lines, "in any order": b"".join(shuffled), "without the last end": lines[:-1], "with returns": lines.replace(b"\n", b"\r\n")}
    for number, (name, text) in enumerate(texts.items()):
        written(folder, "lines", text)
        made = f"loaded{number}"
        os.makedirs(os.path.join(folder, made), exist_ok=True)
        yield Case(f"lines {name}", ("load", made, "lines"), 0, files={f"{made}/base.pcb": base, f"{made}/log.pcl": log})
        yield Case(f"a dump of what was loaded, {name}", ("dump", made), 0, lines)
    written(folder, "lines", lines)
    yield Case("lines for a folder that has files", ("load", "loaded0", "lines"), 1, err=b"pcalc: loaded0: NotEmpty\n")
    os.makedirs(os.path.join(folder, "spare"), exist_ok=True)
    faults = {
        b"a": b"Malformed", b"": b"Malformed", b" a": b"KeyLength", b"a b c": b"Malformed", b"a  b": b"Malformed", b"a \\q": b"Malformed",
        b"- b": b"KeyLength", b"x" * 256 + b" b": b"KeyLength", b"a " + b"v" * 65_536: b"ValueLength", b"\\s0:a b": b"Malformed", b"\\s65536:a b": b"Malformed", b"k 1": b"Twice",
    }
    for line, fault in faults.items():
        written(folder, "lines", b"k v\nl w\n" + line + b"\nm x\n")
        yield Case(f"a line that is {line[:9]}", ("load", "spare", "lines"), 3, err=b"bad line 3 %s\n" % fault)
    written(folder, "lines", b"a \nb -\n")
    os.makedirs(os.path.join(folder, "empty"), exist_ok=True)
    yield Case("values of no bytes", ("load", "empty", "lines"), 0, files={"empty/base.pcb": plain_files.Base(1, 0, keyed({b"a": b"", b"b": b""})).text()})
    written(folder, "lines", b"k v\nl w\nk 1\n")
    yield Case("a file of lines that isn't there", ("load", "spare", "none"), 1, err=b"pcalc: none: NoFile\n")
    yield Case("a folder that isn't there", ("load", "nowhere", "lines"), 3, err=b"bad line 3 Twice\n")
    written(folder, "lines", b"")
    yield Case("no lines for a folder that isn't there", ("load", "nowhere", "lines"), 1, err=b"pcalc: nowhere: NoFile\n")
    yield Case("no lines", ("load", "spare", "lines", "--run", "9"), 0, files={"spare/base.pcb": plain_files.Base(9, 0, {}).text(), "spare/log.pcl": plain_files.Log(9).text()})
    yield Case("a folder of no pairs", ("dump", "spare"), 0, b"")
    yield from reason_cases(folder, REASONS, b"k v\nl w\n")
    yield from reason_cases(folder, json_cases.REASONS, b'{"key":"k","value":"v"}\n{"value":"w","key":"l","space":0}\n', "--json")
    yield Case("load --help", ("load", "--help"), 0, parts=[b"<DIR>", b"[FILE]", b"--json", b"--run <N>"])


def cases(folder):
    """Each case, whose files are written into the folder right before it."""
    yield from dump_cases(folder)
    yield from point_cases(folder)
    yield from load_cases(folder)
    yield from json_cases.cases(folder, odd_pairs())
    yield from hostile_cases(folder)
    yield from foreign_cases(folder)
