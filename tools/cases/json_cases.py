"""Pairs as lines of JSON that are dumped and loaded, for `pair_cases.py`. The expected output is made by Python's own `json` and `base64`."""

import base64
import binascii
import json
import os
import random

from tools.cases.case import Case, written
from tools.oracle import plain_files

SEED = 68


def member_of(name, given):
    """The member that has these bytes: a text if they are UTF-8, otherwise base64."""
    try:
        return {name: given.decode()}
    except UnicodeDecodeError:
        return {f"{name}64": base64.b64encode(given).decode()}


def json_line(key, value):
    """The line of a pair: its members in the order of their names, with no space between tokens."""
    space = {"space": key[0]} if key[0] else {}
    members = {**member_of("key", key[1]), **space, **member_of("value", value)}
    return json.dumps(members, ensure_ascii=False, separators=(",", ":"), sort_keys=True).encode() + b"\n"


def json_lines(pairs):
    """The lines of pairs, ascending by key."""
    return b"".join(json_line(key, pairs[key]) for key in sorted(pairs))


def dump_cases(pairs):
    """Dumps of the folder `odd`, which has these pairs."""
    yield Case("a dump in JSON", ("dump", "odd", "--json"), 0, json_lines(pairs))
    for space in (0, 256, 65_535):
        chosen = {key: pairs[key] for key in pairs if key[0] == space}
        yield Case(f"a dump of space {space} in JSON", ("dump", "--json", "odd", "--space", str(space)), 0, json_lines(chosen))
    chosen = {key: pairs[key] for key in pairs if key[1].startswith(b"a")}
    yield Case("a dump of a prefix in JSON", ("dump", "odd", "--json", "--prefix=a"), 0, json_lines(chosen))


def round_cases(folder, pairs):
    """Lines of JSON in several layouts, all of these pairs."""
    lines = json_lines(pairs)
    base, log = plain_files.Base(1, 0, pairs).text(), plain_files.Log(1).text()
    shuffled = lines.splitlines(keepends=True)
    random.Random(SEED).shuffle(shuffled)
    spaced = b"".join(json.dumps(json.loads(line), indent=None, separators=(" ,\t", " : ")).encode() + b" \n" for line in lines.split(b"\n") if line)
    encoded = b"".join(
        b'{"space":%d,"value64":"%s","key64":"%s"}\n' % (key[0], base64.b64encode(value), base64.b64encode(key[1])) for key, value in pairs.items()
    )
    texts = {"ascending": lines, "in any order": b"".join(shuffled), "without the last end": lines[:-1], "with escapes": spaced, "in base64": encoded}
    for number, (name, text) in enumerate(texts.items()):
        written(folder, "json", text)
        made = f"json{number}"
        os.makedirs(os.path.join(folder, made), exist_ok=True)
        yield Case(f"lines of JSON {name}", ("load", made, "json", "--json"), 0, files={f"{made}/base.pcb": base, f"{made}/log.pcl": log})
        yield Case(f"a dump in JSON of what was loaded, {name}", ("dump", made, "--json"), 0, lines)


def members_of(pairs):
    """The members of an object, none of which comes twice."""
    members = dict(pairs)
    if len(members) != len(pairs):
        raise ValueError("a member comes twice")
    return members


def pair_of(line):
    """The pair of a line, or None."""
    try:
        numbers = {"parse_float": lambda _: None, "parse_constant": lambda _: None, "parse_int": lambda it: None if it == "-0" else int(it)}
        members = json.loads(line.decode(), object_pairs_hook=members_of, **numbers)
    except ValueError:
        return None
    space = members.pop("space", 0) if isinstance(members, dict) else None
    if type(space) is not int or not 0 <= space < 65_536 or len(members) != 2:
        return None
    own, value = bytes_of(members, "key"), bytes_of(members, "value")
    return None if own is None or value is None else ((space, own), value)


def bytes_of(members, name):
    """The bytes of a member that is a text, or has them in base64."""
    text, encoded = members.get(name), members.get(f"{name}64")
    if isinstance(text, str) and f"{name}64" not in members:
        return None if any("\ud800" <= it <= "\udfff" for it in text) else text.encode()
    if not isinstance(encoded, str) or name in members:
        return None
    try:
        given = base64.b64decode(encoded, validate=True)
    except (binascii.Error, ValueError):
        return None
    return given if base64.b64encode(given).decode() == encoded else None


FAULTS = {
    b"": b"Malformed", b"a b": b"Malformed", b"{}": b"Malformed", b"[]": b"Malformed", b"null": b"Malformed", b'{"key":"a"}': b"Malformed",
    b'{"value":"a"}': b"Malformed", b'{"key":"a","value":"b","more":1}': b"Malformed", b'{"key":"a","value":"b"': b"Malformed",
    b'{"key":"a","value":"b"}x': b"Malformed", b'{"key":"a","value":"b",}': b"Malformed", b'{"key":1,"value":"b"}': b"Malformed",
    b'{"key":"a","value":null}': b"Malformed", b'{"key":"a","key64":"YQ==","value":"b"}': b"Malformed", b'{"key":"a","space":1}': b"Malformed",
    b'{"key64":"YQ","value":"b"}': b"Malformed", b'{"key64":"YR==","value":"b"}': b"Malformed", b'{"key64":"Y Q=","value":"b"}': b"Malformed",
    b'{"key":"a","value":"b","space":65536}': b"Malformed", b'{"key":"a","value":"b","space":-1}': b"Malformed",
    b'{"key":"a","value":"b","space":1.0}': b"Malformed", b'{"key":"a","value":"b","space":1e0}': b"Malformed",
    b'{"key":"a","value":"b","space":"1"}': b"Malformed", b'{"key":"\xff","value":"b"}': b"Malformed", b'{"key":"\\ud800","value":"b"}': b"Malformed",
    b'{"key":"a","key":"a","value":"b"}': b"Malformed", b'{"key":"a","value":"b","value":"c"}': b"Malformed",
    b'{"space":1,"key":"a","value":"b","space":1}': b"Malformed", b'{"key64":"YQ==","value":"b","key64":"YQ=="}': b"Malformed",
    b'{"key":"a","\\u006bey":"b","value":"c"}': b"Malformed", b'{"key":"a","value":"b","value64":"YQ==","value":"b"}': b"Malformed",
    b'{"key":"a","value":{"x":1,"x":2}}': b"Malformed", b'{"key":"a","value":"b","space":{"key":"a"}}': b"Malformed",
    b"[" * 100_000: b"Malformed", b'{"key":"","value":"b"}': b"KeyLength", b'{"key64":"","value":"b"}': b"KeyLength",
    b'{"key":"%s","value":"b"}' % (b"x" * 256): b"KeyLength", b'{"key":"a","value":"%s"}' % (b"v" * 65_536): b"ValueLength", b'{"key":"k","value":""}': b"Twice",
}


# Lines at fault, and why they are.
REASONS = {
    b"": b"Malformed it isn't JSON", b'{"key":"\xff","value":"b"}': b"Malformed it isn't UTF-8", b"[]": b"Malformed it is no object", b"{}": b"Malformed it has no key",
    b'{"key":"a"}': b"Malformed it has no value", b'{"key":1,"value":"b"}': b"Malformed its key is no text", b'{"key":"a","value":null}': b"Malformed its value is no text",
    b'{"key":"a","key64":"YQ==","value":"b"}': b"Malformed it has a key of either kind", b'{"key64":"YQ","value":"b"}': b"Malformed its key64 is no base64",
    b'{"key":"a","value64":7}': b"Malformed its value64 is no base64", b'{"key":"a","value":"b","space":65536}': b"Malformed its space is no number from 0 to 65535",
    b'{"key":"a","value":"b","space":1,"more":1}': b"Malformed it has a member of another name", b'{"key":"a","value":"b","ttl":5}': b"Malformed it has a member of another name",
    b'{"key":"a","key":"b","value":"c"}': b"Malformed one of its members is written twice", b'{"key":"","value":"b"}': b"KeyLength its key has not 1 to 255 bytes",
    b'{"key":"a","value":"%s"}' % (b"v" * 65_536): b"ValueLength its value has more than 65535 bytes", b'{"key":"k","value":""}': b"Twice an earlier line has its key",
}


def fault_cases(folder):
    """A line at fault is reported by its number, and nothing is made."""
    os.makedirs(os.path.join(folder, "bare"), exist_ok=True)
    for line, fault in FAULTS.items():
        written(folder, "json", b'{"key":"k","value":"v"}\n{"value":"w","key":"l","space":0}\n' + line + b'\n{"key":"m","value":"x"}\n')
        yield Case(f"a line of JSON that is {line[:40]}", ("load", "bare", "json", "--json"), 3, err=b"bad line 3 %s\n" % fault, files={"bare/base.pcb": None})


def changed_cases(folder, pairs):
    """Lines of JSON with one byte changed: they are refused, or loaded as they say."""
    chance = random.Random(SEED)
    lines = b"".join(json_line(key, value[:20]) for key, value in sorted(pairs.items()))[:2_000]
    for number in range(60):
        at = chance.randrange(len(lines))
        text = lines[:at] + bytes([chance.randrange(256)]) + lines[at + 1 :]
        written(folder, "json", text)
        made = f"changed{number}"
        os.makedirs(os.path.join(folder, made), exist_ok=True)
        found, fault = loaded(text)
        if fault:
            yield Case(f"changed lines of JSON, {number}", ("load", made, "json", "--json"), 3, err=b"bad line %d %s\n" % fault, files={f"{made}/base.pcb": None})
        else:
            yield Case(f"changed lines of JSON, {number}", ("load", made, "json", "--json"), 0, files={f"{made}/base.pcb": plain_files.Base(1, 0, found).text()})


def loaded(text):
    """The pairs of lines, and the number of the first line at fault with the fault, if one is."""
    pairs = {}
    lines = text.split(b"\n")
    for number, line in enumerate(lines if lines[-1] else lines[:-1], 1):
        pair = pair_of(line.removesuffix(b"\r"))
        if pair is None:
            return pairs, (number, b"Malformed")
        if not 1 <= len(pair[0][1]) <= 255:
            return pairs, (number, b"KeyLength")
        if pair[0] in pairs:
            return pairs, (number, b"Twice")
        pairs[pair[0]] = pair[1]
    return pairs, None


def cases(folder, pairs):
    """Each case, whose files are written into the folder right before it. The folder `odd` has these pairs."""
    yield from dump_cases(pairs)
    yield from round_cases(folder, pairs)
    yield from fault_cases(folder)
    yield from changed_cases(folder, pairs)
