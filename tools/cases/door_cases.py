"""The doors into a folder, for `try_programs.py`: what one command does to the store of another one, and what readers then speak of.

Pairs are loaded into a served store, also while it is served; a run is to go into one; files of a run lie beside generations. A served folder
is renamed, copied over or loses its file `lock` while its process answers: each commit that was answered is in a folder. A generation loses its base. A
run and a load are killed at each of their calls that change files. Zeros are left of a log, and no bytes of a part. Each command
that goes on from a folder says what it lacks as `recover` does. Each case prints what it saw.
"""

import os
import shutil
import subprocess

from tools.cases import preload
from tools.cases.case import content_of, files_of, written
from tools.cases.kill_cases import killed_at_each_call
from tools.cases.pair_cases import pointed_run
from tools.cases.serve_cases import SECONDS, answers, asked, generation, served, started
from tools.oracle import plain_files

HEADER, PAGE = 20, 4096
RUN = b"points 2\nclient 1\nfill a 30 x\nclient 2\nfill b 30 y\n"
PUT = b"begin 1\nput 1 %s %s\ncommit 1\n"
READERS = (("dump", "M"), ("recover", "M"), ("verify", "M"), ("run", "run.pcw", "--from", "M"), ("serve", "N", "--create", "--import", "M"))


def call(program, room, *words, given=b""):
    """The status, the output and the errors of a command."""
    ran = subprocess.run((program, *words), cwd=room, input=given, capture_output=True, timeout=SECONDS)
    return ran.returncode, ran.stdout, ran.stderr


def differs(got, wanted):
    return [] if got == wanted else [f"{got} instead of {wanted}"]


def loads(program, room):
    """Pairs that are loaded into a served store."""
    load = lambda *words, given: call(program, room, "load", *words, given=given)
    served(program, room, ("S", "--create", "--run", "5"), PUT % (b"a", b"live"))
    yield "load into a store that has pairs", differs(load("S", given=b"b loaded\n"), (1, b"", b"pcalc: S: NotEmpty\n"))
    yield "which is as it was", differs(call(program, room, "dump", "S"), (0, b"a live\n", b"generation 1\n"))
    yield "load --merge into it", differs(load("S", "--merge", given=b"b loaded\na new\n"), (0, b"", b"generation 2\n"))
    yield "which has both", differs(call(program, room, "dump", "S"), (0, b"a new\nb loaded\n", b"generation 2\n"))
    with started(program, room, ("S",)) as process:
        ready = process.stdout.readline()
        busy = load("S", "--merge", given=b"c late\n")
        lines = differs((ready, busy), (b"ready run 7 pairs 2\n", (1, b"", b"pcalc: S: Busy\n")))
        process.stdin.close()
        process.wait(SECONDS)
    yield "load into a store that is served", lines
    served(program, room, ("E", "--create", "--run", "5"), b"")
    yield "load into a store without pairs", differs(load("E", given=b"b loaded\n"), (0, b"", b"generation 2\n"))
    yield "which then serves them", answers(program, room, ("E",), ((b"", b"ready run 7 pairs 1"), (b"begin 1", b"begun 1"), (b"get 1 b", b"= loaded")))
    written(room, "L/lock", b"")
    yield "load into a folder that has only a lock", differs(load("L", "--run", "9", given=b"k v\n"), (0, b"", b"generation 1\n"))
    yield "which is a store then", answers(program, room, ("L",), ((b"", b"ready run 10 pairs 1"),))
    written(room, "run.pcw", RUN)
    yield "a run into the folder of a store", differs(call(program, room, "run", "run.pcw", "--dir", "S"), (1, b"", b"pcalc: S: NotEmpty\n"))
    left = sorted(os.listdir(os.path.join(room, "S")))
    print(f"loads: {left} are in the store's folder")
    yield "and nothing else is in it", differs(left, ["gen-0000002", "gen-0000003", "lock"])


def mixed(program, room):
    """A base beside generations, as earlier versions have left it."""
    written(room, "run.pcw", RUN)
    os.makedirs(os.path.join(room, "M"))
    call(program, room, "load", "M", given=b"x loaded\n")
    served(program, room, ("S", "--create"), PUT % (b"a", b"live"))
    shutil.copytree(os.path.join(room, "S"), os.path.join(room, "M"), dirs_exist_ok=True)
    for words in READERS:
        status, out, err = call(program, room, *words)
        wanted = (4 if words[0] == "verify" else 1, b"", b"pcalc: M: Mixed\n  take M/gen-0000001\n")
        print(f"mixed: {words[0]} ends with {status}, {err!r}")
        yield f"{' '.join(words)} of a mixed folder", differs((status, out, err), wanted)
    yield "the way out", differs(call(program, room, "dump", "M/gen-0000001"), (0, b"a live\n", b""))


def foreign_parts(program, room):
    """A part of another run in the folder of a run: both have the number 1, which each run has that isn't given another."""
    for folder, name in (("A", b"a"), ("B", b"b")):
        written(room, f"{folder}.pcw", b"points 1\nclient 1\nfill %s 30 x\n" % name)
        os.makedirs(os.path.join(room, folder))
        call(program, room, "run", f"{folder}.pcw", "--dir", folder)
    ways = (("run", "A.pcw", "--from", "A"), ("serve", "N", "--create", "--import", "A"))
    for words in ways:
        yield f"{' '.join(words)} of a folder with its own part", differs(call(program, room, *words)[::2], (0, b""))
    shutil.rmtree(os.path.join(room, "N"))
    shutil.copy(os.path.join(room, "B", "part-00001.pcp"), os.path.join(room, "A"))
    for words in ways:
        ended = call(program, room, *words)
        print(f"foreign_parts: {words[0]} ends with {ended[0]}, {ended[2]!r}")
        yield f"{' '.join(words)} of one with a part of another run", differs(ended, (1, b"", b"pcalc: A: OtherRun\n"))


def own_to_the_end(program, room, name, change):
    """What a process answers to commits until it ends, of which the folder is changed after the first; and its status and errors."""
    with started(program, room, (name, "--create")) as process:
        process.stdout.readline()
        told = []
        for number in range(1, 5):
            for line in (PUT % (b"mine%d" % number, b"v")).splitlines(keepends=True):
                try:
                    told.append(asked(process, line))
                except BrokenPipeError:
                    told.append(b"")
            if number == 1:
                change()
        try:
            process.stdin.close()
        except BrokenPipeError:
            pass
        return [line for line in told if line.startswith(b"committed ")], process.wait(SECONDS), process.stderr.read()


def moves(program, room):
    """A served folder that another process takes over."""
    def moved():
        os.rename(os.path.join(room, "A"), os.path.join(room, "A2"))

    def copied():
        shutil.copytree(os.path.join(room, "B"), os.path.join(room, "copy"))
        os.rename(os.path.join(room, "B"), os.path.join(room, "B2"))
        os.rename(os.path.join(room, "copy"), os.path.join(room, "B"))
        served(program, room, ("B",), PUT % (b"yours", b"v"))

    def unlocked():
        os.unlink(os.path.join(room, "C", "lock"))
        served(program, room, ("C",), PUT % (b"yours", b"v"))

    for name, change, pairs in (("A", moved, b""), ("B", copied, b"mine1 v\nyours v\n"), ("C", unlocked, b"mine1 v\nyours v\n")):
        answered, status, err = own_to_the_end(program, room, name, change)
        found = call(program, room, "dump", name)[1]
        print(f"moves: {name} has answered {len(answered)} commits, ends with {status}, {err!r}, and has {found!r}")
        lines = differs((len(answered), status, err), (1, 1, b"pcalc: %s: Moved\n" % name.encode()))
        yield f"a served folder that was {change.__name__}", lines + differs(found, pairs)


def lost_bases(program, room):
    """A generation whose log has answered commits, and whose base is gone."""
    served(program, room, ("S", "--create", "--run", "1"), PUT % (b"a", b"1"))
    served(program, room, ("S",), PUT % (b"b", b"2") + PUT % (b"c", b"3"))
    os.unlink(os.path.join(generation(os.path.join(room, "S"), 2), "base.pcb"))
    log = content_of(generation(os.path.join(room, "S"), 2), "log.pcl")
    err = b"pcalc: S/gen-0000002/base.pcb: NoFile\npcalc: S: Damaged\n"
    for words in (("serve", "S"), ("serve", "S", "--create"), ("recover", "S"), ("dump", "S"), ("verify", "S"), ("load", "S", "--merge")):
        yield f"{' '.join(words)} of a store that has lost a base", differs(call(program, room, *words), (4 if words[0] == "verify" else 1, b"", err))
    lacking = err.splitlines(keepends=True)[0]
    yield "dump --damaged of it", differs(call(program, room, "dump", "S", "--damaged"), (0, b"a 1\n", lacking + b"generation 1\n"))
    yield "it is gone on with by --damaged", answers(program, room, ("S", "--damaged"), ((b"", b"ready run 2 pairs 1"),), 0, lacking)
    there = sorted(os.listdir(os.path.join(room, "S")))
    print(f"lost_bases: {there} are there, and the log of generation 2 has {len(log)} bytes")
    yield "above all folders", differs((there, content_of(generation(os.path.join(room, "S"), 2), "log.pcl")), (["gen-0000002", "gen-0000003", "lock"], log))
    served(program, room, ("O", "--create", "--run", "1"), PUT % (b"a", b"1"))
    os.unlink(os.path.join(generation(os.path.join(room, "O"), 1), "base.pcb"))
    lost = b"pcalc: O/gen-0000001/base.pcb: NoFile\n"
    yield "a store whose only generation has lost its base", answers(program, room, ("O", "--create"), (), 1, lost + b"pcalc: O: Damaged\n")
    yield "begins anew by --damaged, above it", answers(program, room, ("O", "--create", "--run", "3", "--damaged"), ((b"", b"ready run 3 pairs 0"),), 0, lost)


def headless(place, is_whole):
    """What is wrong with a folder of a killed command: once it has a base, its log has its header."""
    if not os.path.exists(os.path.join(place, "D", "base.pcb")):
        return ["it has no base in the end"] if is_whole else []
    size = os.path.getsize(os.path.join(place, "D", "log.pcl"))
    return [] if size >= HEADER else [f"a base is named, and the log has {size} bytes"]


def first_calls(program, room):
    """Runs and loads that are killed at each of their calls: their folder is never damaged."""
    def prepare(place):
        os.makedirs(os.path.join(place, "D"))
        written(place, "lines", b"k v\n")
        written(place, "run.pcw", RUN)

    for name, words in (("a run", ("run", "run.pcw", "--dir", "D")), ("a run with --sync", ("run", "run.pcw", "--dir", "D", "--sync")), ("a load", ("load", "D", "lines"))):
        count = 0
        for case, lines in killed_at_each_call(name, (program, *words, *(("--workers", "1") if words[0] == "run" else ())), prepare, headless):
            count += 1
            yield case, lines
        print(f"first_calls: {name} was killed at {count} calls")


def flushed(program, room):
    """What is flushed before the base of a run gets its name: its log's header too, with --sync."""
    library, notes = preload.built(room, preload.NOTE), os.path.join(room, "notes")
    written(room, "run.pcw", b"client 1\n")
    for words, wanted in ((("--sync",), b"sss"), ((), b"ss")):
        written(room, "notes", b"")
        os.makedirs(os.path.join(room, "D" + "".join(words)))
        subprocess.run((program, "run", "run.pcw", "--dir", "D" + "".join(words), *words), cwd=room, env={**os.environ, "LD_PRELOAD": library, "NOTED_SYNCS": notes}, stdin=subprocess.DEVNULL, capture_output=True, timeout=SECONDS)
        before = content_of(room, "notes").partition(b"r")[0]
        print(f"flushed: before the base of a run {' '.join(words)} is named there are {len(before)} flushes")
        yield f"a run {' '.join(words)} flushes before its base is named", differs(before, wanted)


def unused_line(found, log):
    """The line of a log of which no entry is used, since the parts reach further, or nothing."""
    return b"log unused %d\n" % found.entries if found.point and ("token", "resolve", found.point) not in log.entries else b""


def powerless(program, room):
    """Served folders after a power loss: a log of which zeros are left from each page on, or behind each entry, and parts without bytes."""
    puts = b"".join(PUT % (b"k%03d" % number, b"v" * (1 + number * 7 % 900)) for number in range(60))
    served(program, room, ("S", "--create", "--run", "1", "--every", "25", "--sync"), puts)
    first = generation(os.path.join(room, "S"), 1)
    whole, starts, refused = content_of(first, "log.pcl"), 0, 0
    ends = plain_files.read_log(whole).ends
    for kind, cut in [("page", at) for at in range(PAGE, len(whole), PAGE)] + [("entry", at) for at in ends]:
        place = os.path.join(room, "copy")
        shutil.copytree(os.path.join(room, "S"), place)
        written(first.replace(os.path.join(room, "S"), place), "log.pcl", whole[:cut] + bytes(len(whole) - cut + PAGE))
        found = plain_files.recover(*files_of(generation(place, 1)))
        is_sound = found.fault in (None, "Short")
        unused = unused_line(found, plain_files.read_log(files_of(generation(place, 1))[2]))
        wanted = (0, b"ready run 2 pairs %d\n" % len(found.pairs), unused) if is_sound else (1, b"", unused + b"log %s\npcalc: copy/gen-0000001: Damaged\n" % str(found.fault).encode())
        ran = served(program, room, ("copy",), b"")
        lines = differs((ran.returncode, ran.stdout, ran.stderr), wanted)
        lines += [] if len([end for end in ends[1:] if end <= cut]) <= found.entries else [f"{found.entries} entries are whole before byte {cut}"]
        starts, refused = starts + is_sound, refused + (not is_sound)
        yield f"zeros from the {kind} at byte {cut} on", lines + ([] if is_sound or kind == "page" else ["it isn't Short"])
        shutil.rmtree(place)
    print(f"powerless: {starts} starts, {refused} logs are damaged, which have zeros within an entry")
    for number in range(1, len([name for name in os.listdir(first) if name.endswith(".pcp")]) + 1):
        place = os.path.join(room, f"part{number}")
        shutil.copytree(os.path.join(room, "S"), place)
        written(generation(place, 1), "part-%05d.pcp" % number, b"")
        ran = served(program, room, (f"part{number}",), b"")
        found = plain_files.recover(*files_of(generation(place, 1)))
        are_empty = all(reason == "Short" for _, reason in found.skipped)
        print(f"powerless: without the bytes of part {number} the start ends with {ran.returncode}, {ran.stderr!r}")
        yield f"part {number} without bytes", differs((ran.returncode, ran.stdout), (0, b"ready run 2 pairs 60\n") if are_empty else (1, b""))


def lacking_folders():
    """The texts of folders that lack something, by what that is: the files of a run of two points, with these changes."""
    base, parts, log = pointed_run(2)
    files = {"base.pcb": base.text(), "part-00001.pcp": parts[1].text(), "part-00002.pcp": parts[2].text(), "log.pcl": log.text()}
    other, foreign = plain_files.Log(1), plain_files.Log(2)
    other.entries = [plain_files.commit(1, {b"other%d" % number: b"1"}) for number in range(7)]
    changes = {
        "nothing": {},
        "its log": {"log.pcl": None},
        "all bytes of its log": {"log.pcl": b""},
        "the end of its log's header": {"log.pcl": files["log.pcl"][: HEADER - 1]},
        "all entries of its log": {"log.pcl": files["log.pcl"][:HEADER]},
        "the last byte of its log": {"log.pcl": files["log.pcl"][:-1]},
        "a log without zeros behind it": {"log.pcl": files["log.pcl"] + bytes(PAGE)},
        "a log without damage": {"log.pcl": files["log.pcl"] + b"\0\0\0\1\3"},
        "the log of its own run, of two with its number": {"log.pcl": other.text()},
        "a log of its run": {"log.pcl": foreign.text()},
        "its first part": {"part-00001.pcp": None},
        "a byte of its last part": {"part-00002.pcp": files["part-00002.pcp"][:-1]},
        "a byte of its first part": {"part-00001.pcp": files["part-00001.pcp"][:-1]},
        "the end of its first part": {"part-00001.pcp": files["part-00001.pcp"] + b"\0"},
        "all bytes of its last part": {"part-00002.pcp": b""},
        "a part of its run": {"part-00002.pcp": plain_files.Part(9, [(2, 2)], {}).text()},
        "all of that": {"log.pcl": None, "part-00001.pcp": None, "part-00002.pcp": plain_files.Part(9, [(2, 2)], {}).text(), "x y.pcp": b"PCALCP02"},
    }
    return {name: {**files, **change} for name, change in changes.items()}


def lacks_of(files):
    """The lines that tell what these files lack, and whether they are damaged; of files that are refused the line of that."""
    log, parts = files["log.pcl"], [(name.encode(), text) for name, text in sorted(files.items()) if name.endswith(".pcp") and text is not None]
    try:
        found = plain_files.recover(files["base.pcb"], parts, log or b"")
    except plain_files.Refused as why:
        return b"pcalc: D: %s\n" % why.name.encode(), None
    lines, is_headless = [], log is None or len(log) < HEADER
    if is_headless:
        lines.append(b"log NoFile\n" if log is None else b"log Short\n")
    else:
        lines.append(unused_line(found, plain_files.read_log(log)))
    is_faulty = found.fault not in (None, "Short")
    lines += [b"log %s\n" % found.fault.encode()] if is_faulty else []
    lines += [b"skipped %s %s\n" % (name.replace(b" ", rb"\x20"), reason.encode()) for name, reason in found.skipped]
    makes_up = not any(files[name.decode()] for name, _ in found.skipped) and not is_headless and not unused_line(found, plain_files.read_log(log))
    return b"".join(lines), is_headless or is_faulty or bool(found.skipped) and not makes_up


def parted(err):
    """The lines that tell what is lacking, and those that explain it, in the order of the alphabet."""
    lines = err.splitlines()
    return sorted(it for it in lines if not it.startswith(b"  ")), sorted(it for it in lines if it.startswith(b"  "))


GOING_ON = (("dump", "D"), ("run", "run.pcw", "--from", "D"), ("serve", "N", "--create", "--import", "D"))


def lacks(program, room):
    """Each command that goes on from the state of a folder says alike what it lacks, explained or not."""
    written(room, "run.pcw", b"client 1\n")
    for name, files in lacking_folders().items():
        shutil.rmtree(os.path.join(room, "D"), ignore_errors=True)
        for file, text in files.items():
            if text is not None:
                written(room, f"D/{file}", text)
        told, is_damaged = lacks_of(files)
        status, out, err = call(program, room, "recover", "D", "--explain")
        if is_damaged is None:
            yield f"recover of a folder without {name}", differs((status, err.splitlines()[:1]), (1, told.splitlines()))
        else:
            shown = b"".join(line for line in out.splitlines(keepends=True) if line.startswith((b"log ", b"skipped ")))
            state = told.removesuffix(shown)
            print(f"lacks: without {name} {told!r} is told, and explained by {err.decode().splitlines()}")
            is_short = not shown and not state and bool(err)
            lines = [] if state.count(b"\n") <= 1 and len(err.splitlines()) == told.count(b"\n") + is_short else [f"{shown!r} and {err!r} are told"]
            yield f"recover of a folder without {name}", lines
        for words in GOING_ON:
            for more in ((), ("--damaged",)):
                is_ended = is_damaged is None or is_damaged and not more
                wanted = told + (b"pcalc: D: Damaged\n" if is_damaged and not more else b"")
                shutil.rmtree(os.path.join(room, "N"), ignore_errors=True)
                got = call(program, room, *words, *more)
                yield f"{' '.join(words + more)} of a folder without {name}", differs((got[0], got[2]), (int(is_ended), wanted))
            shutil.rmtree(os.path.join(room, "N"), ignore_errors=True)
            heads, reasons = parted(call(program, room, *words, "--damaged", "--explain")[2])
            yield f"{words[0]} explains what a folder lacks without {name}", differs((heads, reasons), (sorted(told.splitlines()), parted(err)[1]))
            if is_damaged:
                shutil.rmtree(os.path.join(room, "N"), ignore_errors=True)
                last = call(program, room, *words, "--explain")[2].splitlines()[-2:]
                yield f"{words[0]} explains that it is damaged without {name}", differs((last[0], last[1][:2]), (b"pcalc: D: Damaged", b"  "))


def doors(program, folder):
    """What is wrong with each door, by its name."""
    for cases in (loads, mixed, foreign_parts, moves, lost_bases, first_calls, flushed, powerless, lacks):
        room = os.path.join(folder, cases.__name__)
        os.makedirs(room)
        yield from cases(program, room)
