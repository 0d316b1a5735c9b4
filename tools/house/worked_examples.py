#!/usr/bin/env python3
"""Writes the worked examples of the definitions, as statements and as proofs by computing.

    tools/house/worked_examples.py        then, in crates/test_model, rt tidy

Each file worked_examples/SUBJECT.txt becomes crates/test_model/specs/ExamplesOfSubject.antt (the histories, and one record
of statements) and crates/test_model/proofs/ExamplesOfSubject.antt (their proofs). A file has a line `about TEXT` and then
examples, in the words of scripts:

    example NAME             a history
    about TEXT               what it shows
    base K V, capacity N, sessions N      the setting, if it isn't the plain one
    after NAME               it continues that one
    COMMAND: REPLY           its steps; a value is a digit, `seven` or `nine` of that number of bytes, or the number N as `#N`
    file POINTS: K N V, ..   the files on the shelf, in order; V may be `tombstone`, `none` means no entries
    state F: point N pairs K V, ..        file F applied to the base
    gap F: N                 the first point that file F lacks
    contents: K V, ..        the committed contents at the end
    quiet, not quiet         whether no transaction was open outside rest
    log: E; E; ..            the log's entries: a token as PHASE POINT, or a commit as its session and its writes, separated by commas:
                             `sets K V`, `removes K`, `adds N to K`

    illegal NAME             a reply that isn't legal
    about TEXT
    after N steps of NAME
    COMMAND: REPLY
    shown by WHICH           certain: another reply is certain; answer: the answer is another; take: a key is left;
                             first key K: another key is the first
"""
import pathlib
import sys

HERE = pathlib.Path(__file__).resolve().parent
CRATE = HERE.parents[1] / 'crates' / 'test_model'
UNFOLDING = 'unfolding map_of.empty map_of.get map_of.insert map_of.remove'
NUMBERS = ' number_text value_number content_number'
BY_SESSION = {'begin': 'Begin', 'commit': 'Commit', 'abort': 'Abort'}
ALONE = {'point': 'StartPoint', 'seal': 'Seal', 'capture': 'OpenCapture', 'take': 'Take', 'done': 'Done', 'rest': 'Rest'}
LIMITS = {'capacity': 'with_room_for', 'sessions': 'with_sessions'}
WORDS = {'none': 'NoneLeft', 'absent': 'Absent', 'ok': 'Ok', 'wait': 'Wait', 'died': 'Died', 'aborted': 'Aborted'}


def listed(items):
    return ''.join(f'{item} ∷ ' for item in items) + '[]'


def number(word):
    """A number with a sign."""
    return f'(pos {int(word)})' if int(word) >= 0 else f'(negsuc {-int(word) - 1})'


def unfolding(text):
    """The words that are unfolded for a text of steps: those of numbers too if it has adds."""
    return UNFOLDING + (NUMBERS if 'asked.Add' in text else '') + '\n'


def value(word):
    if word.startswith('#'):
        return f'({listed(int(word[1:]).to_bytes(8, "big", signed=True))})'
    return 'v' + word if word.isdigit() else word


def pieces(text):
    return [] if text == 'none' else [piece.split() for piece in text.split(', ')]


def numbers(ranges):
    found = []
    for piece in ranges.split(','):
        low, _, high = piece.partition('-')
        found += range(int(low), int(high or low) + 1)
    return listed(found)


def event(command):
    words = command.split()
    if words[0] in BY_SESSION:
        return f'(asked.{BY_SESSION[words[0]]} {words[1]})'
    if words[0] in ALONE:
        return f'asked.{ALONE[words[0]]}'
    if words[0] == 'get' or words[0] == 'del':
        return f'(asked.{words[0].capitalize()} {words[1]} {words[2]})'
    if words[0] == 'put':
        return f'(asked.Put {words[1]} {words[2]} {value(words[3])})'
    if words[0] == 'add':
        return f'(asked.Add {words[1]} {words[2]} {number(words[3])})'
    if words[0] == 'join':
        return f'(asked.Join {words[1]} {words[2]})'
    raise ValueError(command)


def reply(text):
    words = text.split()
    match words[0]:
        case 'begun' | 'committed':
            return f'(told.{words[0].capitalize()} {words[1]})'
        case 'sum':
            return f'(told.Sum {number(words[1])})'
        case '=':
            return f'(told.Found {value(words[1])})'
        case 'phase':
            return f'(told.Phase {words[1].capitalize()} {words[2]})'
        case 'not':
            return f'(told.NotYet {words[2]})'
        case 'took':
            content = 'None' if words[2] == 'tombstone' else f'(Some {value(words[2])})'
            return f'(told.Took {words[1]} {content})'
        case 'part':
            return f'(told.PartDone {words[1]} {words[3]} {words[5]})'
        case 'file':
            return f'(told.File {words[1]} ({numbers(words[3])}) {words[5]})'
        case 'refused':
            return f'(told.Refused why.{words[1]})'
    return f'told.{WORDS[words[0]]}'


def entry(words):
    key, point, content = words
    return f'lacks {key} {point}' if content == 'tombstone' else f'has {key} {point} {value(content)}'


def pair(words):
    return f'({words[0]}, {value(words[1])})'


def pairs(text):
    return listed(pair(words) for words in pieces(text))


def written(text):
    """A write of the log."""
    words = text.split()
    match words[0]:
        case 'sets':
            return f'write_of {words[1]} (does.Set {value(words[2])})'
        case 'removes':
            return f'write_of {words[1]} does.Remove'
        case 'adds':
            return f'write_of {words[3]} (does.Add {number(words[1])})'
    raise ValueError(text)


def logged(text):
    """An entry of the log."""
    head, _, rest = text.partition(' ')
    if head.isdigit():
        return f'Commit {head} ({listed(written(piece) for piece in rest.split(", "))})'
    return f'Token {head.capitalize()} {rest}'


class Example:
    def __init__(self, name):
        self.name, self.about, self.after, self.steps = name, '', None, []
        self.base, self.limits, self.files, self.facts = [], [], [], []
        self.contents, self.lean = None, False

    def setting(self):
        text = 'plain'
        for word, value in self.limits:
            text = f'({LIMITS[word]} {value} {text})'
        for key, value in self.base:
            text = f'(holding {key} {value} {text})'
        return text

    def follow(self, earlier):
        self.after, self.base, self.limits = earlier.name, list(earlier.base), list(earlier.limits)
        self.files, self.lean = list(earlier.files), earlier.lean

    def line(self, text):
        head, _, rest = text.partition(': ')
        words = head.split()
        match words[0]:
            case 'about':
                self.about = text[6:]
            case 'base':
                self.base.append((words[1], value(words[2])))
            case 'capacity' | 'sessions':
                self.limits.append((words[0], words[1]))
            case 'file':
                self.files.append(f'({numbers(words[1])}, {listed(entry(e) for e in pieces(rest))})')
            case 'state':
                _, point, _, found = rest.split(maxsplit=3)
                self.facts.append((f'state_{words[1]}', 'LaysTo', f'{words[1]} {point} ({pairs(found)})'))
            case 'gap':
                self.facts.append((f'gap_{words[1]}', 'Lacks', f'{words[1]} {rest}'))
            case 'quiet':
                self.facts.append(('is_quiet', 'IsQuietRun', ''))
            case 'log':
                self.facts.append(('log', 'HasLog', f'({listed(logged(piece) for piece in rest.split("; "))})'))
            case 'not':
                self.facts.append(('is_not_quiet', 'IsNoQuietRun', ''))
            case 'contents':
                self.contents = pairs(rest)
            case _:
                self.steps.append(f'step {event(head)} {reply(rest)}')
                self.lean = self.lean or rest == 'refused OutOfMemory'

    def history(self):
        begun = f'{self.after} ++ ' if self.after else ''
        body = '\n    ∷ '.join(self.steps) + '\n    ∷ []'
        return f'-- {self.about}\nabbrev pub {self.name} : List Step\n{self.name} = {begun}{body}\n'

    def statements(self):
        files = listed(self.files)
        yield f'{self.name}_runs', f'RunsTo {self.setting()} {self.name} ({files}) ({self.contents})'
        for name, word, rest in self.facts:
            setting = '' if word == 'HasLog' else self.setting() + ' '
            yield f'{self.name}_{name}', f'{word} {setting}{self.name} {rest}'.rstrip()

    def proofs(self):
        run = 'legal_lean_run' if self.lean else 'legal_run'
        yield f'record {{ legal = {run} {self.setting()} {self.name} refl; by_replies = refl; by_log = refl; leaves = refl }}'
        for _, word, _ in self.facts:
            yield {'LaysTo': 'record { covers = refl; gives = refl; replayed = refl }', 'IsNoQuietRun': 'λ e. cc'}.get(word, 'refl')


class Illegal:
    def __init__(self, name):
        self.name = name

    def line(self, text):
        words = text.split()
        if words[0] == 'about':
            self.about = text[6:]
        elif words[0] == 'after':
            self.count, self.example = words[1], words[4]
        elif words[:2] == ['shown', 'by']:
            self.form = words[2:]
        else:
            command, _, answer = text.partition(': ')
            self.event, self.reply = event(command), reply(answer)

    def statement(self, settings):
        return f'IsIllegal {settings[self.example]} (take {self.count} {self.example}) {self.event} {self.reply}'

    def proof(self):
        match self.form[0]:
            case 'certain':
                return [f'{self.name} e = cc']
            case 'answer':
                return [f'{self.name} (inl e) = cc', f'{self.name} (inr e) = cc']
            case 'take':
                return [f'{self.name} (inl (content, e)) = cc', f'{self.name} (inr e) = cc']
            case 'first':
                other = f'let other : false ≡ true = ap (λ r. same_bytes (key_taken r) {self.form[2]}) e in cc'
                return [f'{self.name} (inl (content, e)) = {other}', f'{self.name} (inr e) = cc']
        raise ValueError(self.form)


def read(path):
    about, found = '', []
    for line in path.read_text().splitlines():
        kind, _, rest = line.partition(' ')
        if kind == 'example' or kind == 'illegal':
            found.append(Example(rest) if kind == 'example' else Illegal(rest))
        elif line and not found:
            about = rest
        elif kind == 'after' and isinstance(found[-1], Example):
            found[-1].follow(next(example for example in found if example.name == rest))
        elif line:
            found[-1].line(line)
    return about, found


SPEC_USES = '''use Rattle.std.specs.Prelude.{ℕ, List, [], ◌∷◌, ◌++◌, Some, None, take, pos, negsuc}
use Rattle.pc_types.specs.declared.Phase.TheVariants.{Rest, Prepare, Resolve, Capture}
use Rattle.pc_types.specs.declared.Event.TheVariants as asked
use Rattle.pc_types.specs.declared.Reply.TheVariants as told
use Rattle.pc_types.specs.declared.Refusal.TheVariants as why
use Rattle.pc_types.specs.declared.Step.{Step}
use Rattle.pc_types.specs.declared.Entry.TheVariants.{Commit, Token}
use Rattle.pc_types.specs.declared.Change.TheVariants as does
use Rattle.pc_model.specs.Database.{write_of}
use Rattle.test_model.specs.Examples.{step, plain, holding, with_room_for, with_sessions, has, lacks, RunsTo, LaysTo, Lacks, HasLog, IsQuietRun, IsNoQuietRun, IsIllegal, a, a_in_7, b, k, n, t, x, y, z, v1, v2, v3, v4, v5, v6, v7, v8, v9, seven, nine}
'''
PROOF_USES = '''use Rattle.std.specs.Prelude.{pos, negsuc}
use Rattle.std.proofs.Common.{◌≡◌, ℕ, Bool, List, [], ◌∷◌, ◌++◌, take, Option, Some, None, refl, ap, inl, inr, true, false}
use Rattle.pc_types.specs.declared.Phase.TheVariants.{Rest, Prepare, Resolve, Capture}
use Rattle.pc_types.specs.declared.Event.TheVariants as asked
use Rattle.pc_types.specs.declared.Reply.TheVariants as told
use Rattle.pc_types.specs.declared.Refusal.TheVariants as why
use Rattle.pc_types.specs.Changes.{number_text, value_number, content_number}
use Rattle.pc_model.specs.Maps as map_of
use Rattle.pc_model.specs.Database.{same_bytes}
use Rattle.test_model.specs.Examples.{plain, holding, with_room_for, with_sessions, has, lacks, RunsTo, LaysTo, Lacks, HasLog, IsQuietRun, IsNoQuietRun, IsIllegal, a, a_in_7, b, k, n, t, x, y, z, v1, v2, v3, v4, v5, v6, v7, v8, v9, seven, nine}
use Rattle.pc_model.proofs.Ample.{legal_run, legal_lean_run}
use Rattle.test_model.proofs.Taken.{key_taken}
'''


def write(path, about, uses, blocks):
    made = '-- Made from the text of the worked examples.\n'
    path.write_text(f'-- {about}\n{made}{uses}\n' + '\n'.join(blocks))


def used(names):
    by_module = {}
    for name, module in names:
        by_module.setdefault(module, []).append(name)
    return ''.join(f'use Rattle.test_model.specs.{module}.{{{", ".join(found)}}}\n' for module, found in by_module.items())


def main():
    subjects = {path.stem: read(path) for path in sorted((HERE / 'worked_examples').glob('*.txt'))}
    modules = {stem: 'ExamplesOf' + ''.join(word.capitalize() for word in stem.split('_')) for stem in subjects}
    home, settings, steps = {}, {}, {}
    for stem, (_, found) in subjects.items():
        for example in found:
            if isinstance(example, Example):
                home[example.name], settings[example.name], steps[example.name] = modules[stem], example.setting(), example.history()
    for stem, (about, found) in subjects.items():
        module, record = modules[stem], modules[stem]
        lower = 'examples_of_' + stem
        fields, specs, proofs, parts, cited = [], [], [], [], []
        for example in found:
            if isinstance(example, Example):
                specs.append(example.history())
                cited.append((example.name, module))
                for (name, statement), proof in zip(example.statements(), example.proofs()):
                    fields.append(f'  pub {name} : {statement}\n')
                    parts.append(f'  {name} = {proof};\n')
            else:
                statement = example.statement(settings)
                fields.append(f'  -- {example.about}\n  pub {example.name} : {statement}\n')
                proofs.append(f'{example.name} : {statement}\n' + unfolding(steps[example.example] + statement) + '\n'.join(example.proof()) + '\n')
                parts.append(f'  {example.name} = {example.name};\n')
                cited.append((example.example, home[example.example]))
        cited = sorted(set(cited), key=lambda c: (c[1], c[0]))
        specs.append(f'-- {about}\npub record {record} : Type 0 where\n' + ''.join(fields))
        proofs.append(f'pub {lower} : {record}\n{unfolding("".join(specs))}{lower} = record {{\n{"".join(parts)}}}\n')
        elsewhere = used([c for c in cited if c[1] != module])
        write(CRATE / 'specs' / f'{module}.antt', about, SPEC_USES + elsewhere, specs)
        write(CRATE / 'proofs' / f'{module}.antt', about, PROOF_USES + used(cited + [(record, module)]), proofs)


if __name__ == '__main__':
    sys.exit(main())
