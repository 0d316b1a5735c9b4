#!/usr/bin/env python3
"""Makes the man page and the shells' completions of pcalc from what the program itself prints for `--help`.

    shell_pages.py PROGRAM FOLDER DOC     writes FOLDER/man/man1/pcalc.1, FOLDER/bash-completion/completions/pcalc,
                                          FOLDER/zsh/site-functions/_pcalc and FOLDER/fish/vendor_completions.d/pcalc.fish

The folder is what `share` is to an installation: `make install` calls this. The man page names pages of the repository's docs/ in DOC, where
they are installed.
"""

import os
import re
import subprocess
import sys
import typing

ENTRY = re.compile(r"^ {2,6}(?P<term>\S.*?)(?:\s{2,}(?P<text>\S.*))?$")
# An option's long name, and the name of its value if it takes one.
LONG = re.compile(r"--(?P<name>[a-z-]+)(?: <(?P<value>[A-Z]+)>)?")
FILES = {"SCRIPT", "WORKLOAD", "DIR", "OLD", "FILE", "OUT", "IN"}


class Help(typing.NamedTuple):
    """The parts of a help: what it is about, the usage, by section its entries, each a term with its text, and the lines after them."""

    about: str
    usage: str
    sections: dict
    after: list


def help_of(text):
    """The parts of a help."""
    about, usage, sections, after, entries = "", "", {}, [], None
    for line in text.splitlines():
        entry = ENTRY.match(line)
        if line.startswith("Usage: "):
            usage = line.removeprefix("Usage: ")
        elif re.fullmatch(r"[A-Z][a-z]+:", line):
            entries = sections.setdefault(line[:-1], [])
        elif entries is not None and line.startswith(" " * 7) and entries and not entries[-1][1]:
            entries[-1] = entries[-1][0], line.strip()
        elif entries is not None and entry:
            entries.append((entry["term"], entry["text"] or ""))
        elif line and not usage:
            about = f"{about} {line}".strip()
        elif line:
            after.append(line)
    return Help(about, usage, sections, after)


def helps(program):
    """The help of the program, and that of each command by its name."""

    def help_for(*words):
        return help_of(subprocess.run([program, *words, "--help"], check=True, capture_output=True, text=True).stdout)

    whole = help_for()
    names = [name for name, _ in whole.sections["Commands"] if name != "help"]
    return whole, {name: help_for(name) for name in names}


def escaped(text):
    """A text escaped for groff."""
    text = text.replace("\\", "\\e").replace("-", "\\-")
    return "\\&" + text if text.startswith((".", "'")) else text


def man_page(version, whole, commands, doc):
    """The man page: a section for the program, and one for each command. It names pages in the folder `doc`."""
    lines = [f'.TH PCALC 1 "" "{escaped(version)}" "User Commands"', ".SH NAME", f"pcalc \\- {escaped(whole.about)}", ".SH SYNOPSIS"]
    lines += [f".B {escaped(it.usage)}\n.br" for it in commands.values()]
    for name, it in commands.items():
        lines += [f'.SH "pcalc {escaped(name)}"', escaped(it.about) + "."]
        for section in ("Arguments", "Options"):
            for term, text in it.sections.get(section, []):
                lines += [".TP", f".B {escaped(term)}", escaped(text)]
        lines += [line for said in it.after for line in (".PP", escaped(said.replace("docs/", f"{doc}/")))]
    return "\n".join(lines) + "\n"


def options_of(it):
    """Each long option of a command: its name, the name of its value or None, and its text."""
    for term, text in it.sections.get("Options", []):
        found = LONG.search(term)
        if found:
            yield found["name"], found["value"], text


def bash_completion(commands):
    """The completion of bash: commands, options, and files otherwise."""
    cases = [f"        {name}) words='{' '.join(f'--{option}' for option, _, _ in options_of(it))}' ;;" for name, it in commands.items()]
    return "\n".join(
        [
            "_pcalc() {",
            '    local word="${COMP_WORDS[COMP_CWORD]}" words=',
            '    case "${COMP_WORDS[1]}" in',
            *cases,
            "    esac",
            "    if [ \"$COMP_CWORD\" -eq 1 ]; then",
            f"        COMPREPLY=($(compgen -W '{' '.join(commands)} help --help --version' -- \"$word\"))",
            '    elif [ "${word#-}" != "$word" ]; then',
            '        COMPREPLY=($(compgen -W "$words" -- "$word"))',
            "    else",
            '        COMPREPLY=($(compgen -f -- "$word"))',
            "    fi",
            "}",
            "complete -o filenames -F _pcalc pcalc",
            "",
        ]
    )


def quoted(text):
    """A text within single quotes of zsh and fish, where a specification may have no brackets or colons."""
    return re.sub(r"[\[\]:]", " ", text).replace("'", "’")


def zsh_completion(commands):
    lines = ["#compdef pcalc", "_pcalc() {", "    if (( CURRENT == 2 )); then", "        local -a commands=("]
    lines += [f"            '{name}:{quoted(it.about)}'" for name, it in commands.items()]
    lines += ["        )", "        _describe command commands", "        return", "    fi", "    local command=$words[2]", "    shift words", "    (( CURRENT-- ))"]
    lines += ["    case $command in"]
    for name, it in commands.items():
        words = []
        for option, value, text in options_of(it):
            takes = "" if value is None else f":{value}:{'_files' if value in FILES else ' '}"
            words.append(f"'--{option}[{quoted(text)}]{takes}'")
        lines.append(f"        {name}) _arguments {' '.join(words)} '*:file:_files' ;;")
    return "\n".join([*lines, "    esac", "}", '_pcalc "$@"', ""])


def fish_completion(commands):
    lines = [f"complete -c pcalc -n __fish_use_subcommand -f -a {name} -d '{quoted(it.about)}'" for name, it in commands.items()]
    for name, it in commands.items():
        for option, value, text in options_of(it):
            takes = "" if value is None else " -r" if value in FILES else " -x"
            lines.append(f"complete -c pcalc -n '__fish_seen_subcommand_from {name}' -l {option}{takes} -d '{quoted(text)}'")
    return "\n".join(lines) + "\n"


def pages(version, whole, commands, doc):
    """The text of each page, by its path below `share`."""
    return {
        "man/man1/pcalc.1": man_page(version, whole, commands, doc),
        "bash-completion/completions/pcalc": bash_completion(commands),
        "zsh/site-functions/_pcalc": zsh_completion(commands),
        "fish/vendor_completions.d/pcalc.fish": fish_completion(commands),
    }


def main():
    if len(sys.argv) != 4:
        sys.exit(__doc__)
    program, folder, doc = os.path.abspath(sys.argv[1]), sys.argv[2], sys.argv[3]
    version = subprocess.run([program, "--version"], check=True, capture_output=True, text=True).stdout.strip()
    for name, text in pages(version, *helps(program), doc).items():
        path = os.path.join(folder, name)
        os.makedirs(os.path.dirname(path), exist_ok=True)
        with open(path, "w", encoding="utf-8") as it:
            it.write(text)


if __name__ == "__main__":
    main()
