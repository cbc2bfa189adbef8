#!/usr/bin/env python3
"""Makes the man pages and the completions of rwship from what `rwship help` prints.

usage: tools/help_pages.py PROGRAM DIR

Writes into DIR a man page for the program (rwship.1) and for each of its commands
(rwship-COMMAND.1), and completions for bash (rwship) and zsh (_rwship). All texts but the headings
come from the program's own help. A line of help that has no place in a page is an error.
"""
import os
import re
import subprocess
import sys
from collections import namedtuple

Entry = namedtuple("Entry", "head text")  # a row of a list of help: a command, an argument or an option
Page = namedtuple("Page", "name about usage commands arguments options texts")

PATHS = {"DIR": "folder", "FILE": "file"}  # what a shell completes for a value of this name
SEE_ALSO = "The folder docs/ that this page refers to is /usr/share/doc/rwship/docs."
ESCAPES = {"\\": "\\e", "-": "\\-", "'": "\\(aq", "`": "\\(ga", "^": "\\(ha", "~": "\\(ti"}


# ---- what the program prints

def output_of(program, *words):
    return subprocess.run([program, *words], stdin=subprocess.DEVNULL, stdout=subprocess.PIPE, check=True, encoding="utf-8").stdout


def read_entries(lines):
    """Reads a list of help: each row has at most six spaces before it, each further line of it more."""
    entries = []
    for line in lines:
        if len(line) - len(line.lstrip()) > 6:
            entries[-1] = Entry(entries[-1].head, f"{entries[-1].text} {line.strip()}".strip())
        else:
            head, _, text = line.strip().partition("  ")
            entries.append(Entry(head, text.strip()))
    return entries


def read_page(name, text):
    """Reads the help of a command, or of the program."""
    blocks = [it.split("\n") for it in re.split(r"\n{2,}", text.rstrip("\n"))]
    about, usage = blocks.pop(0), blocks.pop(0)
    if len(about) != 1 or len(usage) != 1 or not usage[0].startswith("Usage: "):
        sys.exit(f"help_pages: the help of {name} does not begin with a line on what it does, and one on its usage")
    lists = {}
    while blocks and blocks[0][0] in ("Commands:", "Arguments:", "Options:"):
        heading, *rows = blocks.pop(0)
        lists[heading] = read_entries(rows)
    if "Options:" not in lists:
        sys.exit(f"help_pages: the help of {name} has no options")
    return Page(name, about[0], usage[0][len("Usage: "):], lists.get("Commands:", []), lists.get("Arguments:", []), lists["Options:"], blocks)


def read_pages(program):
    """Returns the page of the program and those of its commands, in the order of its help."""
    top = read_page("rwship", output_of(program, "help"))
    commands = [it.head for it in top.commands if it.head != "help"]
    return top, [read_page(it, output_of(program, "help", it)) for it in commands]


def version_of(program):
    """Returns the program's version."""
    said = re.fullmatch(r"rwship (\d[\w.+~]*)\n", output_of(program, "--version"))
    if not said:
        sys.exit("help_pages: `rwship --version` prints no version")
    return said[1]


# ---- man pages

def roff(text):
    """Writes text so that nothing in it is a request of roff, and each '-' and quote is as it was."""
    text = "".join(ESCAPES.get(it, it) for it in text)
    return re.sub(r"^\.", "\\\\&.", text, flags=re.M)


def entry_roff(entry):
    head = re.sub(r"(<[\w:]+>|\[[\w:]+\])|([^<\[]+)", lambda it: f"\\fI{roff(it[1])}\\fR" if it[1] else f"\\fB{roff(it[2])}\\fR", entry.head)
    return f".TP\n{head}\n{roff(entry.text)}"


def texts_of(page):
    """Returns the texts after the options: paragraphs that describe, examples, and exit statuses."""
    description, examples, statuses = [f"{page.about}."], [], []
    for block in page.texts:
        if block[0] == "Example:":
            examples.append("\n".join(block[1:]))
        elif all(it.startswith("  ") for it in block):
            examples.append("\n".join(block))
        elif block[0].startswith("Exit status: "):
            statuses.append("\n".join(block)[len("Exit status: "):])
        else:
            description.append("\n".join(block))
    return description, examples, statuses


def section(heading, texts):
    return f".SH {heading}\n" + ".PP\n".join(f"{it}\n" for it in texts) if texts else ""


def man_page(page, others, version, date):
    name = page.name if page.name == "rwship" else f"rwship-{page.name}"
    description, examples, statuses = texts_of(page)
    text = f'.TH "{roff(name.upper())}" 1 "{roff(date)}" "rwship {version}" "User Commands"\n.nh\n.ad l\n'
    text += section("NAME", [f"{roff(name)} \\- {roff(page.about[0].lower() + page.about[1:])}"])
    text += section("SYNOPSIS", [f".B {roff(page.usage)}"])
    text += section("DESCRIPTION", map(roff, description))
    for heading, entries in (("COMMANDS", page.commands), ("ARGUMENTS", page.arguments), ("OPTIONS", page.options)):
        text += section(heading, ["\n".join(map(entry_roff, entries))] if entries else [])
    text += section("EXIT STATUS", list(map(roff, statuses)))
    text += section("EXAMPLES", [f".EX\n{roff(it)}\n.EE" for it in examples])
    return text + section("SEE ALSO", [",\n".join(f".BR {roff(it)} (1)" for it in others if it != name), roff(SEE_ALSO)])


# ---- completions

def options_of(page):
    """Yields the forms of each option ('-h', '--help'), the name of its value or '', and its text."""
    for entry in page.options:
        value = re.search(r"<([\w:]+)>", entry.head)
        yield re.findall(r"(?<!\S)--?[\w-]+", entry.head), value[1] if value else "", entry.text


def bash_values(pages):
    """Writes the cases of options with a value: a folder, a file, or a value that nothing suggests."""
    kinds = {"folder": [], "file": [], "": []}
    for page in pages:
        for forms, value, _ in options_of(page):
            if value:
                kinds[PATHS.get(value, "")] += [f'"{page.name} {it}"' for it in forms]
    actions = {"folder": 'compopt -o filenames; mapfile -t COMPREPLY < <(compgen -d -- "$current")',
               "file": 'compopt -o filenames; mapfile -t COMPREPLY < <(compgen -f -- "$current")', "": ""}
    return "".join(f"    {' | '.join(names)})\n        {actions[kind]}\n        return ;;\n".replace("        \n", "")
                   for kind, names in kinds.items() if names)


def bash_completion(top, pages):
    commands = " ".join(it.head for it in top.commands)
    forms = {page.name: " ".join(form for names, _, _ in options_of(page) for form in names) for page in (top, *pages)}
    first = f"{commands} {forms.pop(top.name)}"
    cases = "".join(f"    {name}) words='{words}' ;;\n" for name, words in {"help": commands, **forms}.items())
    with_files = "|".join(it.name for it in pages if any(PATHS.get(arg.head.strip("[]<>.")) for arg in it.arguments))
    return BASH.format(commands=first, values=bash_values(pages), cases=cases, with_files=with_files)


BASH = r"""# Completes the commands and options of rwship in bash. Made from what `rwship help` prints.
_rwship() {{
    local current=${{COMP_WORDS[COMP_CWORD]}} previous=${{COMP_WORDS[COMP_CWORD - 1]}} command=${{COMP_WORDS[1]}} words=
    COMPREPLY=()
    if [[ $COMP_CWORD -eq 1 ]]; then
        mapfile -t COMPREPLY < <(compgen -W '{commands}' -- "$current")
        return
    fi
    case "$command $previous" in
{values}    esac
    case $command in
{cases}    esac
    mapfile -t COMPREPLY < <(compgen -W "$words" -- "$current")
    if [[ $command == @({with_files}) && $current != -* ]]; then
        compopt -o filenames
        mapfile -t COMPREPLY < <(compgen -f -- "$current")
    fi
}}
complete -F _rwship rwship
"""


def zsh_text(text):
    """Writes a text for a specification of zsh in single quotes."""
    return re.sub(r"([\\\[\]:])", r"\\\1", text).replace("'", "'\\''")


def zsh_value(value, message):
    action = {"folder": "_files -/", "file": "_files"}.get(PATHS.get(value), " ")
    return f":{zsh_text(message)}:{action}"


def zsh_options(page):
    """Yields what `_arguments` wants for each form of each option, and for each argument."""
    for forms, value, text in options_of(page):
        for form in forms:
            yield f"'{form}=[{zsh_text(text)}]{zsh_value(value, value)}'" if value else f"'{form}[{zsh_text(text)}]'"
    for entry in page.arguments:
        yield f"':{zsh_value(entry.head.strip('[]<>.'), entry.text)}'"


def zsh_completion(top, pages):
    rows = "".join(f"        '{zsh_text(it.head)}:{zsh_text(it.text)}'\n" for it in top.commands)
    cases = ""
    for page in pages:
        words = " \\\n            ".join(zsh_options(page))
        cases += f"    {page.name})\n        _arguments \\\n            {words} ;;\n"
    own = " ".join(zsh_options(top))
    return ZSH.format(rows=rows, cases=cases, own=own)


ZSH = r"""#compdef rwship
# Completes the commands and options of rwship in zsh. Made from what `rwship help` prints.
_rwship() {{
    local curcontext=$curcontext state line
    local -a commands
    commands=(
{rows}    )
    _arguments -C {own} '1:command:->command' '*::argument:->argument' && return
    if [[ $state == command ]]; then
        _describe -t commands command commands
        return
    fi
    case $words[1] in
    help) _describe -t commands command commands ;;
{cases}    esac
}}
_rwship "$@"
"""


def pages_of(program, date):
    """Returns the man pages and the completions of a program, by the names of their files."""
    version, (top, pages) = version_of(program), read_pages(program)
    names = ["rwship", *(f"rwship-{it.name}" for it in pages)]
    files = {f"{name}.1": man_page(page, names, version, date) for name, page in zip(names, [top, *pages])}
    return {**files, "rwship": bash_completion(top, pages), "_rwship": zsh_completion(top, pages)}


def main(words):
    if len(words) != 2:
        sys.exit(__doc__)
    program, folder = words
    for name, text in pages_of(program, "").items():
        with open(f"{folder}/{name}", "w", encoding="utf-8") as file:
            file.write(text)
    return 0


if __name__ == "__main__":
    sys.exit(main(sys.argv[1:]))
