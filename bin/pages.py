#!/usr/bin/env python3
"""What is said to who asks for help, and what completes words in a shell: all of it made from the table of commands.

Usage: bin/pages.py writes the table of docs/commands.md."""
from __future__ import annotations

import textwrap

import rules
from words import COMMANDS, FRONT, READER, Command

WIDTH = 120
ABOUT = """gammonfig: a runtime of signals and slots with a connection checker, after Qt 6.
It tells from class declarations, before anything runs, whether a chain of direct calls can grow without end, a binding
come to depend on itself, or an object be destroyed while one of its own slots runs; and it runs scripts on these classes.
"""
MORE = """`./gammonfig help WORD` has the options of each. Without files the texts come from standard input, with a line `%%` between
two of them: ./gammonfig run < examples/checked.txt. A file named `-` is standard input.
GAMMONFIG_EXPLAIN=1 in the environment tells after a run of all refused events. Until `./gammonfig prove` is done an
unproved program answers, which is built in a minute or two; GAMMONFIG_PROVED=1 lets none of that kind answer,
GAMMONFIG_TRY=1 no other.

README.md has a first run. The pages: docs/language.md (programs and scripts), docs/commands.md (commands, refusals and
faults), docs/certificate.md, docs/qt.md (what a Qt author will notice); all of them are listed in docs/README.md.
"""


def rows(pairs, indent: str = "  ") -> str:
    """Two columns, the second one wrapped."""
    pairs = list(pairs)
    width = max((len(first) for first, _ in pairs), default=0) + 2
    made = []
    for first, second in pairs:
        lines = textwrap.wrap(second, WIDTH - width - len(indent)) or [""]
        made.append(f"{indent}{first:{width}}{lines[0]}")
        made += [indent + " " * width + it for it in lines[1:]]
    return "".join(f"{it.rstrip()}\n" for it in made)


def help_text() -> str:
    return f"{ABOUT}\n{rows((f'./gammonfig {it.example}', it.told) for it in COMMANDS)}\n{MORE}"


def form(command: Command, before: str = "") -> str:
    """The command line of a command, with an option and its value in one line."""
    pieces = [f"{before}./gammonfig", command.word, *(f"[{it.shown()}]" for it in command.options), *texts(command)]
    whole = " ".join(it.replace(" ", "\0") for it in pieces)
    lines = textwrap.wrap(whole, WIDTH, subsequent_indent="    ", break_on_hyphens=False)
    return "".join(f"{it}\n" for it in lines).replace("\0", " ")


def texts(command: Command) -> list[str]:
    """What stands for the texts behind a command's options."""
    if not command.texts:
        return []
    least = len(command.texts) if command.least is None else command.least
    names = [it.upper() + (".." if command.parts and it == "program" else "") for it in command.texts]
    behind = " ".join(f"[{it}" for it in names[least:]) + "]" * len(names[least:])
    whole = " ".join(it for it in (" ".join(names[:least]), behind) if it) + (".." if command.many else "")
    # Texts may come from standard input in place of all files.
    return [whole if command.program == FRONT else f"[{whole}]"]


def usage(command: Command) -> str:
    return f"{form(command, 'usage: ')}`./gammonfig help {command.word}` says more\n"


def words_told() -> str:
    return "`./gammonfig help` has all words\n"


def command_help(command: Command) -> str:
    made = f"{form(command)}{command.told[0].upper()}{command.told[1:]}.\n"
    if command.options:
        made += "\n" + rows((it.shown(), it.told) for it in command.options)
    if command.program not in (FRONT, READER):
        held = f"{command.texts[0]}, any number of them" if command.numbered else ", ".join(f"a {it}" for it in command.texts)
        between = ", with a line `%%`\nbetween two of them" if "," in held else ""
        made += f"\nFiles: {held}; `-` is standard input, which is also read without files{between}.\n"
    made += f"\n{command.more}" if command.more else ""
    if command.word == "verdict" and (known := rules.rows()):
        made += "\nRules (docs/rules.md says more):\n" + rows(known)
    made += "\nExit status:\n" + rows((str(status), told) for status, told in command.statuses)
    return made + f"\nExample: ./gammonfig {command.example}\nMore: {command.page}\n"


def table() -> str:
    """The table of docs/commands.md."""
    lines = ["| word and texts | what it does | page |", "|---|---|---|"]
    for it in COMMANDS:
        page = it.page.removeprefix("docs/")
        lines.append(f"| `{' '.join([it.word, *texts(it)])}` | {it.told} | [{page}]({page}) |".replace("[commands.md](commands.md)", "this one"))
    return "\n".join(lines) + "\n"


def completion(shell: str) -> str:
    return bash() if shell == "bash" else zsh()


def bash() -> str:
    """For bash: words, then the options of a word, then files."""
    words = " ".join(it.word for it in COMMANDS)
    cases = "".join(f'        {it.word}) options="{" ".join(["--help", *(option.name for option in it.options)])}" ;;\n' for it in COMMANDS)
    return f"""# Completes the words of gammonfig: source <(gammonfig completion bash)
_gammonfig() {{
    local word=${{COMP_WORDS[COMP_CWORD]}} options=
    if [ "$COMP_CWORD" -eq 1 ] || {{ [ "$COMP_CWORD" -eq 2 ] && [ "${{COMP_WORDS[1]}}" = help ]; }}; then
        mapfile -t COMPREPLY < <(compgen -W "{words} --help --version" -- "$word")
        return
    fi
    case ${{COMP_WORDS[1]}} in
{cases}    esac
    [ "${{COMP_WORDS[1]}}" != completion ] || options="bash zsh"
    case $word,${{COMP_WORDS[1]}} in
        -*,* | *,completion) mapfile -t COMPREPLY < <(compgen -W "$options" -- "$word") ;;
        *) mapfile -t COMPREPLY < <(compgen -f -- "$word") ;;
    esac
}}
complete -o filenames -F _gammonfig gammonfig ./gammonfig
"""


def zsh() -> str:
    """For zsh, with what each word and option does."""

    def plain(text: str) -> str:
        return "".join(f"\\{it}" if it in "[]:\\" else "'\\''" if it == "'" else it for it in text)

    commands = "\n".join(f"    '{it.word}:{plain(it.told)}'" for it in COMMANDS)
    cases = ""
    for it in COMMANDS:
        options = "".join(f" '{'*' if option.repeats else ''}{option.name}[{plain(option.told)}]{f':{plain(option.value)}:' if option.value else ''}{'_files' if option.text else ''}'" for option in it.options)
        cases += f"    {it.word}) _arguments{options} '*:file:_files' ;;\n"
    return f"""#compdef gammonfig ./gammonfig
# Completes the words of gammonfig: a file _gammonfig in a folder of $fpath
local -a commands
commands=(
{commands}
)
if (( CURRENT == 2 )); then
    _describe command commands
    return
fi
shift words
(( CURRENT-- ))
case $words[1] in
{cases}esac
"""


if __name__ == "__main__":
    print(table(), end="")
