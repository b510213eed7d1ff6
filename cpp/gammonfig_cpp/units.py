"""The translation units of a build: its compile commands, and the flags that matter to a reader."""
from __future__ import annotations

import json
import os
import re
import shlex
from dataclasses import dataclass
from functools import cache

from .errors import ReadError

# Qt's headers offer these to tools: they mark signals, slots, invokable methods and properties.
ANNOTATIONS = ('-DQT_ANNOTATE_ACCESS_SPECIFIER(x)=__attribute__((annotate(#x)))',
               '-DQT_ANNOTATE_FUNCTION(x)=__attribute__((annotate(#x)))',
               '-DQT_ANNOTATE_CLASS(type,...)=static_assert(sizeof(#__VA_ARGS__),#type);',
               '-DQT_ANNOTATE_CLASS2(type,a1,a2)=static_assert(sizeof(#a1 " " #a2),#type);',
               '-DQ_CLANG_EXTRACT', '-Wno-everything', '-ferror-limit=0')
APART = ('-isystem', '-include', '-I', '-D', '-U', '-iquote', '-idirafter', '-isysroot')
JOINED = ('-I', '-D', '-U', '-std', '-isystem', '-iquote')
PATHS = ('-I', '-isystem', '-iquote', '-idirafter')
# Flags that decide what a text means; all others are a compiler's own, and clang may not know them.
MEANING = re.compile(r'-f(PIC|PIE|pic|pie|(no-)?exceptions|(no-)?rtti|short-enums|(no-)?char8_t|(un)?signed-char|ms-extensions|openmp)$'
                     r'|-m(32|64|sse[\d.]*|ssse3|avx\w*|fma|f16c|bmi2?)$')
# The names by which clang knows the newest standards.
STANDARDS = {'++23': '++2b', '++26': '++2b'}
SOURCES = ('.cpp', '.cc', '.cxx', '.C', '.c++', '.mm')


@dataclass(frozen=True)
class Unit:
    """A source with its flags, which hold from every folder."""
    source: str
    flags: tuple[str, ...]


@cache
def real(path: str) -> str:
    """A file's real path: the same headers are asked for with each unit."""
    return os.path.realpath(path)


def is_generated(name: str) -> bool:
    """Whether a file is one that moc or rcc made: it has nothing that an author wrote."""
    base = os.path.basename(name)
    return base.startswith(('moc_', 'qrc_')) or base.endswith('.moc') or base == 'mocs_compilation.cpp'


def flags_of(words: list[str], folder: str) -> tuple[str, ...]:
    """The flags of a compile command that decide what its source says."""
    def whole(path: str) -> str:
        return os.path.normpath(os.path.join(folder, path))

    flags: list[str] = []
    at = 1
    while at < len(words):
        word = words[at]
        if word in APART and at + 1 < len(words):
            value = words[at + 1]
            is_file = word == '-include' and os.path.exists(whole(value))
            flags += [word, whole(value) if word in PATHS or is_file else value]
            at += 1
        elif word in ('-o', '-c', '-MF', '-MT', '-MQ', '-arch', '-x'):
            at += 0 if word == '-c' else 1
        elif word.startswith(JOINED):
            option = next((p for p in PATHS if word.startswith(p)), '')
            flags.append(option + whole(word[len(option):]) if option else standard(word))
        elif MEANING.match(word):
            flags.append(word)
        at += 1
    if not any(f.startswith('-std') for f in flags):
        flags.append('-std=gnu++17')
    return tuple(flags)


def standard(word: str) -> str:
    """A standard by the name that clang has for it."""
    newest = next((known for name, known in STANDARDS.items() if word.startswith('-std=') and word.endswith(name)), None)
    return word[:-4] + newest if newest else word


def commands_file(given: str) -> str:
    """The compile commands that `-p` names, as a folder or the file itself."""
    path = os.path.join(given, 'compile_commands.json') if os.path.isdir(given) else given
    if not os.path.isfile(path):
        raise ReadError(f'{path}: there are no compile commands: configure the build with '
                        'cmake -DCMAKE_EXPORT_COMPILE_COMMANDS=ON, and build it')
    return path


def entries_of(path: str) -> list[dict[str, object]]:
    try:
        with open(path, encoding='utf-8') as file:
            entries = json.load(file)
    except (OSError, ValueError) as wrong:
        raise ReadError(f'{path}: this is no list of compile commands: {wrong}') from wrong
    if not isinstance(entries, list) or not all(isinstance(e, dict) and 'file' in e and 'directory' in e for e in entries):
        raise ReadError(f'{path}: this is no list of compile commands')
    if not entries:
        raise ReadError(f'{path}: the list of compile commands is empty')
    return entries


def words_of(entry: dict[str, object], path: str) -> list[str]:
    arguments, command = entry.get('arguments'), entry.get('command')
    if isinstance(arguments, list):
        words = [str(a) for a in arguments]
    elif isinstance(command, str):
        words = shlex.split(command)
    else:
        raise ReadError(f'{path}: the entry of {entry["file"]} has no command')
    return [w for word in words for w in from_file(word, os.path.join(os.path.dirname(os.path.abspath(path)), str(entry['directory'])))]


def from_file(word: str, folder: str) -> list[str]:
    """A word, or those of the file that `@FILE` names."""
    if word.startswith('@'):
        try:
            with open(os.path.join(folder, word[1:]), encoding='utf-8') as file:
                return shlex.split(file.read())
        except OSError:
            return []
    return [word]


def units_of(given: str, roots: list[str], only: str | None = None) -> list[Unit]:
    """The units of a build whose sources lie below one of the roots, in the order of the list, each once."""
    path, units = commands_file(given), dict[str, Unit]()
    try:
        wanted = re.compile(only or '')
    except re.error as wrong:
        raise ReadError(f'--only {only}: this is no regular expression: {wrong}') from wrong
    for entry in entries_of(path):
        folder = os.path.join(os.path.dirname(os.path.abspath(path)), str(entry['directory']))
        source = os.path.realpath(os.path.join(folder, str(entry['file'])))
        inside = any(source.startswith(root + os.sep) for root in roots)
        if not inside or is_generated(source) or not source.endswith(SOURCES) or not wanted.search(source):
            continue
        units.setdefault(source, Unit(source, flags_of(words_of(entry, path), folder)))
    if not units:
        raise ReadError(f'{path}: no source of it lies in {" or ".join(roots)}: --root names the folder of the sources')
    return list(units.values())
