#!/usr/bin/env python3
"""Runs the tests of the reader of C++: its types and its tests. Installs the packages of Debian that they need where it may, and
fails where it can't. The last line is `N passed, M failed`.

    cpp/tests/run.py [WORDS of pytest ..]"""
from __future__ import annotations

import os
import re
import shutil
import subprocess
import sys

HERE = os.path.dirname(os.path.abspath(__file__))
# The folders with modules of their own.
BESIDE = ('dynamic', 'examples', 'large', 'programs', 'qt_table')
PACKAGES = ('python3-clang', 'libclang1', 'libclang-common-14-dev', 'qt6-base-dev', 'qt6-base-private-dev', 'python3-pytest', 'mypy',
            'pkg-config', 'openssl')


def python() -> str | None:
    """A Python of 3.11 or later that has the modules."""
    code = 'import sys; assert sys.version_info >= (3, 11); import clang.cindex, pytest; clang.cindex.conf.lib'
    for folder in os.get_exec_path():
        path = os.path.join(folder, 'python3')
        if os.access(path, os.X_OK) and subprocess.run([path, '-c', code], capture_output=True, check=False).returncode == 0:
            return path
    return None


def missing() -> list[str]:
    """What isn't there, in words."""
    lacks = [] if python() else ['a Python with clang.cindex and pytest']
    lacks += [name for name in ('mypy', 'pkg-config', 'openssl') if shutil.which(name) is None]
    if not lacks and subprocess.run(['pkg-config', '--exists', 'Qt6Widgets'], check=False).returncode:
        lacks.append('Qt 6')
    return lacks


def install() -> None:
    """Installs the packages, where this is a Debian and the user may."""
    if os.geteuid() != 0 or shutil.which('apt-get') is None:
        return
    for words in (['apt-get', 'update'], ['apt-get', 'install', '-y', '--no-install-recommends', *PACKAGES]):
        print('+', *words, file=sys.stderr, flush=True)
        subprocess.run(words, check=False, stdout=subprocess.DEVNULL, env={**os.environ, 'DEBIAN_FRONTEND': 'noninteractive'})


def types() -> bool:
    """Whether the types hold."""
    folders = [HERE, *(os.path.join(HERE, name) for name in BESIDE)]
    sources = [os.path.join(f, n) for f in folders for n in sorted(os.listdir(f)) if n.endswith('.py')]
    done = subprocess.run(['mypy', '--strict', os.path.join(os.path.dirname(HERE), 'gammonfig_cpp'), *sources], check=False,
                          env={**os.environ, 'MYPYPATH': os.pathsep.join(folders)})
    return done.returncode == 0


def tests(path: str, words: list[str]) -> tuple[int, int]:
    """How many tests pass, and how many fail."""
    done = subprocess.run([path, '-m', 'pytest', '-q', '-p', 'no:cacheprovider', HERE, *words], text=True, check=False, stdout=subprocess.PIPE)
    print(done.stdout, end='', flush=True)
    counts = {word: int(number) for number, word in re.findall(r'(\d+) (passed|failed|error)', done.stdout.rstrip('\n').rsplit('\n', 1)[-1])}
    failed = counts.get('failed', 0) + counts.get('error', 0)
    return counts.get('passed', 0), failed if failed or done.returncode == 0 else 1


def checker() -> None:
    """Names the checker for the tests, where none is named and the gate has built it."""
    built = os.path.join(os.path.dirname(os.path.dirname(HERE)), 'crates', 'qt_tools', 'out', 'qt_tools')
    if 'GAMMONFIG' not in os.environ and os.access(built, os.X_OK):
        os.environ['GAMMONFIG'] = built


def main() -> int:
    checker()
    if missing():
        install()
    lacks, path = missing(), python()
    if lacks or path is None:
        print(f'{", ".join(lacks)}: not there: install Debian\'s packages {" ".join(PACKAGES)}')
        print('0 passed, 1 failed')
        return 1
    typed = types()
    passed, failed = tests(path, sys.argv[1:])
    print(f'{passed + int(typed)} passed, {failed + int(not typed)} failed')
    return 1 if failed or not typed else 0


if __name__ == '__main__':
    sys.exit(main())
