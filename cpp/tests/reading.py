"""Reads the cases of `cases/`, for tests: each source once, all of them in parallel."""
from __future__ import annotations

import functools
import os
import re
import subprocess
import sys
import tempfile
from dataclasses import dataclass

HERE = os.path.dirname(os.path.abspath(__file__))
CASES = os.path.join(HERE, 'cases')
sys.path[:0] = [os.path.dirname(HERE), HERE]

from needs import jobs  # noqa: E402
from gammonfig_cpp.gather import gather  # noqa: E402
from gammonfig_cpp.linking import Linked, link  # noqa: E402
from gammonfig_cpp.model import Facts  # noqa: E402
from gammonfig_cpp.qtmodel import Table  # noqa: E402
from gammonfig_cpp.report import Finding, judge  # noqa: E402
from gammonfig_cpp.units import Unit  # noqa: E402
from gammonfig_cpp.warned import Warnings  # noqa: E402
from gammonfig_cpp.watching import Watching  # noqa: E402
from gammonfig_cpp.writing import Writing, Written  # noqa: E402


# The modules of Qt that cases need beyond its core.
MODULES = {'handing.cpp': 'Qt6Concurrent', 'relations.cpp': 'Qt6Sql', **dict.fromkeys(('answers.cpp', 'visits.cpp'), 'Qt6Network'),
           **dict.fromkeys(('asked.cpp', 'blocked.cpp', 'boxes.cpp', 'documents.cpp', 'ends.cpp', 'events.cpp', 'groups.cpp',
                            'items.cpp', 'limits.cpp', 'mapping.cpp', 'models.cpp', 'owners.cpp', 'progress.cpp', 'reentries.cpp',
                            'selections.cpp', 'views.cpp', 'widgets.cpp'), 'Qt6Widgets')}


@functools.cache
def flags(package: str) -> tuple[str, ...]:
    """The flags of a module of Qt, as its own package file has them."""
    told = subprocess.run(['pkg-config', '--cflags', package], check=True, capture_output=True, text=True).stdout.split()
    return (*told, '-std=gnu++17', '-fPIC')


@functools.cache
def facts() -> dict[str, Facts]:
    """The facts of each case."""
    names = sorted(name for name in os.listdir(CASES) if name.endswith('.cpp'))
    units = [Unit(os.path.join(CASES, name), flags(MODULES.get(name, 'Qt6Core'))) for name in names]
    return dict(zip((name[:-4] for name in names), gather(units, [CASES], None, jobs(), True)))


@dataclass
class Case:
    linked: Linked
    written: Written

    @property
    def text(self) -> str:
        return self.written.text

    def body(self, name: str, cls: str = '') -> list[str]:
        """The statements of a slot, of the class where one is named."""
        text = self.text
        if cls:
            found = re.search(rf'^class {cls}\b.*?^}}', text, re.M | re.S)
            assert found, f'no class {cls} in\n{text}'
            text = found[0]
        found = re.search(rf'^    slot {name}\([^)]*\) {{(.*?)}}', text, re.M | re.S)
        assert found, f'no slot {name} in\n{text}'
        return [line.strip() for line in found[1].split('\n') if line.strip() and not line.strip().startswith('//')]

    def wires(self) -> list[str]:
        return [line for line in self.text.split('\n') if line.startswith('wire ')]

    def findings(self) -> list[Finding]:
        """What is told of it: the checker's verdict, with what the reader adds."""
        with tempfile.TemporaryDirectory() as folder:
            program, warnings = os.path.join(folder, 'app.gf'), os.path.join(folder, 'app.warnings.json')
            for path, text in ((program, self.text), (warnings, Watching(self.linked.program, self.written.names, self.written.places).text())):
                with open(path, 'w', encoding='utf-8') as file:
                    file.write(text)
            told = judge(program, self.written.places)
            Warnings.read(warnings).add_to(told)
        return told.findings

    def place(self, start: str) -> str:
        """The line of places for the first line of the program that begins so."""
        at = next(n for n, line in enumerate(self.text.split('\n'), 1) if line.strip().startswith(start))
        return next(line for line in self.written.places.text().split('\n') if line.startswith(f'{at}\t'))


@functools.cache
def case(name: str, roles: str = 'member', lean: bool = False) -> Case:
    told = facts()[name]
    assert not told.errors, told.errors
    own = os.path.join(CASES, f'{name}.effects')
    table = own if os.path.exists(own) else os.path.join(CASES, 'qt.effects')
    linked = link([told], Table.read(table), roles, lean)
    return Case(linked, Writing(linked.program, CASES).write())
