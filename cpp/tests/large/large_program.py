"""A program as large as is wanted, for measuring: `shared.h` and `shared.cpp` once, and the files `barn*` many times, each time by
another name of as many letters. Written out as a project, or made of facts that were read of the first part."""
from __future__ import annotations

import json
import pickle
import sys
from pathlib import Path

HERE = Path(__file__).resolve().parent
sys.path.insert(0, str(HERE.parent))
from needs import jobs
from reading import flags

from gammonfig_cpp.gather import gather
from gammonfig_cpp.model import Facts
from gammonfig_cpp.units import Unit

NAME = 'Barn'


def renamed(words: bytes, number: int) -> bytes:
    """The text of a part by its number's name: as long as the first one's, so that pickled data stays valid."""
    new = f'B{number:03}'
    return words.replace(NAME.encode(), new.encode()).replace(NAME.lower().encode(), new.lower().encode())


def files_of(part: bool) -> list[Path]:
    return sorted(path for path in HERE.iterdir() if path.suffix in ('.h', '.cpp') and path.name.startswith(NAME.lower()) == part)


def write(folder: Path, parts: int) -> list[Path]:
    """Writes the project with its compile commands; the units."""
    folder.mkdir(parents=True, exist_ok=True)
    for path in files_of(False):
        (folder / path.name).write_bytes(path.read_bytes())
    for number in range(parts):
        for path in files_of(True):
            (folder / renamed(path.name.encode(), number).decode()).write_bytes(renamed(path.read_bytes(), number))
    units = sorted(folder.glob('*.cpp'))
    commands = [{'directory': str(folder), 'file': str(unit), 'arguments': ['c++', *flags('Qt6Widgets'), '-c', str(unit)]} for unit in units]
    (folder / 'compile_commands.json').write_text(json.dumps(commands))
    return units


def read_once() -> tuple[list[Facts], list[Facts]]:
    """The facts of what is shared, and those of the first part."""
    units = [Unit(str(path), flags('Qt6Widgets')) for path in files_of(False) + files_of(True) if path.suffix == '.cpp']
    facts = gather(units, [str(HERE)], None, jobs(), True)
    shared = sum(1 for path in files_of(False) if path.suffix == '.cpp')
    return facts[:shared], facts[shared:]


def multiplied(shared: list[Facts], part: list[Facts], parts: int) -> list[Facts]:
    """The facts of a program of so many parts."""
    words = [pickle.dumps(facts) for facts in part]
    more: list[Facts] = [pickle.loads(renamed(one, number)) for number in range(parts) for one in words]
    return shared + more
