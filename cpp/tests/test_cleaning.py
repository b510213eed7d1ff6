"""What is kept of earlier runs: it goes where nobody has used it for 30 days, and beyond a size what was used least lately."""
import os
import pathlib

import pytest
from reading import flags
from gammonfig_cpp import precompiled
from gammonfig_cpp.cleaning import AT_ONCE, DAY, UNUSED, clean
from gammonfig_cpp.precompiled import kind_of
from gammonfig_cpp.units import Unit

NOW = 2_000_000_000.0
FACTS = ['0' * 64, '1' * 64, '2' * 64]
HEADERS = 'headers-' + 'a' * 40


def put(folder: pathlib.Path, name: str, age: float, size: int = 10) -> None:
    """A file of the folder that was used last so many seconds ago."""
    (folder / name).write_bytes(b'x' * size)
    os.utime(folder / name, (NOW - age, NOW - age))


def left(folder: pathlib.Path) -> set[str]:
    return set(os.listdir(folder))


def test_what_nobody_uses_goes(tmp_path: pathlib.Path) -> None:
    put(tmp_path, FACTS[0], UNUSED + 1)
    put(tmp_path, FACTS[1], UNUSED - 1)
    clean(str(tmp_path), NOW)
    assert left(tmp_path) == {FACTS[1]}


def test_headers_go_and_stay_as_one(tmp_path: pathlib.Path) -> None:
    """The mark of their use is on the list of their files alone: clang compares the time of the text."""
    for part, age in ('.h', 2 * UNUSED), ('.pch', 2 * UNUSED), ('.files', DAY):
        put(tmp_path, HEADERS + part, age)
    clean(str(tmp_path), NOW)
    assert left(tmp_path) == {HEADERS + part for part in ('.h', '.pch', '.files')}
    clean(str(tmp_path), NOW + UNUSED)
    assert not left(tmp_path)


def test_beyond_the_size(tmp_path: pathlib.Path) -> None:
    put(tmp_path, FACTS[0], 3 * DAY)
    put(tmp_path, FACTS[1], 2 * DAY)
    put(tmp_path, FACTS[2], DAY)
    clean(str(tmp_path), NOW, 30)
    assert left(tmp_path) == set(FACTS), 'there is just as much as may be'
    clean(str(tmp_path), NOW, 29)
    assert left(tmp_path) == set(FACTS[1:]), 'what was used least lately goes, and no more'
    put(tmp_path, FACTS[2], AT_ONCE - 1)
    clean(str(tmp_path), NOW, 0)
    assert left(tmp_path) == {FACTS[2]}, 'what another process may be using stays'


def test_what_was_written_half(tmp_path: pathlib.Path) -> None:
    """A process that was broken off leaves files by its number; one of today may still go on."""
    names = [f'{FACTS[0]}.12', f'{HEADERS}.12', f'{HEADERS}.12.files']
    for name in names:
        put(tmp_path, name, DAY - 1)
    clean(str(tmp_path), NOW)
    assert left(tmp_path) == set(names)
    clean(str(tmp_path), NOW + 2)
    assert not left(tmp_path)


def test_other_files_stay(tmp_path: pathlib.Path) -> None:
    """`--cache` may name any folder."""
    others = {'notes.txt', 'a' * 63, 'headers-b.pch', FACTS[0] + '.txt'}
    for name in others:
        put(tmp_path, name, 9 * UNUSED)
    (tmp_path / 'folder').mkdir()
    clean(str(tmp_path), NOW, 0)
    assert left(tmp_path) == {*others, 'folder'}
    clean(str(tmp_path / 'nowhere'), NOW)


def test_another_libclang(monkeypatch: pytest.MonkeyPatch) -> None:
    """Headers that another version of libclang has parsed are other headers."""
    kind = kind_of(Unit('a.cpp', flags('Qt6Core')))
    assert kind is not None
    own = kind.name()
    monkeypatch.setattr(precompiled, 'version', lambda: 'clang version 99')
    assert kind.name() != own
