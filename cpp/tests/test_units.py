"""Compile commands, flags, places and tables: what is read, and what is refused."""
import json
import os
import pathlib

import pytest
from reading import CASES
from gammonfig_cpp.errors import ReadError
from gammonfig_cpp.model import Condition, Place
from gammonfig_cpp.naming import LONGEST, free_name, identifier
from gammonfig_cpp.places import Places
from gammonfig_cpp.qtmodel import QtWire, Table
from gammonfig_cpp.units import flags_of, is_generated, units_of


def build(folder: pathlib.Path, entries: object) -> str:
    (folder / 'compile_commands.json').write_text(entries if isinstance(entries, str) else json.dumps(entries))
    return str(folder)


def test_flags_that_matter_are_kept() -> None:
    words = 'c++ -DX=1 -D Y -Iinclude -I /abs -isystem sys -std=c++20 -O2 -Wall -fPIC -fno-such-thing -mtune=x -o a.o -c a.cpp'.split()
    assert flags_of(words, '/b') == ('-DX=1', '-D', 'Y', '-I/b/include', '-I', '/abs', '-isystem', '/b/sys', '-std=c++20', '-fPIC')


def test_a_standard_is_added() -> None:
    assert flags_of(['c++', '-c', 'a.cpp'], '/b') == ('-std=gnu++17',)


def test_the_newest_standard_has_another_name() -> None:
    assert flags_of(['c++', '-std=gnu++23'], '/b') == ('-std=gnu++2b',)


def test_words_in_a_file(tmp_path: pathlib.Path) -> None:
    (tmp_path / 'flags').write_text('-DX="a b" -Iinc')
    entry = {'directory': str(tmp_path), 'command': 'c++ @flags -c a.cpp', 'file': 'a.cpp'}
    units = units_of(build(tmp_path, [entry]), [os.path.realpath(tmp_path)])
    assert units[0].flags == ('-DX=a b', f'-I{tmp_path}/inc', '-std=gnu++17')


def test_units_are_those_of_the_root(tmp_path: pathlib.Path) -> None:
    entry = {'directory': str(tmp_path), 'command': 'c++ -c x'}
    files = ['src/a.cpp', 'src/a.cpp', 'src/moc_a.cpp', 'other/b.cpp', 'src/c.c']
    units = units_of(build(tmp_path, [{**entry, 'file': f} for f in files]), [os.path.realpath(tmp_path / 'src')])
    assert [os.path.basename(u.source) for u in units] == ['a.cpp']


@pytest.mark.parametrize('text, sentence', [('[]', 'is empty'), ('{', 'is no list'), ('{}', 'is no list'), ('[1]', 'is no list'),
                                            ('[{"file": "a.cpp", "directory": "."}]', 'has no command')])
def test_bad_commands(tmp_path: pathlib.Path, text: str, sentence: str) -> None:
    with pytest.raises(ReadError, match=sentence):
        units_of(build(tmp_path, text), [os.path.realpath(tmp_path)])


def test_no_commands(tmp_path: pathlib.Path) -> None:
    with pytest.raises(ReadError, match='no compile commands'):
        units_of(str(tmp_path), [str(tmp_path)])


def test_no_source_of_the_root(tmp_path: pathlib.Path) -> None:
    with pytest.raises(ReadError, match='--root names'):
        units_of(build(tmp_path, [{'directory': '/', 'file': '/x/a.cpp', 'command': 'c++'}]), [str(tmp_path)])


def test_generated_files() -> None:
    assert [is_generated(n) for n in ('moc_a.cpp', 'a.moc', 'qrc_a.cpp', 'mocs_compilation.cpp', 'ui_a.h', 'a.cpp')] == [True] * 4 + [False] * 2


def test_places_are_read_as_they_were_written(tmp_path: pathlib.Path) -> None:
    places = Places('/root')
    places.add(3, 9, Place('/root/src/a.cpp', 7, 5, 'if (a)\tb'), (Condition('if', 'x > 1', 6), Condition('unless', 'y', 5)))
    assert places.text() == '3\t9\tsrc/a.cpp\t7\t5\tif (a) b\tif `x > 1`\tunless `y`\n'
    (tmp_path / 'app.places').write_text(places.text())
    assert Places.read(str(tmp_path / 'app.places'), '/root').text() == places.text()


@pytest.mark.parametrize('line', ['1\t2\ta.cpp\t3\t4', 'x\t2\ta.cpp\t3\t4\twords', '1 2 a.cpp 3 4 words', ''])
def test_bad_places(tmp_path: pathlib.Path, line: str) -> None:
    (tmp_path / 'p').write_text('1\t2\ta\t3\t4\tw\n' + line + '\n')
    with pytest.raises(ReadError, match=':2: this is no line of places'):
        Places.read(str(tmp_path / 'p'), '/')


def test_a_table() -> None:
    table = Table.read(os.path.join(CASES, 'qt.effects'))
    assert table.entries[('QAbstractButton', 'setChecked')].emits == ['toggled', 'QButtonGroup::buttonToggled']
    assert table.entries[('QWidget', 'close')].calls == ['closeEvent']
    assert table.entries[('QTimer', 'start')].posts == ['timeout']
    assert table.entries[('QDialog', 'done')].emits == ['accepted', 'finished', 'rejected']
    assert table.entries[('QMenu', 'exec')].modal and not table.entries[('QDialog', 'done')].modal
    assert table.wires[0] == QtWire('QAction', 'triggered', 'QMenu', 'triggered')
    assert QtWire('QAbstractItemModel', 'rowsInserted', 'QComboBox', 'currentIndexChanged', 'setModel') in table.wires


@pytest.mark.parametrize('line', ['QAction.trigger', 'QAction emits x', 'QAction.trigger emit x', 'QAction.trigger emits', 'QAction.trigger emits a b',
                                  'QAction.trigger emits a,', 'QAction.trigger modal a', 'QAction.trigger emits modal', 'wire A.b C.d', 'wire A.b -> C.d by'])
def test_a_bad_table(tmp_path: pathlib.Path, line: str) -> None:
    (tmp_path / 't').write_text('# first\n' + line + '\n')
    with pytest.raises(ReadError, match=':2: this is no line'):
        Table.read(str(tmp_path / 't'))


def test_a_long_name_is_cut_and_stays_a_name_of_its_own() -> None:
    long = 'std::map<' + 'a' * 300 + '>'
    name = identifier(long)
    assert name.isidentifier() and len(name) == LONGEST
    other = free_name(name, {name})
    assert other != name and len(other) <= 255
