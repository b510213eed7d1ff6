"""Facts that are kept: they come back as they were read, each class once however many units tell it, while their files stay as they are."""
import os
import pathlib
import re

import pytest

from reading import facts, flags
from gammonfig_cpp import gather as gathering, store
from gammonfig_cpp.classes import Classes
from gammonfig_cpp.libclang import Cursor
from gammonfig_cpp.model import Class, Facts
from gammonfig_cpp.packing import Unpacking, pack
from gammonfig_cpp.store import Cache
from gammonfig_cpp.units import Unit

NAMES = ('bodies', 'deletions', 'roles')
SOURCE = '''#include <QTimer>
class {name} : public QTimer {{
    Q_OBJECT
public:
    void f() {{ start(); }}
}};
'''


def test_facts_are_read_anew_where_a_module_changed_that_reads_them() -> None:
    package, todo, seen = pathlib.Path(store.__file__).parent, ['facts'], {'facts'}
    while todo:
        named = set(re.findall(r'^from \.(\w+) import', (package / f'{todo.pop()}.py').read_text(), re.M)) - seen
        todo += named
        seen |= named
    # These read nothing: `whole` is what the table looks at.
    assert seen - {'errors', 'cleaning', 'whole'} <= set(store.READERS)


def kept(folder: pathlib.Path) -> tuple[Cache, list[Unit], list[str]]:
    """The facts of some cases as those of files here, kept with a header that they share."""
    cache, header = Cache(str(folder / 'cache')), folder / 'shared.h'
    header.write_text('1')
    units = [Unit(str(folder / f'{name}.cpp'), ()) for name in NAMES]
    for unit, name in zip(units, NAMES):
        pathlib.Path(unit.source).write_text(name)
        packed = pack(facts()[name])
        packed.files[:] = [unit.source]
        cache.keep(unit, [str(folder)], packed, (str(header),))
    return cache, units, [str(folder)]


def loaded(folder: pathlib.Path, units: list[Unit], unpacking: Unpacking) -> list[Facts | None]:
    cache = Cache(str(folder / 'cache'))
    return [cache.load(unit, [str(folder)], unpacking) for unit in units]


def test_they_come_back(tmp_path: pathlib.Path) -> None:
    _, units, _ = kept(tmp_path)
    for name, found in zip(NAMES, loaded(tmp_path, units, Unpacking())):
        told = facts()[name]
        assert found is not None and found.functions == told.functions and found.flows == told.flows and found.connects == told.connects
        assert list(found.classes.items()) == list(told.classes.items()), 'in their order'


def test_a_class_is_made_once(tmp_path: pathlib.Path) -> None:
    """What takes long is what many units tell of Qt's classes."""
    _, units, _ = kept(tmp_path)
    unpacking = Unpacking()
    told = [found.classes for found in loaded(tmp_path, units, unpacking) if found is not None]
    objects = [next(cls for cls in classes.values() if cls.name == 'QObject') for classes in told]
    assert len(objects) == len(NAMES) and all(one is objects[0] for one in objects)
    assert len(unpacking.classes) < sum(len(classes) for classes in told)


def test_one_file_has_changed(tmp_path: pathlib.Path) -> None:
    _, units, _ = kept(tmp_path)
    pathlib.Path(units[1].source).write_text('another')
    assert [found is None for found in loaded(tmp_path, units, Unpacking())] == [False, True, False]


def test_a_header_that_all_share_has_changed(tmp_path: pathlib.Path) -> None:
    _, units, _ = kept(tmp_path)
    (tmp_path / 'shared.h').write_text('2')
    assert loaded(tmp_path, units, Unpacking()) == [None] * len(NAMES)


def test_what_is_broken_is_read_anew(tmp_path: pathlib.Path) -> None:
    cache, units, roots = kept(tmp_path)
    os.truncate(cache.path(units[0], roots), 200)
    assert [found is None for found in loaded(tmp_path, units, Unpacking())] == [True, False, False]


def test_classes_of_kept_facts_are_not_read_again(tmp_path: pathlib.Path, monkeypatch: pytest.MonkeyPatch) -> None:
    """One file has changed: of Qt's classes, which the other units have told, libclang isn't asked."""
    asked: list[str] = []
    method = Classes._method

    def noted(self: Classes, cls: Class, inner: Cursor) -> None:
        asked.append(cls.name)
        method(self, cls, inner)

    monkeypatch.setattr(Classes, '_method', noted)
    monkeypatch.setattr(gathering, '_known', {})
    units, roots = [Unit(str(tmp_path / f'{name}.cpp'), flags('Qt6Core')) for name in 'ab'], [str(tmp_path)]
    for unit, name in zip(units, 'AB'):
        pathlib.Path(unit.source).write_text(SOURCE.format(name=name))
    first = gathering.gather(units, roots, Cache(str(tmp_path / 'cache')), 1, True)
    assert {'QTimer', 'QObject', 'A', 'B'} <= set(asked)
    asked.clear()
    gathering._known.clear()
    pathlib.Path(units[1].source).write_text(SOURCE.format(name='B') + '// another\n')
    again = gathering.gather(units, roots, Cache(str(tmp_path / 'cache')), 1, True)
    assert set(asked) == {'B'}
    assert again[1].classes == first[1].classes and again[1].functions == first[1].functions
