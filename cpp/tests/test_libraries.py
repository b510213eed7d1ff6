"""Headers of libraries beside Qt that many units include: which are shared, and by whom."""
import os
import pathlib
from collections import Counter

from reading import flags
from gammonfig_cpp.facts import read_unit
from gammonfig_cpp.libraries import OFTEN, kinds_of
from gammonfig_cpp.precompiled import LEAST, Headers, Kind, Library, kept, parse
from gammonfig_cpp.sharing import headers_for, hosts_of, mention, own_macros
from gammonfig_cpp.units import Unit

HEADER = '#pragma once\nnamespace {name} {{ inline int value() {{ return 1; }} }}\n'
UNIT = '''#include <QObject>
#include "shared.h"
class C{number} : public QObject {{
    Q_OBJECT
signals:
    void told(int);
public:
    void f() {{ emit told(lib::value()); }}
}};
'''


def project(folder: pathlib.Path, count: int, broken: bool = False) -> list[Unit]:
    """So many units that include a library's header by one of the application's, and one that includes nothing of it."""
    (folder / 'app').mkdir()
    (folder / 'other' / 'lib').mkdir(parents=True)
    for name in ('lib', 'rare'):
        (folder / 'other' / 'lib' / f'{name}.hpp').write_text(HEADER.format(name=name))
    if broken:
        (folder / 'other' / 'lib' / 'lib.hpp').write_text('#ifndef READY\n#error not alone\n#endif\n' + HEADER.format(name='lib'))
    ready = '#define READY\n' if broken else ''
    (folder / 'app' / 'shared.h').write_text(f'#ifndef SHARED_H\n#define SHARED_H\n{ready}#include <lib/lib.hpp>\n#ifdef NEVER\n'
                                             '#include <lib/never.hpp>\n#endif\n#endif\n')
    for number in range(count):
        (folder / 'app' / f'u{number}.cpp').write_text(UNIT.format(number=number) + ('#include <lib/rare.hpp>\n' if number == 0 else ''))
    (folder / 'app' / 'alone.cpp').write_text('#include <QObject>\n')
    return [Unit(str(path), unit_flags(folder)) for path in sorted((folder / 'app').glob('*.cpp'))]


def unit_flags(folder: pathlib.Path) -> tuple[str, ...]:
    return (*flags('Qt6Core'), '-isystem', str(folder / 'other'), '-I' + str(folder / 'app'))


def parsed(kind: Kind | None, folder: str) -> Headers:
    """The headers of a kind with libraries, on top of those of Qt."""
    base = kind.base() if kind is not None else None
    assert kind is not None and base is not None
    assert kept(base, folder) is not None or parse(base, folder)
    assert parse(kind, folder)
    headers = kept(kind, folder)
    assert headers is not None
    return headers


def test_what_enough_units_include(tmp_path: pathlib.Path) -> None:
    alone, *units = project(tmp_path, OFTEN)
    kinds = kinds_of([alone, *units], [str(tmp_path / 'app')])
    libraries = {unit: kind.libraries for unit, kind in kinds.items() if kind is not None}
    assert libraries[alone] == (), 'it includes none of them'
    assert {libraries[unit] for unit in units} == {(Library(str(tmp_path / 'other'), 'lib/lib.hpp'),)}


def test_what_few_units_include(tmp_path: pathlib.Path) -> None:
    kinds = kinds_of(project(tmp_path, OFTEN - 1), [str(tmp_path / 'app')])
    assert {kind.libraries for kind in kinds.values() if kind is not None} == {()}


def test_a_unit_says_the_same(tmp_path: pathlib.Path) -> None:
    roots = [str(tmp_path / 'app')]
    units = project(tmp_path, LEAST)
    headers = parsed(kinds_of(units, roots)[units[-1]], str(tmp_path))
    assert any(name.endswith('lib/lib.hpp') for name in headers.files) and any(name.endswith('/qobject.h') for name in headers.files)
    one, other = read_unit(units[-1], roots, {}, headers.shared), read_unit(units[-1], roots, {})
    assert not one.errors and one.functions == other.functions


def test_headers_that_do_not_go_together(tmp_path: pathlib.Path) -> None:
    """Those of Qt are shared then, and the others aren't tried again until one of them changes."""
    units = project(tmp_path, LEAST, broken=True)
    kind = kinds_of(units, [str(tmp_path / 'app')])[units[-1]]
    headers = parsed(kind, str(tmp_path))
    assert not any(name.endswith('lib.hpp') for name in headers.files)
    assert kind is not None and headers == kept(kind.base() or kind, str(tmp_path))
    (tmp_path / 'other/lib/lib.hpp').write_text(HEADER.format(name='lib') + '\n')
    assert kept(kind, str(tmp_path)) is None
    assert any(name.endswith('lib.hpp') for name in parsed(kind, str(tmp_path)).files)


def test_headers_below_that_have_changed(tmp_path: pathlib.Path) -> None:
    """Those of libraries stand on Qt's: where these are parsed anew, so are they."""
    kind = kinds_of(project(tmp_path, LEAST), [str(tmp_path / 'app')])[Unit(str(tmp_path / 'app/u1.cpp'), unit_flags(tmp_path))]
    parsed(kind, str(tmp_path))
    assert kind is not None
    base = kind.base()
    assert base is not None and parse(base, str(tmp_path)) and kept(base, str(tmp_path)) is not None
    assert kept(kind, str(tmp_path)) is None
    os.remove(tmp_path / (base.name() + '.pch'))
    os.remove(tmp_path / (base.name() + '.files'))
    assert not parse(kind, str(tmp_path)), 'there is nothing to stand on'


def test_few_units_with_libraries_share_those_of_qt(tmp_path: pathlib.Path) -> None:
    kinds = kinds_of(project(tmp_path, LEAST - 1), [str(tmp_path / 'app')])
    assert {len(kind.libraries) for kind in kinds.values() if kind is not None} == {0, 1}
    shared = set(headers_for(kinds, str(tmp_path), 1).values())
    assert [headers is not None and not any(name.endswith('lib.hpp') for name in headers.files) for headers in shared] == [True]


def test_macros_of_few_units(tmp_path: pathlib.Path) -> None:
    """A macro that no header names changes nothing of what the headers say."""
    roots, units = [str(tmp_path / 'app')], project(tmp_path, LEAST)
    guest, apart = (Unit(units[-1].source, (*units[-1].flags, macro)) for macro in ('-DOWN_WORD=1', '-DQT_NO_KEYWORDS'))
    headers = headers_for(kinds_of([*units, guest, apart], roots), str(tmp_path), 1)
    assert headers[guest] is not None and headers[guest] == headers[units[0]] and headers[apart] is None
    shared = headers[guest]
    assert shared is not None
    one, other = read_unit(guest, roots, {}, shared.shared), read_unit(guest, roots, {})
    assert one.is_sharing and not one.errors and one.functions == other.functions


def test_which_kinds_do_for_which() -> None:
    libraries = (Library('/lib', 'a.hpp'), Library('/lib', 'b.hpp'))
    most, few, other = Kind(('QtCore',), ('-DA', '-fPIC')), Kind(('QtCore',), ('-DA', '-DB=1', '-fPIC')), Kind(('QtCore',), ('-DB', '-DC'))
    assert own_macros(few, most) == ['B'] and not own_macros(most, few) and not own_macros(other, most) and not own_macros(most, most)
    assert not own_macros(Kind(('QtCore',), ('-DA', '-fPIC', '-std=c++20')), most), 'a flag that is no macro'
    with_one, with_both = Kind(few.modules, few.flags, libraries[:1]), Kind(most.modules, most.flags, libraries)
    counts = Counter({most: 9, few: 2, other: 1, with_one: 3, with_both: 4})
    assert hosts_of(counts) == {few: most, with_one: with_both}


def test_names_in_headers(tmp_path: pathlib.Path) -> None:
    (tmp_path / 'a.h').write_text('#ifdef WORD\n#endif\n')
    path = str(tmp_path / 'a.h')
    assert mention([path], ['OTHER', 'WORD']) and not mention([path], ['WOR']) and mention([str(tmp_path / 'b.h')], ['WOR'])
