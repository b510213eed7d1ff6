"""Qt's headers that units share: a unit says the same with them and without, and one that doesn't go with them is read without."""
import functools
import gc
import os
import pathlib
import tempfile

from reading import CASES, flags
from gammonfig_cpp.facts import read_unit
from gammonfig_cpp.libclang import cindex
from gammonfig_cpp.model import Facts
from gammonfig_cpp.precompiled import Headers, Kind, kept, kind_of, parse, stamp
from gammonfig_cpp.units import Unit

CASE = Unit(os.path.join(CASES, 'deletions.cpp'), flags('Qt6Core'))


@functools.cache
def shared() -> tuple[Kind, str, Headers]:
    folder, kind = tempfile.mkdtemp(prefix='gammonfig-headers'), kind_of(CASE)
    assert kind is not None and kind.modules == ('QtCore',)
    assert kept(kind, folder) is None
    assert parse(kind, folder)
    headers = kept(kind, folder)
    assert headers is not None
    return kind, folder, headers


def told(facts: Facts) -> tuple[object, ...]:
    return facts.errors, facts.functions, facts.sites, facts.flows, facts.connects, facts.owns, facts.constructs, facts.unknown


def test_a_unit_says_the_same() -> None:
    alone, together = read_unit(CASE, [CASES], {}), read_unit(CASE, [CASES], {}, shared()[2].shared)
    assert told(alone) == told(together) and not alone.errors
    assert {k for k, c in alone.classes.items() if c.inside} == {k for k, c in together.classes.items() if c.inside}
    assert together.is_sharing and set(alone.files) <= {*together.files, *shared()[2].files}, 'a change of any header is a reason to read the unit anew'


def test_a_unit_that_does_not_go_with_them(tmp_path: pathlib.Path) -> None:
    """A class of its own has the name of one of Qt's, whose header it doesn't include."""
    (tmp_path / 'a.cpp').write_text('#include <QObject>\nclass QLockFile : public QObject {\n    Q_OBJECT\nsignals:\n    void locked();\n};\n')
    facts = read_unit(Unit(str(tmp_path / 'a.cpp'), flags('Qt6Core')), [str(tmp_path)], {}, shared()[2].shared)
    assert not facts.errors and [c.inside for c in facts.classes.values() if c.name == 'QLockFile'] == [True]


def test_a_tree_goes_with_its_unit() -> None:
    """A process that reads many units has the tree of one at a time: a tree takes hundreds of megabytes."""
    gc.collect()
    gc.disable()
    try:
        assert read_unit(CASE, [CASES], {}, shared()[2].shared).functions
        assert not [it for it in gc.get_objects() if isinstance(it, cindex.TranslationUnit)]
    finally:
        gc.enable()


def test_headers_that_have_changed(tmp_path: pathlib.Path) -> None:
    kind, folder, headers = shared()
    other = Kind(kind.modules, (*kind.flags, '-DOTHER'))
    assert kept(other, folder) is None, 'other flags are other headers'
    own = next(name for name in headers.files if name.startswith(folder))
    size, time = stamp(own)
    os.utime(own, ns=(time, time + 1_000_000_000))
    assert kept(kind, folder) is None and size
    os.utime(own, ns=(time, time))
    assert kept(kind, folder) is not None


def test_kinds() -> None:
    assert kind_of(Unit('a.cpp', ('-I/nowhere', '-std=c++17'))) is None, 'nothing of Qt'
    assert kind_of(Unit('a.cpp', (*CASE.flags, '-include', 'b.h'))) is None, 'a header of its own'
    assert kind_of(Unit('a.cpp', (*CASE.flags, '-I/own'))) == kind_of(CASE), 'folders of its own change nothing of Qt'
    assert kind_of(Unit('a.cpp', (*CASE.flags, '-DX'))) != kind_of(CASE)
