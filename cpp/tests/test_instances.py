"""Headers that units share have no bodies of functions: a unit says the same with them, or is read again with the bodies."""
import functools
import os
import pathlib
import tempfile
from dataclasses import replace

import pytest

from reading import flags
from gammonfig_cpp import instances
from gammonfig_cpp.context import Context
from gammonfig_cpp.ending import may_act
from gammonfig_cpp.facts import read_unit
from gammonfig_cpp.gather import gather
from gammonfig_cpp.libclang import Cursor
from gammonfig_cpp.libraries import kinds_of
from gammonfig_cpp.model import Facts
from gammonfig_cpp.precompiled import LEAST, Shared, kept, kind_of, parse
from gammonfig_cpp.templates import any_generic_in
from gammonfig_cpp.units import Unit

FLAGS = flags('Qt6Core')
# `fall` is what has to be seen.
THING = '''#include <QObject>
#include <QList>
#include <algorithm>
#include <functional>
#include <memory>
#include <vector>
class Thing : public QObject {
    Q_OBJECT
public:
    void go();
signals:
    void fall();
public:
    QList<Thing *> all;
};
'''
GO = 'void Thing::go() { %s }\n'
BOX = 'template <class T> struct Box { Box(T *it) : m_it(it) {} %s T *m_it; };\n'

# The application asks for these instances itself.
PRESENT = [
    'template <class T> void drop(T *it) { emit it->fall(); }\n' + GO % 'drop(this); std::for_each(all.begin(), all.end(), &drop<Thing>);',
    BOX % 'void drop() { emit m_it->fall(); }' + GO % 'Box<Thing>(this).drop();',
    BOX % '~Box() { emit m_it->fall(); }' + GO % 'Box<Thing> box(this);',
    BOX % 'virtual void drop() { emit m_it->fall(); }' + GO % 'Box<Thing> box(this);',
    BOX % 'void operator()(T *it) { emit it->fall(); }' + GO % 'Box<Thing> box(this); box(this);',
    BOX % 'bool operator()(T *one, T *other) const { return one < other; }' + GO % 'std::sort(all.begin(), all.end(), Box<Thing>(this)); emit fall();',
]
# Only a function of the library does.
LACKING = [
    BOX % '~Box() { emit m_it->fall(); }' + 'struct Desk { std::unique_ptr<Box<Thing>> m_box; };\n' + GO % 'Desk().m_box.reset();',
    BOX % 'void operator()(T *it) { emit it->fall(); }' + GO % 'std::for_each(all.begin(), all.end(), Box<Thing>(this));',
    BOX % 'virtual void drop() { emit m_it->fall(); }' + GO % 'auto box = std::make_unique<Box<Thing>>(this); box->drop();',
    'template <class T> struct Pen { T *m_it = new T; };\n' + GO % 'auto pen = std::make_unique<Pen<Thing>>(); emit pen->m_it->fall();',
    GO % 'std::for_each(all.begin(), all.end(), [](auto *it) -> void { emit it->fall(); });',
    'struct Visit { template <class T> void operator()(T *it) { emit it->fall(); } };\n' + GO % 'std::for_each(all.begin(), all.end(), Visit());',
]
# Only functions of the library ask for the end of these. What a hold has is a part, whose forms stand in two blocks of a namespace.
HOLDS = '''extern Thing *theThing;
struct Name { QString m_first; QList<int> m_more; };
struct Heavy { ~Heavy(); };
struct Light { virtual void go(); };
struct Bound { Heavy m_heavy; };
namespace inner {
template <class T, bool isBig> struct Part {
    union { T m_it; };
    Part() {}
    ~Part() {}
    void end() { m_it.~T(); }
    void fall() { theThing->fall(); }
};
}
template <class T> struct Falling { ~Falling() { theThing->fall(); } };
template <class T> struct Late : Heavy { T m_it; };
namespace inner {
template <class T> struct Part<T, true> { void end() {} void drop() { theThing->fall(); } };
template <class T> struct Part<T *, true> { void end() {} void drop() {} };
}
template <class T> struct Hold { bool has() const { return true; } ~Hold() { if (has()) m_part.end(); } inner::Part<T, false> m_part; };
'''
GIVEN = {'int': False, 'QString': False, 'Name': False, 'QList<Name>': False, 'Qt::Orientation': False, 'Thing *': True, 'Heavy': True,
         'Light': True, 'Bound': True, 'QList<Bound>': True, 'std::unique_ptr<Thing>': True, 'std::function<void ()>': True}
BIG = 'inner::Part<T, true> m_part;'
# What the destructor does and what stands beside it in a template that is given a number, and whether that may act.
OTHERS = [('', '', False), ('m_part.end();', BIG, False), ('go();', 'void go() { m_part.end(); } ' + BIG, False),
          ('', 'T *m_it; std::vector<T> m_all;', False), ('theThing->fall();', '', True), ('delete theThing;', '', True),
          ('delete m_it;', 'T *m_it;', True), ('m_part.drop();', BIG, True), ('m_part.fall();', BIG, True), ('', 'Falling<T> m_falling;', True),
          ('', 'std::vector<Falling<T>> m_all;', True), ('', 'Late<T> m_late;', True), ('', 'Heavy m_heavy;', True),
          ('m_call();', 'std::function<void()> m_call;', True), ('new Heavy;', '', True), ('go();', 'void go();', True),
          ('m_at->drop();', 'inner::Part<T *, true> *m_at;', True)]


@functools.cache
def shared(has_bodies: bool) -> Shared:
    kind, folder = kind_of(Unit('a.cpp', FLAGS)), tempfile.mkdtemp(prefix='gammonfig-headers')
    assert kind is not None
    kind = replace(kind, has_bodies=has_bodies)
    assert parse(kind, folder)
    headers = kept(kind, folder)
    assert headers is not None and headers.shared.has_bodies == has_bodies
    return headers.shared


def read(words: str, folder: pathlib.Path, headers: Shared | None) -> Facts:
    path = folder / 'a.cpp'
    path.write_text(THING + words)
    facts = read_unit(Unit(str(path), FLAGS), [str(folder)], {}, headers)
    assert not facts.errors and facts.is_sharing == (headers is not None)
    return facts


def told(facts: Facts) -> Facts:
    """What a unit says of the application, however it was read."""
    classes = {key: cls for key, cls in facts.classes.items() if cls.inside}
    return replace(facts, classes=classes, files=[], seconds=0, is_sharing=False, lacks_bodies=False)


@pytest.mark.parametrize('words', PRESENT)
def test_what_the_application_asks_for(words: str, tmp_path: pathlib.Path) -> None:
    without = read(words, tmp_path, shared(False))
    assert not without.lacks_bodies
    assert [s.name for f in without.functions.values() for s in f.statements if s.name == 'fall'] == ['fall']


@pytest.mark.parametrize('words', LACKING)
def test_what_only_a_library_asks_for(words: str, tmp_path: pathlib.Path) -> None:
    assert read(words, tmp_path, shared(False)).lacks_bodies
    whole = read(words, tmp_path, shared(True))
    assert not whole.lacks_bodies and any(s.name == 'fall' for f in whole.functions.values() for s in f.statements)


def test_the_end_of_values(tmp_path: pathlib.Path, monkeypatch: pytest.MonkeyPatch) -> None:
    """A destructor matters where it does more than to end its parts, or where these aren't plain values."""
    found: dict[str, bool] = {}

    def noted(context: Context, instance: Cursor, pattern: Cursor) -> bool:
        found[instance.type.spelling] = may_act(context, instance, pattern)
        return False

    monkeypatch.setattr(instances, 'may_act', noted)
    others = [f'template <class T> struct Other{at} {{ ~Other{at}() {{ {does} }} {beside} }};\n' for at, (does, beside, _) in enumerate(OTHERS)]
    expected = {f'Hold<{given}>': acts for given, acts in GIVEN.items()} | {f'Other{at}<int>': acts for at, (_, _, acts) in enumerate(OTHERS)}
    desk = ''.join(f'std::unique_ptr<{name}> m_{at}; ' for at, name in enumerate(expected))
    ends = ' '.join(f'desk.m_{at}.reset();' for at in range(len(expected)))
    words = HOLDS + ''.join(others) + f'struct Desk {{ {desk}}};\n' + GO % f'Desk desk; {ends}'
    assert not read(words, tmp_path, shared(False)).lacks_bodies
    assert {name: acts for name, acts in found.items() if name in expected} == expected


def test_units_are_read_again(tmp_path: pathlib.Path) -> None:
    """Enough units share headers, and what two of them lack is in the facts."""
    for number, words in enumerate([*PRESENT, LACKING[0], LACKING[1]]):
        (tmp_path / f'{number}.cpp').write_text(THING + words)
    units = [Unit(str(path), FLAGS) for path in sorted(tmp_path.glob('*.cpp'))]
    assert len(units) > LEAST and not any(kind is None or kind.has_bodies for kind in kinds_of(units, [str(tmp_path)]).values())
    found = gather(units, [str(tmp_path)], None, 1, True)
    assert all(facts.is_sharing and not facts.lacks_bodies for facts in found)
    for unit, facts in zip(units[-2:], found[-2:]):
        assert told(facts) == told(read_unit(unit, [str(tmp_path)], {}))


@pytest.mark.parametrize('words, is_generic', [*((words, True) for words in LACKING[-2:]), *((words, False) for words in (*PRESENT, *LACKING[:-2])),
                                               ('auto f = []<typename T>(T it) {};', True), ('void operator()(auto it);', True)])
def test_the_text_tells(words: str, is_generic: bool, tmp_path: pathlib.Path) -> None:
    (tmp_path / 'a.cpp').write_text(words)
    assert any_generic_in([os.path.join(tmp_path, 'a.cpp')]) == is_generic
