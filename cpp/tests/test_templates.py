"""Units without templates of their own are read without the instances that the library's templates have."""
import os
import pathlib
from dataclasses import replace

import pytest

from reading import CASES, facts, flags
from gammonfig_cpp import facts as reader
from gammonfig_cpp.model import Facts
from gammonfig_cpp.templates import any_in
from gammonfig_cpp.units import Unit


@pytest.mark.parametrize('words', ['template <class T> T last(T value);', 'connect(a, [](const auto &it) { it.go(); });',
                                   'auto f = []<typename T>(T it) {};', 'void go(auto it);', 'void go(std::function<void()> first, auto it);'])
def test_templates_are_found(words: str, tmp_path: pathlib.Path) -> None:
    path = tmp_path / 'a.cpp'
    path.write_text(words)
    assert any_in([str(path)])


@pytest.mark.parametrize('words', ['for (const auto &it : all) it.go();', 'if (auto *it = find()) it->go();', 'bool less = a[i] < b;',
                                   'std::vector<int> all; auto last = all.back();'])
def test_what_is_no_template(words: str, tmp_path: pathlib.Path) -> None:
    path = tmp_path / 'a.cpp'
    path.write_text(words)
    assert not any_in([str(path)])


def test_nothing_is_missed_without_instances(monkeypatch: pytest.MonkeyPatch) -> None:
    path = os.path.join(CASES, 'functions.cpp')
    assert not any_in([path])
    monkeypatch.setattr(reader, 'any_in', lambda paths: True)
    whole = reader.read_unit(Unit(path, flags('Qt6Core')), [CASES], {})
    assert said(whole) == said(facts()['functions'])


def said(told: Facts) -> Facts:
    """What a unit says, however it was read."""
    return replace(told, seconds=0, files=[], is_sharing=False)


# A library's macros: the application's text shows no template.
LIBRARY = """#define MAKE(name) template <class T> void name(T *it) { it->fall(); }
#define BEFRIEND(name) template <class T> friend void name(T *it) { it->fall(); }
#define BOX(name) template <class T> struct name { void drop(T *it) { it->fall(); } };
#define PART(name) template <class T> struct name<T *> { void drop(T *it) { it->fall(); } };
#define AUTO auto
#define TYPE typename
"""
# Of a lambda whose code a constant can't have, clang makes instances late.
THING = '#include "library.h"\nstruct Heavy { ~Heavy(); };\nstruct Thing {\n    void go();\n    void fall();\n%s};\n'
PLAIN, GO = THING % '', 'void Thing::go() { %s }\n'


def calls_of_fall(words: str, folder: pathlib.Path) -> list[str]:
    """What calls `fall` in a source."""
    for name, text in (('library/library.h', LIBRARY), ('own/a.cpp', words)):
        (folder / name).parent.mkdir()
        (folder / name).write_text(text)
    path = str(folder / 'own' / 'a.cpp')
    found = reader.read_unit(Unit(path, ('-std=gnu++17', '-I', str(folder / 'library'))), [os.path.dirname(path)], {})
    assert not found.errors
    return [f.name for f in found.functions.values() for s in f.statements if s.name == 'fall']


@pytest.mark.parametrize('words', [
    PLAIN + 'MAKE(drop)\n' + GO % 'drop(this);',
    PLAIN + 'namespace inner { extern "C++" { MAKE(drop) } }\n' + GO % 'inner::drop(this);',
    THING % 'MAKE(drop)\n' + GO % 'drop(this);',
    THING % 'BEFRIEND(drop)\n' + GO % 'drop(this);',
    THING % 'struct Inner { BOX(Box) };\n' + GO % 'Inner::Box<Thing>().drop(this);',
    PLAIN + 'BOX(Box)\nPART(Box)\n' + GO % 'Box<Thing *>().drop(this);',
    PLAIN + 'auto drop = [](AUTO *it) -> void { Heavy heavy; it->fall(); };\n' + GO % 'drop(this);',
    PLAIN + 'auto drop = [] <TYPE T>(int) -> void { Heavy heavy; T().fall(); };\n' + GO % 'drop.operator()<Thing>(1);',
])
def test_templates_that_the_text_does_not_show(words: str, tmp_path: pathlib.Path) -> None:
    """They are met in clang's tree."""
    assert len(calls_of_fall(words, tmp_path)) == 1
    assert not any_in([str(tmp_path / 'own' / 'a.cpp')])


LAMBDA = '[](auto *it) -> void { Heavy heavy; %s; }'


@pytest.mark.parametrize('words', [
    GO % f'auto drop = {LAMBDA % "it->fall()"}; drop(this);',
    f'auto drop = {LAMBDA % "it->fall()"};\n' + GO % 'drop(this);',
    'template <class T> void each(T call, Thing *it) { call(it); }\n' + GO % f'each({LAMBDA % "it->fall()"}, this);',
    GO % f'auto drop = {LAMBDA % ("auto inner = " + LAMBDA % "it->fall()" + "; inner(it)")}; drop(this);',
    'template <class T> void each(T *it) { auto drop = %s; drop(it); }\n' % (LAMBDA % "it->fall()") + GO % 'each(this);',
])
def test_generic_lambdas_wherever_they_stand(words: str, tmp_path: pathlib.Path) -> None:
    assert [name.rstrip('0123456789') for name in calls_of_fall(PLAIN + words, tmp_path)] == ['lambda_']
