"""What to do about a finding is said in words of C++."""
import os
import pathlib

import pytest
from reading import HERE
from gammonfig_cpp.advice import PHRASES, in_cpp
from gammonfig_cpp.model import Place
from gammonfig_cpp.places import Places
from gammonfig_cpp.report import finding_of

CRATES = pathlib.Path(os.path.dirname(os.path.dirname(HERE))) / 'crates'


@pytest.fixture(scope='module')
def said() -> str:
    """The sources of all that the checker says of findings."""
    files = [path for name in ('findings', 'program_flaws', 'verdicts') for path in (CRATES / name / 'src').rglob('*.rt')]
    assert files
    return '\n'.join(path.read_text() for path in sorted(files))


@pytest.mark.parametrize('phrase', PHRASES)
def test_the_checker_says_so(phrase: str, said: str) -> None:
    assert phrase in said


def test_the_checker_tells_other_values_so(said: str) -> None:
    for statement in ('by `{written}`: hand `{parameter}` on as it is', 'hands on another value than its own: hand that on as it is',
                      '` has no parameter, and so carries no value: give it the value as its one parameter',
                      '` has {count} parameters: leave it the one whose value is handed on'):
        assert statement in said


@pytest.mark.parametrize('rule, advice, told', [
    ('cycle', 'make one of these wires `queued`: then its slot runs later. It isn\'t seen to come to rest: `A.s(int)` hands on another value '
     'than its own, by `emit t(0);`: hand `v` on as it is. This may be a false alarm: where values come to rest, or the objects are never '
     'the same, use a `queued` wire, or a class for each role',
     'make one of these connections a `Qt::QueuedConnection`: then its slot runs later. It isn\'t seen to come to rest: `A.s(int)` hands on '
     'another value than the one that it is given. This may be a false alarm: where values come to rest, or the objects are never the same, '
     'make a connection queued, or tell more objects apart (`--roles site`)'),
    ('destroy-path', 'write `later` in the place of `delete`, or make a wire on the way `queued`: then the deletion waits',
     'call `deleteLater()` in the place of `delete`, or make a connection on the way a `Qt::QueuedConnection`: then the deletion waits'),
    ('cycle', 'this comes to rest by itself: `certify --settling` takes it; or make one of these wires `queued`',
     'this comes to rest by itself; or make one of these connections a `Qt::QueuedConnection`'),
    ('settling-cycle', '`certify --settling` makes the program\'s certificate', ''),
    ('queued-cycle', 'let a member on the way stop it', 'let a member on the way stop it'),
])
def test_in_words_of_cpp(rule: str, advice: str, told: str) -> None:
    assert in_cpp(rule, advice) == told


def test_what_a_library_declares_is_not_to_be_changed() -> None:
    for words, advice in (('has no parameter, and so carries no value', 'give it the value as its one parameter'),
                          ('has 3 parameters', 'leave it the one whose value is handed on')):
        said = f'It isn\'t seen to come to rest: `Axis.setRange(int)` {words}: {advice}. This may be a false alarm'
        assert in_cpp('cycle', said) == said
        assert in_cpp('cycle', said, {'Axis.setRange(int)'}) == said.replace(f': {advice}', '')
    # What is a library's stands at no place of the application.
    places = Places('/app')
    places.add(7, 1, Place('/app/a.cpp', 1, 1, 'words'))
    told = {'rule': 'cycle', 'message': 'm', 'help': said, 'chain': [{'from': 'Axis.setRange(int)', 'to': 'Axis.range', 'line': 7, 'column': 1}]}
    assert finding_of(told, places).help == said
    assert finding_of(told, Places('/app')).help == said.replace(f': {advice}', '')
