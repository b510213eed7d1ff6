"""Functions without an object are of one class, or of one for each file where they are too many for one."""
import pathlib
from dataclasses import replace

import pytest
from reading import CASES, facts
from test_loading import FOUND, rules
from gammonfig_cpp import splitting
from gammonfig_cpp.limits import WIDE
from gammonfig_cpp.main import arguments, write_program
from gammonfig_cpp.writing import Written

OPTIONS = arguments(['-p', CASES, '--quiet', '--table', f'{CASES}/qt.effects'])
# So many functions without an object these two cases have together.
COUNT = 5


def written(most: int, monkeypatch: pytest.MonkeyPatch) -> Written:
    monkeypatch.setattr(splitting, 'WIDE', replace(WIDE, methods=most))
    return write_program([facts()[name] for name in ('functions', 'handing')], [CASES], OPTIONS)[1]


def methods(text: str) -> list[str]:
    """The slots and signals of a program."""
    return sorted(line.split(' {')[0].strip() for line in text.splitlines() if line.strip().startswith(('slot', 'signal')))


def test_one_class_where_that_has_room(monkeypatch: pytest.MonkeyPatch) -> None:
    text = written(COUNT, monkeypatch).text
    assert 'class Functions {' in text and 'Functions_' not in text


def test_a_class_for_each_file(monkeypatch: pytest.MonkeyPatch, tmp_path: pathlib.Path) -> None:
    whole, apart = written(COUNT, monkeypatch).text, written(COUNT - 1, monkeypatch).text
    first, second = (apart.split(f'class {name} {{')[1].split('\n}')[0] for name in ('Functions_functions', 'Functions_handing'))
    assert 'class Functions {' not in apart
    assert 'slot toll(' in first and 'slot main(' in first and 'slot strikeOne(' in second and 'slot toll(' not in second
    assert '-> Functions_handing strikeOne_with() queued;' in apart
    assert methods(apart) == methods(whole)
    assert rules(whole, tmp_path) == rules(apart, tmp_path) <= FOUND
