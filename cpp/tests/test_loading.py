"""What is written of each case loads, in each form, and is typed: the checker has no word about the text itself."""
import json
import os
import pathlib

import pytest
from reading import CASES, case
from gammonfig_cpp.linking import Linked, link
from gammonfig_cpp.places import Places
from gammonfig_cpp.qtmodel import Table
from gammonfig_cpp.report import judge
from gammonfig_cpp.slicing import keep_slice
from gammonfig_cpp.watching import Watching
from gammonfig_cpp.writing import Writing
from reading import facts

FOUND = {'cycle', 'destroy-path', 'chain-too-long'}
NAMES = ('bindings', 'bodies', 'connects', 'deletions', 'ends', 'roles', 'setters', 'threads', 'widgets')


def rules(text: str, folder: pathlib.Path) -> set[str]:
    (folder / 'app.gf').write_text(text)
    return {f.rule for f in judge(str(folder / 'app.gf'), Places('/')).findings if f.severity == 'error'}


@pytest.mark.parametrize('name', NAMES)
@pytest.mark.parametrize('roles', ['member', 'class', 'site'])
def test_a_program_loads(name: str, roles: str, tmp_path: pathlib.Path) -> None:
    assert rules(case(name, roles).text, tmp_path) <= FOUND


@pytest.mark.parametrize('name', NAMES)
def test_a_lean_program_and_a_slice_find_the_same(name: str, tmp_path: pathlib.Path) -> None:
    found = rules(case(name).text, tmp_path)
    assert rules(case(name, lean=True).text, tmp_path) == found
    linked = link([facts()[name]], Table.read(f'{CASES}/qt.effects'), 'member', True)
    keep_slice(linked.program)
    assert rules(Writing(linked.program, CASES).write().text, tmp_path) == found


def warnings(linked: Linked) -> list[tuple[str, str, int]]:
    """What the reader itself warns of, with the members at the ends of each way."""
    written = Writing(linked.program, CASES).write()
    found = json.loads(Watching(linked.program, written.names, written.places).text())['findings']
    return [(f['rule'], f['message'], len(f['chain'])) for f in found]


@pytest.mark.parametrize('name, count, is_less', [('answers', 1, True), ('ends', 2, True), ('threads', 3, True), ('visits', 2, False)])
def test_a_slice_has_what_goes_through_an_event_loop(name: str, count: int, is_less: bool) -> None:
    table = pathlib.Path(CASES, f'{name}.effects' if os.path.exists(f'{CASES}/{name}.effects') else 'qt.effects')
    whole, part = (link([facts()[name]], Table.read(str(table)), 'member', True) for _ in range(2))
    keep_slice(part.program)
    assert (len(part.program.members) < len(whole.program.members)) == is_less
    assert warnings(part) == warnings(whole) and len(warnings(part)) == count
