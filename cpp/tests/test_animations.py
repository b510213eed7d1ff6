"""What the table itself says of animations: Qt emits `valueChanged` only where somebody is connected, so that no run of the table's test
program shows it."""
import os

from reading import CASES, HERE, Case, facts
from gammonfig_cpp.linking import link
from gammonfig_cpp.qtmodel import Table
from gammonfig_cpp.writing import Writing


def test_an_animation_tells_of_its_value() -> None:
    linked = link([facts()['animations']], Table.read(os.path.join(os.path.dirname(HERE), 'qt.effects')), 'member', False)
    found = Case(linked, Writing(linked.program, CASES).write())
    for slot in ('setEndValue', 'updateCurrentTime'):
        assert any('emit valueChanged' in line for line in found.body(slot)), slot
    assert any('updateCurrentTime' in line for line in found.body('start', 'QVariantAnimation'))
