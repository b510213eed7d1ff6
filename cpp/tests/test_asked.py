"""Circles that come to rest since each step asks for the value that was set, and those that don't."""
from reading import case
from gammonfig_cpp.graph import Graph
from gammonfig_cpp.settling import Settling


def resting() -> list[set[str]]:
    found = case('asked')
    return [set(names) for names in Settling(found.linked.program, Graph(found.linked.program, found.written.names)).sets()]


def test_a_slot_asks_the_property_that_was_set() -> None:
    assert any({'Pair.back()', 'Level_m_one.value', 'Level_m_two.value'} <= names for names in resting())


def test_what_is_asked_or_set_is_another_value() -> None:
    for cls in ('Apart', 'Rising', 'Capped', 'Narrow', 'Late', 'Several'):
        assert not any(name.startswith(cls) for names in resting() for name in names), cls


def test_qt_tells_some_texts_again() -> None:
    assert not any(name.startswith('Texts') for names in resting() for name in names)
    assert any('Note.text' in names for names in resting()), 'the other end compares'
