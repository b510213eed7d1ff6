"""Actions and buttons in groups: what Qt does to one it tells of those of its group, and of no others."""
import re

from reading import case


def told(function: str) -> list[str]:
    """The roles whose signals a function of the window has told, beside the one that it calls."""
    found = case('groups')
    call = re.fullmatch(r'call this\.to_(\w+)\.(\w+)\(.*\);', found.body(function, 'Window')[0])
    assert call is not None
    return sorted({one[1] for one in (re.match(r'call this\.to_(\w+)\.emit_toggled', line) for line in found.body(call[2], call[1])) if one})


def test_an_action_unchecks_those_of_its_own_group() -> None:
    assert told('grow') == ['QAction_m_large', 'QAction_m_small'], 'handed to it, or made with it as its parent'
    assert told('widen') == ['QAction_m_wide']
    assert told('alone') == [], 'one that is in none unchecks no other'


def test_a_button_unchecks_those_of_its_own_group() -> None:
    assert told('open') == ['QPushButton_m_first', 'QPushButton_m_second']
    assert told('press') == []
    assert told('shout') == ['QPushButton_m_loud', 'QRadioButton'], 'one that is exclusive without a group those that are so too'


def test_a_group_tells_of_its_own() -> None:
    found = (re.match(r'wire (\w+) triggered\(int\) -> (QActionGroup_m_\w+) ', line) for line in case('groups').wires())
    assert sorted(it.groups() for it in found if it) == [('QAction_m_large', 'QActionGroup_m_sizes'), ('QAction_m_small', 'QActionGroup_m_sizes'),
                                                         ('QAction_m_wide', 'QActionGroup_m_shapes')]


def test_a_window_is_called_as_its_class_and_not_its_form() -> None:
    text = case('groups').text
    assert 'class Ui_Window {' in text and re.search(r'class Window \{.*?signal looked', text, re.S), text
