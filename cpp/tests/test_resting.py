"""Circles that come to rest by what is read, each beside one that doesn't: that is told as an error."""
import json

from reading import case
from gammonfig_cpp.report import Finding, Spot, StepTold, Verdict
from gammonfig_cpp.warned import Warnings
from gammonfig_cpp.watching import Watching


def circles(name: str) -> dict[str, set[int]]:
    """By a severity the lines on circles that are told of a case."""
    found: dict[str, set[int]] = {}
    for finding in case(name).findings():
        if finding.rule in ('cycle', 'settling-cycle'):
            found.setdefault(finding.severity, set()).update(step.spot.line for step in finding.chain)
    return found


def line_of(name: str, words: str) -> int:
    """The line of a case in which some words stand first."""
    with open(f'{__file__.rpartition("/")[0]}/cases/{name}.cpp', encoding='utf-8') as file:
        return next(number for number, line in enumerate(file, 1) if words in line)


def test_what_an_object_tells_as_it_is_made_reaches_who_is_connected_by_then() -> None:
    found = case('making')
    assert found.body('Store_made') == ['call this.load_2();'] and found.body('load_2') == ['emit added_2(1);']
    assert [w for w in found.wires() if ' added_2(int)' in w] == ['wire Store added_2(int) -> Store count(int) auto;'], 'and no shop'
    assert found.body('load', 'Store') == ['emit added(1);'] and 'wire Store added(int) -> Shop fill(int) auto;' in found.wires()
    assert found.body('Gauge_made') == ['call this.setLevel_2(1);'] and found.body('setLevel_2') == ['emit levelChanged_2(to);'], 'also of a property'


def test_of_what_is_made_a_circle_is_told_that_may_be_connected() -> None:
    told = circles('making').get('error', set())
    for words in ('new Depot; }', 'new Hall; }', 'new Yard; }', 'new Inn; }', 'new Cow(this); }', 'new Field; }'):
        assert line_of('making', words) in told, words
    assert line_of('making', 'Store::instance(); }') not in told


def test_a_limit_that_is_set_is_a_value_that_is_set() -> None:
    found = case('limits')
    assert found.body('setMaximum', 'QSlider_m_slider') == ['emit rangeChanged(0, 0);', 'set this.value = a1;']
    assert found.body('setMaximum', 'Round_QSpinBox_m_box')[-1] == 'emit valueChanged(0);', 'but of one that goes on at the other end'


def test_values_with_limits_come_to_rest() -> None:
    told = circles('limits')
    assert line_of('limits', 'slider->setMaximum(value);') in told['note'] - told['error']
    assert line_of('limits', '&Speed::begin') not in told['error'], 'one number as the least value changes nothing the second time'
    for words in ('setMaximum(value - 1)', '&QSpinBox::setMaximum', '&Press::squeeze', '&Row::grow', '&Row::add', 'm_other, &QWidget::setWindowTitle'):
        assert line_of('limits', words) in told['error'], words


def test_an_item_of_a_list_whose_signals_are_blocked_ends_a_circle() -> None:
    told = circles('blocked')
    assert line_of('blocked', 'm_feeds->item(0)') in told['note'] - told['error']
    assert line_of('blocked', 'm_rules->item(0)') in told['error'], 'and no item of another list'


def test_a_circle_beside_blocked_ones_is_told() -> None:
    """The checker tells ten circles of a set: where all go by blocked signals, the reader tells another one."""
    found, line = case('blocked'), line_of('blocked', 'emit told();')
    told = json.loads(Watching(found.linked.program, found.written.names, found.written.places).text())['unblocked']
    assert [{step['line'] for step in one['finding']['chain']} for one in told] == [{line, line_of('blocked', '&Notes::told, this')}]
    unblocked = [(set(one['members']), one['finding']) for one in told]
    for names, count in ((['Notes.mute()', 'QListWidgetItem.setCheckState(int)'], 2), (['Notes.mute()', 'Notes.told()'], 1)):
        chain = [StepTold(Spot('a.cpp', 1), a, b, 'wire', '') for a, b in zip(names, names[::-1])]
        verdict = Verdict([Finding(Spot(), 'cycle', 0, 'm', '', chain)], 0, 0, 3)
        Warnings([], [], [], set(), set(), [], set(), set(), False, {}, unblocked).add_to(verdict)
        assert [f.severity for f in verdict.findings] == ['error'] * count
