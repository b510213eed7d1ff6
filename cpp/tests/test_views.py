"""What Qt connects between objects that are handed to one another, and to those that it makes itself."""
import json

from reading import case
from gammonfig_cpp.watching import Watching


def by_qt(sender: str, signal: str) -> list[str]:
    """The receivers that Qt connects to a signal of a role."""
    return sorted(w.split('-> ')[1].split('(')[0] for w in case('views').wires() if w.startswith(f'wire {sender} {signal}(') and ' direct;' in w)


def test_a_box_follows_the_model_that_it_was_given() -> None:
    receivers = [r for r in by_qt('QStandardItemModel_m_model', 'rowsInserted') if r.startswith('QComboBox')]
    assert receivers == ['QComboBox_m_box currentIndexChanged_with'], 'and no other box does'
    assert by_qt('QStandardItemModel', 'rowsInserted') == ['QSortFilterProxyModel_m_open rowsInserted'], 'what is handed in may be any model'


def test_a_proxy_follows_its_source_and_not_itself() -> None:
    assert 'QSortFilterProxyModel_m_sorted rowsInserted' in by_qt('QStandardItemModel_m_model', 'rowsInserted')
    assert by_qt('QSortFilterProxyModel_m_sorted', 'rowsInserted') == ['QSortFilterProxyModel_m_chosen rowsInserted']
    assert not any(by_qt(sender, 'rowsInserted') for sender in ('QAbstractItemModel', 'QAbstractProxyModel', 'QSortFilterProxyModel_m_open'))


def test_a_selection_ends_the_editor_that_a_delegate_made() -> None:
    found = case('views')
    assert by_qt('QItemSelectionModel', 'currentChanged') == ['Grid currentChanged', 'QLineEdit_line focusOutEvent_with']
    assert found.body('focusOutEvent', 'QLineEdit_line') == ['emit editingFinished();'], 'and no other line edit is told of'
    assert 'slot focusOutEvent' not in found.text.split('class QLineEdit_m_search')[1].split('}')[0]


def test_an_editor_hands_over_its_value_once() -> None:
    found = case('views')
    once = json.loads(Watching(found.linked.program, found.written.names, found.written.places).text())['once']
    assert once == [['Grid.setCurrentIndex(QString)', 'QLineEdit_line.focusOutEvent(QString)'],
                    ['QItemSelectionModel.currentChanged(QString,QString)', 'QLineEdit_line.focusOutEvent_with(QString,QString)']]


def test_a_view_is_told_of_its_own_selection() -> None:
    found = case('views')
    called = {line.split('.')[-1] for line in found.body('setCurrentIndex', 'Grid')}
    assert called == {'currentChanged("", "");', 'focusOutEvent("");'}, 'nobody is connected to the selection that Qt made'
    assert 'showToday' not in found.text, 'a calendar shows its days in a view of its own'


def test_a_progress_dialog_runs_an_event_loop_where_it_is_modal() -> None:
    assert sorted(place.words for place in case('progress').linked.program.modal.values()) == ['dialog.exec()', 'm_modal->setValue(value)']


def test_a_slot_that_runs_an_event_loop_is_not_left_out() -> None:
    """What the loop delivers may lead back to it."""
    text = case('progress', lean=True).text
    assert 'slot copy(int value) { }  //@ modal' in text and 'copyQuietly' not in text


def test_connections_count_that_are_made_later() -> None:
    """What Qt made in an object is heard, wherever the connection to it stands."""
    assert case('views').body('clearEditText', 'Typed_QComboBox_m_box')[-1] == 'call this.to_QLineEdit_m_box_line.emit_textChanged("");'


def test_a_box_has_a_line_edit_of_its_own() -> None:
    found = case('views')
    assert found.body('clear', 'QComboBox_m_other') == ['call this.to_QLineEdit_m_other_line.emit_textChanged("");'], 'and no other is cleared'
    told = {line.split('.')[1] for line in found.body('clear', 'QComboBox_m_third')}
    assert told == {'to_QLineEdit_m_third_line', 'to_QLineEdit_m_line'}, 'also one that it was handed'
    for line, box in (('m_box_line', 'Typed_QComboBox_m_box'), ('m_line', 'QComboBox_m_third')):
        assert by_qt(f'QLineEdit_{line}', 'textChanged') == [f'{box} editTextChanged'], 'and no other box is told of it'
