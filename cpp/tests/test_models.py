"""Items of models, and the models of lists, tables and trees of items: what has an item tells of it, and nothing else does."""
import re

from reading import case


def told(function: str) -> list[str]:
    """The signals that a function of the window has told, each by the object whose it is."""
    found, lines = case('models'), case('models').body(function, 'Window')
    for _ in range(4):
        calls = [re.fullmatch(r'call this\.to_(\w+)\.(\w+)\(.*\);', line) for line in lines]
        lines = [inner for line, call in zip(lines, calls)
                 for inner in ([line] if call is None or call[2].startswith('emit_') else found.body(call[2], call[1]))]
    return sorted({re.sub(r'call this\.to_(\w+)\.emit_(\w+)\(.*', r'\1 \2', line) for line in lines})


def test_an_item_tells_by_the_model_alone_that_it_was_handed_to() -> None:
    assert told('rename') == ['QStandardItemModel_m_first itemChanged']
    assert told('divide') == ['QStandardItemModel_m_first itemChanged'], 'by way of its parent'
    assert told('grow') == ['QStandardItemModel_m_second itemChanged'], 'in a row of several'
    assert told('first') == ['QStandardItemModel_m_first itemChanged'], 'that gives it'


def test_an_item_of_which_nothing_is_known_may_be_in_any_model_of_such_items() -> None:
    assert told('lost') == ['QStandardItemModel itemChanged']
    assert 'class Files : QStandardItemModel' in case('models').text, 'also in one of the application'
    assert 'class Torrents : QAbstractItemModel' in case('models').text, 'and in no model of others'


def test_a_model_sets_its_own_items() -> None:
    assert told('write') == ['QStandardItemModel_m_second itemChanged']


def test_a_widget_with_items_tells_by_its_own_model() -> None:
    assert told('list') == ['QAbstractItemModel_m_list_model dataChanged']
    assert told('row') == ['QAbstractItemModel_m_rows_model dataChanged']
    followed = [line.split('  //')[0] for line in case('models').wires() if 'QAbstractItemModel_m_rows_model' in line]
    assert len(followed) == 1 and 'QSortFilterProxyModel dataChanged(' in followed[0], 'which a proxy was handed'
    assert told('plug') == ['emit looked();'], 'which nobody asks for'


def test_a_widget_of_the_application_is_told_of_its_own_items() -> None:
    assert told('note') == ['emit noted();']
    assert not any('-> Notes dataChanged' in line for line in case('models').wires()), 'and of no other model'


def test_an_item_tells_by_the_model_that_a_box_made() -> None:
    found = case('boxes')
    assert found.body('lock') == ['call this.to_QStandardItem.setEnabled(0);']
    assert found.body('setEnabled', 'QStandardItem') == ['call this.to_QStandardItemModel.emit_dataChanged("", "", "");'], 'to which somebody is connected'


def test_a_box_tells_of_its_line_edit_where_nobody_asks_for_that() -> None:
    assert case('boxes').body('clear', 'QComboBox') == ['call this.to_QComboBox.emit_editTextChanged("");']


def test_models_of_relations_are_of_a_table_s_own_making() -> None:
    found = case('relations')
    assert 'wire QSqlTableModel_m_albums_relation modelReset() -> Archive choose() auto;' in found.wires()
    assert found.body('choose') == ['call this.to_QSqlRelationalTableModel.setFilter("");'], 'that resets another model'
    assert found.body('forget') == ['call this.to_QSqlTableModel_m_albums_relation.clear();']
