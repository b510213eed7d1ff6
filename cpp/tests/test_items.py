"""Items that are no QObjects, and what makes actions that Qt connects."""
import json

from reading import case
from gammonfig_cpp.watching import Watching


def test_qt_calls_the_functions_that_an_item_overrides() -> None:
    found = case('items')
    assert found.body('setText', 'QTableWidgetItem')[1:] == ['call this.to_QTableWidgetItem.setData_2(0, "");', 'call this.to_Cell.setData_3(0, "");']
    assert found.body('setData_3', 'Cell') == ['call this.setData_4(role, value);', 'call this.to_Sheet.read();']


def test_qts_own_function_of_an_item_tells_its_list_alone() -> None:
    found = case('items')
    assert found.body('setData_2', 'QTableWidgetItem') == ['call this.to_QTableWidget_m_table.emit_itemChanged("");']


def test_a_model_of_which_nothing_is_known_may_be_that_of_items() -> None:
    found = case('items')
    calls = ['call this.to_QTableWidgetItem.setData(0, "");', 'call this.to_Cell.setData_3(0, "");']
    assert found.body('setData', 'QAbstractItemModel') == calls
    assert 'class Rows' not in found.text, 'a model of the application has no such items'


def test_a_view_hands_over_what_was_edited_to_its_own_items() -> None:
    found = case('items')
    calls = ['call this.to_QTableWidgetItem.setData_2(0, "");', 'call this.to_Cell.setData_3(0, "");']
    assert found.body('setCurrentCell') == calls, 'and to no other model'
    assert found.body('setCurrentIndex', 'QTreeView_m_view') == ['call this.to_QAbstractItemModel.setData("", "", 0);']
    assert found.body('setCurrentRow') == ['set this.currentRow = row;'], 'and a list to no item of a table'


def test_a_view_hands_over_one_editor_at_a_time() -> None:
    found = case('items')
    once = json.loads(Watching(found.linked.program, found.written.names, found.written.places).text())['once']
    assert ['QTableWidget_m_table.setCurrentCell(int,int)', 'QTableWidgetItem.setData_2(int,QString)'] in once


def test_an_item_tells_the_list_alone_that_it_was_handed_to() -> None:
    found = case('items')
    told = {found.body(name, 'QListWidgetItem')[0]: name for name in ('setText', 'setText_2', 'setText_3')}
    of_rules, of_feeds, _ = (told[f'call this.to_QListWidget_{member}.emit_itemChanged("");'] for member in ('m_rules', 'm_feeds', 'm_list'))
    assert found.body('rename', 'Rules') == [f'call this.to_QListWidgetItem.{of_rules}("");'], 'that of a map'
    assert found.body('feed', 'Rules') == [f'call this.to_QListWidgetItem.{of_feeds}("");'], 'that of which a list tells'
    assert found.body('setText', 'QTreeWidgetItem_other') == ['call this.to_QTreeWidget_m_tree.emit_itemChanged("", 0);'], 'as its parent'
    moved = [line for line in found.body('setText_2', 'QTableWidgetItem_moved') if 'emit' in line]
    assert moved == [f'call this.to_{table}.emit_itemChanged("");' for table in ('Rules_QTableWidget_m_table', 'QTableWidget_m_desk')], \
        'one that is taken out may be in the other table'


def test_an_action_that_a_stack_made_undoes() -> None:
    found = case('items')
    assert found.body('undo', 'QUndoStack') == ['emit indexChanged(0);', 'call this.to_Stroke.undo();']
    by_qt = [line.split('  //')[0] for line in found.wires() if 'Qt connects' in line]
    assert by_qt == ['wire QAction_m_undo triggered(int) -> QUndoStack undo() direct;',
                     'wire QUndoStack canUndoChanged(int) -> QAction_m_undo setEnabled(int) direct;'], 'and no other action does'


def test_qts_own_destructors_tell_what_ends() -> None:
    found = case('items')
    assert found.body('drop') == ['delete this.to_QUndoStack;', 'call this.to_QUndoStack.QUndoStack_gone();']
    assert found.body('QUndoStack_gone') == ['emit indexChanged(0);']
    assert found.body('Sheet_parts_gone') == ['call this.to_QUndoStack.QUndoStack_gone();'], 'which its parent ends'


def test_an_item_of_a_list_whose_signals_are_blocked_tells_nothing() -> None:
    mute = next(f for f in case('items').linked.program.whole.functions.values() if f.name == 'mute')
    blocked = [[c.how for c in s.conditions] for s in mute.statements if s.name == 'setText']
    assert blocked == [['blocked by'], []], 'that is a condition; and another list tells'
