"""Selections that Qt makes: each view has one of its own."""
from reading import case


def test_a_selection_follows_the_model_of_its_own_view() -> None:
    told = [w.split(' -> ') for w in case('selections').wires() if 'Qt connects' in w and w.startswith('wire QStandardItemModel')]
    pairs = sorted((sender.split()[1].removeprefix('QStandardItemModel_'), receiver.split()[0].removeprefix('QItemSelectionModel_'))
                   for sender, receiver in told)
    handed = [('m_files', f'm_{it}') for it in ('one_selection', 'own', 'three_selection', 'two_selection')]
    assert pairs == [('m_feeds', 'm_right_selection'), *handed, ('m_notes', 'Tree_selection'), ('m_tasks', 'm_left_selection')], 'and no other'


def test_a_connection_to_a_selection_is_to_that_of_its_view() -> None:
    wires = case('selections').wires()
    for selection, slot in (('m_left', 'Panes left()'), ('m_right', 'Panes right()'), ('Tree', 'Tree tell()')):
        assert f'wire QItemSelectionModel_{selection}_selection selectionChanged(QString, QString) -> {slot} auto;' in wires


def test_a_view_moves_its_own_selection_and_one_that_is_not_known_any() -> None:
    found = case('selections')
    assert found.body('setCurrentIndex_2', 'QTreeView_m_left') == ['call this.to_QItemSelectionModel_m_left_selection.emit_selectionChanged("", "");']
    assert found.body('setCurrentIndex', 'QAbstractItemView') == ['call this.to_QItemSelectionModel.emit_selectionChanged("", "");']


def test_a_view_has_the_selection_that_it_was_handed() -> None:
    found = case('selections')
    for slot, selection in (('goTwo', 'm_one_selection'), ('goThree', 'm_own')):
        view = found.body(slot)[0].split('.')[2]
        assert found.body(view.split('(')[0], found.body(slot)[0].split('.')[1].removeprefix('to_')) == [f'call this.to_QItemSelectionModel_{selection}.emit_selectionChanged("", "");']


def test_a_selection_is_told_by_its_own_table() -> None:
    found = case('selections')
    assert found.body('forget') == ['call this.to_QItemSelectionModel_m_chosen_selection.clear();']
    told = [wire.split('  //')[0] for wire in found.wires() if '-> QTableWidget' in wire]
    assert told == [f'wire QItemSelectionModel_{it}_selection selectionChanged(QString, QString) -> QTableWidget_{it} itemSelectionChanged() direct;'
                    for it in ('m_chosen', 'm_other')], 'and by no other'


def test_a_view_hands_over_by_its_own_delegate_to_its_own_model() -> None:
    found = case('selections')
    rated, plain = (found.body('selectAll', f'QTreeView_{role}') for role in ('m_rated', 'm_plain'))
    assert rated == ['call this.to_QItemSelectionModel_m_rated_selection.emit_currentChanged("", "");', 'call this.to_Rating.setModelData("", "", "");']
    assert plain == ['call this.to_QItemSelectionModel_m_plain_selection.emit_currentChanged("", "");'], 'one of Qt\'s does nothing here'


def test_the_only_list_of_a_program_is_that_one() -> None:
    assert 'goList' not in case('selections').text, 'nobody is connected to its selection, and its items have a model of their own'
