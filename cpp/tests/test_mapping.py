"""What Qt writes into objects that it was handed, or made in others: by a mapper of data, and by a cursor in a text."""
from reading import case


def test_a_mapper_writes_what_a_user_edits_of_the_widgets_that_it_maps() -> None:
    written = ['call this.to_QLineEdit.setText("");', 'call this.to_QTextEdit_m_text.setHtml("");']
    assert case('mapping').body('setCurrentIndex') == ['set this.currentIndex = index;', *written]
    assert case('mapping').body('revert') == written


def test_what_its_model_tells_comes_back_to_the_widgets() -> None:
    found = case('mapping')
    assert found.body('submit') == ['call this.to_QStandardItemModel.setData("", "", 0);']
    assert any('dataChanged' in wire and '-> QDataWidgetMapper revert()' in wire for wire in found.wires())


def test_a_cursor_changes_a_document_that_qt_made_in_an_editor() -> None:
    found = case('documents')
    assert found.body('write') == ['call this.to_QTextCursor.insertText("");']
    assert found.body('insertText') == ['call this.to_QTextDocument.emit_contentsChanged();'], 'somebody is connected to one'
