"""What came of a call, against the table: event loops, what comes later, who owns, and lines of which nothing came."""
import sys
from pathlib import Path

sys.path.insert(0, str(Path(__file__).resolve().parent.parent))
sys.path.insert(0, str(Path(__file__).resolve().parent))
from comparing import Used, compare
from effects_table import Table, parse
from qt_headers import Headers
from table_check import unshown
from table_program import Called, Note

HEADERS = Headers({"QObject": "", "QTimer": "QObject", "QLayout": "QObject", "QWidget": "QObject"}, {})


def came(cls: str, function: str, subject: str, note: Note, table: Table) -> tuple[list[str], Used]:
    """What one call with one thing that came finds, and what of the table it shows."""
    findings, used = compare([Called(cls, function, subject, "plain", "hidden", [note])], table, HEADERS)
    return [f"{it.clause} {it.name}".strip() for it in findings], used


def test_an_event_loop_inside() -> None:
    loop = Note(True, "looped", "self", [""], "modal")
    assert came("QWidget", "show", "QWidget", loop, parse("QWidget.show calls setVisible"))[0] == ["modal modal"]
    assert came("QWidget", "show", "QWidget", loop, parse("QWidget.show modal")) == ([], {("QWidget", "show", "modal", "")})


def test_what_comes_later_shows_what_is_posted() -> None:
    note, table = Note(False, "signal", "self", ["QTimer"], "timeout"), parse("QTimer.start posts timeout")
    assert came("QTimer", "start", "QTimer", note, table) == ([], {("QTimer", "start", "posts", "timeout")})
    assert came("QTimer", "stop", "QTimer", note, table) == ([], set())


def test_what_lies_in_a_layout_the_widget_around_owns() -> None:
    note, table = Note(True, "owned", "other", ["QWidget"], "1"), parse("QLayout.addWidget lays 1")
    assert came("QLayout", "addWidget", "QLayout", note, table) == ([], {("QLayout", "addWidget", "lays", "1")})
    assert came("QLayout", "addItem", "QLayout", note, table)[0] == ["lays 1"]
    assert came("QObject", "setParent", "QTimer", Note(True, "joined", "self", ["QTimer"], "1"), parse("QObject.setParent owner 1"))[0] == []


def test_a_function_of_another_class_is_called_beside() -> None:
    loop = Note(True, "looped", "self", [""], "modal")
    assert came("QTimer", "wait", "QWidget", loop, parse("QTimer.wait modal"))[0] == []


def test_a_line_of_which_nothing_came_is_a_failure() -> None:
    table = parse("QTimer.start posts timeout\nQTimer.stop emits a\nQWidget.drag modal needs person\n")
    assert unshown(table, {("QTimer", "start", "posts", "timeout")}) == ["QTimer.stop"]
