"""The grammar of the table of what Qt does, and which line of it counts."""
import sys
from pathlib import Path

import pytest

sys.path.insert(0, str(Path(__file__).resolve().parent.parent))
sys.path.insert(0, str(Path(__file__).resolve().parent))
from effects_table import BadTable, QtWire, parse, read
from needs import ROOT

GOOD = """# Qt 6.4.2: what Qt does
QAction.trigger emits triggered, toggled calls actionEvent   # and more
QDialog.exec modal calls setVisible
QScrollArea.setWidget deletes QWidget owns 1
wire QAction.triggered -> QMenu.triggered
wire QTimer.timeout -> QMenu.aboutToShow by setTimer once
"""
BAD = [
    "QAction trigger emits triggered",
    "QAction.trigger",
    "QAction.trigger emits",
    "QAction.trigger emits triggered,",
    "QAction.trigger emits , triggered",
    "QAction.trigger emits triggered toggled",
    "QAction.trigger triggered",
    "QAction.trigger emits a emits b",
    "QAction.trigger emits a::b::c",
    "QAction.trigger modal triggered",
    "QAction.trigger needs luck",
    "wire QAction.triggered QMenu.triggered",
    "wire QAction.triggered -> QMenu.triggered by",
]


def test_a_good_table_is_read() -> None:
    table = parse(GOOD)
    assert table.version == "6.4.2"
    assert table.wires == [QtWire("QAction", "triggered", "QMenu", "triggered"), QtWire("QTimer", "timeout", "QMenu", "aboutToShow", "setTimer", True)]
    assert table.lines[("QAction", "trigger")].clauses == {"emits": ["triggered", "toggled"], "calls": ["actionEvent"]}
    assert table.lines[("QDialog", "exec")].clauses == {"modal": [], "calls": ["setVisible"]}


@pytest.mark.parametrize("line", BAD)
def test_a_bad_line_is_refused_by_its_number(line: str) -> None:
    with pytest.raises(BadTable, match=r"^qt\.effects:2: "):
        parse("# a comment\n" + line + "\n")


def test_a_second_line_for_a_function_is_refused() -> None:
    with pytest.raises(BadTable, match="second line for QAction.trigger"):
        parse("QAction.trigger emits a\nQAction.trigger emits b\n")


def test_the_nearest_class_counts_alone() -> None:
    table = parse("QWidget.show calls setVisible\nQMenu.show emits aboutToShow\n")
    found = table.line(["QMenu", "QWidget", "QObject"], "show")
    assert found is not None and found.names("emits", "calls") == ["aboutToShow"]
    other = table.line(["QLabel", "QFrame", "QWidget", "QObject"], "show")
    assert other is not None and other.names("calls") == ["setVisible"]
    assert table.line(["QObject"], "show") is None


def test_the_table_of_the_repository_is_in_the_grammar() -> None:
    table = read(ROOT / "cpp" / "qt.effects")
    assert table.version and len(table.lines) > 1000 and table.wires
