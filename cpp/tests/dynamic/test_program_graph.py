"""What leads to what in a program that a reader of C++ wrote, and which emissions of a run are ways in it."""
import sys
from pathlib import Path

import pytest

sys.path.insert(0, str(Path(__file__).resolve().parent.parent))
sys.path.insert(0, str(Path(__file__).resolve().parent))
from coverage import cover
from example_runs import add
from functions import short
from program_graph import BadProgram, parse, read
from spied import BadRecord, Called, Emitted, Record
from spied import parse as parse_record

PROGRAM = """class Level {
    property int value notify moved(int);
    signal moved(int value);
    slot set_(int value) {
        set this.value = value;
    }
}
class Mixer {
    property Level_m_left* to_Level_m_left;
    slot start() { }
    slot follow(int value) {  //@ modal
        call this.to_Level_m_left.set_(value);
    }
    signal told();
}
class Level_m_left : Level {
}
class Level_m_right : Level {
}
wire Level_m_left moved(int) -> Mixer follow(int) auto;
wire Level_m_right moved(int) -> Mixer told() queued;
binding binding_3 Level_m_right.value (Level_m_left s0) = s0.value;
owns Mixer Level_m_left;
"""


def test_roles_are_told_by_the_class_that_declares() -> None:
    graph = parse(PROGRAM)
    assert graph.signals("Level", "moved") == {("Level", "moved")}
    assert graph.node("Level_m_left", "set_") == ("Level", "set_")


def test_ways_go_through_wires_references_notify_and_bindings() -> None:
    graph = parse(PROGRAM)
    reached = graph.reach({("Level", "moved")})
    assert reached == {("Mixer", "follow"), ("Level", "set_"), ("Level", "value"), ("Level", "moved")}


def test_a_queued_wire_is_no_way_at_once() -> None:
    assert ("Mixer", "told") not in parse(PROGRAM).reach({("Level", "moved")})


def test_a_line_that_no_reader_writes_is_refused() -> None:
    with pytest.raises(BadProgram, match="is no declaration"):
        parse("class Level {\n    something else\n}\n")
    with pytest.raises(BadProgram, match="has no reference"):
        parse("class Level {\n    slot f() {\n        call this.to_x.g();\n    }\n}\n")


def test_pairs_of_a_run_are_covered_missed_or_outside() -> None:
    moved, told, other = Emitted("Level", "Level", "moved"), Emitted("Mixer", "Mixer", "told"), Emitted("QTimer", "QTimer", "timeout")
    inner = Emitted("Level", "Level", "moved", is_inner=True)
    record = Record(within={(moved, moved): 3, (told, moved): 1, (moved, told): 1, (other, moved): 1, (told, inner): 1})
    found = cover(record, parse(PROGRAM))
    assert (found.covered, found.missed) == ([(moved, moved)], [(told, moved)])
    assert (found.silent, found.of_qt, found.outside) == ([(moved, told)], [(told, inner)], [(other, moved)])


def test_functions_of_a_run_are_known_by_their_lines(tmp_path: Path) -> None:
    """A body may begin some lines below the name of its function."""
    (tmp_path / "app.gf").write_text(PROGRAM)
    places = [(4, "level.cpp", 7, "void Level::set(int value)"), (10, "mixer.cpp", 3, "void start()"), (11, "mixer.cpp", 5, "[this]")]
    (tmp_path / "app.places").write_text("".join(f"{line}\t5\t{file}\t{at}\t10\t{words}\n" for line, file, at, words in places))
    graph = read(tmp_path / "app.gf", tmp_path)
    set_, start, follow = (Called("program", at) for at in (1, 2, 3))
    level, mixer = str(tmp_path / "level.cpp"), str(tmp_path / "mixer.cpp")
    lines = {set_: (level, 9, "set"), start: (mixer, 3, "start"), follow: (mixer, 5, "["), Called("program", 4): (level, 12, "other")}
    moved = Emitted("Level", "Level", "moved")
    record = Record(under={(set_, moved): 1, (moved, follow): 1, (follow, set_): 1, (start, set_): 1, (start, Called("program", 9)): 1,
                           (Called("program", 4), moved): 1})
    found = cover(record, graph, lines)
    assert found.covered == [(set_, moved), (moved, follow), (follow, set_)]
    assert found.missed == [(start, set_), (Called("program", 4), moved)], "of a file that was read, and not in the program"


ENDING = """class Box {
    signal shut();
    slot Box_parts_gone() {
        emit shut();
    }
    slot open() {
        emit shut();
    }
    slot close() {
        emit shut();
    }
    slot leave() {
        call this.open();
    }
}
class Ear {
    slot hear() { }
}
wire Box shut() -> Ear hear() auto;
"""


def test_functions_that_the_compiler_wrote_and_those_of_one_body(tmp_path: Path) -> None:
    (tmp_path / "app.gf").write_text(ENDING)
    places = [(1, "box.h", 5, "class Box"), (6, "box.cpp", 3, "void Box::open()"), (9, "box.cpp", 9, "void Box::close()"),
              (12, "box.cpp", 15, "void Box::leave()")]
    (tmp_path / "app.places").write_text("".join(f"{line}\t5\t{file}\t{at}\t10\t{words}\n" for line, file, at, words in places))
    graph = read(tmp_path / "app.gf", tmp_path)
    header, source = str(tmp_path / "box.h"), str(tmp_path / "box.cpp")
    gone, deleting, made, opened, closed, heard, left = (Called("program", at) for at in range(7))
    lines = {left: (source, 15, "leave"), gone: (header, 5, "~Box"), deleting: (header, 5, "~Box"), made: (header, 5, "Box"), opened: (source, 3, "open"), closed: (source, 9, "close")}
    shut = Emitted("Box", "Box", "shut")
    found = cover(Record(under={(gone, shut): 1, (deleting, gone): 1, (made, shut): 1, (opened, closed): 1, (opened, gone): 1, (left, closed): 1, (shut, heard): 1}), graph, lines)
    assert found.covered == [(gone, shut), (opened, closed), (opened, gone), (left, closed)], "what owns ends, and functions that do the same"
    assert found.outside == [(made, shut), (shut, heard)] and not found.missed, "a constructor that isn't written is a part of what calls it"


HEARD = """class Box {
    signal shut();
    slot open() {
        emit shut();
    }
    slot close() { }
}
class Ear {
    slot hear() {
        call this.hear();
    }
}
wire Box shut() -> Ear hear() auto;
"""


def test_a_signal_to_which_nobody_was_connected_leads_to_nothing(tmp_path: Path) -> None:
    (tmp_path / "app.gf").write_text(HEARD)
    places = [(3, "box.cpp", 3, "void Box::open()"), (6, "box.cpp", 9, "void Box::close()")]
    (tmp_path / "app.places").write_text("".join(f"{line}\t5\t{file}\t{at}\t10\t{words}\n" for line, file, at, words in places))
    closed, shut = Called("program", 1), Emitted("Box", "Box", "shut")
    record, lines = Record(under={(closed, shut): 1}), {closed: (str(tmp_path / "box.cpp"), 9, "close")}
    assert cover(record, read(tmp_path / "app.gf", tmp_path), lines).missed == [(closed, shut)]
    record.unheard.add((closed, shut))
    assert cover(record, read(tmp_path / "app.gf", tmp_path), lines).silent == [(closed, shut)]
    add(record, Record(under={(closed, shut): 1}))
    assert not record.unheard, "in another run somebody was"


@pytest.mark.parametrize("told, name", [("Window::setValue(int)", "setValue"), ("main", "main"), ("void drop<Apple>(Apple*&)", "drop"),
                                        ("Window::Window(QWidget*)::{lambda()#1}::operator()() const", "["), ("Box<Apple>::cut()", "cut")])
def test_names_of_functions(told: str, name: str) -> None:
    assert short(told) == name


def test_a_record_tells_what_became_of_the_program() -> None:
    text = "emitted\tA.B.c\t2\nwithin\tA.B.c\tA.B.c\t1\ndeepest\t2\nend\texit\n"
    assert parse_record(text).outcome() == "clean"
    assert parse_record(text + "dead\tA.B.c\t1\n").outcome() == "dead"
    assert parse_record(text.replace("exit", "overflow")).outcome() == "overflow"
    assert parse_record(text.replace("within", "loop")).outcome() == "re-entered"


def test_a_record_tells_functions() -> None:
    record = parse_record("called\t/bin/a@1f\t2\nunder\t/bin/a@1f\t~A.B.c\t1\nend\texit\n")
    assert record.called == {Called("/bin/a", 31): 2}
    assert record.under == {(Called("/bin/a", 31), Emitted("A", "B", "c", is_inner=True)): 1}
    assert parse_record("unheard\t/bin/a@1f\tA.B.c\n").unheard == {(Called("/bin/a", 31), Emitted("A", "B", "c"))}


@pytest.mark.parametrize("line", ["emitted\tA.B.c", "emitted\tAc\t1", "within\tA.B.c\tD.E.f\tx", "called\ta\t1", "called\ta@x\t1", "deepest", "other\t1"])
def test_a_line_that_is_none_of_a_record_is_refused(line: str) -> None:
    with pytest.raises(BadRecord):
        parse_record(line + "\n")
