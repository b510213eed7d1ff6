"""Qt's properties that are set compare first, but for those of which the table says `again`: so it says of Qt itself."""
import re
import sys
from pathlib import Path

sys.path.insert(0, str(Path(__file__).resolve().parent.parent))
sys.path.insert(0, str(Path(__file__).resolve().parent))
from effects_table import read
from needs import ROOT, output
from qt_flags import compile_flags, compiled, linked, offscreen

HERE = Path(__file__).resolve().parent


def test_what_tells_an_equal_value_again_stands_in_the_table(tmp_path: Path) -> None:
    made = linked(compiled([HERE / "written" / "set_twice.cpp"], tmp_path, compile_flags()), tmp_path / "written")
    told = output([str(made)], variables=offscreen(tmp_path)).splitlines()
    lines = [re.fullmatch(r"(\w+)\.(\w)(\w*) (\w+)", line) for line in told if not line.startswith("#")]
    # By Qt's custom `setName` sets `name`.
    came = {(found[1], f"set{found[2].upper()}{found[3]}", found[4]) for found in lines if found}
    table = read(ROOT / "cpp" / "qt.effects")
    said = {(line.cls, line.function, name) for line in table.lines.values() for name in line.names("again")}
    assert came == said
    assert sum(line.startswith("#") for line in told) > 100, "classes that were looked at"
