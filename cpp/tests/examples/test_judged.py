"""Which judgement is of a finding."""
import sys
from pathlib import Path

import pytest

sys.path.insert(0, str(Path(__file__).resolve().parent.parent))
sys.path.insert(0, str(Path(__file__).resolve().parent))
from judged import Judged, judged_rows

CIRCLE = Judged("network/torrent", "cycle", ("dialog.cpp:33",), "line edit and dialog", "rests by value")


@pytest.mark.parametrize("rule, example, line, fits", [
    ("cycle", "network/torrent", 33, True),
    ("settling-cycle", "network/torrent", 33, True),
    ("queued-cycle", "network/torrent", 33, False),
    ("settling-cycle", "network/torrent", 34, False),
    ("cycle", "network/http", 33, False),
])
def test_a_circle_is_judged_once_whether_or_not_it_is_told_to_settle(rule: str, example: str, line: int, fits: bool) -> None:
    finding = {"rule": rule, "chain": [{"file": "src/dialog.cpp", "line": line}], "message": "m"}
    assert CIRCLE.fits(example, finding) == fits


def test_a_finding_without_a_judgement_is_told() -> None:
    finding = {"rule": "cycle", "file": "new.cpp", "line": 7, "chain": [], "message": "something new"}
    assert "| network/new | cycle | new.cpp:7 | something new | not judged |" in judged_rows([("network/new", finding)])
