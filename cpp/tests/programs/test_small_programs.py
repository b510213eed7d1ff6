"""The expectations of the small programs: they fit the marks in the sources, and tell right findings from wrong ones."""
import sys
from pathlib import Path

import pytest

sys.path.insert(0, str(Path(__file__).resolve().parent.parent))
sys.path.insert(0, str(Path(__file__).resolve().parent))
from small_programs import HERE, VARIANTS, expected, judge, marked, names

NAME = "lambda_circle"


def finding(rule: str, file: str, line: int) -> dict[str, object]:
    return {"rule": rule, "file": "other.cpp", "line": 1, "chain": [{"file": file, "line": line}]}


def test_there_are_twelve() -> None:
    assert len(names()) == 12
    assert all((HERE / name / variant / "main.cpp").is_file() for name in names() for variant in VARIANTS)


@pytest.mark.parametrize("name", names())
def test_the_mark_is_where_the_expectation_says(name: str) -> None:
    wanted = expected(name)
    assert marked(HERE / name / "faulty") == [(wanted.file, wanted.line)]
    assert marked(HERE / name / "repaired") == []


def test_the_finding_at_its_line_is_right() -> None:
    wanted = expected(NAME)
    assert judge([finding("cycle", f"src/{wanted.file}", wanted.line)], NAME, "faulty").reason == ""


def test_another_rule_another_line_or_nothing_is_wrong() -> None:
    wanted = expected(NAME)
    other_rule, other_line = finding("destroy-path", wanted.file, wanted.line), finding("cycle", wanted.file, wanted.line + 1)
    wrong: list[list[dict[str, object]]] = [[], [other_rule], [other_line]]
    for found in wrong:
        assert "wanted cycle through" in judge(found, NAME, "faulty").reason


def test_a_finding_in_the_repaired_one_is_wrong() -> None:
    assert judge([], NAME, "repaired").reason == ""
    assert judge([finding("cycle", "mixer.cpp", 1)], NAME, "repaired").reason != ""
