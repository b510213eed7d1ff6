"""What the reader makes of the checker's findings: it puts the gravest first, and adds what it alone finds."""
from __future__ import annotations

import json
import pathlib
import stat
import sys

import pytest

sys.path.insert(0, str(pathlib.Path(__file__).resolve().parents[1]))
from gammonfig_cpp.places import Places
from gammonfig_cpp.report import Verdict, judge
from gammonfig_cpp.warned import Warnings


def told(rule: str, severity: str, message: str) -> dict[str, object]:
    return {'rule': rule, 'severity': severity, 'message': message, 'chain': []}


def judged(folder: pathlib.Path, monkeypatch: pytest.MonkeyPatch, found: list[dict[str, object]]) -> Verdict:
    """The verdict by a program in the place of the checker."""
    path, program = folder / 'checker', folder / 'app.gf'
    path.write_text(f"#!/bin/sh\ncat > /dev/null\necho '{json.dumps({'findings': found, 'more': 0, 'accepted': 0})}'\nexit 3\n")
    path.chmod(path.stat().st_mode | stat.S_IXUSR)
    program.write_text('')
    monkeypatch.setenv('GAMMONFIG', str(path))
    return judge(str(program), Places(str(folder)))


def test_the_gravest_come_first(tmp_path: pathlib.Path, monkeypatch: pytest.MonkeyPatch) -> None:
    note, circle, deletion = told('settling-cycle', 'note', 'rests'), told('cycle', 'error', 'circle'), told('destroy-path', 'error', 'deletion')
    verdict = judged(tmp_path, monkeypatch, [note, circle, deletion])
    assert [f.message for f in verdict.findings] == ['circle', 'deletion', 'rests']
    assert (verdict.more, verdict.status) == (0, 3)


def way(rule: str, *names: str) -> dict[str, object]:
    chain = [{'from': a, 'to': b, 'by': 'wire', 'message': f'{a} {b}', 'queued': True} for a, b in zip(names, names[1:])]
    return told(rule, 'warning', ' '.join(names)) | {'chain': chain}


def test_what_the_reader_alone_finds_is_told_beside_the_checkers(tmp_path: pathlib.Path, monkeypatch: pytest.MonkeyPatch) -> None:
    """Of one slot and of one set of circles one warning is told, whoever found it."""
    by_checker = [way('re-entry', 'A.ask()', 'A.posted_1()', 'A.ask()'), way('queued-cycle', 'C.a()', 'C.b()', 'C.a()')]
    by_reader = [way('re-entry', 'T.timeout()', 'A.ask()'), way('re-entry', 'T.timeout()', 'B.ask()'), way('queued-cycle', 'C.b()', 'C.c()', 'C.b()'),
                 way('queued-cycle', 'D.a()', 'D.b()', 'D.a()')]
    verdict = judged(tmp_path, monkeypatch, by_checker)
    circling = [{'C.a()', 'C.b()', 'C.c()'}, {'D.a()', 'D.b()'}]
    Warnings(by_reader, [], [], set(), set(), circling, set(), set(), False).add_to(verdict)
    assert sorted(f.message for f in verdict.findings) == ['A.ask() A.posted_1() A.ask()', 'C.a() C.b() C.a()', 'D.a() D.b() D.a()', 'T.timeout() B.ask()']
