"""The command itself: what it writes, what it tells, and its answers to bad input."""
import json
import os
import pathlib
import re
import shutil
import stat
import subprocess
from dataclasses import replace
from typing import Any

import pytest
from reading import CASES, HERE, flags
from gammonfig_cpp.report import Finding, Spot, StepTold, Verdict
from gammonfig_cpp.warned import Warnings

READ = os.path.join(os.path.dirname(HERE), 'read')
TABLE = ['--table', os.path.join(CASES, 'qt.effects')]
SOURCE = '''#include <QObject>
class Dial : public QObject {
    Q_OBJECT
public:
    void turn(int to) { emit turned(to); }
signals:
    void turned(int to);
};
class Desk : public QObject {
    Q_OBJECT
public:
    Desk() { connect(m_dial, &Dial::turned, m_dial, &Dial::turn); connect(m_dial, &Dial::turned, this, &Desk::end); }
    void end() { if (m_dial) delete this; }
private:
    Dial *m_dial = new Dial;
};
'''


def project(folder: pathlib.Path, text: str = SOURCE, package: str = 'Qt6Core') -> pathlib.Path:
    (folder / 'a.cpp').write_text(text)
    entry = {'directory': str(folder), 'file': 'a.cpp', 'arguments': ['c++', *flags(package), '-c', 'a.cpp']}
    (folder / 'compile_commands.json').write_text(json.dumps([entry]))
    return folder


def run(folder: pathlib.Path, *words: str, **more: str) -> 'subprocess.CompletedProcess[str]':
    return subprocess.run([READ, *words], cwd=folder, capture_output=True, text=True, check=False,
                          env={**os.environ, 'XDG_CACHE_HOME': str(folder / 'cache'), **more})


@pytest.fixture(scope='module')
def written(tmp_path_factory: pytest.TempPathFactory) -> pathlib.Path:
    folder = project(tmp_path_factory.mktemp('project'))
    done = run(folder, '-p', '.', '-o', 'out', *TABLE)
    assert done.returncode == 0, done.stderr
    assert '2 of 2 connections understood' in done.stderr
    return folder


def test_what_is_written(written: pathlib.Path) -> None:
    assert sorted(os.listdir(written / 'out')) == ['app.effects.md', 'app.gf', 'app.places', 'app.warnings.json']
    text = (written / 'out/app.gf').read_text()
    assert 'wire Dial turned(int) -> Dial turn(int) auto;' in text
    places = (written / 'out/app.places').read_text()
    assert re.search(r'^\d+\t9\ta\.cpp\t13\t30\tdelete this\tif `m_dial`$', places, re.M)


def test_a_second_run_reads_nothing_anew(written: pathlib.Path) -> None:
    done = run(written, '-p', '.', '-o', 'out', *TABLE)
    assert done.returncode == 0 and 'units read' not in done.stderr


def test_each_run_writes_the_same(tmp_path: pathlib.Path) -> None:
    """The order in which sets are walked differs from run to run, and what is written doesn't."""
    project(tmp_path, pathlib.Path(CASES, 'ends.cpp').read_text(), 'Qt6Widgets')
    for seed in '123':
        done = run(tmp_path, '-p', '.', '-o', seed, PYTHONHASHSEED=seed)
        assert done.returncode == 0, done.stderr
    first, *others = ({path.name: path.read_text() for path in (tmp_path / seed).iterdir()} for seed in '123')
    assert len(first) == 4 and all(other == first for other in others)


def test_a_changed_file_is_read_anew_and_no_other(tmp_path: pathlib.Path) -> None:
    project(tmp_path)
    (tmp_path / 'b.h').write_text('#include <QObject>\nclass Bell : public QObject {\n    Q_OBJECT\nsignals:\n    void rung();\n};\n')
    for name in ('b.cpp', 'c.cpp'):
        (tmp_path / name).write_text(f'#include "b.h"\nvoid ring_{name[0]}(Bell *bell) {{ emit bell->rung(); }}\n')
    entries = json.loads((tmp_path / 'compile_commands.json').read_text())
    more = [{**entries[0], 'file': name, 'arguments': ['c++', *flags('Qt6Core'), '-c', name]} for name in ('b.cpp', 'c.cpp')]
    (tmp_path / 'compile_commands.json').write_text(json.dumps([*entries, *more]))
    assert '3 of 3 units read' in run(tmp_path, '-p', '.', '-o', 'out', *TABLE).stderr
    (tmp_path / 'b.cpp').write_text((tmp_path / 'b.cpp').read_text() + '\n')
    assert '1 of 1 units read' in run(tmp_path, '-p', '.', '-o', 'out', *TABLE).stderr, 'the unit of a source that changed'
    (tmp_path / 'b.h').write_text((tmp_path / 'b.h').read_text() + '\n')
    assert '2 of 2 units read' in run(tmp_path, '-p', '.', '-o', 'out', *TABLE).stderr, 'the units that include a header that changed'


def test_explain(written: pathlib.Path) -> None:
    told = run(written, '-p', '.', '--explain', 'Desk.end', '--quiet', *TABLE).stdout
    assert 'deletes this: a.cpp:13: delete this, if `m_dial`' in told
    told = run(written, '-p', '.', '--explain', 'Dial', '--quiet', *TABLE).stdout
    assert 'made at a.cpp:15: new Dial' in told and 'may be in m_dial of Desk' in told


VERDICT = {'findings': [{'rule': 'destroy-path', 'number': 75, 'message': 'm', 'help': 'h', 'file': 'x', 'line': 1, 'column': 1, 'chain': [
    {'from': 'Desk.end()', 'to': '~Desk', 'by': 'statement', 'message': 's', 'file': 'x', 'line': 0, 'column': 9}]}], 'more': 0, 'accepted': 0}


def checker(folder: pathlib.Path, line: int, rule: str = 'destroy-path', severity: str = 'error') -> str:
    """A program in the place of the checker, which gives a verdict that is known."""
    verdict = json.loads(json.dumps(VERDICT))
    verdict['findings'][0] |= {'rule': rule, 'severity': severity}
    verdict['findings'][0]['chain'][0]['line'] = line
    path = folder / 'checker'
    path.write_text(f"#!/bin/sh\ncat > /dev/null\ncat << 'TXT'\n{json.dumps(verdict)}\nTXT\nexit 3\n")
    path.chmod(path.stat().st_mode | stat.S_IXUSR)
    return str(path)


def line_of(written: pathlib.Path, words: str) -> int:
    lines = (written / 'out/app.gf').read_text().split('\n')
    return next(n for n, line in enumerate(lines, 1) if words in line)


def test_a_verdict_in_lines_of_cpp(written: pathlib.Path) -> None:
    named = checker(written, line_of(written, 'delete this;'))
    done = run(written, '--verdict', 'out', '--context', '1', GAMMONFIG=named)
    assert done.returncode == 3
    assert 'a.cpp:13:30: note: `Desk.end()` leads to `~Desk`: `delete this`, if `m_dial`' in done.stdout
    assert '>    13 |     void end() { if (m_dial) delete this; }' in done.stdout
    told = json.loads(run(written, '--verdict', 'out', '--json', GAMMONFIG=named).stdout)
    step = told['findings'][0]['chain'][0]
    assert (step['file'], step['line'], step['conditions']) == ('a.cpp', 13, ['if `m_dial`'])


def schema_of(name: str) -> dict[str, Any]:
    path = pathlib.Path(__file__).parents[2] / 'docs/verdict.schema.json'
    found: dict[str, Any] = json.loads(path.read_text())
    return found['$defs'][name] if name else found  # type: ignore[no-any-return]


def check_form(told: dict[str, Any], schema: dict[str, Any]) -> None:
    """The names are those of the schema, and what it requires is there."""
    assert set(schema['required']) <= set(told) <= set(schema['properties'])


def test_json_has_the_form_of_the_checkers(written: pathlib.Path) -> None:
    """A step that stands in the program alone has its file; a rule without a number has none."""
    line = line_of(written, 'delete this;')
    for rule, number, at in ('destroy-path', 75, line), ('queued-cycle', 0, 1):
        named = checker(written, at, rule)
        if not number:
            path = pathlib.Path(named)
            path.write_text(path.read_text().replace('"number": 75, ', ''))
        told = json.loads(run(written, '--verdict', 'out', '--json', GAMMONFIG=named).stdout)
        check_form(told, schema_of(''))
        for finding in told['findings']:
            check_form(finding, schema_of('finding'))
            assert finding.get('number', 0) in (number, 0) and finding.get('number') != 0
            for step in finding['chain']:
                check_form(step, schema_of('step'))
                check_form(step.get('program', {'file': ''}), schema_of('spot'))
                assert step['by'] in schema_of('step')['properties']['by']['enum']


def test_words_that_are_wrong(written: pathlib.Path) -> None:
    for words, told, named in ((('--verdict', 'out', '--json', '--sarif'), 'not allowed with', ''),
                               (('-p', '.', '--only', '['), '--only [: this is no regular expression', ''),
                               (('--verdict', 'out'), 'the checker isn\'t there', str(written))):
        done = run(written, *words, **({'GAMMONFIG': named} if named else {}))
        assert done.returncode == 2 and told in done.stderr and 'Traceback' not in done.stderr


def test_an_object_that_deletes_its_own(written: pathlib.Path, tmp_path: pathlib.Path) -> None:
    """A slot that deletes what its object owns deletes another object of its class: that is a note, and no error."""
    shutil.copytree(written / 'out', tmp_path / 'out')
    path = tmp_path / 'out/app.warnings.json'
    named = checker(tmp_path, line_of(written, 'delete this;'))
    assert ': error: m [destroy-path]' in run(tmp_path, '--verdict', 'out', GAMMONFIG=named).stdout
    path.write_text(json.dumps(json.loads(path.read_text()) | {'own': [['a.cpp', 13, 30]]}))
    told = run(tmp_path, '--verdict', 'out', GAMMONFIG=named).stdout
    assert ': note: m [destroy-path]' in told and 'unless it owns itself' in told


def test_a_circle_by_deaths(written: pathlib.Path, tmp_path: pathlib.Path) -> None:
    """A circle through an event loop that goes only by deaths is a note: each object dies once. One that ends so isn't told."""
    shutil.copytree(written / 'out', tmp_path / 'out')
    path = tmp_path / 'out/app.warnings.json'
    named = checker(tmp_path, line_of(written, 'delete this;'), 'queued-cycle', 'warning')
    assert ': warning: m [queued-cycle]' in run(tmp_path, '--verdict', 'out', GAMMONFIG=named).stdout
    path.write_text(json.dumps(json.loads(path.read_text()) | {'by_death': ['Desk.end()']}))
    told = run(tmp_path, '--verdict', 'out', GAMMONFIG=named).stdout
    assert ': note: m [queued-cycle]' in told and 'each dies once' in told
    path.write_text(json.dumps(json.loads(path.read_text()) | {'ending': [['Desk.begin()'], ['Desk.end()', 'Desk.more()']]}))
    assert 'queued-cycle' not in run(tmp_path, '--verdict', 'out', GAMMONFIG=named).stdout


def test_one_note_for_each_tree(written: pathlib.Path, tmp_path: pathlib.Path) -> None:
    """Circles that go up a tree are told as one note, the shortest of each set of members."""
    def circle(*names: str) -> dict[str, object]:
        chain = [{'from': a, 'to': b, 'by': 'wire', 'message': 's', 'file': 'x', 'line': 1, 'column': 1} for a, b in zip(names, [*names[1:], names[0]])]
        return {'rule': 'cycle', 'severity': 'error', 'message': names[0], 'file': 'x', 'line': 1, 'column': 1, 'chain': chain}

    shutil.copytree(written / 'out', tmp_path / 'out')
    path = tmp_path / 'out/app.warnings.json'
    path.write_text(json.dumps(json.loads(path.read_text()) | {'climbing': [['A.a()', 'A.b()', 'A.c()'], ['B.a()']]}))
    named = checker(tmp_path, 1)
    findings = [circle('A.a()', 'A.b()', 'A.c()'), circle('A.b()', 'A.c()'), circle('B.a()'), circle('C.a()', 'C.b()')]
    pathlib.Path(named).write_text(f"#!/bin/sh\ncat > /dev/null\ncat << 'TXT'\n{json.dumps(VERDICT | {'findings': findings})}\nTXT\n")
    told = json.loads(run(tmp_path, '--verdict', 'out', '--json', GAMMONFIG=named).stdout)['findings']
    assert [(f['message'], f['severity']) for f in told] == [('C.a()', 'error'), ('A.b()', 'note'), ('B.a()', 'note')]
    assert 'ends at the top' in told[1]['note'] and 'note' not in told[0]


def test_a_circle_by_blocked_signals_or_without_its_connection() -> None:
    """A circle in which the signals of an object are blocked while they would go on, or their connection is taken away, is a note."""
    def circle(*conditions: str) -> Verdict:
        steps = [('Desk.fill()', 'Dial_m_dial.turn()', 'statement'), ('Dial_m_dial.turn()', 'Dial_m_dial.turned()', 'statement'),
                 ('Dial_m_dial.turned()', 'Desk.fill()', 'wire')]
        chain = [StepTold(Spot('a.cpp', 1, 1, '', conditions if by == 'statement' and to.endswith('turn()') else ()), from_, to, by, '')
                 for from_, to, by in steps]
        return Verdict([Finding(Spot(), 'cycle', 0, 'm', '', chain)], 0, 0, 3)

    for conditions, severity in ((('blocked by `blocker(m_dial)`',), 'note'), (('if `m_dial`',), 'error'),
                                 (('disconnected by `disconnect(m_dial, &Dial::turned, this, &Desk::fill)`',), 'note'),
                                 (('disconnected by `disconnect(m_dial, SIGNAL(turned()))`',), 'note'),
                                 (('disconnected by `disconnect(m_dial, &Dial::turned, this, &Desk::empty)`',), 'error'),
                                 (('disconnected by `disconnect(m_dial, &Dial::turn, this, &Desk::fill)`',), 'error')):
        verdict = circle(*conditions)
        Warnings([], [], [], set(), set(), [], set(), set(), False).add_to(verdict)
        assert verdict.findings[0].severity == severity
    for later, severity in ((1, 'error'), (2, 'note')):
        verdict = circle('blocked by `blocker(m_dial)`')
        verdict.findings[0].rule = 'queued-cycle'
        verdict.findings[0].chain[later].is_later = True
        Warnings([], [], [], set(), set(), [], set(), set(), False).add_to(verdict)
        assert verdict.findings[0].severity == severity, 'through an event loop too, where that comes behind the signal'
    for to, severity in (('Desk.fill()', 'note'), ('Desk.empty()', 'error')):
        verdict = circle()
        Warnings([], [], [], set(), set(), [], set(), {('Dial_m_dial.turned()', to)}, False).add_to(verdict)
        assert verdict.findings[0].severity == severity, 'what Qt does once at a time ends it'
    verdict = circle()
    verdict.findings[0].chain = [replace(step, spot=Spot()) for step in verdict.findings[0].chain]
    Warnings([], [], [], set(), set(), [], set(), {('Dial_m_dial.turned()', 'Desk.fill()')}, False).add_to(verdict)
    assert verdict.findings == [], 'and where nothing of it is the application\'s, it isn\'t told'


def test_one_finding_for_each_way_of_cpp() -> None:
    """Of findings that go by the same lines, with objects of other roles, one is told; a circle may begin anywhere on it."""
    def finding(rule: str, *lines: int, message: str = 'm') -> Finding:
        return Finding(Spot('a.cpp', lines[0]) if lines else Spot(), rule, 0, message, '', [StepTold(Spot('a.cpp', line), 'a', 'b', 'wire', '') for line in lines])

    verdict = Verdict([finding('cycle', 1, 2), finding('cycle', 2, 1), finding('cycle', 1, 2, 3), finding('destroy-path', 1, 2),
                       finding('destroy-path', 2, 1), finding('cycle'), finding('cycle'), finding('empty-program')], 0, 0, 3)
    Warnings([], [], [], set(), set(), [], set(), set(), False).add_to(verdict)
    told = [(f.rule, f.message, len(f.chain)) for f in verdict.findings]
    assert told == [('cycle', 'm; 1 more by the same lines', 2), ('cycle', 'm', 3), ('destroy-path', 'm', 2),
                    ('destroy-path', 'm', 2), ('cycle', 'm', 0), ('cycle', 'm', 0)], 'and that nothing is left to judge is no finding'


def test_connections_that_are_left_out_are_said(tmp_path: pathlib.Path) -> None:
    wrong = [f'connect(m_dial, SIGNAL(lost{at}()), this, SLOT(end()));' for at in range(22)]
    project(tmp_path, SOURCE.replace('Desk() {', 'Desk() { ' + ' '.join(wrong)))
    said = run(tmp_path, '-p', '.', '-o', 'out', *TABLE).stderr
    assert 'left out: a.cpp:12: no such signal: lost0(): `connect(m_dial, SIGNAL(lost0()), this, SLOT(end()))`' in said
    assert said.count('no such signal') == 20 and 'left out: 2 more connections, which out/app.effects.md has' in said


def test_what_a_library_tells_of_the_mouse_comes_by_hand(tmp_path: pathlib.Path) -> None:
    """A modal dialog keeps the mouse away, so that no second one is opened by it; what else a library tells may come meanwhile."""
    (tmp_path / 'lib').mkdir()
    (tmp_path / 'app').mkdir()
    (tmp_path / 'lib/knob.h').write_text('#include <QtWidgets>\nclass Knob : public QObject {\n    Q_OBJECT\nsignals:\n'
                                         '    void pressed(QMouseEvent *event);\n    void worn();\n};\n')
    for signal, told in (('pressed', []), ('worn', ['re-entry'])):
        project(tmp_path / 'app', f"""#include "../lib/knob.h"
class Desk : public QWidget {{
    Q_OBJECT
public:
    Desk() {{ connect(m_knob, &Knob::{signal}, this, &Desk::ask); }}
    void ask() {{ QInputDialog::getText(this, "a", "b"); }}
private:
    Knob *m_knob = new Knob;
}};
""", 'Qt6Widgets')
        done = run(tmp_path / 'app', '-p', '.', '-o', signal, *TABLE)
        assert done.returncode == 0, done.stderr
        warned = json.loads((tmp_path / 'app' / signal / 'app.warnings.json').read_text())['findings']
        assert [f['rule'] for f in warned] == told, signal


def test_one_finding_for_each_set_of_circles(written: pathlib.Path, tmp_path: pathlib.Path) -> None:
    """Of circles through an event loop in one set of members the shortest is told, with the other steps behind an event loop."""
    def circle(*names: str) -> dict[str, object]:
        chain = [{'from': a, 'to': b, 'by': 'wire', 'queued': a == names[0], 'message': 's', 'file': 'x', 'line': 999, 'column': 1}
                 for a, b in zip(names, [*names[1:], names[0]])]
        return {'rule': 'queued-cycle', 'severity': 'warning', 'message': names[0], 'file': 'x', 'line': 1, 'column': 1, 'chain': chain}

    shutil.copytree(written / 'out', tmp_path / 'out')
    path = tmp_path / 'out/app.warnings.json'
    path.write_text(json.dumps(json.loads(path.read_text()) | {'circling': [['A.a()', 'A.b()', 'A.c()', 'A.d()', 'A.e()']]}))
    named = checker(tmp_path, 1)
    findings = [circle('A.c()', 'A.d()', 'A.e()'), circle('A.a()', 'A.b()'), circle('B.a()', 'B.b()'), circle('C.a()')]
    pathlib.Path(named).write_text(f"#!/bin/sh\ncat > /dev/null\ncat << 'TXT'\n{json.dumps(VERDICT | {'findings': findings})}\nTXT\n")
    told = json.loads(run(tmp_path, '--verdict', 'out', '--json', GAMMONFIG=named).stdout)['findings']
    assert [f['message'] for f in told] == ['A.a()', 'B.a()', 'C.a()']
    assert [[(s['from'], s['to']) for s in f.get('also', [])] for f in told] == [[('A.c()', 'A.d()')], [], []]
    text = run(tmp_path, '--verdict', 'out', GAMMONFIG=named).stdout
    assert 'note: also, `A.c()` leads later to `A.d()`' in text and text.endswith('3 findings: 3 warnings\n')
    result = json.loads(run(tmp_path, '--verdict', 'out', '--sarif', GAMMONFIG=named).stdout)['runs'][0]['results'][0]
    assert 'also, ' not in result['relatedLocations'][-1]['message']['text'] and 'A.c()' in result['relatedLocations'][-1]['message']['text']


def test_what_qt_posts_to_a_dead_object(written: pathlib.Path, tmp_path: pathlib.Path) -> None:
    """What Qt posts to an object is dropped with it, as each event is: that is told only of what the application posts."""
    shutil.copytree(written / 'out', tmp_path / 'out')
    path = tmp_path / 'out/app.warnings.json'
    named = checker(tmp_path, line_of(written, 'delete this;'), 'deletes-connected', 'note')
    assert ': note: m [deletes-connected]' in run(tmp_path, '--verdict', 'out', GAMMONFIG=named).stdout
    path.write_text(json.dumps(json.loads(path.read_text()) | {'by_qt': ['Desk.end()']}))
    assert 'deletes-connected' not in run(tmp_path, '--verdict', 'out', GAMMONFIG=named).stdout


def test_a_wire_that_another_covers(written: pathlib.Path, tmp_path: pathlib.Path) -> None:
    """Each wire is of the reader's writing: that one covers another is nothing to mend in C++."""
    shutil.copytree(written / 'out', tmp_path / 'out')
    named = checker(tmp_path, line_of(written, 'delete this;'), 'wire-unused', 'warning')
    assert run(tmp_path, '--verdict', 'out', GAMMONFIG=named).stdout == 'nothing is found\n'


def test_a_verdict_as_sarif(written: pathlib.Path) -> None:
    named = checker(written, line_of(written, 'delete this;'))
    told = json.loads(run(written, '--verdict', 'out', '--sarif', GAMMONFIG=named).stdout)
    result = told['runs'][0]['results'][0]
    step = result['codeFlows'][0]['threadFlows'][0]['locations'][0]['location']
    assert step['physicalLocation']['artifactLocation'] == {'uri': 'a.cpp', 'uriBaseId': '%SRCROOT%'}
    assert step['physicalLocation']['region']['startLine'] == 13
    related = result['relatedLocations'][0]['physicalLocation']
    assert related['artifactLocation']['uri'] == 'out/app.gf'
    assert related['region']['startLine'] == 1, 'where the finding stands in the program'


def test_where_all_errors_are_notes_the_status_is_none_of_theirs(written: pathlib.Path, tmp_path: pathlib.Path) -> None:
    """A circle that the reader takes to come to rest comes behind what is an error still, and is none."""
    shutil.copytree(written / 'out', tmp_path / 'out')
    path = tmp_path / 'out/app.warnings.json'
    circle = VERDICT['findings'][0] | {'rule': 'cycle', 'severity': 'error', 'message': 'rests'}  # type: ignore[index]
    named = checker(tmp_path, 1)
    for findings, status, ends in (([circle], 3, '1 finding\n'), ([circle, VERDICT['findings'][0] | {'severity': 'error'}], 3, '2 findings\n')):  # type: ignore[index]
        pathlib.Path(named).write_text(f"#!/bin/sh\ncat > /dev/null\ncat << 'TXT'\n{json.dumps(VERDICT | {'findings': findings})}\nTXT\nexit 3\n")
        done = run(tmp_path, '--verdict', 'out', GAMMONFIG=named)
        assert (done.returncode, done.stdout.endswith(ends)) == (status, True), done.stdout
    path.write_text(json.dumps(json.loads(path.read_text()) | {'resting': [['Desk.end()']]}))
    done = run(tmp_path, '--verdict', 'out', GAMMONFIG=named)
    assert done.returncode == 3 and done.stdout.endswith('2 findings: 1 error, 1 note\n')
    assert done.stdout.index('error: m [destroy-path]') < done.stdout.index('note: rests [cycle]')
    pathlib.Path(named).write_text(f"#!/bin/sh\ncat > /dev/null\ncat << 'TXT'\n{json.dumps(VERDICT | {'findings': [circle]})}\nTXT\nexit 3\n")
    done = run(tmp_path, '--verdict', 'out', GAMMONFIG=named)
    assert done.returncode == 0 and done.stdout.endswith('1 finding: 1 note\n')


@pytest.mark.parametrize('form', ['--wide verdict', 'verdict --wide'])
def test_a_program_over_the_standard_limits(written: pathlib.Path, tmp_path: pathlib.Path, form: str) -> None:
    """The checker takes it with --wide, in front of the word or behind it; one that doesn't is told of."""
    shutil.copytree(written / 'out', tmp_path / 'out')
    warnings = json.loads((tmp_path / 'out/app.warnings.json').read_text())
    assert warnings['wide'] is False
    (tmp_path / 'out/app.warnings.json').write_text(json.dumps(warnings | {'wide': True}))
    named = checker(tmp_path, line_of(written, 'delete this;'))
    only = f'#!/bin/sh\n[ "$*" = "{form} --json" ] || exit 1\n'
    pathlib.Path(named).write_text(pathlib.Path(named).read_text().replace('#!/bin/sh\n', only))
    assert run(tmp_path, '--verdict', 'out', GAMMONFIG=named).returncode == 3
    pathlib.Path(named).write_text('#!/bin/sh\nexit 1\n')
    done = run(tmp_path, '--verdict', 'out', GAMMONFIG=named)
    assert done.returncode == 2 and 'gives no verdict with --wide' in done.stderr


def refused(done: 'subprocess.CompletedProcess[str]', sentence: str, folder: pathlib.Path) -> None:
    assert done.returncode == 2, done.stderr
    assert sentence in done.stderr and 'Traceback' not in done.stderr
    assert not (folder / 'out').exists(), 'nothing is written'


def test_a_header_that_is_not_there(tmp_path: pathlib.Path) -> None:
    project(tmp_path, '#include "ui_main.h"\n' + SOURCE)
    refused(run(tmp_path, '-p', '.', '-o', 'out', *TABLE), "build first: ui_main.h isn't there", tmp_path)
    done = run(tmp_path, '-p', '.', '-o', 'out', '--keep-going', *TABLE)
    assert done.returncode == 0 and 'ui_main.h' in (tmp_path / 'out/app.effects.md').read_text()
    assert run(tmp_path, '-p', '.', '-o', 'out', '--keep-going', '--strict', *TABLE).returncode == 3


def test_a_unit_that_does_not_parse(tmp_path: pathlib.Path) -> None:
    project(tmp_path, SOURCE + 'void f() { nothing(; }\n')
    refused(run(tmp_path, '-p', '.', '-o', 'out', *TABLE), 'a.cpp:17:', tmp_path)


def test_a_class_twice(tmp_path: pathlib.Path) -> None:
    project(tmp_path)
    other = {'directory': str(tmp_path), 'file': 'b.cpp', 'arguments': ['c++', *flags('Qt6Core'), '-c', 'b.cpp']}
    (tmp_path / 'b.cpp').write_text('\n' + SOURCE)
    entries = json.loads((tmp_path / 'compile_commands.json').read_text())
    (tmp_path / 'compile_commands.json').write_text(json.dumps([*entries, other]))
    refused(run(tmp_path, '-p', '.', '-o', 'out', *TABLE), 'Desk is declared in a.cpp:9 and in b.cpp:10', tmp_path)


def test_other_bad_input(tmp_path: pathlib.Path) -> None:
    refused(run(tmp_path, '-p', 'nowhere', '-o', 'out'), 'there are no compile commands', tmp_path)
    refused(run(tmp_path, '-o', 'out'), '-p DIR names the build', tmp_path)
    refused(run(tmp_path, '-p', '.', '--root', 'nowhere', '-o', 'out'), 'there is no such folder', tmp_path)
    project(tmp_path)
    for text, sentence in (('[]', 'is empty'), ('{', 'is no list of compile commands'), ('[{"file": "a.cpp"}]', 'is no list')):
        (tmp_path / 'commands.json').write_text(text)
        refused(run(tmp_path, '-p', 'commands.json', '-o', 'out'), sentence, tmp_path)
    refused(run(tmp_path, '-p', '.', '-o', 'out', '--table', 'nowhere'), 'the table of what Qt does', tmp_path)
    (tmp_path / 'file').write_text('')
    assert "can't be written" in run(tmp_path, '-p', '.', '-o', 'file/out', *TABLE).stderr


def test_no_libclang(tmp_path: pathlib.Path) -> None:
    (tmp_path / 'sh').symlink_to('/bin/sh')
    for name in ('dirname', 'readlink'):
        (tmp_path / name).symlink_to(os.popen(f'command -v {name}').read().strip())
    refused(run(tmp_path, '-p', '.', '-o', 'out', PATH=str(tmp_path)), 'python3-clang', tmp_path)


def test_a_library_of_clang_that_is_not_there(tmp_path: pathlib.Path) -> None:
    """Python's module is there, and the library that it loads isn't."""
    project(tmp_path)
    (tmp_path / 'clang').mkdir()
    (tmp_path / 'clang/__init__.py').write_text('')
    (tmp_path / 'clang/cindex.py').write_text('class LibclangError(Exception):\n    pass\n\n\nclass Conf:\n    @property\n'
                                              '    def lib(self):\n        raise LibclangError()\n\n\nconf = Conf()\n')
    refused(run(tmp_path, '-p', '.', '-o', 'out', PYTHONPATH=str(tmp_path)), "install Debian's package libclang1", tmp_path)


def test_what_was_written_before_stays(written: pathlib.Path, tmp_path: pathlib.Path) -> None:
    """A refusal leaves the files of an earlier run as they are."""
    project(tmp_path)
    shutil.copytree(written / 'out', tmp_path / 'out')
    before = {path.name: path.read_text() for path in (tmp_path / 'out').iterdir()}
    (tmp_path / 'a.cpp').write_text('nothing(;\n')
    done = run(tmp_path, '-p', '.', '-o', 'out', *TABLE)
    assert done.returncode == 2
    assert {path.name: path.read_text() for path in (tmp_path / 'out').iterdir()} == before
