"""The verdict of a program, told in lines of C++: as a text, as JSON, as SARIF."""
from __future__ import annotations

import json
import os
import subprocess
from dataclasses import dataclass, field
from typing import Any
from urllib.parse import quote

from .advice import in_cpp
from .errors import ReadError
from .places import Places


@dataclass
class Spot:
    """A place in C++, or none where the words are of Qt."""
    file: str = ''
    line: int = 0
    column: int = 0
    words: str = ''
    conditions: tuple[str, ...] = ()
    program: tuple[int, int] | None = None


@dataclass
class StepTold:
    spot: Spot
    from_: str
    to: str
    by: str
    message: str
    is_later: bool = False


@dataclass
class Finding:
    spot: Spot
    rule: str
    number: int
    message: str
    help: str
    chain: list[StepTold] = field(default_factory=list)
    severity: str = 'error'
    note: str = ''
    # Steps of other circles of the same set, by which an event loop is gone through too.
    also: list[StepTold] = field(default_factory=list)


@dataclass
class Verdict:
    findings: list[Finding]
    more: int
    accepted: int
    status: int
    # Whether there are more than are counted.
    is_least: bool = False

    def sort(self) -> None:
        """The gravest first."""
        self.findings.sort(key=lambda f: SEVERITIES.index(f.severity))

    def told_status(self) -> int:
        """The exit status: the checker's, but 0 where none of its errors is one for the reader."""
        has_errors = self.more or any(f.severity == 'error' for f in self.findings)
        return self.status if has_errors or self.status != FOUND else 0

    def counts(self) -> dict[str, object]:
        """What isn't shown, as JSON and SARIF tell it."""
        told: dict[str, object] = {'more': self.more}
        if self.is_least:
            told['atLeast'] = True
        return told | {'accepted': self.accepted}

    def counted(self) -> str:
        """How many findings there are, of which severities where not all are errors."""
        count = len(self.findings) + self.more
        if not count:
            return 'nothing is found'
        parts = [(sum(f.severity == severity for f in self.findings), severity) for severity in SEVERITIES]
        told = ', '.join(plural(number, word) for number, word in parts if number)
        least = 'at least ' if self.is_least else ''
        return least + plural(count, 'finding') + (f': {told}' if parts[0][0] < len(self.findings) else '')


def plural(count: int, word: str) -> str:
    return f'{count} {word}' + ('' if count == 1 else 's')


def checker(here: str) -> list[str]:
    """The words that run the checker: GAMMONFIG names it, else it stands beside this package."""
    named = os.environ.get('GAMMONFIG')
    path = named or os.path.join(os.path.dirname(os.path.dirname(here)), 'gammonfig')
    if not os.path.isfile(path) or not os.access(path, os.X_OK):
        raise ReadError(f'{path}: the checker isn\'t there' + ('' if named else ': GAMMONFIG names it'))
    return [path]


USAGE, FOUND = 1, 3
# The gravest first.
SEVERITIES = ('error', 'warning', 'note')
# What the reader's own steps go by, in the words of the checker's.
BY = {'queued': 'wire', 'direct': 'statement'}


def judge(program: str, places: Places, wide: bool = False) -> Verdict:
    """What the checker says of a program, with its places in C++. A `wide` one is over the standard limits."""
    told, status = _asked(program, wide)
    verdict = Verdict([finding_of(f, places) for f in told['findings']], int(told.get('more', 0)), int(told.get('accepted', 0)), status,
                      bool(told.get('atLeast', False)))
    verdict.sort()
    return verdict


def _asked(program: str, wide: bool) -> tuple[dict[str, Any], int]:
    """The checker's answer to a program, and its status."""
    command = checker(os.path.dirname(os.path.abspath(__file__)))
    # The script takes `--wide` behind the word, and the built program in front of it.
    forms = [['verdict', '--wide', '--json'], ['--wide', 'verdict', '--json']] if wide else [['verdict', '--json']]
    for form in forms:
        with open(program, encoding='utf-8') as text:
            done = subprocess.run(command + form, stdin=text, stdout=subprocess.PIPE, stderr=subprocess.PIPE if wide else None,
                                  text=True, check=False)
        if done.returncode != USAGE:
            break
    if wide and done.returncode == USAGE:
        raise ReadError(f'{program}: the program is over the standard limits, and {command[0]} gives no verdict with --wide: '
                        'read it with --slice, or take a newer checker')
    try:
        return dict(json.loads(done.stdout)), done.returncode
    except ValueError as wrong:
        raise ReadError(f'{program}: the checker gave no verdict (status {done.returncode})') from wrong


def spot_of(told: dict[str, Any], places: Places) -> Spot:
    if 'line' not in told:
        return Spot()
    line, column = int(told['line']), int(told.get('column', 1))
    found = places.at(line, column)
    if found is None:
        return Spot(program=(line, column))
    place, conditions = found
    return Spot(places.relative(place.file), place.line, place.column, place.words, conditions, (line, column))


def finding_of(told: dict[str, Any], places: Places) -> Finding:
    chain = [StepTold(spot_of(s, places), str(s.get('from', '')), str(s.get('to', '')), str(s.get('by', '')), str(s.get('message', '')),
                      bool(s.get('queued')))
             for s in told.get('chain') or []]
    spot = spot_of(told, places)
    if not spot.file:
        first = next((s.spot for s in chain if s.spot.file), None)
        spot = first or spot
    rule = str(told['rule'])
    of_libraries = {name for s in chain if not s.spot.file for name in (s.from_, s.to)}
    return Finding(spot, rule, int(told.get('number', 0)), str(told['message']), in_cpp(rule, str(told.get('help') or ''), of_libraries), chain,
                   str(told.get('severity', 'error')))


class Teller:
    """Tells a verdict. `context` is how many lines of C++ are shown around each place; `program` is the file that was judged."""

    def __init__(self, root: str, context: int, program: str) -> None:
        self.root, self.context = root, context
        path = os.path.realpath(program)
        self.program = os.path.relpath(path, root) if path.startswith(root + os.sep) else path

    def text(self, verdict: Verdict) -> str:
        lines: list[str] = []
        for finding in verdict.findings:
            lines.append(f'{self._head(finding.spot)}: {finding.severity}: {finding.message} [{finding.rule}]')
            lines += self._around(finding.spot)
            for step in finding.chain:
                lines += self._step(step)
            for step in finding.also:
                lines += self._step(step, 'also, ')
            if finding.note:
                lines.append(f'  note: {finding.note}')
            elif finding.help:
                lines.append(f'  help: {finding.help}')
        lines.append(verdict.counted())
        if verdict.more:
            least = 'at least ' if verdict.is_least else ''
            lines.append(f'{least}{verdict.more} of them aren\'t shown')
        return '\n'.join(lines) + '\n'

    def _head(self, spot: Spot) -> str:
        if spot.file:
            return f'{spot.file}:{spot.line}:{spot.column}'
        return f'{self.program}:{spot.program[0]}:{spot.program[1]}' if spot.program else '(Qt)'

    def _step(self, step: StepTold, before: str = '') -> list[str]:
        what = f'{before}`{step.from_}` leads {"later " if step.is_later else ""}to `{step.to}`'
        if step.spot.file:
            words = f': `{step.spot.words}`' if step.spot.words else ''
            conditions = ''.join(f', {c}' for c in step.spot.conditions)
            return [f'{self._head(step.spot)}: note: {what}{words}{conditions}'] + self._around(step.spot)
        return [f'{self._head(step.spot)}: note: {what}: in Qt']

    def _around(self, spot: Spot) -> list[str]:
        if not self.context or not spot.file:
            return []
        try:
            with open(os.path.join(self.root, spot.file), encoding='utf-8', errors='replace') as file:
                text = file.read().splitlines()
        except OSError:
            return []
        first, last = max(1, spot.line - self.context), min(len(text), spot.line + self.context)
        return [f'{">" if at == spot.line else " "} {at:5} | {text[at - 1]}' for at in range(first, last + 1)]

    # JSON, as docs/verdict.schema.json has it

    def _spot(self, spot: Spot) -> dict[str, object]:
        judged: dict[str, object] = {'file': self.program}
        if spot.program:
            judged |= {'line': spot.program[0], 'column': spot.program[1]}
        if not spot.file:
            return judged
        told: dict[str, object] = {'file': spot.file, 'line': spot.line, 'column': spot.column, 'words': spot.words}
        if spot.conditions:
            told['conditions'] = list(spot.conditions)
        return told | ({'program': judged} if spot.program else {})

    def _steps(self, steps: list[StepTold]) -> list[dict[str, object]]:
        return [self._spot(s.spot) | {'from': s.from_, 'to': s.to, 'by': BY.get(s.by, s.by), 'message': s.message}
                | ({'queued': True} if s.is_later else {}) for s in steps]

    def json(self, verdict: Verdict) -> str:
        findings: list[dict[str, object]] = []
        for finding in verdict.findings:
            told: dict[str, object] = {'rule': finding.rule, 'severity': finding.severity, 'message': finding.message}
            told |= {name: it for name, it in (('number', finding.number), ('help', finding.help), ('note', finding.note)) if it}
            told |= self._spot(finding.spot) | {'chain': self._steps(finding.chain)}
            findings.append(told | ({'also': self._steps(finding.also)} if finding.also else {}))
        return json.dumps({'version': 1, 'findings': findings, **verdict.counts()}, indent=1, ensure_ascii=False) + '\n'

    # SARIF

    @staticmethod
    def _at(file: str, line: int, column: int) -> dict[str, object]:
        artifact = {'uri': quote(file), 'uriBaseId': '%SRCROOT%'} if not os.path.isabs(file) else {'uri': 'file://' + quote(file)}
        return {'artifactLocation': artifact, 'region': {'startLine': line, 'startColumn': max(1, column)}}

    def _location(self, spot: Spot, message: str) -> dict[str, object]:
        told: dict[str, object] = {'message': {'text': message}}
        if spot.file:
            told['physicalLocation'] = self._at(spot.file, spot.line, spot.column)
        return told

    def _related(self, finding: Finding) -> list[dict[str, object]]:
        """Where a finding stands in the program that was judged, and the other steps that an event loop stands behind."""
        spots = [s for s in (finding.spot, *(step.spot for step in finding.chain)) if s.program is not None]
        judged = [{'physicalLocation': self._at(self.program, *s.program), 'message': {'text': 'in the program that was judged'}}
                  for s in spots[:1] if s.program is not None]
        return [*judged, *(self._location(s.spot, self._told(s)) for s in finding.also)]

    def _told(self, step: StepTold) -> str:
        """A step without its place."""
        return self._step(step)[0].split(': note: ', 1)[-1]

    def sarif(self, verdict: Verdict) -> str:
        rules = sorted({f.rule for f in verdict.findings})
        results = []
        for finding in verdict.findings:
            steps = [{'location': self._location(s.spot, self._told(s))} for s in finding.chain]
            result: dict[str, object] = {'ruleId': finding.rule, 'level': finding.severity, 'message': {'text': finding.message},
                                         'locations': [self._location(finding.spot, finding.message)]}
            related = self._related(finding)
            if related:
                result['relatedLocations'] = related
            if steps:
                result['codeFlows'] = [{'threadFlows': [{'locations': steps}]}]
            results.append(result)
        run = {'tool': {'driver': {'name': 'gammonfig read', 'rules': [{'id': r} for r in rules]}}, 'results': results,
               'originalUriBaseIds': {'%SRCROOT%': {'uri': 'file://' + quote(self.root) + '/'}},
               'properties': verdict.counts()}
        whole = {'$schema': 'https://json.schemastore.org/sarif-2.1.0.json', 'version': '2.1.0', 'runs': [run]}
        return json.dumps(whole, indent=1, ensure_ascii=False) + '\n'
