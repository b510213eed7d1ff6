"""What the reader adds to a verdict: its own warnings, why a finding may be less than an error, and one finding for each set of circles
through an event loop."""
from __future__ import annotations

import json
from dataclasses import dataclass, field
from typing import Any

from .apart import members_in, names
from .errors import ReadError
from .report import SEVERITIES, Finding, Spot, StepTold, Verdict

RESTS = ('each step hands on the value that was set, or asks for it, and only a change is told: this comes to rest, where the setters '
         'that were read as properties compare; that is not proved')
CLIMBS = ('each step stays with its object, or goes on to one that holds it, as up a tree: this ends at the top, unless objects hold '
          'one another; that is not proved')
BLOCKED = ('the signals of an object on it are blocked by the one that begins this, so that it ends there, unless another object of the role '
           'emits them; that is not proved')
DISCONNECTED = ('a connection on it is taken away by the one that begins this, so that it ends there, unless another object of the role is '
                'connected too; that is not proved')
ONCE = 'a step of it Qt takes no second time before it has come back from it, so that this ends there; that is not proved'
OF_OWN = ('what is deleted is held by a member of the object that deletes it: another object of its class, unless it owns itself; '
          'that is not proved')
DIES_ONCE = 'an object dies on each way round, and each dies once: this goes on only while others are made; that is not proved'
# The rule of wires that another one covers: here each is of the reader's writing, as one of some role and one of any object.
COVERED = 'wire-unused'
# The rule of programs without declarations: here nothing that was read leads to anything.
EMPTY = 'empty-program'
# The rule of slots that run an event loop, in which they may be called again: each way ends with such a slot.
RE_ENTRY = 're-entry'
# The rules whose findings end where they begin.
CIRCLES = ('cycle', 'queued-cycle', 'settling-cycle')


@dataclass
class Warnings:
    """What the reader warned of; the circles that it takes to come to rest, and to go up a tree; where objects delete what they own; what
    is on circles only by the death of an object; the sets of members that lead to one another through an event loop; what Qt itself
    posts, and which steps it doesn't take again before it has come back; whether the program is over the standard limits; by Qt's functions of
    items the lists that they are in; circles beside those through blocked signals, each with the members of its set; and the sets of members
    that lead to one another, but end with an object that dies on the way."""
    found: list[dict[str, Any]]
    resting: list[set[str]]
    climbing: list[set[str]]
    own: set[tuple[str, int, int]]
    by_death: set[str]
    circling: list[set[str]]
    by_qt: set[str]
    once: set[tuple[str, str]]
    wide: bool
    lists: dict[str, list[str]] = field(default_factory=dict)
    unblocked: list[tuple[set[str], dict[str, Any]]] = field(default_factory=list)
    ending: list[set[str]] = field(default_factory=list)

    @staticmethod
    def read(path: str) -> Warnings:
        try:
            with open(path, encoding='utf-8') as file:
                told = json.load(file)
            own = {(str(file), int(line), int(column)) for file, line, column in told['own']}
            resting = [set(names) for names in told['resting']]
            climbing = [set(names) for names in told['climbing']]
            circling, ending = ([set(names) for names in told[word]] for word in ('circling', 'ending'))
            once = {(str(one), str(two)) for one, two in told['once']}
            lists = {str(name): [str(it) for it in those] for name, those in told['lists'].items()}
            unblocked = [(set(each['members']), dict(each['finding'])) for each in told['unblocked']]
            return Warnings(told['findings'], resting, climbing, own, set(told['by_death']), circling, set(told['by_qt']), once, bool(told['wide']), lists,
                            unblocked, ending)
        except (OSError, ValueError, KeyError, TypeError, AttributeError) as wrong:
            raise ReadError(f'{path}: the warnings can\'t be read: read the application again') from wrong

    def add_to(self, verdict: Verdict) -> None:
        """Adds the warnings, but for slots that the verdict has itself (of circles one for each set stays); and tells of circles that come to rest. That what Qt posts to an
        object is dropped with it isn't told: so Qt does it with each event; nor are wires that another covers, and that nothing is left to
        judge."""
        verdict.findings = [f for f in verdict.findings if f.rule not in (COVERED, EMPTY) and not self._ends(f)
                            and (f.rule != 'deletes-connected' or not {s.from_ for s in f.chain} & self.by_qt)]
        self._add_unblocked(verdict)
        entered = {f.chain[-1].to for f in verdict.findings if f.rule == RE_ENTRY and f.chain}
        for finding in verdict.findings:
            names = {s.from_ for s in finding.chain}
            if finding.rule == 'cycle' and any(names <= known for known in self.resting):
                finding.note, finding.severity = RESTS, 'note'
            elif finding.rule == 'cycle' and any(names <= known for known in self.climbing):
                finding.note, finding.severity = CLIMBS, 'note'
            elif finding.rule == 'cycle' and self._is_blocked(finding.chain):
                finding.note, finding.severity = BLOCKED, 'note'
            elif finding.rule == 'cycle' and _is_disconnected(finding.chain):
                finding.note, finding.severity = DISCONNECTED, 'note'
            elif finding.rule == 'cycle' and any((s.from_, s.to) in self.once for s in finding.chain):
                finding.note, finding.severity = ONCE, 'note'
            elif finding.rule == 'destroy-path' and self._is_of_own(finding):
                finding.note, finding.severity = OF_OWN, 'note'
        # Of what is Qt's alone, and ends by itself, nobody has to know.
        verdict.findings = [f for f in verdict.findings if f.note != ONCE or any(s.spot.file for s in f.chain)]
        verdict.findings += [f for f in map(warning_of, self.found) if f.rule != RE_ENTRY or f.chain[-1].to not in entered]
        for finding in verdict.findings:
            if finding.rule == 'queued-cycle' and finding.chain and all(s.from_ in self.by_death for s in finding.chain):
                finding.note, finding.severity = DIES_ONCE, 'note'
            elif finding.rule == 'queued-cycle' and self._is_blocked(finding.chain):
                finding.note, finding.severity = BLOCKED, 'note'
        self._one_for_each_set(verdict)
        self._one_for_each_tree(verdict)
        _one_for_each_way(verdict)
        verdict.sort()

    def _add_unblocked(self, verdict: Verdict) -> None:
        """Adds circles without blocked signals of sets of which the checker told none, though it told of circles."""
        told = [{s.from_ for s in f.chain} for f in verdict.findings if f.rule == 'cycle']
        verdict.findings += [warning_of(finding) for members, finding in self.unblocked if told and not any(names <= members for names in told)]

    def _is_blocked(self, chain: list[StepTold]) -> bool:
        """Whether one step of a circle calls an object whose signals are blocked meanwhile, or an item of one, and a later one is a connection
        to a signal of it, which no event loop stands before."""
        for at, step in enumerate(chain):
            if step.is_later or not any(c.startswith('blocked by') for c in step.spot.conditions):
                continue
            blocked = {step.to.partition('.')[0], *self.lists.get(step.to, ())}
            for later in chain[at + 1:] + chain[:at]:
                if later.by == 'wire' and later.from_.partition('.')[0] in blocked:
                    return True
                if later.is_later:
                    break
        return False

    def _ends(self, finding: Finding) -> bool:
        """Whether a circle through an event loop ends with an object that dies on it."""
        names = {step.from_ for step in finding.chain}
        return finding.rule == 'queued-cycle' and bool(names) and any(names <= known for known in self.ending)

    def _is_of_own(self, finding: Finding) -> bool:
        """Whether a slot deletes by a statement of its own what its object owns: no other object stands between."""
        spot = finding.chain[0].spot if len(finding.chain) == 1 else None
        return spot is not None and (spot.file, spot.line, spot.column) in self.own

    def _one_for_each_set(self, verdict: Verdict) -> None:
        """Of the circles through an event loop in one set of members the gravest and shortest is told, with what else in it goes through
        one: whoever ends the set has to know all of that."""
        groups: dict[int, list[Finding]] = {}
        for at, finding in enumerate(verdict.findings):
            if finding.rule == 'queued-cycle':
                names = {name for step in finding.chain for name in (step.from_, step.to)}
                sets = (number for number, circle in enumerate(self.circling) if not names.isdisjoint(circle))
                groups.setdefault(next(sets, len(self.circling) + at), []).append(finding)
        chosen = [_chosen(group) for group in groups.values()]
        verdict.findings = [f for f in verdict.findings if f.rule != 'queued-cycle' or any(f is one for one in chosen)]


    def _one_for_each_tree(self, verdict: Verdict) -> None:
        """Of the circles in one set of members that go up a tree the shortest is told."""
        told: dict[int, Finding] = {}
        for finding in (f for f in verdict.findings if f.note == CLIMBS):
            names = {step.from_ for step in finding.chain}
            number = next(n for n, known in enumerate(self.climbing) if names <= known)
            told[number] = min(told.get(number, finding), finding, key=lambda f: len(f.chain))
        verdict.findings = [f for f in verdict.findings if f.note != CLIMBS or any(f is one for one in told.values())]


def _one_for_each_way(verdict: Verdict) -> None:
    """Of findings that go by the same lines of C++, with objects of other roles or by other ways in Qt, one is told: whoever mends it mends them
    all."""
    told: dict[object, list[Finding]] = {}
    for at, finding in enumerate(verdict.findings):
        spots = [(s.spot.file, s.spot.line, s.spot.column, s.is_later) for s in finding.chain if s.spot.file]
        if finding.rule in CIRCLES:
            spots = min((spots[i:] + spots[:i] for i in range(len(spots))), default=spots)
        told.setdefault((finding.rule, finding.severity, finding.note, tuple(spots) or at), []).append(finding)
    for first, *others in told.values():
        if others:
            first.message += f'; {len(others)} more by the same lines'
    verdict.findings = [group[0] for group in told.values()]


def _is_disconnected(chain: list[StepTold]) -> bool:
    """Whether one step of a circle runs while a connection is taken away that another one goes by."""
    for at, step in enumerate(chain):
        for members in (members_in(c) for c in step.spot.conditions if c.startswith('disconnected by')):
            for other in chain[at + 1:] + chain[:at] if members else ():
                if other.by == 'wire' and all(names(name, member) for name, member in zip((other.from_, other.to), members)):
                    return True
    return False


def _chosen(group: list[Finding]) -> Finding:
    """The finding that is told of a group."""
    chosen = min(group, key=lambda f: (SEVERITIES.index(f.severity), len(f.chain)))
    told = [(s.from_, s.to, s.spot) for s in chosen.chain]
    for step in (s for other in group for s in other.chain if s.is_later):
        if (step.from_, step.to, step.spot) not in told:
            told.append((step.from_, step.to, step.spot))
            chosen.also.append(step)
    return chosen


def warning_of(told: dict[str, Any]) -> Finding:
    def spot(of: dict[str, Any]) -> Spot:
        return Spot(str(of.get('file', '')), int(of.get('line', 0)), int(of.get('column', 0)), str(of.get('words', '')),
                    tuple(of.get('conditions', ())))

    chain = [StepTold(spot(s), str(s['from']), str(s['to']), str(s['by']), str(s['message']), bool(s['queued'])) for s in told['chain']]
    return Finding(spot(told), str(told['rule']), 0, str(told['message']), '', chain, str(told.get('severity', 'warning')))
