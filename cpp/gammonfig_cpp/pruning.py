"""What is left out of the program: members that lead to nothing, and what only they need."""
from __future__ import annotations

from collections import defaultdict

from .graphs import parts
from .objects import FREE, Element
from .program import WAYS, Key, Member, Program, Step, Wire
from .relations import Related

# Widgets that are hardly a parent: where all that is known of a parent is QWidget, these aren't taken for it.
LEAVES = set('QLabel QPushButton QToolButton QCheckBox QRadioButton QLineEdit QSpinBox QDoubleSpinBox QComboBox QSlider QProgressBar '
             'QLCDNumber QDial QScrollBar QTimeEdit QDateEdit QDateTimeEdit QAction'.split())


class Pruning:
    def __init__(self, program: Program, lean: bool) -> None:
        self.program, self.lean = program, lean
        self.whole, self.objects = program.whole, program.objects
        # What an element owns, and what all elements of a class own.
        self.owned: dict[Element, set[Element]] = defaultdict(set)
        self.owned_by: dict[str, set[Element]] = defaultdict(set)
        for owner, child, _ in program.owners():
            self.owned[owner].add(child)
            self.owned_by[self.objects.cls(owner)].add(child)
        self._sites: dict[str, list[str]] = defaultdict(list)
        for site, role in self.objects.role_of.items():
            self._sites[role].append(site)
        self._closures: dict[Element, set[Element]] = {}

    def closure(self, element: Element) -> set[Element]:
        """The elements that may die with one."""
        if element not in self._closures:
            self._close(element)
        return self._closures[element]

    def _close(self, element: Element) -> None:
        """Finds the closures of an element and of all below it: those that own one another have one set together."""
        graph, todo = dict[Element, set[Element]](), [element]
        while todo:
            at = todo.pop()
            if at not in graph and at not in self._closures:
                graph[at] = self._children(at)
                todo += graph[at]
        for part in parts(graph):
            below = {to for node in part for to in graph[node]} - part
            whole = part.union(*{id(known): known for known in (self._closures[to] for to in below)}.values())
            self._closures.update(dict.fromkeys(part, whole))

    def _children(self, element: Element) -> set[Element]:
        if element == FREE:
            return set()
        cls, found = self.objects.cls(element), set(self.owned.get(element, ()))
        for site in self._sites[element.key] if element.kind == 'site' else ():
            found |= self.owned.get(Element('site', site), set())
        for above in self.whole.above(cls):
            if above == cls or element.kind == 'class' or self.whole.name(cls) not in LEAVES:
                found |= self.owned.get(Element('class', above), set())
        for below in self.whole.below(cls) if element.kind == 'class' else ():
            found |= self.owned_by.get(below, set())
        return found

    def all(self) -> None:
        program = self.program
        for member in program.members.values():
            member.steps = unique(member.steps)
        if self.lean:
            self._only_what_leads_on()
        else:
            self._only_what_is_connected()
        self._own()

    def _only_what_is_connected(self) -> None:
        """Takes out what leads to nothing and what nothing leads to."""
        program = self.program
        used = self._used(set(program.members))
        heard = {w.signal for w in program.wires}
        program.members = {k: m for k, m in program.members.items()
                           if k in used or m.steps or m.notify is not None or (m.kind == 'signal' and k in heard)}

    def _only_what_leads_on(self) -> None:
        """Takes out what leads to nothing, though something may lead to it."""
        program = self.program
        live = set(program.members)
        while True:
            heard = {w.signal for w in program.wires}
            dead = {key for key in live if not self._is_live(program.members[key], live, heard)}
            if not dead:
                break
            live -= dead
            self._drop(live)
        self._drop_loose(live)
        program.members = {key: m for key, m in program.members.items() if key in live}

    def _is_live(self, member: Member, live: set[Key], heard: set[Key]) -> bool:
        """Whether a member may lead to something: also to what the event loop that it runs delivers."""
        if member.kind == 'slot':
            return bool(member.steps) or member.key in self.program.modal
        if member.kind == 'property':
            return member.notify in live or any(member.key in b.sources or member.key == b.target for b in self.program.bound)
        return member.key in heard

    def _drop(self, live: set[Key]) -> None:
        """Takes out what leads to what is dead."""
        program = self.program
        before = len(program.wires)
        program.wires = [w for w in program.wires if w.method in live and w.signal in live]
        program.counts['connections to what leads to nothing'] += before - len(program.wires)
        senders: dict[Key, set[Element]] = defaultdict(set)
        for wire in program.wires:
            senders[wire.signal].add(wire.sender)
        heard = {signal: Related(self.objects, who) for signal, who in senders.items()}
        seen = self._deaths_that_are_seen(live)
        for key in live:
            member = program.members[key]
            member.steps = [s for s in member.steps if self._stays(s, member, live, heard, seen)]

    @staticmethod
    def _stays(step: Step, member: Member, live: set[Key], heard: dict[Key, Related], seen: set[Element]) -> bool:
        if step.kind == 'delete':
            return (step.on or member.owner) in seen
        if step.member not in live:
            return False
        if step.kind != 'emit':
            return True
        return step.member in heard and heard[step.member].has(member.owner)

    def _deaths_that_are_seen(self, live: set[Key]) -> set[Element]:
        """What is deleted of which something may have a slot that runs, or somebody who listens."""
        members = [self.program.members[key] for key in live]
        dying = {s.on or m.owner for m in members for s in m.steps if s.kind == 'delete'} - {FREE}
        if any(w.signal[0] == 'signal' and self.whole.name(self.whole.class_of(w.signal[1])) == 'QObject' for w in self.program.wires):
            return dying
        acting = Related(self.objects, {m.owner for m in members if m.kind == 'slot'})
        return {d for d in dying if acting.has_any(self.closure(d))}

    def _drop_loose(self, live: set[Key]) -> None:
        """Takes out what nothing leads to, where it can't be the slot of a deletion either."""
        ends = self._to_deletion(live)
        while True:
            used = self._used(live)
            loose = {key for key in live if key not in used and key not in ends}
            if not loose:
                return
            live -= loose
            self.program.wires = [w for w in self.program.wires if w.signal in live and w.method in live]

    def _used(self, live: set[Key]) -> set[Key]:
        used: set[Key] = set()
        for key in live:
            member = self.program.members[key]
            used |= {s.member for s in member.steps if s.member}
            if member.notify is not None:
                used.add(member.notify)
        for wire in self.program.wires:
            used |= {wire.method} | ({wire.signal} if not self.lean or wire.signal[0] == 'signal' else set())
        for bound in self.program.bound:
            used |= {bound.target, *bound.sources}
        return used

    def _to_deletion(self, live: set[Key]) -> set[Key]:
        """The members that may lead to a deletion."""
        before: dict[Key, set[Key]] = defaultdict(set)
        for key in live:
            member = self.program.members[key]
            for step in member.steps:
                before[step.member].add(key)
            if member.notify is not None:
                before[member.notify].add(key)
        for wire in self.program.wires:
            before[wire.method].add(wire.signal)
        found = {key for key in live if any(s.kind == 'delete' for s in self.program.members[key].steps)}
        todo = list(found)
        while todo:
            new = before[todo.pop()] - found
            found |= new
            todo += new
        return found

    def _own(self) -> None:
        """The owners that matter: those of what may be deleted."""
        program = self.program
        targets = {s.on or m.owner for m in program.members.values() for s in m.steps if s.kind == 'delete'}
        dying = Related(self.objects, {x for t in targets for x in self.closure(t)})
        acting = Related(self.objects, {m.owner for m in program.members.values()})
        kept: set[tuple[Element, Element]] = set()
        for owner, child, place in program.owners():
            if not dying.has(owner) or (self.lean and not acting.has_any(self.closure(child))):
                continue
            a, b = program.role(owner), program.role(child)
            if (a, b) not in kept:
                kept.add((a, b))
                program.owns.append((a, b, place))


def unique(steps: list[Step]) -> list[Step]:
    """Each step once, where it stands first."""
    found: dict[tuple[object, ...], Step] = {}
    for step in steps:
        known = found.setdefault(step.same(), step)
        known.is_part = known.is_part and step.is_part
    return list(found.values())


def unique_wires(wires: list[Wire]) -> list[Wire]:
    found: dict[tuple[object, ...], Wire] = {}
    for wire in wires:
        known = found.setdefault((wire.sender, wire.signal, wire.receiver, wire.method, wire.how), wire)
        known.way, known.once = max(known.way, wire.way, key=WAYS.index), known.once and wire.once
    return list(found.values())
