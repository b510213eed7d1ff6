"""Connections as wires, or the reason why one has none."""
from __future__ import annotations

import re
from collections import defaultdict
from dataclasses import replace
from typing import Iterable

from .calling import Calling
from .climbing import Holding
from .model import Connect, Forward, Named, Value
from .objects import FREE, Element
from .owning import of_each_object
from .program import Program, Wire
from .relations import Related
from .targets import Target, Targets
from .threads import Threads

Source = tuple[Element, str]


def handed(connect: Connect, call: Forward) -> Connect:
    """A connection of a helper's parameters as one of what a call hands to them."""
    before = f'P:{call.function}:'

    def at(key: str) -> int | None:
        return int(key[len(before):]) if key.startswith(before) and key[len(before):].isdigit() else None

    def named(one: Named) -> Named:
        index = at(one.key) if one.kind == 'parameter' else None
        found = call.named[index] if index is not None and index < len(call.named) else None
        return found or one

    def value(one: Value) -> Value:
        index = at(one.key) if one.kind == 'variable' else None
        return call.values[index] if index is not None and index < len(call.values) else one

    return replace(connect, sender=value(connect.sender), signal=named(connect.signal), receiver=value(connect.receiver),
                   slot=named(connect.slot), place=call.place, function=call.caller)


def together(found: Iterable[list[Wire] | str]) -> list[Wire] | str:
    """All wires; where there are none, the reason of one that has none."""
    wires, reason = list[Wire](), ''
    for one in found:
        if isinstance(one, str):
            reason = one
        else:
            wires += one
    return wires if wires or not reason else reason


class Wires:
    def __init__(self, program: Program, calling: Calling, targets: Targets) -> None:
        self.program, self.calling, self.targets = program, calling, targets
        self.whole, self.objects = program.whole, program.objects
        self.understood = 0
        self.dropped: list[tuple[str, Connect]] = []
        self.of_threads: set[str] = set()
        self.moved: set[Element] = set()
        self.mixed: set[Element] = set()
        self.holding = Holding(program.whole.flows)

    def all(self) -> None:
        for value in self.whole.moved:
            for element in self.objects.elements(value):
                if element.kind == 'site':
                    self.moved |= {element, self.program.role(element)}
        threads = Threads(self.whole, self.objects)
        self.of_threads = threads.signals()
        self._note_made(threads.sites())
        connects = self.whole.connects + self._by_names()
        for connect in connects:
            found = self._forwarded(connect)
            if isinstance(found, str):
                self.dropped.append((found, connect))
            else:
                self.understood += 1
                self.program.wires += found
        self.calling.watched = Related(self.objects, [Element('class', self.objects.cls(w.sender)) for w in self.program.wires
                                                      if w.signal[0] == 'signal'
                                                      and self.whole.name(self.whole.class_of(w.signal[1])) == 'QObject'])

    def _note_made(self, sites: set[str]) -> None:
        """Notes objects that are made in a thread, with their roles; of a role that others have too it isn't known where one lives."""
        by_role: dict[Element, set[str]] = defaultdict(set)
        for key in self.whole.sites if sites else ():
            by_role[self.program.role(Element('site', key))].add(key)
        self.moved |= {Element('site', key) for key in sites} | {role for role, keys in by_role.items() if keys <= sites}
        self.mixed = {role for role, keys in by_role.items() if keys & sites and not keys <= sites}

    # One connection

    def _forwarded(self, connect: Connect, depth: int = 0) -> list[Wire] | str:
        """The wires of a connection; where a helper makes it of what it is handed, those of each call of the helper."""
        keys = [n.key for n in (connect.signal, connect.slot) if n.kind == 'parameter' and n.key.startswith('P:')]
        calls = self.whole.forwards.get(keys[0][2:].rsplit(':', 1)[0], []) if keys and depth < 4 else []
        if calls:
            return together(self._forwarded(handed(connect, call), depth + 1) for call in calls)
        return together(self._connection(one) for one in self._of_each_object(connect))

    def _of_each_object(self, connect: Connect) -> list[Connect]:
        """A connection that a constructor makes between its object and what it is handed, for each object on which it runs."""
        sender, receiver = connect.sender, connect.receiver
        if sender.kind == 'this':
            return [replace(connect, sender=this, receiver=given) for given, this in of_each_object(receiver, sender, self.whole)]
        return [replace(connect, sender=given, receiver=this) for given, this in of_each_object(sender, receiver, self.whole)]

    def _connection(self, connect: Connect) -> list[Wire] | str:
        signals = self.targets.named(connect.signal)
        if connect.signal.kind == 'parameter':
            found = [self._connection(replace(connect, signal=s)) for s in signals]
            wires = [w for f in found if not isinstance(f, str) for w in f]
            return wires or 'the signal is a parameter that nothing is handed to'
        if connect.signal.kind == 'unknown':
            return 'the signal isn\'t understood'
        sources = self._sources(connect)
        if isinstance(sources, str):
            return sources
        if connect.slot.kind == 'unknown':
            return 'the slot isn\'t understood'
        targets = self.targets.of(connect.slot, connect.receiver, connect.receiver_class)
        if not targets:
            return f'no such slot: {connect.slot.name or connect.slot.key}'
        pairs = [(s, t) for s in sources for t in targets]
        if connect.is_same:
            pairs = [pair for s, t in pairs for pair in self._to_itself(s, t)] or pairs
        return [w for s, t in pairs for w in self._wire(connect, s, t)]

    def _to_itself(self, source: Source, target: Target) -> list[tuple[Source, Target]]:
        """The ends of a connection of an object to itself: of what a class of the application connects, as in its constructor, each role has
        both. An override is of the class below."""
        one, other = source[0], target[0]
        if not one.kind == other.kind == 'class' or not self.whole.is_inside(one.key) or not self.whole.is_inside(other.key):
            return [(source, target)] if self.program.role(one) == self.program.role(other) else []
        cls = next((a for a, b in ((other.key, one.key), (one.key, other.key)) if self.whole.is_a(a, b)), None)
        return [((role, source[1]), (role, target[1])) for role in (self._apart(cls) if cls is not None else ())]

    def _apart(self, cls: str) -> list[Element]:
        """The roles of a class and of those below it, where it is known where its own objects are made; else itself."""
        of, below = self.objects.roles_of, self.whole.below(cls)
        if not of.get(cls):
            return [Element('class', cls)]
        made = {self.program.role(Element('site', key)) for it in below for key in of.get(it, ())}
        return sorted(made | {Element('class', it) for it in below if not of.get(it)})

    def _sources(self, connect: Connect) -> list[Source] | str:
        senders = sorted(self.objects.elements(connect.sender, connect.sender_class))
        if not senders:
            return 'the sender isn\'t understood'
        sources: list[Source] = []
        for element in senders:
            found = self._source(element, connect.signal)
            if isinstance(found, str):
                return found
            sources += found
        return sources or f'no such signal: {connect.signal.name or connect.signal.key}'

    def _source(self, element: Element, signal: Named) -> list[Source] | str:
        whole, cls = self.whole, self.objects.cls(element)
        if signal.kind == 'method':
            if not whole.is_signal(signal.key):
                return f'not a signal: {signal.name}'
            return [(element if whole.is_a(cls, signal.cls) else Element('class', signal.cls), signal.key)]
        found = re.match(r'\s*(\w+)\s*\((.*)\)\s*$', signal.name)
        name, types = (found[1], found[2]) if found else (signal.name, None)
        usr = whole.signal(cls, name, types)
        if usr is not None:
            return [(element, usr)]
        out: list[Source] = []
        for below in whole.below(cls)[1:] if element.kind == 'class' else ():
            usr = whole.signal(below, name, types)
            if usr is not None and whole.class_of(usr) == below:
                out.append((Element('class', below), usr))
        return out

    def _wire(self, connect: Connect, source: Source, target: Target) -> list[Wire]:
        element, usr = source
        receiver, key = target
        if key is None:
            self.program.counts['connections to what does nothing'] += 1
            return []
        how = connect.how
        if how == 'auto' and usr in self.of_threads:
            how = 'queued'
            self.program.counts['auto connections that are queued: a thread alone emits'] += 1
        elif how == 'auto' and receiver != FREE and not self.mixed & {element, receiver} and (element in self.moved) != (receiver in self.moved):
            how = 'queued'
            self.program.counts['auto connections that are queued: one end was moved to a thread'] += 1
        signal = self.program.signal(usr)
        return [Wire(self.program.role(element), signal, receiver, self.program.fitting(signal, key), how, connect.place,
                     way=self.holding.way(connect), function=connect.function)]

    # What connects without `connect`

    def _by_names(self) -> list[Connect]:
        """Slots called on_OBJECT_SIGNAL, which setupUi connects."""
        whole = self.whole
        uses = whole.named_slots or any(s.name in ('setupUi', 'connectSlotsByName') for f in whole.functions.values() for s in f.statements)
        named: dict[str, set[str]] = defaultdict(set)
        for value, text in whole.object_names:
            for element in self.objects.elements(value):
                if element.kind == 'site':
                    named[element.key].add(text)
        sites: dict[str, list[str]] = defaultdict(list)
        for key, site in whole.sites.items():
            for name in sorted(named[key] | {site.hint}):
                sites[name].append(key)
        out: list[Connect] = []
        for cls in [c for c in whole.classes.values() if c.inside] if uses else ():
            for usr, method in cls.methods.items():
                if method.kind == 'slot' and method.name.startswith('on_'):
                    out += self._named_slot(cls.key, usr, sites)
        return out

    def _named_slot(self, cls: str, usr: str, sites: dict[str, list[str]]) -> list[Connect]:
        whole, method = self.whole, self.whole.methods[usr][1]
        types = method.shown[method.shown.index('(') + 1:-1]
        out = []
        # An object's name may have underscores: each place where one stands may be the end of it.
        for end in [at for at in range(4, len(method.name)) if method.name[at] == '_']:
            for key in sites.get(method.name[3:end], ()):
                site = whole.sites[key]
                signal = whole.signal(site.cls, method.name[end + 1:], types or None) if site.cls in whole.classes else None
                if signal is not None:
                    out.append(Connect(Value('site', key, site.cls), site.cls, Named('method', signal, whole.class_of(signal)),
                                       Value('class', cls=cls), cls, Named('method', usr, cls, method.name), 'auto', method.place, '', 'name'))
        return out
