"""Signals of objects in others: of those that one owns, and of those that Qt made in it. What is inside an item is so in its widget."""
from __future__ import annotations

from typing import TYPE_CHECKING

from .inner import MODEL, OF_BOXES, OF_ITEMS, Kind
from .model import Connect, Value
from .objects import Element
from .program import Step

if TYPE_CHECKING:
    from .calling import Calling


class Insides:
    def __init__(self, calling: Calling) -> None:
        self.calling = calling
        self.whole, self.objects, self.program = calling.whole, calling.objects, calling.program
        self._unknown: bool | None = None

    def steps(self, element: Element, name: str, lists: list[Element]) -> list[Step]:
        """What a function of Qt tells by a signal of an object inside its own; that of an item, by one inside the widgets that have it."""
        class_name, mark, signal = name.partition('::')
        if not mark:
            return []
        holders = self.calling.items.holders(element, lists)
        found = [step for holder in (holders if holders is not None else [element]) for step in self._in(holder, class_name, signal)]
        return list({step.same(): step for step in found}.values())

    def _in(self, element: Element, class_name: str, signal: str) -> list[Step]:
        """Of those that it owns, and of any of the class where one is connected of which it isn't known where it is made."""
        whole, program, steps = self.whole, self.program, list[Step]()
        kind = next((kind for kind in self.objects.inner.kinds(element) if kind.cls == class_name), None)
        for key in whole.by_name.get(class_name, ()):
            usr = whole.signal(key, signal)
            inner = [o for o in sorted(self.calling.owned(element)) if whole.is_a(self.objects.cls(o), key)]
            if self._is_unknown(key) if kind in OF_ITEMS else self.calling.is_connected(Element('class', key)):
                inner.append(Element('class', key))
            inner += self._made(element, kind, key) if kind is not None else []
            steps += [Step('call', program.emitter(usr), program.role(o)) for o in inner if usr is not None]
        steps += self._told(element, class_name, signal) if kind in OF_BOXES and not steps else []
        return steps + self._wired(element, class_name, signal)

    def _told(self, element: Element, class_name: str, signal: str) -> list[Step]:
        """What a box tells of a line edit in it that nobody asks for."""
        cls = self.objects.cls(element)
        told = [self.whole.signal(cls, wire.member) for wire in self.calling.qt.table.wires
                if (wire.sender, wire.signal, wire.by) == (class_name, signal, '') and self.whole.is_named(cls, wire.receiver)]
        return [Step('call', self.program.emitter(usr), self.program.role(element)) for usr in told if usr is not None]

    def _made(self, element: Element, kind: Kind, cls: str) -> list[Element]:
        """The objects of a class that Qt made in one, where somebody may be connected to them; any, where it isn't known which one it is."""
        inner, own = self.objects.inner, self.objects.inner.of(element, kind)
        if kind in OF_ITEMS:
            those = {it for it, around in inner.pairs(MODEL) if self.whole.is_named(self.objects.cls(around), kind.around)}
            return sorted(those if own is None else those & own)
        heard = [it for it, _ in inner.pairs(kind.cls) if self.calling.is_connected(it)]
        return [it for it in heard if it in own] if own is not None else [Element('class', cls)] if heard else []

    def _wired(self, element: Element, class_name: str, signal: str) -> list[Step]:
        """What Qt itself connects to a signal of an object that it made in this one, as the selection of a view to functions of the view, its
        model, its delegate and its editor."""
        calling, cls, steps = self.calling, self.objects.cls(element), list[Step]()
        wires = [wire for wire in calling.qt.table.wires if (wire.sender, wire.signal, wire.by) == (class_name, signal, '')]
        own = [self.whole.is_named(cls, wire.receiver) for wire in wires]
        is_known = any(self.objects.inner.of(element, kind) for kind in self.objects.inner.kinds(element))
        for wire, is_own in zip(wires, own) if any(own) else ():
            others = calling.sources.in_view(element, wire.receiver) if is_known and not is_own else None
            found = calling.callbacks(element, wire.member if is_own else f'{wire.receiver}::{wire.member}') if others is None else \
                [target for other in others for target in calling.callbacks(other, wire.member)]
            steps += [Step('call', key, on, words=f'Qt connects {signal} to {wire.member}', once=wire.once) for on, key in found]
        return steps

    # Models of items

    def _is_unknown(self, model: str) -> bool:
        """Whether somebody is connected to a model of which nothing is known, and which may be that of a widget with items."""
        if self._unknown is None:
            self._unknown = any(self._is_of_any(connect, model) and self._may_be_own(connect.sender, frozenset())
                                for connect in self.whole.connects)
        return self._unknown

    def _is_of_any(self, connect: Connect, model: str) -> bool:
        """Whether a connection may be to any model."""
        found = [e.key for e in self.objects.elements(connect.sender, connect.sender_class) if e.kind == 'class' and not self.whole.is_inside(e.key)]
        return any(self.whole.is_a(model, cls) or self.whole.is_named(cls, MODEL) for cls in found)

    def _may_be_own(self, value: Value, seen: frozenset[Value]) -> bool:
        """Whether a value may be the model of a widget with items: one that `model()` gave."""
        if value in seen or value.kind in ('site', 'this', 'member', 'static', 'null'):
            return False
        seen |= {value}
        if value.kind in ('any', 'cast') and value.parts:
            return any(self._may_be_own(part, seen) for part in value.parts)
        if value.kind == 'given' and value.key == 'model':
            return self._may_give_own(value.parts[0], seen)
        keys = [value.key] if value.kind == 'variable' else ['R:' + usr for usr in self.objects.results(value.key)] if value.kind == 'result' else []
        flows = [flow for key in keys for flow in self.whole.flows.get(key, ())]
        is_told = value.kind == 'variable' and value.key.startswith('P:') and value.key[2:].rsplit(':', 1)[0] in self.objects.outside
        return is_told or not flows or any(self._may_be_own(flow, seen) for flow in flows)

    def _may_give_own(self, holder: Value, seen: frozenset[Value]) -> bool:
        """Whether `model()` of an object may give the model of a widget with items: it may be one, or may have been handed the model of one."""
        names = {kind.around for kind in OF_ITEMS}
        found = self.objects.elements(holder)
        if not found or any(names & self.whole.names_above(cls) for e in found for cls in ([e.key] if e.kind == 'class' else [])
                            for cls in self.whole.below(cls)):
            return True
        handed = [value for it in self.whole.handed if it.name in ('setModel', 'setSourceModel') for _, value in it.given]
        return any(self._may_be_own(value, seen) for value in handed if self.whole.is_named(value.cls, MODEL))
