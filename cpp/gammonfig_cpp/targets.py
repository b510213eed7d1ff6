"""What a slot given to `connect`, `invokeMethod` or a timer may be: roles, each with a member."""
from __future__ import annotations

import re

from .calling import Calling
from .model import Named, Value
from .objects import FREE, Element
from .program import Key, Program

Target = tuple[Element, Key | None]


class Targets:
    """A target without a key is known, and does nothing."""

    def __init__(self, program: Program, calling: Calling) -> None:
        self.program, self.calling = program, calling
        self.whole, self.objects = program.whole, program.objects

    def named(self, named: Named, seen: tuple[str, ...] = ()) -> list[Named]:
        """What a parameter that holds a function may be."""
        if named.kind != 'parameter':
            return [named]
        if named.key in seen:
            return []
        return [x for n in self.whole.callables.get(named.key, ()) for x in self.named(n, seen + (named.key,))]

    def is_known(self, named: Named, seen: frozenset[str] = frozenset()) -> bool:
        """Whether all is known that a variable holds which is called: not so of a parameter that others than what was read hand over."""
        if named.kind != 'parameter' or named.key in seen:
            return named.kind != 'unknown'
        function = named.key[2:].rsplit(':', 1)[0] if named.key.startswith('P:') else ''
        method, held = self.whole.method(function), self.whole.callables.get(named.key, [])
        from_outside = function in self.objects.outside or method is not None and method.virtual
        return bool(held) and not from_outside and all(self.is_known(one, seen | {named.key}) for one in held)

    def of(self, named: Named, on: Value, fallback: str) -> list[Target]:
        kind, program = named.kind, self.program
        if kind == 'parameter':
            return [t for one in self.named(named) for t in self.of(one, on, fallback)]
        if kind == 'bound':
            return self.of(Named('method', named.key, named.cls, named.name), named.on, named.cls)
        if kind in ('lambda', 'free', 'static'):
            if named.key in self.whole.functions:
                key = program.function(named.key)
                return [(program.members[key].owner, key)]
            return [(FREE, None)] if kind != 'lambda' else []
        found = sorted(self.objects.elements(on, fallback))
        if kind == 'method':
            return [t for e in found for t in self._method(e, named)]
        if kind in ('text', 'name'):
            return [t for e in found for t in self._text(e, named.name, named.key == 'slot')]
        return []

    def _method(self, element: Element, named: Named) -> list[Target]:
        program, whole = self.program, self.whole
        method = whole.method(named.key)
        if method is None:
            return []
        fit = whole.is_a(self.objects.cls(element), named.cls)
        element = element if fit else Element('class', named.cls)
        if method.kind == 'signal':
            return [(program.role(element), program.signal(named.key))]
        reached = self.calling.reached(named.key, method.shown, named.name, {element}, method.virtual) or [(element, named.key)]
        return [t for e, usr in reached for t in self._one(e, usr, named.name)]

    def _one(self, element: Element, usr: str, name: str) -> list[Target]:
        """A function as a slot."""
        program, whole = self.program, self.whole
        method = whole.method(usr)
        if method is not None and method.kind == 'signal':
            return [(program.role(element), program.signal(usr))]
        if usr in whole.functions:
            return [(program.role(element), program.function(usr))]
        if not whole.is_inside(whole.class_of(usr)):
            return [(program.role(element), self.calling.target(element, usr, name))]
        if method is not None and not method.pure:
            return [(program.role(element), program.without_body(usr))]
        return []

    def _text(self, element: Element, signature: str, is_slot: bool) -> list[Target]:
        whole = self.whole
        found = re.match(r'\s*(\w+)\s*\((.*)\)', signature)
        name, types = (found[1], found[2]) if found else (signature, '')
        cls = self.objects.cls(element)
        usr = whole.slot(whole.above(cls), name, types, is_slot)
        if usr is not None:
            return self._hit(element, usr, name)
        out = []
        for below in whole.below(cls)[1:] if element.kind == 'class' else ():
            other = whole.slot([below], name, types, is_slot)
            if other is not None:
                out += self._hit(Element('class', below), other, name)
        return out

    def _hit(self, element: Element, usr: str, name: str) -> list[Target]:
        method = self.whole.method(usr)
        if method is None:
            return []
        if method.virtual:
            reached = self.calling.reached(usr, method.shown, name, {element}, True)
            return [t for e, u in reached for t in self._one(e, u, name)]
        return self._one(element, usr, name)
