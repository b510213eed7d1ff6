"""Which objects a variable may hold, by the place where they are made: the roles.

An element is `('site', key)`, what is made at a place, or `('class', key)`, any object of a class or below it. The analysis goes
over assignments, arguments, returns, members and containers, and doesn't look at their order."""
from __future__ import annotations

from collections import defaultdict, deque
from typing import NamedTuple

from .inner import Inner
from .model import SHARED_LATER, SHARED_ONCE, Value
from .qtmodel import GIVING, QtModel
from .whole import Whole


class Element(NamedTuple):
    kind: str
    key: str


# What has the functions without an object: `splitting.py` has one for each file.
FREE = Element('free', 'Functions')


class Objects:
    def __init__(self, whole: Whole, qt: QtModel, roles: str) -> None:
        self.whole, self.qt, self.roles = whole, qt, roles
        self.outside = self._called_from_outside()
        self.senders = self._senders()
        self.may: dict[str, frozenset[Element]] = {}
        self.held: dict[Element, set[Element]] = defaultdict(set)
        self.held_by: dict[str, set[Element]] = defaultdict(set)
        self._elements: dict[tuple[Value, str], frozenset[Element]] = {}
        self._stands_for: dict[str, Element] = {}
        self.role_of: dict[str, str] = {}
        self.roles_of: dict[str, list[str]] = defaultdict(list)
        self.inner = Inner(self)
        self._solve()
        if self.inner.is_unclear():
            self.may.clear()
            self.held.clear()
            self.held_by.clear()
            self._solve()
        self.inner.make_all(Element)
        self._gather_roles()

    def _called_from_outside(self) -> set[str]:
        """Functions that others than the code that was read may call: slots, and what overrides a virtual function of Qt."""
        whole, outside = self.whole, set()
        for key, function in whole.functions.items():
            method = whole.method(key)
            if method is None:
                if function.kind == 'lambda' or function.name == 'main':
                    outside.add(key)
                continue
            if method.kind in ('slot', 'invokable') or (method.virtual and self._overrides_qt(key)):
                outside.add(key)
        for connect in whole.connects:
            if connect.slot.kind in ('method', 'static', 'free'):
                outside.add(connect.slot.key)
        return outside

    def _overrides_qt(self, key: str) -> bool:
        whole, method = self.whole, self.whole.method(key)
        return method is not None and any(not whole.is_inside(a) and whole.with_signature(a, method.shown) is not None
                                          for a in whole.above(whole.class_of(key))[1:])

    def _senders(self) -> dict[str, list[tuple[Value, str]]]:
        """By a slot the senders that are connected to it, where it is known by its name or as a member."""
        found: dict[str, list[tuple[Value, str]]] = defaultdict(list)
        inside: dict[str, list[str]] = defaultdict(list)
        for usr, (cls, method) in self.whole.methods.items():
            if self.whole.is_inside(cls):
                inside[method.name].append(usr)
        for connect in self.whole.connects:
            slot, sender = connect.slot, (connect.sender, connect.sender_class)
            if slot.kind in ('method', 'bound'):
                found[slot.key].append(sender)
            elif slot.kind == 'text':
                name = slot.name.split('(')[0].strip()
                for usr in inside[name]:
                    found[usr].append(sender)
        return found

    def _sender(self, value: Value) -> set[Element]:
        """What sender() may be in a slot: the senders that are connected to it, if they are of the class."""
        found: set[Element] = set()
        for sender, cls in self.senders.get(value.key, ()):
            if sender.kind == 'sender':
                return self._class(value.cls)
            found |= self.resolve(sender) or self._class(cls)
        fit = {e for e in found if self.whole.is_a(self.cls(e), value.cls)}
        return fit if fit and len(fit) == len(found) else self._class(value.cls)

    def _solve(self) -> None:
        """To the fixed point: a variable is looked at again when one changes that it depends on."""
        waiting, contents = self._dependents()
        todo = deque(self.whole.flows)
        while todo:
            queued = set(todo)
            while todo:
                key = todo.popleft()
                queued.discard(key)
                new = set(self.may.get(key, ()))
                count = len(new)
                for value in self.whole.flows[key]:
                    new |= self._fitting(key, self.resolve(value))
                if len(new) != count:
                    self.may[key] = frozenset(new)
                    more = [k for k in waiting.get(key, ()) if k not in queued]
                    todo.extend(more)
                    queued.update(more)
            todo.extend(contents if self._hold() else ())

    def _fitting(self, key: str, found: set[Element]) -> set[Element]:
        """Those that a variable may hold by its declaration: of its class or below. What is only known to be of a class above is any of
        its class."""
        cls = self.whole.declared.get(key, '')
        if cls not in self.whole.classes:
            return found
        fit = {e for e in found if self.whole.is_a(self.cls(e), cls)}
        above = any(e.kind == 'class' and self.whole.is_a(cls, e.key) for e in found - fit)
        return fit | {Element('class', cls)} if above else fit

    def _dependents(self) -> tuple[dict[str, list[str]], list[str]]:
        """By a variable or result those that depend on it; and those that depend on what widgets hold."""
        waiting: dict[str, list[str]] = defaultdict(list)
        contents: list[str] = []
        for key, values in self.whole.flows.items():
            sources: set[str] = set()
            for value in values:
                self._sources(value, sources)
            for source in sorted(sources):
                (waiting[source] if source else contents).append(key)
        return waiting, contents

    def _sources(self, value: Value, found: set[str]) -> None:
        """What a value depends on; '' stands for what widgets hold."""
        if value.kind == 'variable':
            found.add(value.key)
        elif value.kind == 'result':
            found.update('R:' + usr for usr in self.results(value.key))
        elif value.kind in ('content', 'given'):
            found.add('')
        elif value.kind == 'sender' and ('S:' + value.key) not in found:
            found.add('S:' + value.key)
            for sender, _ in self.senders.get(value.key, ()):
                self._sources(sender, found)
        for part in value.parts:
            self._sources(part, found)

    def _hold(self) -> bool:
        """What is put into a widget it holds; whether there is more than before."""
        changed = False
        for holder, value in self.whole.contents:
            inner = self.resolve(value, True)
            for element in self.resolve(holder, True):
                if not inner <= self.held[element]:
                    self.held[element] |= inner
                    self.held_by[self.cls(element)] |= inner
                    changed = True
        return changed

    # What an expression may be

    def cls(self, element: Element) -> str:
        return self.whole.sites[element.key].cls if element.kind == 'site' else element.key

    def resolve(self, value: Value, final: bool = False) -> set[Element]:
        """The elements of a value; where `final`, a class stands for what nothing is known of."""
        kind = value.kind
        if kind == 'site':
            site = self.whole.sites.get(value.key)
            return {Element('site', value.key)} if site is not None and site.cls in self.whole.classes else set()
        if kind in ('this', 'class', 'member', 'static'):
            return self._class(value.cls)
        if kind == 'sender':
            return self._sender(value)
        if kind == 'variable':
            return self._variable(value, final)
        if kind == 'result':
            return self._result(value, final)
        if kind == 'cast':
            return self._cast(value, final)
        if kind == 'content' or (kind == 'given' and self._is_given_away(value)):
            return self._content(value, final)
        if kind == 'given':
            inner = self.inner.given(value) if value.key in GIVING else None
            return inner if inner is not None else self._class(value.cls)
        found: set[Element] = set()
        for part in value.parts if kind == 'any' else ():
            found |= self.resolve(part, final)
        return found

    def _is_given_away(self, value: Value) -> bool:
        """Whether a function of Qt gives away what the object has owned."""
        classes = {self.cls(e) for e in self.resolve(value.parts[0], True)}
        entries = [self.qt.entry(cls, value.key) for cls in classes]
        return any(found is not None and 'result' in found[1].takes for found in entries)

    def _class(self, key: str) -> set[Element]:
        return {Element('class', key)} if key in self.whole.classes else set()

    def _variable(self, value: Value, final: bool) -> set[Element]:
        found = set(self.may.get(value.key, ()))
        if value.key.startswith('P:') and value.key[2:].rsplit(':', 1)[0] in self.outside:
            found |= self._class(value.cls)
        if not found and final and value.key not in self.whole.flows:
            return self._class(value.cls)
        return found

    def results(self, usr: str) -> list[str]:
        """The functions whose result a call may have: of a virtual one those that override it too."""
        method = self.whole.method(usr)
        if method is None or not method.virtual:
            return [usr]
        return [usr, *(over for _, over in self.whole.overriders(self.whole.class_of(usr), method.shown))]

    def _result(self, value: Value, final: bool) -> set[Element]:
        found: set[Element] = set()
        for usr in self.results(value.key):
            found |= self.may.get('R:' + usr, frozenset())
        if not found and final and 'R:' + value.key not in self.whole.flows:
            return self._class(value.cls)
        return found

    def _cast(self, value: Value, final: bool) -> set[Element]:
        inner, target = self.resolve(value.parts[0], final), self._class(value.cls)
        if not inner:
            return target if final or value.parts[0].kind in ('none', 'class', 'given') else set()
        found = set()
        for element in inner:
            if self.whole.is_a(self.cls(element), value.cls):
                found.add(element)
            elif element.kind == 'class' or self.whole.name(self.cls(element)) == 'anonymous':
                found |= target
        return found or (target if final else set())

    def _content(self, value: Value, final: bool) -> set[Element]:
        found: set[Element] = set()
        for element in self.resolve(value.parts[0], True):
            cls = self.cls(element)
            held = set(self.held.get(element, ()))
            for above in self.whole.above(cls):
                held |= self.held.get(Element('class', above), set())
            for below in self.whole.below(cls) if element.kind == 'class' else ():
                held |= self.held_by.get(below, set())
            found |= held
        fit = {e for e in found if not value.cls or self.whole.is_a(self.cls(e), value.cls) or self.whole.is_a(value.cls, self.cls(e))}
        return fit if fit or not final else self._class(value.cls)

    def is_null(self, value: Value, seen: frozenset[str] = frozenset()) -> bool:
        """Whether all that is known of a value is that it may be null."""
        if value.kind in ('variable', 'result'):
            key = value.key if value.kind == 'variable' else 'R:' + value.key
            flows = self.whole.flows.get(key)
            return key in seen or (flows is not None and all(self.is_null(f, seen | {key}) for f in flows))
        return value.kind == 'null' or (value.kind in ('any', 'cast') and all(self.is_null(part, seen) for part in value.parts))

    def is_shared_later(self, element: Element) -> bool:
        """Whether shared pointers leave the deletion of what is made at a place to the event loop."""
        later, once = (self.may.get(key, frozenset()) for key in (SHARED_LATER, SHARED_ONCE))
        return element.kind == 'site' and element in later and element not in once

    def elements(self, value: Value, fallback: str = '') -> frozenset[Element]:
        """The elements of a value, where those of a class cover the places below it."""
        known = self._elements.get((value, fallback))
        if known is None:
            known = self._elements[(value, fallback)] = frozenset(self._elements_of(value, fallback))
        return known

    def _elements_of(self, value: Value, fallback: str) -> set[Element]:
        found = self.resolve(value, True)
        if not found and fallback in self.whole.classes and not self.is_null(value):
            found = {Element('class', fallback)}
        tops = {e.key for e in found if e.kind == 'class'}
        found = {e for e in found if not any(a in tops and e != Element('class', a) for a in self.whole.above(self.cls(e)))}
        return {Element('class', self.cls(e)) for e in found} if self.roles == 'class' else found

    # Roles

    def _gather_roles(self) -> None:
        """A role for each place, or for all places of one class that one member holds; a class with one role has none."""
        whole = self.whole
        groups: dict[tuple[str, ...], list[str]] = defaultdict(list)
        for key, site in whole.sites.items():
            if site.cls in whole.classes:
                apart = (site.cls, key) if self.roles == 'site' else (site.cls, site.within, site.hint)
                groups[apart].append(key)
        for keys in groups.values():
            first = min(keys)
            self.roles_of[whole.sites[first].cls].append(first)
            for key in keys:
                self.role_of[key] = first

    def role(self, element: Element) -> Element:
        """The element that stands for one in the program: of a class, or of the places that make a role."""
        if element.kind != 'site':
            return element
        known = self._stands_for.get(element.key)
        if known is None:
            known = self._stands_for[element.key] = self._role(element)
        return known

    def _role(self, element: Element) -> Element:
        cls, whole = self.cls(element), self.whole
        if self.roles == 'class':
            return Element('class', cls)
        others = [b for b in whole.below(cls) if b != cls]
        if len(self.roles_of[cls]) == 1 and not any(self.roles_of.get(b) or whole.is_inside(b) for b in others):
            return Element('class', cls)
        return Element('site', self.role_of[element.key])
