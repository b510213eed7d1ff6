"""The facts of all units put together: one list of classes and functions, and what is above and below a class."""
from __future__ import annotations

import re
from collections import Counter, defaultdict, deque
from dataclasses import replace
from functools import cache
from typing import Iterable

from .model import Class, Connect, Construct, Facts, Field, Forward, Function, Handed, Method, Named, Place, Site, Unknown, Value

FOREIGN = 'no class'
# What Q_IMPORT_PLUGIN declares in each file that has it.
OF_MACROS = re.compile(r'Static\w+PluginInstance$')


class Whole:
    def __init__(self, units: Iterable[Facts]) -> None:
        self.classes: dict[str, Class] = {}
        self.functions: dict[str, Function] = {}
        self.sites: dict[str, Site] = {}
        self.fields: dict[str, Field] = {}
        self.getters: dict[str, str] = {}
        self.flows: dict[str, list[Value]] = {}
        self.declared: dict[str, str] = {}
        self.callables: dict[str, list[Named]] = defaultdict(list)
        self.forwards: dict[str, list[Forward]] = defaultdict(list)
        self.connects: list[Connect] = []
        self.owns: list[tuple[Value, Value, Place]] = []
        # What layouts are given: the object around which they lie owns it.
        self.laid: list[tuple[Value, Value, Place]] = []
        self.contents: list[tuple[Value, Value]] = []
        self.handed: list[Handed] = []
        self.constructs: dict[str, list[Construct]] = defaultdict(list)
        self.moved: list[Value] = []
        self.object_names: list[tuple[Value, str]] = []
        self.unknown: list[Unknown] = []
        self.named_slots = False
        # Classes with two declarations, which two programs of one build may have.
        self.twice: dict[str, tuple[Place, Place]] = {}
        self.counts: Counter[str] = Counter()
        self._seen: set[object] = set()
        for facts in units:
            self._add(facts)
        self._index()

    def _add(self, facts: Facts) -> None:
        for key, cls in facts.classes.items():
            known = self.classes.get(key)
            if known is not None and known.defined and cls.defined and cls.inside and not OF_MACROS.match(cls.name):
                one, other = sorted([known.place, cls.place], key=lambda p: (p.file, p.line))
                if (one.file, one.line) != (other.file, other.line):
                    self.twice.setdefault(cls.qualified, (one, other))
            if known is None or (cls.defined and not known.defined):
                self.classes[key] = cls
            elif '>#' in key and not cls.methods.keys() <= known.methods.keys():
                # Each unit tells the functions of an instance of a template that it uses.
                self.classes[key] = replace(known, methods={**known.methods, **cls.methods})
        for key, function in facts.functions.items():
            known_function = self.functions.get(key)
            if known_function is None or len(function.statements) > len(known_function.statements):
                self.functions[key] = function
        self.sites.update(facts.sites)
        self.fields.update(facts.fields)
        self.getters.update(facts.getters)
        self.declared.update(facts.declared)
        for key, value in facts.flows:
            if self._is_new(('flow', key, value)):
                self.flows.setdefault(key, []).append(value)
        self._add_lists(facts)
        self.named_slots = self.named_slots or facts.named_slots
        self.counts['disconnects'] += facts.disconnects

    def _add_lists(self, facts: Facts) -> None:
        for connect in facts.connects:
            if self._is_new(('connect', connect.place.file, connect.place.line, connect.place.column, connect.by, connect.slot, connect.function)):
                self.connects.append(connect)
        self.owns += [o for o in facts.owns if self._is_new(('owns', o))]
        self.handed += [h for h in facts.handed if self._is_new(('handed', h))]
        self.contents += [c for c in facts.contents if self._is_new(('content', c))]
        self.moved += [m for m in facts.moved if self._is_new(('moved', m))]
        self.object_names += [n for n in facts.object_names if self._is_new(('name', n))]
        self.unknown += [u for u in facts.unknown if self._is_new(('unknown', u))]
        for construct in facts.constructs:
            if self._is_new(('construct', construct)):
                self.constructs[construct.constructor or construct.on.cls].append(construct)
        for forward in facts.forwards:
            if self._is_new(('forward', forward)):
                self.forwards[forward.function].append(forward)
        for key, named in facts.callables:
            if self._is_new(('callable', key, named)):
                self.callables[key].append(named)

    def _is_new(self, thing: object) -> bool:
        if thing in self._seen:
            return False
        self._seen.add(thing)
        return True

    def _index(self) -> None:
        self._seen.clear()
        self.by_name: dict[str, list[str]] = defaultdict(list)
        self.derived: dict[str, set[str]] = defaultdict(set)
        self.methods: dict[str, tuple[str, Method]] = {}
        # By a class the methods of it by their name, and the first with each signature.
        self._named: dict[str, dict[str, list[str]]] = {}
        self._shown: dict[str, dict[str, str]] = {}
        for key, cls in self.classes.items():
            self.by_name[cls.name].append(key)
            for base in cls.bases:
                self.derived[base].add(key)
            named, shown = self._named.setdefault(key, {}), self._shown.setdefault(key, {})
            for usr, method in cls.methods.items():
                self.methods[usr] = (key, method)
                named.setdefault(method.name, []).append(usr)
                shown.setdefault(method.shown, usr)
        self.destructor_of = {cls: usr for usr, (cls, method) in self.methods.items() if method.kind == 'destructor'}
        self._below: dict[str, list[str]] = {}
        self._above: dict[str, dict[str, None]] = {}
        self._names: dict[str, frozenset[str]] = {}
        self._unseen: dict[str, list[str]] | None = None
        self._overriders: dict[tuple[str, str], list[tuple[str, str]]] = {}

    def unseen(self, cls: str) -> list[str]:
        """The places where objects of just this class are made of which it isn't seen by which constructor."""
        if self._unseen is None:
            seen = {call.on.key for calls in self.constructs.values() for call in calls if call.on.kind == 'site'}
            self._unseen = defaultdict(list)
            for key, site in self.sites.items():
                if key not in seen:
                    self._unseen[site.cls].append(key)
        return self._unseen.get(cls, [])

    # The hierarchy

    def below(self, key: str) -> list[str]:
        """A class and those below it."""
        known = self._below.get(key)
        if known is None:
            found, todo = {key: None}, [key]
            while todo:
                for cls in sorted(self.derived.get(todo.pop(), ())):
                    if cls not in found:
                        found[cls] = None
                        todo.append(cls)
            known = self._below[key] = list(found)
        return known

    def _all_above(self, key: str) -> dict[str, None]:
        known = self._above.get(key)
        if known is None:
            known, todo = {key: None}, deque([key])
            while todo:
                cls = self.classes.get(todo.popleft())
                for base in cls.bases if cls is not None else ():
                    if base not in known:
                        known[base] = None
                        todo.append(base)
            self._above[key] = known
        return known

    def above(self, key: str) -> list[str]:
        """A class and those above it, nearest first."""
        return list(self._all_above(key))

    def is_a(self, key: str, base: str) -> bool:
        return base in self._all_above(key)

    def name(self, key: str) -> str:
        return self.classes[key].name if key in self.classes else FOREIGN

    def is_inside(self, key: str) -> bool:
        return key in self.classes and self.classes[key].inside

    def is_named(self, key: str, name: str) -> bool:
        """Whether a class is the one of this name, or below it."""
        return name in self.names_above(key)

    def names_above(self, key: str) -> frozenset[str]:
        """The names of a class and of those above it."""
        known = self._names.get(key)
        if known is None:
            known = self._names[key] = frozenset(self.name(above) for above in self._all_above(key))
        return known

    # Methods

    def method(self, usr: str) -> Method | None:
        found = self.methods.get(usr)
        return found[1] if found is not None else None

    def class_of(self, usr: str) -> str:
        found = self.methods.get(usr)
        return found[0] if found is not None else ''

    def is_signal(self, usr: str) -> bool:
        method = self.method(usr)
        return method is not None and method.kind == 'signal'

    def overrider(self, cls: str, shown: str, name: str) -> str | None:
        """The method that a virtual call reaches in an object of just this class."""
        for above in self.above(cls):
            usr = self.with_signature(above, shown)
            if usr is None and name.startswith('~'):
                usr = self.destructor_of.get(above)
            if usr is not None:
                return usr
        return None

    def with_signature(self, cls: str, shown: str) -> str | None:
        """The method of a class, and of none above it, that has a signature."""
        return self._shown.get(cls, {}).get(shown)

    def named(self, cls: str, name: str) -> list[str]:
        """The methods of a class, and of none above it, that have a name."""
        return self._named.get(cls, {}).get(name, [])

    def overriders(self, cls: str, shown: str) -> list[tuple[str, str]]:
        """The methods of classes below one that have a signature, each with its class."""
        known = self._overriders.get((cls, shown))
        if known is None:
            found = [(below, self.with_signature(below, shown)) for below in self.below(cls)[1:]]
            known = self._overriders[(cls, shown)] = [(below, usr) for below, usr in found if usr is not None]
        return known

    def signal(self, cls: str, name: str, types: str | None = None) -> str | None:
        """A signal of a class or of those above it, by its name, and by its types where they are given and fit."""
        found = None
        for above in self.above(cls):
            for usr in self.named(above, name):
                method = self.methods[usr][1]
                if method.kind == 'signal':
                    if types is None or plain(method.shown) == plain(f'{name}({types})'):
                        return usr
                    found = found or usr
        return found

    def slot(self, classes: list[str], name: str, types: str, is_slot: bool = False) -> str | None:
        """A method by its name and types, or by its name alone: no signal, where it is named as a slot."""
        named, sorts = None, ('slot', 'invokable', 'method') if is_slot else ('slot', 'signal', 'invokable', 'method')
        for cls in classes:
            for usr in self.named(cls, name):
                method = self.methods[usr][1]
                if method.kind in sorts:
                    if plain(method.shown) == plain(f'{name}({types})'):
                        return usr
                    named = named or usr
        return named


@cache
def plain(signature: str) -> str:
    """A signature without const, references and scopes, for comparing."""
    signature = re.sub(r'\bconst\b|&|\b\w+::(?=\w)', '', signature)
    signature = re.sub(r',?\s*QPrivateSignal', '', signature)
    return re.sub(r'\s+', '', signature)
