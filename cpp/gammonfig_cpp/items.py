"""Items of lists, tables, trees and models, which are no QObjects: the widget or model that has them tells what becomes of them."""
from __future__ import annotations

import re
from collections import defaultdict
from typing import Sequence

from .inner import MODEL
from .model import Connect, Value
from .objects import Element, Objects

# The classes of items whose widget has a model of its own making, and those of what has items of a class.
WIDGETS_OF = {'QListWidgetItem': 'QListWidget', 'QTableWidgetItem': 'QTableWidget', 'QTreeWidgetItem': 'QTreeWidget'}
ITEMS_OF = {**WIDGETS_OF, 'QStandardItem': 'QStandardItemModel'}
# Functions by which a widget or a model, or an item of it, is handed an item.
PUTTING = re.compile(r'(add|append|insert|set)\w*(Items?|Child|Children|Rows?|Columns?)$')

# What an item is in; none where that isn't known.
Lists = frozenset[Element] | None


class Items:
    def __init__(self, objects: Objects) -> None:
        self.objects, self.whole = objects, objects.whole
        self._of_sites: dict[str, Lists] = {}
        self._put: dict[str, list[Value]] | None = None
        self._connects: dict[str, list[Connect]] = defaultdict(list)
        for connect in self.whole.connects:
            self._connects[connect.slot.key].append(connect)

    def lists(self, value: Value) -> frozenset[Element]:
        """The lists, trees or tables that an item is one of, where that is known."""
        return self._lists(value, frozenset()) or frozenset()

    def _lists(self, value: Value, seen: frozenset[Value]) -> Lists:
        if value in seen:
            return frozenset()
        seen, kind = seen | {value}, value.kind
        if kind == 'null' or value.cls in self.whole.classes and not self._may_be_item(value.cls):
            return frozenset()
        if kind == 'class' and value.parts:
            return self._holders(value.parts[0], seen)
        if kind == 'site':
            return self._of_site(value.key, seen)
        if kind in ('any', 'cast'):
            return self._all([*value.parts], seen)
        if kind == 'this' and value.cls in self.whole.classes:
            below = set(self.whole.below(value.cls))
            return self._all([Value('site', key) for key, site in self.whole.sites.items() if site.cls in below], seen)
        if kind == 'result':
            return self._all([Value('variable', 'R:' + usr) for usr in self.objects.results(value.key)], seen)
        return self._variable(value.key, seen) if kind == 'variable' else None

    def _all(self, values: list[Value], seen: frozenset[Value]) -> Lists:
        """What each of some values is in; known where it is of all of them, and there are some."""
        found = [self._lists(value, seen) for value in values]
        known = [one for one in found if one is not None]
        return frozenset().union(*known) if known and len(known) == len(found) else None

    def _variable(self, key: str, seen: frozenset[Value]) -> Lists:
        values = self.whole.flows.get(key, [])
        function = key[2:].rsplit(':', 1)[0] if key.startswith('P:') else ''
        if function not in self.objects.outside:
            return self._all(values, seen)
        # A slot's parameter: what those tell that it is connected to.
        method, connects = self.whole.method(function), self._connects[function]
        if not connects or method is not None and (method.virtual or method.kind == 'invokable'):
            return None
        senders = [self._widgets(c.sender, c.sender_class) for c in connects]
        known = [one for one in senders if one is not None]
        direct = self._all(values, seen) if values else frozenset()
        return frozenset().union(*known, direct) if direct is not None and len(known) == len(senders) else None

    def _widgets(self, value: Value, fallback: str) -> Lists:
        """Those that tell of items of their own."""
        found = self.objects.elements(value, fallback)
        return found if found and all(self._has_items(e) for e in found) else None

    def _has_items(self, element: Element) -> bool:
        return bool(self.whole.names_above(self.objects.cls(element)) & set(ITEMS_OF.values()))

    def _is_item(self, element: Element) -> bool:
        return bool(self.whole.names_above(self.objects.cls(element)) & ITEMS_OF.keys())

    def _may_be_item(self, cls: str) -> bool:
        """Whether what is of a class may be an item: a map also holds its keys."""
        return any(self._is_item(Element('class', below)) for below in self.whole.below(cls))

    def _holders(self, value: Value, seen: frozenset[Value]) -> Lists:
        """The widgets that hold what one of them gives, or an item of one of them."""
        found = self.objects.elements(value)
        if found and all(self._has_items(e) for e in found):
            return found
        return self._lists(value, seen) if found and all(self._is_item(e) for e in found) else None

    def _of_site(self, key: str, seen: frozenset[Value]) -> Lists:
        """What an item is in that is made at a place: those that were handed it."""
        if key not in self._of_sites:
            values = self._putting().get(key, [])
            found = [self._holders(value, seen) for value in values]
            known = [one for one in found if one is not None]
            self._of_sites[key] = frozenset().union(*known) if known and len(known) == len(found) else None
        return self._of_sites[key]

    def _putting(self) -> dict[str, list[Value]]:
        """By the place where an item is made the widgets and items that it is handed to."""
        if self._put is None:
            self._put = defaultdict(list)
            for owner, child, _ in self.whole.owns:
                self._note(owner, child)
            for handed in self.whole.handed:
                if PUTTING.match(handed.name):
                    for _, value in handed.given:
                        self._note(handed.on, value)
        return self._put

    def _note(self, holder: Value, item: Value) -> None:
        """An item is handed to a holder; one of which nothing is known may be any."""
        assert self._put is not None
        for element in self.objects.elements(item):
            if not self._is_item(element):
                continue
            below = set(self.whole.below(element.key)) if element.kind == 'class' else set()
            for key in [element.key] if element.kind == 'site' else self.whole.sites:
                if element.kind == 'site' or self.whole.sites[key].cls in below:
                    self._put[key].append(holder)

    def holders(self, element: Element, lists: list[Element]) -> list[Element] | None:
        """The widgets that an item may be in: the lists that are known, else any of the class that has such items; none of no item."""
        names = [widget for item, widget in WIDGETS_OF.items() if self.whole.is_named(self.objects.cls(element), item)]
        return lists or [Element('class', key) for name in names for key in self.whole.by_name.get(name, ())] if names else None

    def lists_of(self, element: Element, name: str, lists: Sequence[Element]) -> Sequence[Element]:
        """What the items of a class are in that a function of Qt calls on an object: in the object itself, or, of an item, with it."""
        names = self.whole.names_above(self.objects.cls(element))
        if name in names:
            return lists if name in ITEMS_OF else ()
        is_any = element.kind == 'class' and not self.whole.is_inside(element.key)
        return (element,) if ITEMS_OF.get(name) in names and not is_any else ()

    def may_reach(self, element: Element, name: str) -> bool:
        """Whether a function of Qt on a view or a model may call those of items or models of a class: the widgets with items have models
        of their own making, and no other view and no model of the application has such items."""
        cls, widget = self.objects.cls(element), WIDGETS_OF.get(name, '')
        if self.whole.is_named(cls, 'QAbstractItemView'):
            above = element.kind == 'class' and any(self.whole.is_a(it, cls) for it in self.whole.by_name.get(widget, ()))
            return above or self.whole.is_named(cls, widget) if widget else name != MODEL or not self._has_items(element)
        return not (widget and self.whole.is_named(cls, MODEL) and self.whole.is_inside(cls))
