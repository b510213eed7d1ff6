"""Objects that Qt makes in others, one in each: the selection of a view, the line edit of a box, the model of a list, table or tree of
items, and what stands for the relations of a table. Another one may be handed over."""
from __future__ import annotations

from collections import defaultdict
from typing import TYPE_CHECKING, NamedTuple

from .model import Handed, Site, Value
from .qtmodel import GIVING

if TYPE_CHECKING:
    from .objects import Element, Objects

VIEW, MODEL, SELECTION = 'QAbstractItemView', 'QAbstractItemModel', 'QItemSelectionModel'


class Kind(NamedTuple):
    """The class around, that of the object in it, the function that gives it, the one that takes another, and what it is called."""
    around: str
    cls: str
    giving: str
    taking: str
    word: str


OF_VIEWS = Kind(VIEW, SELECTION, GIVING[0], 'setSelectionModel', 'selection')
OF_BOXES = tuple(Kind(box, 'QLineEdit', GIVING[1], 'setLineEdit', 'line') for box in ('QComboBox', 'QAbstractSpinBox'))
# Views whose model of items is of their own making: they take no other.
OF_ITEMS = tuple(Kind(view, MODEL, GIVING[2], '', 'model') for view in ('QListWidget', 'QTableWidget', 'QTreeWidget'))
# The tables that a table of a database refers to, each a model of the other's own making.
OF_RELATIONS = Kind('QSqlRelationalTableModel', 'QSqlTableModel', GIVING[3], '', 'relation')
KINDS = (OF_VIEWS, *OF_BOXES, *OF_ITEMS, OF_RELATIONS)


class Inner:
    def __init__(self, objects: Objects) -> None:
        self.objects, self.whole = objects, objects.whole
        self._taking = {kind: [h for h in self.whole.handed if h.name == kind.taking and self.whole.is_named(h.cls, kind.around)] for kind in KINDS}
        # By an object inside those that it may be in: one at a place, or all of a class.
        self.around: dict[Element, set[Element]] = defaultdict(set)
        # Whether any selection may be that of any view.
        self._is_shared = False
        # Classes of which one was asked for of an object that isn't known.
        self.of_unknown: set[str] = set()
        self._asking: set[Element] = set()
        self._shown: dict[Element | None, set[Element]] | None = None

    def kinds(self, element: Element) -> list[Kind]:
        """What Qt makes in objects of a class."""
        cls = self.objects.cls(element)
        return [kind for kind in KINDS if self.whole.is_named(cls, kind.around)]

    def of(self, holder: Element, kind: Kind, makes: bool = False) -> set[Element] | None:
        """What is inside an object: one that Qt made, and what it may have been handed; one for all objects of a class of the application.
        None where it isn't known which object it is. Where nobody asks for it, none is made."""
        around = self._around(holder, kind)
        if around is None or self._is_shared and kind is OF_VIEWS:
            return None
        made = around._replace(kind='site', key=f'I:{kind.giving}:{around.key}')
        if makes and made.key not in self.whole.sites:
            self.whole.sites[made.key] = self._site(around, kind)
        own = {made} if made.key in self.whole.sites else set()
        return own | self._handed_to(around, kind)

    def given(self, value: Value) -> set[Element] | None:
        """What a function gives of the objects inside; none where it isn't known of which."""
        holders = self.objects.resolve(value.parts[0], True)
        of_holders = [(holder, next((kind for kind in self.kinds(holder) if kind.giving == value.key), None)) for holder in holders]
        found = [self.of(holder, kind, True) if kind is not None else None for holder, kind in of_holders]
        known = [one for one in found if one is not None]
        if known and len(known) == len(found):
            return set().union(*known)
        self.of_unknown.add(self.whole.name(value.cls))
        return None

    def _around(self, holder: Element, kind: Kind) -> Element | None:
        own = [above for above in self.whole.above(self.objects.cls(holder)) if self.whole.is_inside(above) and self.whole.is_named(above, kind.around)]
        if own:
            return holder._replace(kind='class', key=own[-1])
        return holder if holder.kind == 'site' else self._only(holder)

    def _only(self, holder: Element) -> Element | None:
        """The object for which its class stands: where that has one role, once roles are told apart."""
        below = [role for cls in self.whole.below(holder.key) for role in self.objects.roles_of.get(cls, ())]
        return holder._replace(kind='site', key=below[0]) if len(below) == 1 else None

    def _places(self, handed: Handed, kind: Kind) -> set[Element | None]:
        """The objects that are handed another one."""
        found = self.objects.resolve(handed.on, True)
        return {self._around(holder, kind) for holder in found} if found else {None}

    def _handed_to(self, around: Element, kind: Kind) -> set[Element]:
        found: set[Element] = set()
        if around not in self._asking:
            self._asking.add(around)
            for handed in self._taking[kind]:
                if not self._places(handed, kind).isdisjoint((around, None)):
                    found = found.union(*(self.objects.resolve(value, True) for _, value in handed.given))
            self._asking.remove(around)
        return found

    def _site(self, around: Element, kind: Kind) -> Site:
        cls = next(iter(self.whole.by_name.get(kind.cls, ())), '')
        if around.kind == 'class':
            own = self.whole.classes[around.key]
            return Site(cls, own.place, f'{own.name}_{kind.word}', around.key)
        site = self.whole.sites[around.key]
        return Site(cls, site.place, f'{site.hint or site.place.line}_{kind.word}', site.within)

    def is_unclear(self) -> bool:
        """Whether it isn't known which selection is of which view, now that what variables hold is known: then any is of any."""
        whole = self.whole
        taken: set[Element] = set()
        for handed in self._taking[OF_VIEWS]:
            taken = taken.union(*(self.objects.resolve(value, True) for _, value in handed.given))
            self._is_shared = self._is_shared or None in self._places(handed, OF_VIEWS)
        made = {key for key, site in whole.sites.items() if whole.is_named(site.cls, SELECTION) and not key.startswith('I:')}
        own = any(cls.inside and whole.is_named(key, SELECTION) for key, cls in whole.classes.items())
        self._is_shared = self._is_shared or own or not made <= {e.key for e in taken} or any(e.kind == 'class' for e in taken)
        for key in [key for key in whole.sites if key.startswith(f'I:{OF_VIEWS.giving}:')] if self._is_shared else ():
            del whole.sites[key]
        return self._is_shared

    def make_all(self, places: type[Element]) -> None:
        """Makes the selections of all views and what else is asked for, before roles are told apart, and notes what is in which object."""
        whole = self.whole
        asked = [value for c in whole.connects for value in (c.sender, c.receiver)] + [s.on for f in whole.functions.values() for s in f.statements]
        asked += [value for handed in whole.handed for value in (handed.on, *(one for _, one in handed.given))]
        for value in asked:
            self._ask(value)
        holders = [places('site', key) for key in whole.sites] + [places('class', key) for key, cls in whole.classes.items() if cls.inside]
        for holder in holders:
            for kind in self.kinds(holder):
                around = self._around(holder, kind) if kind.cls in whole.by_name else None
                if around is not None:
                    for inner in self.of(holder, kind, kind is OF_VIEWS) or ():
                        self.around[inner].add(around)

    def _ask(self, value: Value) -> None:
        """Makes what an expression asks for."""
        if value.kind == 'given' and value.key in GIVING:
            self.given(value)
        for part in value.parts:
            self._ask(part)

    def pairs(self, cls: str) -> list[tuple[Element, Element]]:
        """The objects inside of a class, each with one that it may be in."""
        return [(inner, around) for inner, those in sorted(self.around.items()) if self.whole.is_named(self.objects.cls(inner), cls)
                for around in sorted(those)]

    def models(self, view: Element) -> set[Element]:
        """What a view may show: what it was handed, or a view of which it isn't known which it is; any, where that is none."""
        if self._shown is None:
            self._shown = self._find_shown()
        found = self._shown[self._around(view, OF_VIEWS)] | self._shown[None]
        return found or {view._replace(kind='class', key=key) for key in self.whole.by_name.get(MODEL, ())}

    def _find_shown(self) -> dict[Element | None, set[Element]]:
        """By a view the models that it was handed."""
        found: dict[Element | None, set[Element]] = defaultdict(set)
        for handed in self.whole.handed:
            if handed.name == 'setModel' and self.whole.is_named(handed.cls, VIEW):
                models = {e for _, value in handed.given for e in self.objects.elements(value) if self.whole.is_named(self.objects.cls(e), MODEL)}
                for view in self.objects.elements(handed.on, handed.cls):
                    found[self._around(view, OF_VIEWS)] |= models
        return found
