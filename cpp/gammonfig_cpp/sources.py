"""The models and delegates that proxies, boxes and views were handed: what Qt does to that of one of these it does to no other."""
from __future__ import annotations

from typing import TYPE_CHECKING, Iterator, NamedTuple

from .inner import MODEL
from .objects import Element

if TYPE_CHECKING:
    from .calling import Calling

# What stands for a class: the model that a proxy was handed.
SOURCE = 'source'
DELEGATE = 'QAbstractItemDelegate'


class Kind(NamedTuple):
    """The class of what is handed, and the functions that hand it."""
    cls: str
    handing: tuple[str, ...]


MODELS = Kind(MODEL, ('setModel', 'setSourceModel', 'addSourceModel'))
DELEGATES = Kind(DELEGATE, ('setItemDelegate', 'setItemDelegateForColumn', 'setItemDelegateForRow'))


class Sources:
    def __init__(self, calling: Calling) -> None:
        self.calling, self.objects, self.whole = calling, calling.objects, calling.whole
        self._handed: dict[Kind, list[tuple[Element, Element]]] = {}
        self._known: dict[tuple[Element, Kind], list[Element]] = {}

    def of(self, element: Element, kind: Kind = MODELS) -> list[Element]:
        """The models, or delegates, that an object was handed; none where none is known."""
        if (element, kind) not in self._known:
            self._known[element, kind] = sorted({one for on, one in self._all(kind) if self.may_be(on, element)})
        return self._known[element, kind]

    def in_view(self, view: Element, name: str) -> list[Element] | None:
        """The models or delegates of a view of which it is known which it is; none for objects of any other class."""
        if name == DELEGATE:
            return self.of(view, DELEGATES)
        if name == MODEL:
            return sorted(self.objects.inner.models(view)) if self.calling.items.may_reach(view, MODEL) else []
        return None

    def _all(self, kind: Kind) -> list[tuple[Element, Element]]:
        if kind not in self._handed:
            self._handed[kind] = list(dict.fromkeys(self._pairs(kind)))
        return self._handed[kind]

    def _pairs(self, kind: Kind) -> Iterator[tuple[Element, Element]]:
        """What was handed something, and that: of a class that has what it was handed to, those of the classes below that haven't."""
        for handed in self.whole.handed:
            if handed.name in kind.handing:
                found = [e for _, value in handed.given for e in self.objects.elements(value) if self.whole.is_named(self.objects.cls(e), kind.cls)]
                for on in self.objects.elements(handed.on, handed.cls):
                    yield from ((on, one) for each in found for one in self.calling.others(each, on))

    def may_be(self, one: Element, other: Element) -> bool:
        """Whether two elements may stand for one object."""
        if one.kind == other.kind == 'site':
            return self.objects.role(one) == self.objects.role(other)
        first, second = self.objects.cls(one), self.objects.cls(other)
        return one.kind == 'class' and self.whole.is_a(second, first) or other.kind == 'class' and self.whole.is_a(first, second)
