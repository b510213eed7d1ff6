"""Which elements may stand for one object: a role for one of its class, and a class for one of those above and below it."""
from __future__ import annotations

from typing import Iterable

from .objects import FREE, Element, Objects


class Related:
    """Elements of which it is asked whether an object of another element may be one of theirs."""

    def __init__(self, objects: Objects, elements: Iterable[Element]) -> None:
        self.objects, self.whole = objects, objects.whole
        self.elements = set(elements)
        others = self.elements - {FREE}
        self._classes = {e.key for e in others if e.kind == 'class'}
        self._above = {above for cls in {objects.cls(e) for e in others} for above in self.whole.above(cls)}

    def has(self, element: Element) -> bool:
        if element in self.elements or element == FREE:
            return element in self.elements
        if element.kind == 'class' and element.key in self._above:
            return True
        return any(above in self._classes for above in self.whole.above(self.objects.cls(element)))

    def has_any(self, elements: Iterable[Element]) -> bool:
        return any(self.has(e) for e in elements)
