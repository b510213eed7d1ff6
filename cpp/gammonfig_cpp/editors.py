"""What views edit their items with: the objects that `createEditor` of the application's delegates may return."""
from __future__ import annotations

from typing import TYPE_CHECKING

from .model import Value
from .objects import Element

if TYPE_CHECKING:
    from .calling import Calling


class Editors:
    def __init__(self, calling: Calling) -> None:
        self.calling = calling
        self._all: list[Element] | None = None

    def all(self) -> list[Element]:
        """The editors. Where Qt makes one, it is of a class of which somebody is connected to an object that isn't known."""
        if self._all is None:
            objects, whole = self.calling.objects, self.calling.whole
            made = [Value('result', usr, next(iter(whole.by_name.get('QWidget', [])), '')) for usr, (cls, method) in whole.methods.items()
                    if method.name == 'createEditor' and whole.is_inside(cls) and whole.is_named(cls, 'QAbstractItemDelegate')]
            found = {element for value in made for element in objects.elements(value)}
            unknown = [element.key for element in found if element.kind == 'class']
            found |= {Element('class', below) for cls in unknown for below in whole.below(cls)
                      if self.calling.is_connected(Element('class', below))}
            self._all = sorted(found)
        return self._all
