"""What a mapper of data writes into: of each widget that it was handed the property that a user edits, as Qt's headers name it."""
from __future__ import annotations

import re
from typing import TYPE_CHECKING

from .objects import Element
from .program import Key

if TYPE_CHECKING:
    from .calling import Calling

# What stands for that in the table, and the function by which a mapper is handed a widget.
MAPPED, MAPPING = 'mapped::user', 'addMapping'


class Mapping:
    def __init__(self, calling: Calling) -> None:
        self.calling, self.whole, self.objects = calling, calling.whole, calling.objects

    def written(self, mapper: Element) -> list[tuple[Element, Key]]:
        """The functions that write these properties."""
        given = [(on, value) for handed in self.whole.handed if handed.name == MAPPING for _, value in handed.given
                 for on in self.objects.elements(handed.on, handed.cls) if self.calling.sources.may_be(on, mapper)]
        widgets = sorted({widget for _, value in given for widget in self.objects.elements(value)})
        return list(dict.fromkeys(target for widget in widgets for target in self._of(widget)))

    def _of(self, widget: Element) -> list[tuple[Element, Key]]:
        for key in self.whole.above(self.objects.cls(widget)):
            for text in self.whole.classes[key].properties if key in self.whole.classes else ():
                write = re.search(r'\bWRITE (\w+)', text) if re.search(r'\bUSER true\b', text) else None
                if write is not None:
                    return self.calling.callbacks(widget, write[1])
        return []
