"""Limits of a value: a slider or a spin box that is given another maximum or minimum changes its value only where that lies outside, and to
the limit itself. So that is written as a value that is set to the limit, as `setValue` is: a circle that hands on one value comes to rest.

Why it does, whatever the limits are: of the values that are told without end, the greatest comes of nothing but itself, since a value never
lies below its minimum; and so does the least. So all that is told within one telling is one value, and a box takes that once."""
from __future__ import annotations

from typing import TYPE_CHECKING

from .objects import Element
from .relations import Related

if TYPE_CHECKING:
    from .calling import Calling

# The classes whose values are whole numbers: a box of others rounds a limit.
LIMITED = ('QAbstractSlider', 'QSpinBox')
# What sets the value, what sets one limit, and what sets both.
SETTER = 'setValue'
SETTING_ONE = ('setMaximum', 'setMinimum')
SETTING = (*SETTING_ONE, 'setRange')
# What makes a value that lies outside another one than the limit.
WRAPPING, WRAPS = 'setWrapping', 'wrapping'


class Limits:
    def __init__(self, calling: Calling) -> None:
        self.calling, self.whole, self.objects = calling, calling.whole, calling.objects
        self._wrapping: Related | None = None

    def tells_limit(self, element: Element, name: str) -> bool:
        """Whether a function sets a limit, of an object whose value then is the limit or stays."""
        is_limited = any(self.whole.is_named(self.objects.cls(element), cls) for cls in LIMITED)
        return name in SETTING_ONE and is_limited and not self._may_wrap(element)

    def _may_wrap(self, element: Element) -> bool:
        """Whether an object may be told to go on at the other end, by any value that it is handed."""
        if self._wrapping is None:
            told = [(s, f) for f in self.whole.functions.values() for s in f.statements
                    if s.kind in ('call', 'library') and s.name == WRAPPING or s.kind == 'property' and s.name == WRAPS]
            self._wrapping = Related(self.objects, [e for s, f in told for e in self.objects.elements(s.on, s.cls or f.cls)])
        return self._wrapping.has(element)
