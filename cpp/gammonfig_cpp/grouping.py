"""Groups of actions and of buttons: those of one group check and uncheck one another, and a group tells what its own tell."""
from __future__ import annotations

from typing import TYPE_CHECKING, Iterator, NamedTuple

from .model import Value
from .objects import Element

if TYPE_CHECKING:
    from .calling import Calling


class Kind(NamedTuple):
    """The class of a group and of its members, the function that it is handed one by, and that of a member which is handed the group."""
    group: str
    member: str
    adding: str
    joining: str = ''


ACTIONS = Kind('QActionGroup', 'QAction', 'addAction', 'setActionGroup')
BUTTONS = Kind('QButtonGroup', 'QAbstractButton', 'addButton')
KINDS = (ACTIONS, BUTTONS)
# Buttons that are exclusive without a group: those of one parent, as all radio buttons are.
EXCLUSIVE, MADE_EXCLUSIVE = 'QRadioButton', 'setAutoExclusive'


class Groups:
    def __init__(self, calling: Calling) -> None:
        self.calling, self.whole, self.objects = calling, calling.whole, calling.objects
        self._pairs: dict[Kind, list[tuple[Element, Element]]] = {}
        self._exclusive: set[Element] | None = None

    def pairs(self, kind: Kind) -> list[tuple[Element, Element]]:
        """Groups and their members, as far as they are known; a class stands for any of its objects."""
        if kind not in self._pairs:
            self._pairs[kind] = list(dict.fromkeys(self._found(kind)))
        return self._pairs[kind]

    def fellows(self, element: Element, name: str) -> list[Element] | None:
        """The objects of a class that are in a group with one, and may be it, or are exclusive without one, as it is; none of other classes."""
        kind = next((kind for kind in KINDS if kind.member == name), None)
        if kind is None or not self.whole.is_named(self.objects.cls(element), name):
            return None
        may_be = self.calling.sources.may_be
        groups = {group for group, member in self.pairs(kind) if may_be(member, element)}
        found = {self.objects.role(member) for group, member in self.pairs(kind) if any(may_be(group, one) for one in groups)}
        return sorted(found | (self._exclusives() if kind is BUTTONS and self._is_exclusive(element) else set()))

    def _found(self, kind: Kind) -> Iterator[tuple[Element, Element]]:
        whole = self.whole
        # A group of actions has those that were made with it as their parent.
        for owner, child, _ in whole.owns if kind is ACTIONS else ():
            yield from self._each(kind, owner, child)
        for handed in whole.handed:
            for _, value in handed.given:
                if handed.name == kind.adding and whole.is_named(handed.cls, kind.group):
                    yield from self._each(kind, handed.on, value, handed.cls)
                elif handed.name == kind.joining and whole.is_named(handed.cls, kind.member):
                    yield from self._each(kind, value, handed.on, '', handed.cls)

    def _each(self, kind: Kind, group: Value, member: Value, group_class: str = '', member_class: str = '') -> Iterator[tuple[Element, Element]]:
        for one in self._of_class(group, group_class, kind.group):
            for other in self._of_class(member, member_class, kind.member):
                yield one, other

    def _of_class(self, value: Value, fallback: str, name: str) -> Iterator[Element]:
        return (it for it in sorted(self.objects.elements(value, fallback)) if self.whole.is_named(self.objects.cls(it), name))

    def _is_exclusive(self, button: Element) -> bool:
        """Whether a button may be exclusive among those of its parent."""
        below = self.whole.below(button.key) if button.kind == 'class' else [self.objects.cls(button)]
        return any(self.whole.is_named(cls, EXCLUSIVE) for cls in below) or any(self.calling.sources.may_be(one, button) for one in self._exclusives())

    def _exclusives(self) -> set[Element]:
        """The buttons that may be exclusive without a group."""
        if self._exclusive is None:
            calls = [(s, f) for f in self.whole.functions.values() for s in f.statements if s.kind == 'library' and s.name == MADE_EXCLUSIVE]
            self._exclusive = {self.objects.role(e) for s, f in calls for e in self.objects.elements(s.on, s.cls or f.cls)}
            self._exclusive |= {Element('class', key) for key in self.whole.by_name.get(EXCLUSIVE, ()) if self.calling.is_present(key)}
        return self._exclusive
