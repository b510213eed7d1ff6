"""What Qt connects by itself, as the table says: by class, or an object to what a function was handed."""
from __future__ import annotations

from itertools import chain
from typing import Iterator, NamedTuple

from .calling import Calling
from .grouping import KINDS
from .inner import MODEL, OF_BOXES, SELECTION, VIEW
from .model import Handed
from .objects import Element
from .program import Key, Program, Wire
from .qtmodel import EDITOR, QtWire


class Pair(NamedTuple):
    """The two ends of a wire, and the view in which it is, where it is in one."""
    sender: Element
    receiver: Element
    view: Element | None = None


class QtWires:
    def __init__(self, program: Program, calling: Calling) -> None:
        self.program, self.calling = program, calling
        self.whole, self.objects = program.whole, program.objects
        self._known: set[tuple[Element, Key, Element, Key]] = set()

    def all(self) -> None:
        """Wires where somebody listens to where they lead, or the application has the function."""
        for _ in range(3):
            heard, senders = {w.signal for w in self.program.wires}, {w.sender for w in self.program.wires}
            for wire in self.calling.qt.table.wires:
                for pair in self._pairs(wire, senders):
                    self._add(wire, pair, heard)

    def _pairs(self, wire: QtWire, senders: set[Element]) -> Iterator[Pair]:
        if wire.by:
            return self._handed(wire)
        if any((wire.sender, wire.receiver) == (kind.cls, kind.around) for kind in OF_BOXES) and wire.sender not in self.objects.inner.of_unknown:
            return (Pair(one, box) for one, box in self.objects.inner.pairs(wire.sender) if self._is_named(box, wire.receiver))
        known = self.objects.inner.pairs(SELECTION) and not any(self.calling.is_connected(Element('class', key))
                                                                for key in self.whole.by_name.get(SELECTION, ()))
        if known and SELECTION in (wire.sender, wire.receiver):
            return self._of_views(wire)
        kind = next((kind for kind in KINDS if (wire.sender, wire.receiver) == (kind.member, kind.group)), None)
        if kind is not None:
            return (Pair(member, group) for group, member in self.calling.groups.pairs(kind))
        shown = self._of_shown(wire, senders) if (wire.sender, wire.receiver) == (MODEL, VIEW) else ()
        return chain(shown, self._of_classes(wire, senders))

    def _of_shown(self, wire: QtWire, senders: set[Element]) -> Iterator[Pair]:
        """The views of the application with the models that they may show. One with items shows its own: what that tells, the view does."""
        own = [key for name in self.whole.by_name for key in self.whole.by_name[name] if self.whole.is_inside(key) and self.whole.is_named(key, VIEW)]
        for view in (Element('class', key) for key in own):
            for model in sorted(self.objects.inner.models(view)) if self.calling.items.may_reach(view, MODEL) else ():
                if model.kind == 'site' or self._is_there(model.key, senders):
                    yield Pair(model, view, view)

    def _of_views(self, wire: QtWire) -> Iterator[Pair]:
        """What Qt connects within one view: its selection, its model, itself, and what edits its items."""
        for selection, view in self.objects.inner.pairs(SELECTION):
            for one in [selection] if wire.sender == SELECTION else self._in_view(wire.sender, view):
                for other in [selection] if wire.receiver == SELECTION else self._in_view(wire.receiver, view):
                    yield Pair(one, other, view)

    def _in_view(self, name: str, view: Element) -> list[Element]:
        if name == EDITOR or self._is_named(view, name):
            return [view]
        if any(self.whole.is_named(key, VIEW) for key in self.whole.by_name.get(name, ())) or not self.calling.items.may_reach(view, name):
            return []
        found = self.calling.sources.in_view(view, name)
        return found if found is not None else [Element('class', key) for key in self.whole.by_name.get(name, ())]

    def _of_classes(self, wire: QtWire, senders: set[Element]) -> Iterator[Pair]:
        """The classes of a wire that are there. What Qt makes itself, as the selection of a view, is there where somebody is connected
        to it, or where the application has it tell what it tells."""
        for a in self.whole.by_name.get(wire.sender, ()):
            told = ('signal', self.whole.signal(a, wire.signal)) in self.program.members
            for b in [a] if wire.receiver == EDITOR else self.whole.by_name.get(wire.receiver, []):
                if (told or self._is_there(a, senders)) and (wire.receiver == EDITOR or self._is_there(b, senders)):
                    yield Pair(Element('class', a), Element('class', b))

    def _is_there(self, cls: str, senders: set[Element]) -> bool:
        return self.calling.is_present(cls) or Element('class', cls) in senders

    def _handed(self, wire: QtWire) -> Iterator[Pair]:
        """What a function of the receiver was handed or returned, and the objects on which it was called; or, of a function of the sender,
        the other way round."""
        for handed in self.whole.handed if wire.by else ():
            to_receiver = self.whole.is_named(handed.cls, wire.receiver)
            if handed.name != wire.by or not (to_receiver or self.whole.is_named(handed.cls, wire.sender)):
                continue
            for on in sorted(self.objects.elements(handed.on, handed.cls)):
                for other in self._others_of(handed, on, wire.sender if to_receiver else wire.receiver):
                    yield Pair(other, on) if to_receiver else Pair(on, other)

    def _others_of(self, handed: Handed, on: Element, name: str) -> Iterator[Element]:
        """The objects of a class that a function of an object was handed or returned."""
        for _, value in handed.given:
            for element in sorted(self.objects.elements(value)):
                yield from (one for one in self.calling.others(element, on) if self._is_named(one, name))

    def _is_named(self, element: Element, name: str) -> bool:
        return self.whole.is_named(self.objects.cls(element), name)

    def _add(self, wire: QtWire, pair: Pair, heard: set[Key]) -> None:
        whole, program, (sender, receiver, view) = self.whole, self.program, pair
        to = self.objects.cls(receiver)
        one = whole.signal(self.objects.cls(sender), wire.signal)
        two = whole.signal(to, wire.member) if wire.receiver != EDITOR else None
        if one is None:
            return
        if two is None:
            for on, key in self._functions(wire, receiver, view):
                self._connect(wire, (sender, one), on, key)
        elif ('signal', two) in heard:
            self._connect(wire, (sender, one), program.role(receiver), program.signal(two))

    def _functions(self, wire: QtWire, receiver: Element, view: Element | None) -> list[tuple[Element, Key]]:
        """The functions that a wire leads to: of the application, and Qt's own, also of classes of Qt below the receiver's."""
        if wire.receiver == EDITOR:
            return self.calling.callbacks(receiver, f'{EDITOR}::{wire.member}')
        of_items = self.calling.items.lists_of(view, wire.receiver, ()) if view is not None else ()
        found, qt = self.calling.callbacks(receiver, wire.member, of_items), self.calling.qt
        if (wire.sender, wire.receiver, view) == (MODEL, VIEW, None):
            found = [(on, key) for on, key in found if key[0] == 'library']      # what the application overrides, its own views do
        own = qt.entry(receiver.key, wire.member) if receiver.kind == 'class' else None
        for below in self.whole.below(receiver.key)[1:] if receiver.kind == 'class' else ():
            nearer = qt.entry(below, wire.member) if not self.whole.is_inside(below) and self.calling.is_present(below) else None
            if nearer is not None and (own is None or nearer[0] != own[0]):
                found = found + self.calling.callbacks(Element('class', below), wire.member)
        return list(dict.fromkeys(found))

    def _connect(self, of: QtWire, source: tuple[Element, str], receiver: Element, key: Key) -> None:
        program, of_sender = self.program, self.program.signal(source[1])
        wire = Wire(program.role(source[0]), of_sender, receiver, program.fitting(of_sender, key), 'direct', None, 'Qt connects them by itself',
                    once=of.once)
        known = (wire.sender, wire.signal, wire.receiver, wire.method)
        if known not in self._known:
            self._known.add(known)
            program.wires.append(wire)
