"""The program that comes of the facts: members of roles, what their bodies do, wires, owners and bindings."""
from __future__ import annotations

from collections import Counter, defaultdict
from dataclasses import dataclass, field

from .model import Condition, Function, Parameter, Place, Term
from .objects import FREE, Element, Objects
from .parted import Parted
from .whole import Whole

Key = tuple[str, ...]
# Where a connection or a step may lead, the narrowest first: to the object that holds this one, to this one, to any.
WAYS = ('up', 'same', 'other')
MOST_PARAMETERS = 8


@dataclass(slots=True)
class Step:
    """A statement: `emit`, `call`, `set` or `delete`, on `this` where `on` is None. `is_own`: what is deleted is owned by this object.
    `held`: the property that has been given the parameter 0 where this is emitted. `once`: Qt doesn't do it again before it has come
    back. `is_part`: what is called is a part of this object, and dies with it."""
    kind: str
    member: Key
    on: Element | None = None
    terms: tuple[Term, ...] = ()
    place: Place | None = None
    conditions: tuple[Condition, ...] = ()
    words: str = ''
    is_own: bool = False
    held: Key | None = None
    once: bool = False
    is_part: bool = False

    def same(self) -> tuple[object, ...]:
        """What makes two steps one: where it stands plays no part."""
        return self.kind, self.member, self.on, self.terms, self.once


@dataclass(slots=True)
class Member:
    """A `signal`, `slot` or `property` of a role."""
    key: Key
    owner: Element
    name: str
    kind: str
    shown: str
    place: Place | None
    parameters: list[Parameter] = field(default_factory=list)
    steps: list[Step] = field(default_factory=list)
    notify: Key | None = None
    library: bool = False
    # Of a function of Qt on an item the lists that it is in.
    lists: list[Element] = field(default_factory=list)


@dataclass(slots=True)
class Wire:
    sender: Element
    signal: Key
    receiver: Element
    method: Key
    how: str
    place: Place | None
    words: str = ''
    way: str = 'other'
    # Whether Qt doesn't go this way again before it has come back.
    once: bool = False
    # The function that connects, where that is known.
    function: str = ''


@dataclass(slots=True)
class Bound:
    """A binding: the property follows those that its functor reads."""
    target: Key
    sources: list[Key]
    place: Place


class Program:
    def __init__(self, whole: Whole, objects: Objects) -> None:
        self.whole, self.objects = whole, objects
        self.members: dict[Key, Member] = {}
        self.wires: list[Wire] = []
        self.owns: list[tuple[Element, Element, Place]] = []
        self.bound: list[Bound] = []
        self.roles: set[Element] = set()
        self.counts: Counter[str] = Counter()
        self.silent: Counter[str] = Counter()
        self.recursions: list[list[str]] = []
        # Functions that got what others do, whose objects may be others.
        self.folded: set[Key] = set()
        # Slots that run an event loop of their own.
        self.modal: dict[Key, Place] = {}
        # All members with their steps, and all wires, from before some were left out.
        self.unpruned: tuple[list[tuple[Member, list[Step]]], list[Wire]] | None = None
        # What asks the event loop to delete the sender alone, with the slots that it is the sender in; and what Qt posts to the object itself.
        self.of_sender: dict[Key, set[str]] = {}
        self.to_itself: set[Key] = set()
        # What statements emit, where members were left out that did.
        self._emitted: set[Key] | None = None
        self._owners: tuple[int, list[tuple[Element, Element, Place]]] | None = None

    def emitted(self) -> set[Key]:
        """The signals that statements emit."""
        return self._emitted if self._emitted is not None else {s.member for m in self.members.values() if not m.library for s in m.steps}

    def note_all(self) -> None:
        """Keeps in mind what there is, before some of it is left out."""
        self.unpruned = [(member, member.steps) for member in self.members.values()], self.wires

    def leave_out_members(self, kept: set[Key]) -> None:
        """Leaves out members that aren't kept, with the steps, wires and bindings to them. What they emitted is known still."""
        self._emitted = self.emitted()
        self.members = {k: m for k, m in self.members.items() if k in kept}
        for member in self.members.values():
            member.steps = [s for s in member.steps if s.kind == 'delete' or s.member in kept]
        self.wires = [w for w in self.wires if w.signal in kept and w.method in kept]
        self.bound = [b for b in self.bound if b.target in kept and any(s in kept for s in b.sources)]

    # Roles

    def role(self, element: Element) -> Element:
        found = self.objects.role(element)
        self.roles.add(found)
        if found.kind == 'site':
            self.roles.add(Element('class', self.objects.cls(found)))
        return found

    def of_class(self, cls: str) -> Element:
        return self.role(Element('class', cls))

    def owner_of(self, function: Function) -> Element:
        """The class that has a function as a slot: its own; and one for functions that have none."""
        if function.cls in self.whole.classes and function.kind != 'static':
            return self.of_class(function.cls)
        return FREE

    def is_this(self, element: Element, function: Function) -> bool:
        return element == Element('class', function.cls)

    def owners(self) -> list[tuple[Element, Element, Place]]:
        """Which objects may own which, by all that is known by now."""
        if self._owners is None or self._owners[0] != len(self.whole.owns):
            found, as_members = dict[tuple[Element, Element], Place](), set[tuple[Element, Element]]()
            for owner, child, place in self.whole.owns:
                if owner.kind == 'variable' and owner.key.startswith('P:') and owner.key not in self.whole.flows:
                    continue
                pairs = [(a, b) for a in self.objects.elements(owner) for b in self.objects.elements(child)]
                for pair in pairs:
                    found.setdefault(pair, place)
                as_members.update(pairs if owner.kind == 'member' else ())
            self._lay(found)
            Parted(self.objects).leave_out(found, as_members)
            self._owners = len(self.whole.owns), [(a, b, place) for (a, b), place in sorted(found.items(), key=lambda f: f[0])]
        return self._owners[1]

    def _lay(self, found: dict[tuple[Element, Element], Place]) -> None:
        """What a layout is given, the object owns around which it lies, and a layout in it itself; where none is known, it owns all."""
        laid = [(a, b, place) for layout, child, place in self.whole.laid
                for a in self.objects.elements(layout) for b in self.objects.elements(child)]
        for a, b, place in laid:
            if self._is_layout(b):
                found.setdefault((a, b), place)
        above: dict[Element, set[Element]] = defaultdict(set)
        for a, b in found:
            above[b].add(a)
        for a, b, place in laid:
            for around in self._around(a, above) if not self._is_layout(b) else ():
                found.setdefault((around, b), place)

    def _is_layout(self, element: Element) -> bool:
        return self.whole.is_named(self.objects.cls(element), 'QLayout')

    def _around(self, layout: Element, above: dict[Element, set[Element]]) -> list[Element]:
        """The objects around which a layout lies, or it itself."""
        seen, todo = {layout}, [layout]
        while todo:
            new = above.get(todo.pop(), set()) - seen
            seen |= new
            todo += [element for element in new if self._is_layout(element)]
        return sorted(element for element in seen if not self._is_layout(element)) or [layout]

    # Members

    def add(self, member: Member) -> Key:
        member.parameters = member.parameters[:MOST_PARAMETERS]
        if member.owner.kind == 'class' and self.whole.name(member.owner.key) == 'QObject' and member.key[0] != 'signal':
            # QObject is no class that a program declares.
            member.owner = FREE
        self.members[member.key] = member
        return member.key

    def signal(self, usr: str) -> Key:
        key = ('signal', usr)
        if key not in self.members:
            cls, method = self.whole.methods[usr]
            self.add(Member(key, self.of_class(cls), method.name, 'signal', self._shown(cls, method.shown), method.place,
                            list(method.parameters)))
        return key

    def _shown(self, cls: str, shown: str) -> str:
        return f'{self.whole.classes[cls].qualified}::{shown}'

    def emitter(self, usr: str) -> Key:
        """The slot that emits a signal for others."""
        key = ('emitter', usr)
        if key not in self.members:
            signal = self.members[self.signal(usr)]
            terms = tuple(Term('parameter', at) for at in range(len(signal.parameters)))
            self.add(Member(key, signal.owner, 'emit_' + signal.name, 'slot', f'emission of {signal.shown}', signal.place,
                            list(signal.parameters), [Step('emit', signal.key, None, terms, signal.place)], library=True))
        return key

    def function(self, usr: str) -> Key:
        key = ('function', usr)
        if key not in self.members:
            function = self.whole.functions[usr]
            owner, name = self.owner_of(function), function.name
            if owner == FREE and function.cls in self.whole.classes:
                name = f'{self.whole.name(function.cls)}_{name}'
            if function.kind == 'constructor':
                name += '_made'
            elif function.kind == 'destructor':
                name = name.replace('~', '') + '_gone'
            self.add(Member(key, owner, name, 'slot', function.shown, function.place, list(function.parameters)))
        return key

    def without_body(self, usr: str) -> Key:
        """A function of the application whose body wasn't read."""
        key = ('function', usr)
        if key not in self.members:
            cls, method = self.whole.methods[usr]
            self.add(Member(key, self.of_class(cls), method.name, 'slot', self._shown(cls, method.shown) + ' (no body read)',
                            method.place, list(method.parameters)))
        return key

    def property(self, key: Key, owner: Element, name: str, sort: str, notify: Key | None, place: Place | None) -> Key:
        whole_key = ('property', *key)
        if whole_key not in self.members:
            self.add(Member(whole_key, owner, name, 'property', name, place, [Parameter('to', sort, sort)], notify=notify))
        return whole_key

    def posted(self, function: Function, place: Place) -> Key:
        """A signal that stands for what an event loop is asked to call."""
        key = ('posted', function.key, str(place.line), str(place.column))
        if key not in self.members:
            self.add(Member(key, self.owner_of(function), f'posted_{place.line}', 'signal', f'posted by {function.shown}', place))
        return key

    def posted_by_qt(self, owner: Element, name: str) -> Key:
        """A signal that stands for what a function of Qt posts."""
        key = ('posted', owner.kind, owner.key, name)
        if key not in self.members:
            self.add(Member(key, owner, f'posted_{name}', 'signal', f'posted by {name}', None, library=True))
        return key

    def relay(self, target: Key, parameters: list[Parameter]) -> Key:
        """A slot of other parameters that calls a member: where a connection converts its arguments, or leaves out some."""
        key = ('relay', *target, *(p.type for p in parameters))
        member = self.members[target]
        if key not in self.members:
            terms = tuple(Term('parameter', at) if at < len(parameters) and same_type(p, parameters[at]) else Term('unknown')
                          for at, p in enumerate(member.parameters))
            step = Step('emit' if member.kind == 'signal' else 'call', target, None, terms, member.place)
            given = [p._replace(name=p.name or f'a{at}') for at, p in enumerate(parameters)]
            self.add(Member(key, member.owner, f'{member.name}_with', 'slot', member.shown, member.place, given, [step], library=True))
        return key

    def adapted(self, target: Key, parameters: list[Parameter]) -> Key:
        """The member itself where it takes the first of a signal's parameters; else a relay."""
        own = self.members[target].parameters
        if len(own) <= len(parameters) and all(same_type(p, q) for p, q in zip(own, parameters)):
            return target
        return self.relay(target, parameters[:MOST_PARAMETERS])

    def fitting(self, signal: Key, key: Key) -> Key:
        """A member as a signal's receiver."""
        return self.adapted(key, self._parameters(signal))

    def _parameters(self, signal: Key) -> list[Parameter]:
        """The parameters that a signal hands on. `destroyed` hands on none here: its object can't be used any more."""
        member = self.members[signal]
        of_object = signal[0] == 'signal' and self.whole.name(self.whole.class_of(signal[1])) == 'QObject'
        return [] if of_object and member.name == 'destroyed' else member.parameters


def same_type(one: Parameter, other: Parameter) -> bool:
    """Whether a value is handed on as it is. Types that a template decides are taken to be those of the other."""
    open_ended = any(word in p.type for p in (one, other) for word in ('auto', 'type-parameter', 'dependent'))
    return one.sort == other.sort and (one.type == other.type or open_ended)
