"""What the body of each function does, as steps."""
from __future__ import annotations

import re
from dataclasses import replace
from typing import Callable

from .calling import Calling
from .lasting import slots_of_sender
from .model import Field, Function, Named, Statement, Unknown, Value, exclude
from .objects import FREE, Element
from .owning import is_of_member
from .program import Key, Program, Step, Wire
from .qtmodel import KNOWN
from .relations import Related
from .targets import Targets

# What processes events on a modal dialog alone, and what makes one modal.
WHERE_MODAL, MAKING_MODAL = ('QProgressDialog', 'setValue'), ('setModal', 'setWindowModality', 'exec', 'open')


class Effects:
    def __init__(self, program: Program, calling: Calling, targets: Targets) -> None:
        self.program, self.calling, self.targets = program, calling, targets
        self.whole, self.objects = program.whole, program.objects
        self.notify: dict[str, str] = {}
        self.connected: set[str] = set()
        self.bindable: list[tuple[Statement, Function]] = []
        self._made_modal: Related | None = None
        # Members whose objects the object that has them owns.
        self.owning_members = {child.key for owner, child, _ in self.whole.owns if owner.kind == 'member'}
        self._kinds: dict[str, Callable[[Statement, Function], list[Step]]] = {
            'call': self._call, 'library': self._library, 'delete': self._delete, 'scope': self._delete, 'later': self._later, 'property': self._set_property,
            'event': self._event, 'adopt': self._adopt, 'part': self._adopt, 'invoke': self._invoke, 'post': self._post, 'assign': self._assign,
            'field': self._field}

    def all(self) -> None:
        """Reads all bodies; those that are made meanwhile too."""
        self._find_told()
        self._find_connected()
        for usr in self.whole.functions:
            key = self.program.function(usr)
            self.program.members[key].steps = self.body(self.whole.functions[usr])

    def body(self, function: Function) -> list[Step]:
        steps: list[Step] = []
        for statement in function.statements:
            kind = self._kinds.get(statement.kind)
            if statement.kind == 'nested':
                self.program.modal.setdefault(self.program.function(function.key), statement.place)
            if statement.kind in ('bind', 'observe'):
                self.bindable.append((statement, function))
            if kind is not None:
                steps += kind(statement, function)
        return [self._alone(step, steps) if step.kind == 'set' and step.on is None else step for step in steps]

    def _alone(self, step: Step, steps: list[Step]) -> Step:
        """A property that is set, where the same body emits its signal too, each in a branch without the other: it tells nobody twice, so
        it is written as an emission."""
        known = self.program.members.get(step.member)
        signal = known.notify if known is not None else None
        others = [s for s in steps if s.kind == 'emit' and s.member == signal]
        if signal is None or not others or not all(exclude(step.conditions, s.conditions) for s in others):
            return step
        terms = step.terms if self.program.members[signal].parameters else ()
        return Step('emit', signal, None, terms, step.place, step.conditions)

    # Properties that setters compare

    def _find_told(self) -> None:
        """Which signal tells of which compared member: the first that fits."""
        for function in self.whole.functions.values():
            for statement in function.statements:
                if statement.how == 'told' and self._fits(statement, function):
                    self.notify.setdefault(statement.field, statement.function)

    def _fits(self, statement: Statement, function: Function) -> bool:
        """Whether a signal can be the notify signal: with no parameter, or one of the member's own type."""
        field, method = self.whole.fields.get(statement.field), self.whole.method(statement.function)
        if field is None or method is None or method.kind != 'signal' or len(method.parameters) > 1:
            return False
        if any((p.type, p.sort) != (field.type, field.sort) for p in method.parameters):
            return False
        terms = next((s.terms for s in function.statements if s.kind == 'assign' and s.field == statement.field), ())
        given = function.parameters[terms[0].index] if terms and terms[0].index < len(function.parameters) else None
        return given is not None and (given.type, given.sort) == (field.type, field.sort)

    def _property(self, field: Field, key: str) -> Key:
        signal = self.notify[key]
        cls = self.whole.class_of(signal)
        name = re.sub(r'^(m_|_|d_)|_$', '', field.name) or field.name
        return self.program.property((key,), self.program.of_class(cls), name, field.sort, self.program.signal(signal), field.place)

    def _assign(self, statement: Statement, function: Function) -> list[Step]:
        told = [s for s in function.statements if s.how == 'told' and s.field == statement.field and self._fits(s, function)]
        if not any(self.notify.get(s.field) == s.function for s in told):
            return []
        key = self._property(self.whole.fields[statement.field], statement.field)
        return [Step('set', key, None, statement.terms, statement.place, statement.conditions)]

    # Calls and emissions

    def _call(self, statement: Statement, function: Function) -> list[Step]:
        if self.calling.events.is_handed_on(statement, function):
            return self.calling.events.handed_on(statement, function)
        if statement.inline:
            return self._inline(statement, function)
        if statement.function not in self.whole.functions:
            if self.whole.is_signal(statement.function):
                return self._emission(statement, function)
            if not statement.virtual:
                self.program.counts['calls of functions without a body'] += 1
                return []
        return self.calling.call_steps(statement, function, False)[0]

    def _inline(self, statement: Statement, function: Function) -> list[Step]:
        """A lambda or function object that is called here, unless it is connected where it was handed to."""
        if statement.given and statement.given in self.connected:
            return []
        held = Named('lambda', statement.function) if statement.function else statement.named or Named('unknown')
        if not self.targets.is_known(held):
            self.whole.unknown.append(Unknown(statement.name, statement.place.words, statement.place, function.shown))
        named = self.targets.named(held)
        steps = []
        for one in named:
            for element, key in self.targets.of(one, statement.on, function.cls):
                on = None if self.program.is_this(element, function) else element
                if key is not None:
                    steps.append(Step('call', self._callable(key), on, (), statement.place, statement.conditions))
        return steps

    def _callable(self, key: Key) -> Key:
        """The slot that does what a member does: of a signal the one that emits it."""
        return self.program.emitter(key[1]) if key[0] == 'signal' else key

    def _library(self, statement: Statement, function: Function) -> list[Step]:
        if self.calling.events.is_handed_on(statement, function):
            return self.calling.events.handed_on(statement, function)
        if self.whole.is_signal(statement.function):
            return self._emission(statement, function)
        steps, known = self.calling.call_steps(statement, function, True)
        found = self.calling.qt.entry(statement.cls, statement.name) if statement.cls in self.whole.classes else None
        if found is not None and found[1].modal and function.name != 'main' and self._runs_a_loop(statement, function):
            self.program.modal.setdefault(self.program.function(function.key), statement.place)
        name = f'{self.whole.name(statement.cls)}::{statement.name}'
        if not known and not statement.constant and statement.name not in KNOWN and statement.how != 'later':
            self.program.silent[name] += 1
        return steps

    def _runs_a_loop(self, statement: Statement, function: Function) -> bool:
        """Whether a function of Qt that may run an event loop does so on its object: a progress dialog does where it was made modal."""
        if (self.whole.name(statement.cls), statement.name) != WHERE_MODAL:
            return True
        if self._made_modal is None:
            made = [(s, f) for f in self.whole.functions.values() for s in f.statements if s.kind == 'library' and s.name in MAKING_MODAL]
            self._made_modal = Related(self.objects, [e for s, f in made for e in self.objects.elements(s.on, s.cls or f.cls)])
        return self._made_modal.has_any(self.objects.elements(statement.on, statement.cls or function.cls))

    def _emission(self, statement: Statement, function: Function) -> list[Step]:
        usr, program = statement.function, self.program
        cls = self.whole.class_of(usr)
        program.counts['emissions'] += 1
        if statement.how == 'told' and self._fits(statement, function) and self.notify.get(statement.field) == usr:
            return []
        if self.whole.name(cls) == 'QObject':
            return []
        on, place, conditions = statement.on, statement.place, statement.conditions
        if on.kind == 'this' and function.cls in self.whole.classes and self.whole.is_a(function.cls, cls):
            return [Step('emit', program.signal(usr), None, statement.terms, place, conditions)]
        steps = []
        for element in sorted(self.objects.elements(on, cls)):
            fit = self.whole.is_a(self.objects.cls(element), cls)
            target = program.role(element) if fit else program.of_class(cls)
            steps.append(Step('call', program.emitter(usr), target, statement.terms, place, conditions))
        return steps

    # Deletions

    def _delete(self, statement: Statement, function: Function) -> list[Step]:
        program, on = self.program, statement.on
        steps: list[Step] = []
        fresh = statement.kind == 'scope' and on.kind == 'site' or self._is_fresh(on, function)
        is_own = statement.how == 'child' or statement.how == 'own' and statement.field in self.owning_members
        # What a destructor deletes of its members is owned, and dies with the object.
        of_member = function.kind == 'destructor' and is_of_member(statement)
        for element in sorted(self.objects.elements(on, statement.cls)):
            role = program.role(element)
            if statement.name == 'shared' and self.objects.is_shared_later(element):
                steps += self._posted_deletion(element, statement, function)
                continue
            if fresh and not self.calling.is_watched(element):
                program.counts['deletions of what the function itself made'] += 1
            elif not of_member and self._matters(element):
                this = on.kind == 'this'
                steps.append(Step('delete', (), None if this else role, (), statement.place, statement.conditions, is_own=is_own))
            for step in self.calling.deaths.steps(element):
                if step.member != ('function', function.key):
                    on_this = on.kind == 'this' and step.on == role
                    steps.append(replace(step, on=None if on_this else step.on, place=statement.place, conditions=statement.conditions))
        return steps

    def _later(self, statement: Statement, function: Function) -> list[Step]:
        """`deleteLater`: the event loop deletes, which is told where somebody sees it."""
        found = sorted(self.objects.elements(statement.on, statement.cls or function.cls))
        steps = [step for element in found for step in self._posted_deletion(element, statement, function)]
        slots = slots_of_sender(statement.on, self.objects)
        self.program.of_sender.update({step.member: slots for step in steps} if slots else {})
        return steps

    def _posted_deletion(self, element: Element, statement: Statement, function: Function) -> list[Step]:
        program = self.program
        key = self.calling.deaths.later(element, self.calling.is_watched(element))
        if key is None:
            return []
        signal = program.posted(function, statement.place)
        program.wires.append(Wire(program.owner_of(function), signal, FREE, key, 'queued', statement.place))
        return [Step('emit', signal, None, (), statement.place, statement.conditions)]

    def _matters(self, element: Element) -> bool:
        """Whether an object's death may be seen: it is one of the application's, or a QObject, or of a class of the table."""
        cls = self.objects.cls(element)
        if self.whole.is_inside(cls):
            return True
        names = self.whole.names_above(cls)
        return 'QObject' in names or bool(names & self.calling.qt.table.classes)

    def _is_fresh(self, value: Value, function: Function) -> bool:
        """Whether a local variable only ever holds what its own function makes."""
        if value.kind != 'variable' or not value.key.startswith('V:'):
            return False
        for flow in self.whole.flows.get(value.key, [Value('class')]):
            sites = flow.parts if flow.kind == 'any' else (flow,)
            for one in sites:
                site = self.whole.sites.get(one.key) if one.kind == 'site' else None
                if one.kind == 'null':
                    continue
                if site is None or site.place.file != function.place.file or site.place.line > function.end \
                        or site.place[1:3] < function.place[1:3]:
                    return False
        return True

    # By name, by event, later

    def _set_property(self, statement: Statement, function: Function) -> list[Step]:
        whole, steps = self.whole, []
        for element in sorted(self.objects.elements(statement.on)):
            cls = self.objects.cls(element)
            for key in whole.above(cls) + (whole.below(cls)[1:] if element.kind == 'class' else []):
                for text in whole.classes[key].properties if key in whole.classes else ():
                    if re.match(rf'.*\b{re.escape(statement.name)}(?= READ| MEMBER)', text):
                        steps += self._written(statement, element, key, text)
        return steps

    def _written(self, statement: Statement, element: Element, cls: str, text: str) -> list[Step]:
        whole, program = self.whole, self.program
        write, notify = re.search(r'\bWRITE (\w+)', text), re.search(r'\bNOTIFY (\w+)', text)
        on = element if whole.is_a(self.objects.cls(element), cls) else Element('class', cls)
        if write:
            hit = whole.named(cls, write[1])
            keys = [program.function(u) for u in hit if u in whole.functions]
            if not keys and hit and self.calling.qt.entry(cls, write[1]) is not None:
                keys = [self.calling.library(on, write[1], list(whole.classes[cls].methods[hit[0]].parameters))]
            return [Step('call', k, program.role(on), (), statement.place, statement.conditions) for k in keys]
        usr = whole.signal(cls, notify[1]) if notify else None
        if usr is None:
            return []
        return [Step('call', program.emitter(usr), program.of_class(cls), (), statement.place, statement.conditions)]

    def _event(self, statement: Statement, function: Function) -> list[Step]:
        steps = self.calling.events.sent(statement, function)
        if statement.how != 'queued' or not steps:
            return steps
        signal, owner = self.program.posted(function, statement.place), self.program.owner_of(function)
        for step in steps:
            self.program.wires.append(Wire(owner, signal, step.on or owner, self.program.adapted(step.member, []), 'queued', statement.place))
        return [Step('emit', signal, None, (), statement.place, statement.conditions)]

    def _adopt(self, statement: Statement, function: Function) -> list[Step]:
        """An object gets a child, and Qt tells it so."""
        owner = statement.to if statement.kind == 'part' else statement.on
        return self.calling.events.to(owner, ('childEvent',), statement, function)

    def _invoke(self, statement: Statement, function: Function) -> list[Step]:
        if statement.named is None:
            return []
        if statement.how == 'queued':
            return self._post(statement, function)
        steps = []
        for element, key in self.targets.of(statement.named, statement.on, statement.cls or function.cls):
            if key is not None:
                steps.append(Step('call', self._callable(key), element, statement.terms, statement.place, statement.conditions))
        return steps

    def _post(self, statement: Statement, function: Function) -> list[Step]:
        """What an event loop is asked to call: a signal of its own, with a queued wire."""
        program = self.program
        program.counts['posted calls'] += 1
        if statement.named is None:
            return []
        fallback = statement.cls or function.cls
        found = [(e, k) for e, k in self.targets.of(statement.named, statement.on, fallback) if k is not None]
        if not found:
            return []
        signal, owner = program.posted(function, statement.place), program.owner_of(function)
        for element, key in found:
            program.wires.append(Wire(owner, signal, element, program.adapted(key, []), 'queued', statement.place))
        return [Step('emit', signal, None, (), statement.place, statement.conditions)]

    def _field(self, statement: Statement, function: Function) -> list[Step]:
        """A bindable property is written."""
        field = self.whole.fields.get(statement.field)
        if field is None:
            return []
        key = ('property', 'bindable', statement.field)
        return [Step('set', key, self._holder(field, function), (), statement.place, statement.conditions)]

    def _holder(self, field: Field, function: Function) -> Element | None:
        if function.cls in self.whole.classes and self.whole.is_a(function.cls, field.cls):
            return None
        return self.program.of_class(field.cls)

    def _find_connected(self) -> None:
        """Parameters that hold a function which is connected, or kept in a variable that is called: it isn't called where it is handed
        over."""
        self.connected = {c.slot.key for c in self.whole.connects if c.slot.kind == 'parameter'}
        called = {s.named.key for f in self.whole.functions.values() for s in f.statements if s.inline and s.named is not None}
        self.connected |= {n.key for key in called if not key.startswith('P:') for n in self.whole.callables.get(key, ())
                           if n.kind == 'parameter'}
        for _ in range(3):
            for key, named in self.whole.callables.items():
                if key in self.connected:
                    self.connected |= {n.key for n in named if n.kind == 'parameter'}
