"""Bindable properties: properties of the program, bound to what their functors read."""
from __future__ import annotations

from .effects import Effects
from .model import Field, Function, Statement, Unknown
from .program import Bound, Key, Member, Program, Wire



class Bindings:
    def __init__(self, program: Program, effects: Effects) -> None:
        self.program, self.effects = program, effects
        self.whole = program.whole
        self.given = {'B:' + f.key: s.field for f in self.whole.functions.values() for s in f.statements if s.kind == 'bindable'}

    def all(self) -> None:
        for key, field in self.whole.fields.items():
            if field.kind != 'compared' and field.cls in self.whole.classes:
                self._property(key, field)
        for statement, function in self.effects.bindable:
            field_key = self.given.get(statement.field, statement.field)
            if statement.kind == 'bind':
                self._bind(statement, function, field_key)
            else:
                self._observe(statement, function, field_key)

    def _property(self, key: str, field: Field) -> None:
        """The property, as a number; a signal of its own tells where the notify signal can't."""
        program, owner = self.program, self.program.of_class(field.cls)
        notify, own = self._signal(field), ('changed', key)
        if notify is None or [p.sort for p in self.whole.methods[notify][1].parameters] not in ([], ['int']):
            program.add(Member(own, owner, f'{field.name}_changed', 'signal', f'{field.name} has changed', field.place))
        if own in program.members and notify is not None:
            relay = program.relay(program.signal(notify), [])
            program.wires.append(Wire(owner, own, owner, relay, 'direct', field.place))
        told = own if own in program.members else program.signal(notify or '')
        program.property(('bindable', key), owner, field.name, 'int', told, field.place)

    def _signal(self, field: Field) -> str | None:
        """The signal that a declaration names as `&Class::signal`."""
        words = field.type.replace(' ', '').rstrip('>').rsplit('::', 1)
        if field.kind == 'QProperty' or len(words) != 2:
            return None
        usr = self.whole.signal(field.cls, words[1].rstrip('>').rstrip('nullptr,'))
        return usr or self.whole.signal(field.cls, words[1].split(',')[0].rstrip('>'))

    def _reads(self, key: str, seen: frozenset[str] = frozenset()) -> set[str]:
        """The bindable properties that a functor reads, through calls too."""
        function = self.whole.functions.get(key)
        if function is None or key in seen:
            return set()
        found: set[str] = set()
        for statement in function.statements:
            if statement.kind == 'read':
                found.add(self.given.get(statement.field, statement.field))
            elif statement.kind == 'call':
                found |= self._reads(statement.function, seen | {key})
        return {f for f in found if f in self.whole.fields}

    def _bind(self, statement: Statement, function: Function, field: str) -> None:
        if field not in self.whole.fields or not statement.function:
            self._unknown(statement, function, 'a binding whose target or functor isn\'t a member: ')
            return
        sources: list[Key] = [('property', 'bindable', s) for s in sorted(self._reads(statement.function))]
        if sources:
            self.program.bound.append(Bound(('property', 'bindable', field), sources, statement.place))

    def _observe(self, statement: Statement, function: Function, field: str) -> None:
        if field not in self.whole.fields or statement.function not in self.whole.functions:
            self._unknown(statement, function, 'an observer that isn\'t understood: ')
            return
        program = self.program
        owner, own = program.of_class(self.whole.fields[field].cls), ('changed', field)
        prop = program.members[('property', 'bindable', field)]
        signal = own if own in program.members else prop.notify
        if signal is None:
            return
        target = program.function(statement.function)
        key = program.adapted(target, program.members[signal].parameters)
        program.wires.append(Wire(owner, signal, program.members[target].owner, key, 'direct', statement.place))

    def _unknown(self, statement: Statement, function: Function, what: str) -> None:
        self.whole.unknown.append(Unknown('bindable', what + statement.place.words, statement.place, function.shown))
