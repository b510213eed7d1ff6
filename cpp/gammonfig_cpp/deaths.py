"""What runs when an object dies: its destructors, those of what it owns, at once or from the event loop."""
from __future__ import annotations

from typing import TYPE_CHECKING

from .model import Place, Statement
from .objects import FREE, Element
from .owning import is_of_member
from .program import Key, Member, Program, Step
from .relations import Related

if TYPE_CHECKING:
    from .calling import Calling


class Deaths:
    def __init__(self, program: Program, calling: Calling) -> None:
        self.program, self.calling = program, calling
        self.whole, self.objects = program.whole, program.objects
        self._acts: dict[Element, bool] = {}
        self._places: dict[Element, Place] = {}
        self._closing: Related | None = None

    def steps(self, element: Element) -> list[Step]:
        """The destructors that run when an object dies, and those of what dies with it."""
        steps = []
        for key in self.calling.destructors(element):
            owner = self.program.members[key].owner
            steps.append(Step('call', key, owner if element.kind == 'class' else self.program.role(element)))
        steps += [Step('call', key, on) for on, key in self.calling.ends_of_qt(element)]
        with_it = self._with_it(element)
        return steps + ([Step('call', with_it, self.program.members[with_it].owner)] if with_it is not None else [])

    def _with_it(self, element: Element) -> Key | None:
        """A slot for the destructors of what an object owns: its members and its children."""
        element = self.program.role(element)
        key = ('with', element.kind, element.key)
        if key in self.program.members:
            return key
        children = [c for c in sorted(self._owned_by(element)) if self._does_act(c)]
        if not children:
            return None
        cls = self.whole.classes[self.objects.cls(element)]
        member = Member(key, element, f'{cls.name}_parts_gone', 'slot', f'the end of what a {cls.qualified} owns', None, library=True)
        self.program.add(member)
        if not self._places:
            self._places = {child: place for _, child, place in self.program.owners()}
        for child in children:
            for step in self.calling.posted_deletion(element, child) if self.objects.is_shared_later(child) else self.steps(child):
                step.place = self._places.get(child)
                member.steps.append(step)
        return key

    def _owned_by(self, element: Element) -> set[Element]:
        """What an object owns itself; a class of the application what all of its objects own."""
        found = self.calling.owned_by(element)
        if element.kind == 'class' and self.whole.is_inside(element.key):
            found = found.union(*(self.calling.owned_by(Element('site', s)) for s in self.objects.roles_of.get(element.key, ())))
        return found - {element}

    def _does_act(self, element: Element) -> bool:
        """Whether a destructor of an object, or of what it owns, does anything."""
        known = self._acts.get(element)
        if known is None:
            found, todo = {element}, [element]
            while todo:
                new = self._owned_by(todo.pop()) - found
                found |= new
                todo += new
            known = self._acts[element] = any(self._may_lead_on(key[1]) for e in found for key in self.calling.destructors(e)) \
                or any(self.calling.ends_of_qt(e) for e in found)
        return known

    def _may_lead_on(self, destructor: str) -> bool:
        """Whether a destructor has a statement that may lead to something; what it deletes of its members is looked at as owned."""
        return any(self._leads_on(s) for s in self.whole.functions[destructor].statements if not is_of_member(s))

    def _leads_on(self, statement: Statement) -> bool:
        if statement.kind == 'call':
            called = self.whole.functions.get(statement.function)
            return statement.virtual or self.whole.is_signal(statement.function) or (called is not None and bool(called.statements))
        if statement.kind == 'library':
            found = self.calling.qt.entry(statement.cls, statement.name) if statement.cls in self.whole.classes else None
            return self.whole.is_signal(statement.function) or (found is not None and found[1].has_effects(bool(found[2])))
        return statement.kind not in ('read', 'bind', 'observe', 'nested', 'close', 'part', 'bindable')

    def later(self, element: Element, is_watched: bool) -> Key | None:
        """A slot that stands for the event loop which deletes an object, where somebody sees that."""
        role = self.program.role(element)
        key = ('later', role.kind, role.key)
        if key in self.program.members:
            return key
        if not is_watched and not self._does_act(element):
            return None
        cls = self.whole.classes[self.objects.cls(role)]
        member = Member(key, FREE, f'delete_{cls.name}', 'slot', f'the event loop deletes a {cls.qualified}', None, library=True)
        self.program.add(member)
        member.steps = [Step('delete', (), role), *self.steps(role)]
        return key

    def deletes_itself(self, element: Element) -> bool:
        """Whether an object was told to delete itself when it is closed, or has run."""
        if self._closing is None:
            found = [e for f in self.whole.functions.values() for s in f.statements if s.kind == 'close'
                     for e in self.objects.elements(s.on, f.cls)]
            self._closing = Related(self.objects, {self.program.role(e) for e in found})
        return self._closing.has(self.program.role(element))
