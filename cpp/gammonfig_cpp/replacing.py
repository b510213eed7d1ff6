"""Functions of Qt by which an object takes the place of another one, which they delete: where there is none yet."""
from __future__ import annotations

from collections import defaultdict
from typing import TYPE_CHECKING

from .model import Function, Statement
from .objects import Element
from .program import Program
from .qtmodel import QtModel

if TYPE_CHECKING:
    from .calling import Calling


class Replacing:
    def __init__(self, program: Program, qt: QtModel, calling: Calling) -> None:
        self.program, self.calling = program, calling
        names = {name for (_, name), entry in qt.table.entries.items() if entry.owns and entry.deletes}
        self._calls: dict[str, list[tuple[Function, Statement]]] = defaultdict(list)
        for function in program.whole.functions.values():
            for statement in function.statements:
                if statement.kind == 'library' and statement.name in names:
                    self._calls[statement.name].append((function, statement))

    def is_first(self, element: Element, name: str) -> bool:
        """Whether the function is called on an object only while that is set up, and once: then nothing is in the place that is taken."""
        role = self.program.role(element)
        calls = [(function, statement) for function, statement in self._calls.get(name, ()) if self._may_be_on(role, function, statement)]
        once = len({function.key for function, _ in calls}) == len(calls)
        return bool(calls) and once and all(self._sets_up(role, function, statement) for function, statement in calls)

    def _may_be_on(self, role: Element, function: Function, statement: Statement) -> bool:
        found, _ = self.calling.elements(statement.on, statement.cls, function)
        cls, whole = self.program.objects.cls(role), self.program.whole
        return any(self.program.role(e) == role or (e.kind == 'class' and whole.is_a(cls, e.key)) for e in found)

    def _sets_up(self, role: Element, function: Function, statement: Statement) -> bool:
        """Whether the function sets up the object itself, or one that made it."""
        whole = self.program.whole
        if any(c.how == 'in' for c in statement.conditions) or (function.kind != 'constructor' and function.name != 'setupUi'):
            return False
        if statement.on.kind == 'this':
            return function.kind == 'constructor'
        return role.kind == 'site' and role.key in whole.sites and whole.sites[role.key].within in (function.cls, function.key)
