"""Objects that are given another parent, or none, before their owner ends: they don't die with it."""
from __future__ import annotations

from collections import defaultdict

from .model import Function, Place, Statement
from .objects import Element, Objects
from .parting import covers
from .relations import Related

DEATHS = ('delete', 'later', 'scope', 'close')
Owners = dict[tuple[Element, Element], Place]


class Parted:
    """The calls of `setParent`, by the object on which they are: where that is one that is made at one place alone."""

    def __init__(self, objects: Objects) -> None:
        self.objects, self.whole = objects, objects.whole
        self._calls: dict[Element, list[tuple[Function, Statement]]] = defaultdict(list)
        for function in self.whole.functions.values():
            for statement in function.statements:
                on = objects.elements(statement.on) if statement.kind == 'part' else frozenset()
                if len(on) == 1 and all(element.kind == 'site' for element in on):
                    self._calls[next(iter(on))].append((function, statement))
        self._deaths = [(f, s, Related(objects, objects.elements(s.on, s.cls or f.cls))) for f in self.whole.functions.values()
                        for s in f.statements if s.kind in DEATHS] if self._calls else []

    def leave_out(self, found: Owners, as_members: set[tuple[Element, Element]]) -> None:
        """Leaves out owners whose every end comes after such a call; not what an object has as a member."""
        gone = [pair for pair in found if pair[1] in self._calls and pair not in as_members and self._is_parted(*pair, found)]
        for pair in gone:
            del found[pair]

    def _is_parted(self, owner: Element, child: Element, found: Owners) -> bool:
        calls = [(f, s) for f, s in self._calls[child] if owner not in self.objects.elements(s.to)]
        if any(self._ends(f, owner) and is_always(s) for f, s in calls):
            return True
        deaths = [(f, s) for f, s, dying in self._deaths if dying.has(owner)]
        is_owned = Related(self.objects, {owned for _, owned in found}).has(owner)
        return bool(deaths) and not is_owned and all(any(f is g and is_before(s, death, g) for f, s in calls) for g, death in deaths)

    def _ends(self, function: Function, owner: Element) -> bool:
        """Whether a function is a destructor that runs where an owner dies."""
        return function.kind == 'destructor' and self.whole.is_a(self.objects.cls(owner), function.cls)


def is_always(call: Statement) -> bool:
    """Whether a call is under no condition but that there is an object, and after no return."""
    is_there = len(call.conditions) == 1 and call.conditions[0].how == 'if' and call.place.words.startswith(call.conditions[0].words + '->')
    return (not call.conditions or is_there) and not call.how


def is_before(call: Statement, death: Statement, function: Function) -> bool:
    """Whether the call has run where the object dies: a local one dies at the end."""
    order = [s for s in function.statements if s is call or s is death]
    return (death.kind == 'scope' or order[0] is call) and (covers(call.conditions, death.conditions) or is_always(call))
