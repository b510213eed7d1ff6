"""What gets an event before the function that handles it: `event` that the application overrides, and event filters. For each function that
handles events they have a copy, which does what its conditions on an event's type let run then: what a filter does as a key is pressed isn't
done as a widget is shown."""
from __future__ import annotations

from typing import TYPE_CHECKING, Sequence

from .event_types import HANDLED, handlers_of, may_run
from .model import Function, Statement, Value
from .objects import Element
from .program import Key, Member, Step

if TYPE_CHECKING:
    from .calling import Calling

EVENT, FILTER, CUSTOM, INSTALLING = 'event', 'eventFilter', 'customEvent', 'installEventFilter'


def is_given(statement: Statement) -> bool:
    """Whether a function sends an event that it was given itself."""
    return statement.kind == 'event' and statement.how != 'queued' and any(term.kind == 'parameter' for term in statement.terms)


class Events:
    def __init__(self, calling: Calling) -> None:
        self.calling, self.program = calling, calling.program
        self.whole, self.objects = calling.whole, calling.objects
        self._installed: list[tuple[Element, Element]] | None = None
        # Copies whose bodies aren't read yet.
        self.waiting: list[Key] = []

    def before(self, element: Element, handler: str) -> list[tuple[Element, Key]]:
        """What gets the events of an object before a handler; before `event`, where it isn't known which handler they have."""
        filters = [target for one in self._filters(element) for target in self.calling.overriding(one, FILTER)] if handler in (EVENT, *HANDLED) else []
        if handler not in HANDLED:
            return filters
        found = self.calling.overriding(element, EVENT) + filters
        return list(dict.fromkeys((on, self._copy(key[1], handler)) for on, key in found if key[0] == 'function'))

    def _filters(self, element: Element) -> list[Element]:
        """What filters the events of an object: all of them, where it is installed on the application."""
        if self._installed is None:
            self._installed = [(on, one) for handed in self.whole.handed if handed.name == INSTALLING for _, value in handed.given
                               for on in self.objects.elements(handed.on, handed.cls) for one in self.objects.elements(value)]
        return sorted({one for on, one in self._installed if self.calling.sources.may_be(on, element) or self._is_application(on)})

    def _is_application(self, element: Element) -> bool:
        return self.whole.is_named(self.objects.cls(element), 'QCoreApplication')

    def _copy(self, usr: str, handler: str) -> Key:
        """A function as it runs for the events of a handler."""
        key = ('handling', usr, handler)
        if key not in self.program.members:
            whole = self.program.members[self.program.function(usr)]
            self.program.add(Member(key, whole.owner, f'{whole.name}_of_{handler}', 'slot', whole.shown, whole.place, list(whole.parameters)))
            self.waiting.append(key)
        return key

    def finish(self) -> None:
        """Reads the bodies of copies, of what the functions themselves do: those are read by now."""
        while self.waiting:
            key = self.waiting.pop()
            function, whole = self.whole.functions[key[1]], self.program.function(key[1])
            runs = [one for one in function.statements if may_run(one.conditions, key[2])]
            places = {one.place for one in function.statements if self.is_handed_on(one, function) or is_given(one)}
            steps = [step for step in self.program.members[whole].steps if step.place not in places and may_run(step.conditions, key[2])]
            for one in runs:
                steps += self.handed_on(one, function, key[2]) if self.is_handed_on(one, function) else []
                steps += self.sent(one, function, key[2]) if is_given(one) else []
                if one.kind == 'nested' or one.place == self.program.modal.get(whole):
                    self.program.modal.setdefault(key, one.place)
            self.program.members[key].steps = steps

    # What the application sends

    def sent(self, statement: Statement, function: Function, handler: str = '') -> list[Step]:
        """What an event leads to that the application sends: of a copy for a handler the one that it was given, to others than itself."""
        handlers = self._given(statement, function, handler) if is_given(statement) else handlers_of(statement.name)
        steps = self.to(statement.on, handlers, statement, function)
        return [step for step in steps if not is_given(statement) or step.member[1] != function.key]

    @staticmethod
    def _given(statement: Statement, function: Function, handler: str) -> tuple[str, ...]:
        """The functions that handle the event that a function was given."""
        if handler or function.name in HANDLED:
            return (handler or function.name,)
        if function.name not in (EVENT, FILTER):
            return handlers_of(statement.name)
        return tuple(one for one in HANDLED if may_run(statement.conditions, one))

    def to(self, receiver: Value, handlers: Sequence[str], statement: Statement, function: Function) -> list[Step]:
        """The events of some handlers come to objects."""
        steps = list[Step]()
        for element in sorted(self.objects.elements(receiver)):
            for on, key in dict.fromkeys(self._coming(element, handlers)):
                own = receiver.kind == 'this' and on.kind == 'class' and self.whole.is_a(function.cls, on.key)
                steps.append(Step('call', key, None if own else on, (), statement.place, statement.conditions))
        return steps

    def _coming(self, element: Element, handlers: Sequence[str]) -> list[tuple[Element, Key]]:
        """What gets the events of some handlers; where these may be any, the functions that get all, and that for events of the application."""
        if handlers:
            return [target for one in handlers for target in self.calling.callbacks(element, one)]
        return self.calling.callbacks(element, EVENT) + self.calling.overriding(element, CUSTOM)

    # What is handed on to the function that is overridden

    @staticmethod
    def is_handed_on(statement: Statement, function: Function) -> bool:
        """Whether a function hands its event on to the one that it overrides."""
        return statement.name == function.name in (EVENT, FILTER) and statement.on.kind == 'this' and not statement.virtual

    def handed_on(self, statement: Statement, function: Function, handler: str = '') -> list[Step]:
        """What the function that is overridden does, of a copy for its handler: the application's own, or Qt's, which calls the handlers."""
        if statement.function in self.whole.functions:
            key = self._copy(statement.function, handler) if handler else self.program.function(statement.function)
            return [Step('call', key, None, statement.terms, statement.place, statement.conditions)]
        steps = list[Step]()
        for one in ([handler] if handler else HANDLED) if statement.name == EVENT else ():
            for on, key in self.calling.overriding(Element('class', function.cls), one) if may_run(statement.conditions, one) else ():
                own = on.kind == 'class' and self.whole.is_a(function.cls, on.key)
                steps.append(Step('call', key, None if own else on, (), statement.place, statement.conditions))
        return steps
