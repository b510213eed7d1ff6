"""`setParent`: the owner that the same function has named before owns the object no more."""
from __future__ import annotations

from dataclasses import dataclass

from .context import Context
from .libclang import Cursor
from .model import NULL, Condition, Handed, Place, Value


@dataclass(frozen=True)
class Owned:
    """An object to which a function has given an owner, with the conditions around that, and how many returns and how many assignments
    stand before it in the unit."""
    function: str
    child: Value
    conditions: tuple[Condition, ...]
    returns: int
    flows: int
    fact: tuple[Value, Value, Place] | Handed


class Parting:
    def __init__(self, context: Context) -> None:
        self.context = context
        self.returns = 0
        self._returning: set[str] = set()
        self._owned: list[Owned] = []

    def end(self) -> None:
        """The function that is read may return here."""
        self.returns += 1
        if self.context.function is not None:
            self._returning.add(self.context.function.key)

    def own(self, owner: Value, child: Value, place: Place) -> None:
        """An object has an owner from here on."""
        fact = owner, child, place
        self.context.facts.owns.append(fact)
        self._remember(child, fact)

    def hand(self, handed: Handed) -> None:
        """Objects are handed to a function of Qt: it may become their owner, or one of them that of its object."""
        self.context.facts.handed.append(handed)
        for child in [handed.on] if handed.name == 'setParent' else [value for _, value in handed.given]:
            self._remember(child, handed)

    def part(self, call: Cursor, on: Value, to: Value) -> None:
        """An object has another owner from here on, or none."""
        context = self.context
        statement = context.add('part', call, on)
        statement.to = NULL if to.kind == 'none' else to
        statement.how = 'perhaps' if context.function is not None and context.function.key in self._returning else ''
        here, names = tuple(context.conditions), {identity(on), identity(self.last(on))} - {None}
        for it in self._owned:
            child = identity(it.child)
            if context.function is not None and it.function == context.function.key and child is not None and child in names \
                    and it.returns == self.returns and covers(here, it.conditions) and not self._is_assigned(child, it.flows):
                self._forget(it.fact, child)

    def _remember(self, child: Value, fact: tuple[Value, Value, Place] | Handed) -> None:
        if self.context.function is not None:
            conditions, flows = tuple(self.context.conditions), len(self.context.facts.flows)
            self._owned.append(Owned(self.context.function.key, child, conditions, self.returns, flows, fact))

    def _is_assigned(self, child: tuple[str, str], since: int) -> bool:
        """Whether a variable was given something else meanwhile."""
        return child[0] == 'variable' and any(key == child[1] for key, _ in self.context.facts.flows[since:])

    def last(self, on: Value) -> Value:
        """What a variable was last given."""
        on = on.uncast()
        if on.kind != 'variable':
            return on
        return next((value.uncast() for key, value in reversed(self.context.facts.flows) if key == on.key), on)

    def _forget(self, fact: tuple[Value, Value, Place] | Handed, child: tuple[str, str]) -> None:
        facts = self.context.facts
        if not isinstance(fact, Handed):
            facts.owns = [known for known in facts.owns if known is not fact]
            return
        left = () if identity(fact.on) == child else tuple(one for one in fact.given if identity(one[1]) != child)
        facts.handed = [known if known != fact else fact._replace(given=left) for known in facts.handed]


def identity(value: Value) -> tuple[str, str] | None:
    """By what two expressions of one function name the same object; none where they may name two."""
    value = value.uncast()
    return (value.kind, value.key) if value.kind in ('variable', 'site', 'this') else None


def covers(here: tuple[Condition, ...], before: tuple[Condition, ...]) -> bool:
    """Whether what stands under some conditions runs after each run of what stands before it under others."""
    return before[:len(here)] == here and not any(condition.how == 'in' for condition in before[len(here):])
