"""Who owns what: by the calls of Qt's functions, as the table says, and by what destructors delete."""
from __future__ import annotations

from dataclasses import dataclass

from .model import Function, Handed, Statement, Value
from .qtmodel import TAKING, Entry, QtModel
from .whole import Whole


def find_owners(whole: Whole, qt: QtModel) -> None:
    """Adds owners to those that constructors and members show."""
    whole.owns = [(a, b, place) for owner, child, place in whole.owns for a, b in of_each_object(owner, child, whole)]
    for handed in whole.handed:
        of_table = hand_over(handed, qt)
        whole.owns += [(handed.on, value, handed.place) for value in of_table.owned]
        whole.laid += [(handed.on, value, handed.place) for value in of_table.laid]
        whole.owns += [(a, b, handed.place) for value in of_table.owners for a, b in of_each_object(value, handed.on, whole)]
        whole.contents += [(handed.on, value) for value in of_table.owned + of_table.laid]
    for function in whole.functions.values():
        for statement in deleted_at_the_end(function, whole) if function.kind == 'destructor' else ():
            held = Value('variable', statement.field, statement.cls) if statement.how == 'own' else statement.on
            whole.owns.append((Value('member', cls=function.cls), held, statement.place))


def deleted_at_the_end(destructor: Function, whole: Whole) -> list[Statement]:
    """What a destructor deletes of its members, itself or by a function of its own that it calls."""
    called = [whole.functions[s.function] for s in destructor.statements
              if s.kind == 'call' and s.on.kind == 'this' and not s.virtual and s.function in whole.functions]
    by_itself = [s for s in destructor.statements if is_of_member(s)]
    return by_itself + [s for f in called for s in f.statements if is_of_member(s) and s.how == 'own']


def of_each_object(given: Value, this: Value, whole: Whole, depth: int = 0) -> list[tuple[Value, Value]]:
    """A constructor's parameter and its `this`, for each object on which it runs; any other two values as they are."""
    function, _, at = given.key.removeprefix('P:').rpartition(':')
    calls = [*whole.constructs.get(function, ()), *whole.constructs.get(whole.class_of(function), ())]
    if given.kind != 'variable' or this.kind != 'this' or not calls or depth > 8:
        return [(given, this)]
    pairs = [(call.given[int(at)], call.on) for call in calls if int(at) < len(call.given)]
    found = [pair for value, on in pairs if value.kind not in ('null', 'none') for pair in of_each_object(value, on, whole, depth + 1)]
    # Objects of which it isn't seen how they are made, as in a list, may be handed what any is.
    return found + [(given, Value('site', site, whole.sites[site].cls)) for site in whole.unseen(whole.class_of(function))]


@dataclass(frozen=True)
class Given:
    """What is owned after a call: by its object, by that around which its object, a layout, lies; and who owns its object."""
    owned: list[Value]
    laid: list[Value]
    owners: list[Value]


def hand_over(handed: Handed, qt: QtModel) -> Given:
    """What the table says of a call's arguments; a function that it doesn't know, and that is known to own, owns all of them."""
    found = qt.entry(handed.cls, handed.name)
    entry = found[1] if found is not None else Entry()

    def named(numbers: list[str]) -> list[Value]:
        return [value for at, value in handed.given if (str(at) if at else 'result') in numbers]

    if not entry.owns and not entry.lays and handed.name in TAKING:
        return Given([value for _, value in handed.given], [], [])
    return Given(named(entry.owns), named(entry.lays), named(entry.owner))


def is_of_member(statement: Statement) -> bool:
    """Whether a destructor's statement deletes what a member of its object holds: that is owned."""
    held = statement.on.uncast()
    return statement.kind == 'delete' and (statement.how == 'own' or held.kind == 'variable' and '@FI@' in held.key)
