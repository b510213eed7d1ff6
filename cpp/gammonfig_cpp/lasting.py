"""Circles through an event loop that end with an object that dies on them.

A slot that deletes the sender of a signal deletes no other object where it is told so by one that is dying, and what an object posts to itself
while it dies doesn't come. The graph has these steps, since its nodes are of all objects of a role."""
from __future__ import annotations

from collections.abc import Collection
from typing import TYPE_CHECKING

from .graph import Graph, Node, Why
from .graphs import components
from .model import Statement, Value
from .program import Key, Program

if TYPE_CHECKING:
    from .objects import Objects
    from .whole import Whole

# Who is known to be dying as a member runs: nobody, its own object, or else the sender in the slot that is named.
NOBODY, ITSELF = '', 'itself'
State = tuple[Node, str]


class Lasting:
    def __init__(self, program: Program, graph: Graph) -> None:
        self.program, self.graph, self.functions = program, graph, program.whole.functions

    def goes_on(self, members: Collection[Node]) -> bool:
        """Whether members lead back to themselves, whoever dies on the way. In an event loop of their own what was posted comes."""
        if any(key in self.program.modal for _, key in members):
            return True
        after, todo = dict[State, list[State]](), [(node, ITSELF if self._is_end(node[1]) else NOBODY) for node in members]
        while todo:
            at = todo.pop()
            if at not in after:
                after[at] = self._after(*at, members)
                todo += after[at]
        return bool(components(after))

    def _after(self, node: Node, dying: str, members: Collection[Node]) -> list[State]:
        steps = [(to, self._then(node[1], dying, why, to[1])) for why, targets in self.graph.outs[node] for to in targets.nodes if to in members]
        return [(to, then) for to, then in steps if then is not None]

    def _then(self, key: Key, dying: str, why: Why, to: Key) -> str | None:
        """Who is dying after a step; none where the step isn't taken."""
        if self._is_end(to):
            return ITSELF
        if dying == ITSELF:
            return self._of_dying(key, why, to)
        if to in self.program.of_sender and dying in self.program.of_sender[to]:
            return None
        usr = self._function(to)
        is_own = usr and why.way == 'same' and not why.is_wire and self.functions[usr].kind != 'lambda'
        return dying if dying and is_own else NOBODY

    def _of_dying(self, key: Key, why: Why, to: Key) -> str | None:
        if why.queued:
            return None if key in self.program.to_itself else NOBODY
        if why.way == 'same' or why.is_part:
            return ITSELF
        return self._function(to) if why.is_wire else NOBODY

    def _function(self, key: Key) -> str:
        """The function that a slot is, or hands its call on to: in another slot, or in a lambda, the sender may be another one."""
        usr = key[1] if key[0] == 'function' else key[2] if key[:2] == ('relay', 'function') else ''
        return usr if usr in self.functions else ''

    def _is_end(self, key: Key) -> bool:
        """Whether a member is a destructor."""
        if key[0] == 'library':
            return key[3].startswith('~')
        return key[0] == 'function' and key[1] in self.functions and self.functions[key[1]].kind == 'destructor'


def is_of_part(statement: Statement, cls: str, whole: Whole) -> bool:
    """Whether a call in a function of a class is of a member that is an object itself, and of this object's: its words begin with that alone."""
    of, at, name = statement.on.key.rpartition('@FI@')
    words = statement.place.words.removeprefix('this->')
    return bool(at) and statement.on.kind == 'site' and words.startswith(f'{name}.{statement.name}(') and whole.is_a(cls, of)


def slots_of_sender(value: Value, objects: Objects, seen: frozenset[str] = frozenset()) -> set[str]:
    """The slots in which a value is what `sender()` gives, also where a function is handed it by these; none where it may be anything else."""
    value = value.uncast()
    if value.kind == 'sender':
        return {value.key}
    parts = value.parts if value.kind == 'any' else ()
    if value.kind == 'variable' and value.key not in seen and _is_local(value.key, objects):
        parts, seen = tuple(objects.whole.flows.get(value.key, ())), seen | {value.key}
    found = [slots_of_sender(part, objects, seen) for part in parts if part.kind != 'null']
    return set[str]().union(*found) if all(found) else set()


def _is_local(key: str, objects: Objects) -> bool:
    """Whether a variable is a function's own, or a parameter of one that only what was read calls."""
    return key.startswith('V:') or key.startswith('P:') and key[2:].rsplit(':', 1)[0] not in objects.outside
