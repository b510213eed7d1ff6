"""The edges that the check draws of a program, each with the place that draws it."""
from __future__ import annotations

from collections import defaultdict
from collections.abc import Collection, Iterator, Mapping
from copy import copy
from dataclasses import dataclass, replace
from functools import cached_property
from typing import Union

from .graphs import parts
from .model import Condition, Place
from .naming import Naming
from .objects import Element
from .program import WAYS, Key, Program, Step, Wire

Node = tuple[Element, Key]


@dataclass(frozen=True)
class Why:
    """What draws an edge: a place with its conditions, whether an event loop stands between, whether it is a connection, whether Qt doesn't
    go there again before it has come back, and whether it is a call of a part."""
    place: Place | None
    conditions: tuple[Condition, ...] = ()
    queued: bool = False
    way: str = 'other'
    is_wire: bool = False
    once: bool = False
    is_part: bool = False


class Targets:
    """A member as all objects of an element have it: one object for all statements and connections that lead there. Each of them has an
    edge to each of these nodes, and where many objects do the same these would be millions."""
    __slots__ = ('nodes',)

    def __init__(self, nodes: tuple[Node, ...]) -> None:
        self.nodes = nodes


Outs = dict[Node, list[tuple[Why, Targets]]]
# A node, or several to which others lead together.
Link = Union[Node, Targets]


class Edges(Mapping[Node, dict[Node, Why]]):
    """By a node the nodes that it leads to: of several reasons the first, by the widest of their ways."""

    def __init__(self, outs: Outs) -> None:
        self.outs = outs

    def __getitem__(self, node: Node) -> dict[Node, Why]:
        found: dict[Node, Why] = {}
        for why, targets in self.outs[node]:
            for to in targets.nodes:
                known = found.setdefault(to, why)
                if WAYS.index(why.way) > WAYS.index(known.way):
                    found[to] = replace(known, way=why.way)
        return found

    def __contains__(self, node: object) -> bool:
        return node in self.outs

    def __iter__(self) -> Iterator[Node]:
        return iter(self.outs)

    def __len__(self) -> int:
        return len(self.outs)


class Graph:
    """A member as the objects of one class have it is a node. Queued wires are edges where that is asked for."""

    def __init__(self, program: Program, names: Naming, queued: bool = False) -> None:
        self.program, self.names, self.queued = program, names, queued
        at: dict[Element, list[Key]] = defaultdict(list)
        for key, member in sorted(program.members.items(), key=lambda m: m[0]):
            for role in self.roles(member.owner):
                at[role].append(key)
        self.outs: Outs = {(r, k): [] for r, keys in at.items() for k in keys}
        self.edges = Edges(self.outs)
        self.dying: dict[Node, frozenset[Element]] = {}
        self._targets: dict[Node, Targets | None] = {}
        self._single: dict[Node, Targets | None] = {}
        for key in program.members:
            self._member(key)
        self._wires()

    def roles(self, role: Element) -> list[Element]:
        return [role, *self.names.below[role]]

    def _of_all(self, role: Element, key: Key) -> Targets | None:
        """A member as each object of an element has it; none where no node is one."""
        at = (role, key)
        if at not in self._targets:
            nodes = tuple((r, key) for r in self.roles(role) if (r, key) in self.outs)
            self._targets[at] = Targets(nodes) if nodes else None
        return self._targets[at]

    def _of_one(self, role: Element, key: Key) -> Targets | None:
        at = (role, key)
        if at not in self._single:
            self._single[at] = Targets((at,)) if at in self.outs else None
        return self._single[at]

    def _add(self, node: Node, why: Why, targets: Targets | None) -> None:
        if targets is not None:
            self.outs[node].append((why, targets))

    def _member(self, key: Key) -> None:
        member = self.program.members[key]
        roles = self.roles(member.owner)
        for role in roles if member.notify is not None else ():
            self._add((role, key), Why(member.place, way='same'), self._of_one(role, member.notify or key))
        for step in member.steps:
            if step.kind == 'delete':
                self._death(key, roles, step)
            else:
                self._step(key, roles, step)

    def _death(self, key: Key, roles: list[Element], step: Step) -> None:
        all_of = frozenset(self.roles(step.on)) if step.on is not None else None
        for role in roles:
            known, new = self.dying.get((role, key)), all_of or frozenset([role])
            self.dying[(role, key)] = new if known is None else known | new

    def _step(self, key: Key, roles: list[Element], step: Step) -> None:
        folded = key in self.program.folded
        why = Why(step.place, step.conditions, way='other' if step.on or folded else 'same', once=step.once, is_part=step.is_part and not folded)
        of_owner = self.program.members[step.member].owner
        to = self._of_all(step.on, step.member) if step.on is not None else None
        for role in roles:
            own = self._of_one(role, step.member) if step.on is None else to
            self._add((role, key), why, own or self._of_all(of_owner, step.member))

    def _wires(self) -> None:
        members = self.program.members
        for wire in self.program.wires:
            if wire.how != 'queued' or self.queued:
                self.connect(wire)
        for bound in self.program.bound:
            for source in (s for s in bound.sources if s in members):
                self._from_all(members[source].owner, source, Why(bound.place), self._of_all(members[bound.target].owner, bound.target))

    def connect(self, wire: Wire) -> None:
        """Takes a wire for an edge."""
        why = Why(wire.place, (), wire.how == 'queued', wire.way, True, wire.once)
        self._from_all(wire.sender, wire.signal, why, self._of_all(wire.receiver, wire.method))
        self.__dict__.pop('links', None)

    def _from_all(self, role: Element, key: Key, why: Why, targets: Targets | None) -> None:
        for node in ((r, key) for r in self.roles(role)):
            if node in self.outs:
                self._add(node, why, targets)

    def without(self, how: str, once: bool = False) -> Graph:
        """The graph without the steps that have such a condition, and where `once` is true, without those that Qt takes once at a time."""
        other = copy(self)
        other.outs = {node: [(why, to) for why, to in outs if not (once and why.once) and all(c.how != how for c in why.conditions)]
                      for node, outs in self.outs.items()}
        other.edges = Edges(other.outs)
        other.__dict__.pop('links', None)
        return other

    @cached_property
    def links(self) -> dict[Link, list[Link]]:
        """What a node leads to, and those together to which others lead together."""
        found: dict[Link, list[Link]] = {}
        for node, outs in self.outs.items():
            found[node] = [to.nodes[0] if len(to.nodes) == 1 else to for _, to in outs]
        together = {id(to): to for outs in self.outs.values() for _, to in outs if len(to.nodes) > 1}
        return found | {to: list(to.nodes) for to in together.values()}

    def components(self, without: Collection[Node] = ()) -> list[set[Node]]:
        """The sets of nodes that all lead to one another, of two or more or of one that leads to itself: without some nodes."""
        links = {n: [m for m in to if m not in without] for n, to in self.links.items() if n not in without} if without else self.links
        found = []
        for part in parts(links):
            nodes = {n for n in part if not isinstance(n, Targets)}
            if nodes and (len(part) > 1 or any(n in links[n] for n in nodes)):
                found.append(nodes)
        return found

    def name(self, node: Node) -> str:
        """A node as the verdict names it."""
        member = self.program.members[node[1]]
        sorts = ','.join(p.sort for p in member.parameters)
        signature = '' if member.kind == 'property' else f'({sorts})'
        return f'{self.names.classes[node[0]]}.{self.names.names[node[1]]}{signature}'

    def way(self, starts: list[Node], goal: Node, within: set[Node] | None = None, most: int = 1 << 30) -> list[Node] | None:
        """A shortest way from one of the starts to a goal, of at most so many nodes."""
        before = self.ways(starts, goal, within, most)
        return path(before, goal) if goal in before else None

    def ways(self, starts: list[Node], goal: Node | None = None, within: set[Node] | None = None,
             most: int = 1 << 30) -> dict[Node, Node | None]:
        """By a node the one before it on a shortest way from one of the starts, until the goal is found."""
        before: dict[Node, Node | None] = {n: None for n in starts}
        level, count, seen = list(starts), 1, set[Targets]()
        while level and count < most and goal not in before:
            following: list[Node] = []
            for node in level:
                new = [to for _, to in self.outs[node] if to not in seen]
                seen.update(new)
                for other in (n for to in new for n in to.nodes):
                    if other not in before and (within is None or other in within):
                        before[other] = node
                        following.append(other)
            level, count = following, count + 1
        return before


def path(before: dict[Node, Node | None], goal: Node) -> list[Node]:
    """The way to a goal, of what is before each node."""
    way: list[Node] = []
    at: Node | None = goal
    while at is not None:
        way.append(at)
        at = before[at]
    return way[::-1]
