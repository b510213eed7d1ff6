"""Circles that only go up: each step stays with its object, or goes on to one that holds it, as where the nodes of a tree hand on what
their children tell. The objects of a tree are of one role, so the program has a circle where there is a way to the root.

This is told beside a finding, and isn't proved: objects that hold one another go round."""
from __future__ import annotations

from collections.abc import Mapping

from .graph import Graph, Node
from .graphs import components
from .model import Connect, Value


class Climbing:
    def __init__(self, graph: Graph) -> None:
        self.graph = graph

    def sets(self) -> list[list[str]]:
        """The members of each set in which all circles go up, by their names."""
        return [sorted(self.graph.name(n) for n in members) for members in self.graph.components() if self._climbs(members)]

    def _climbs(self, members: set[Node]) -> bool:
        for node in members:
            if any(why.way == 'other' and not members.isdisjoint(to.nodes) for why, to in self.graph.outs[node]):
                return False
        inner = {n: {m: why.way for m, why in self.graph.edges[n].items() if m in members} for n in members}
        return not components({n: [m for m, way in to.items() if way == 'same'] for n, to in inner.items()})


class Holding:
    """Which variables hold what a member of a class holds, too."""

    def __init__(self, flows: Mapping[str, list[Value]]) -> None:
        self._held: set[tuple[str, str]] = set()
        for key, values in flows.items():
            for value in (it.uncast() for it in values):
                if value.kind == 'variable' and '@FI@' in key:
                    self._held.add((key.rpartition('@FI@')[0], value.key))
                elif value.kind == 'variable' and '@FI@' in value.key:
                    self._held.add((value.key.rpartition('@FI@')[0], key))

    def way(self, connect: Connect) -> str:
        """Where a connection leads: to the `same` object, `up` to the one that holds its sender, or to any `other`."""
        sender, receiver = connect.sender, connect.receiver
        if receiver.kind != 'this':
            return 'other'
        if sender.kind == 'this':
            return 'same'
        own = sender.kind == 'variable' and (sender.key.rpartition('@FI@')[0] == receiver.cls or (receiver.cls, sender.key) in self._held)
        return 'up' if own else 'other'
