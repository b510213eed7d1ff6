"""Objects that are made anew on a circle: it may go on to another one each time, so that it doesn't come to rest though each takes one value
once."""
from __future__ import annotations

from copy import copy
from dataclasses import replace

from .graph import Graph, Node
from .naming import Naming
from .objects import Element
from .program import Program


class Anew:
    def __init__(self, program: Program) -> None:
        self.program, self.whole = program, program.whole
        self._graph: Graph | None = None

    def are_made(self, roles: set[Element], nodes: set[Node]) -> bool:
        """Whether what runs within some nodes may make an object of some roles."""
        makers = {maker for role in roles for site in self._sites(role) for maker in self._makers(site, frozenset())}
        graph = self._whole_graph()
        # A function that stands for one while an object is made has that one's key at its end.
        return any(key[-2] == 'function' and key[-1] in makers for _, key in graph.ways(sorted(nodes & graph.outs.keys())))

    def _whole_graph(self) -> Graph:
        """The graph of the program before what leads to nothing was left out: what makes an object may do no more."""
        if self._graph is None:
            whole = copy(self.program)
            if self.program.unpruned is not None:
                members, whole.wires = self.program.unpruned
                whole.members = {member.key: replace(member, steps=steps) for member, steps in members}
            self._graph = Graph(whole, Naming(whole))
        return self._graph

    def _sites(self, role: Element) -> list[str]:
        """The places where objects of a role are made."""
        if role.kind == 'site':
            return [key for key, first in self.program.objects.role_of.items() if first == role.key]
        return [key for key, site in self.whole.sites.items() if self.whole.is_a(site.cls, role.key)]

    def _makers(self, key: str, seen: frozenset[str]) -> set[str]:
        """The functions that make what is made at a place: of a member of a class its constructors, or what makes its objects."""
        site = self.whole.sites[key]
        if site.function or key in seen or site.within not in self.whole.classes:
            return {site.function} - {''}
        classes = set(self.whole.below(site.within))
        found = {usr for usr, f in self.whole.functions.items() if f.kind == 'constructor' and f.cls in classes}
        return found.union(*(self._makers(it, seen | {key}) for it, other in self.whole.sites.items() if other.cls in classes))
