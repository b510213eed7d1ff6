"""Strongly connected sets of a graph."""
from __future__ import annotations

from typing import Generic, Hashable, Iterable, Mapping, TypeVar

N = TypeVar('N', bound=Hashable)


def components(graph: Mapping[N, Iterable[N]]) -> list[set[N]]:
    """The sets of nodes that all lead to one another: of two or more, or of one that leads to itself."""
    return [found for found in parts(graph) if len(found) > 1 or any(node in list(graph[node]) for node in found)]


def parts(graph: Mapping[N, Iterable[N]]) -> list[set[N]]:
    """The nodes, those together that lead to one another: each set after all that it leads to."""
    walk: _Walk[N] = _Walk(graph)
    for root in graph:
        if root not in walk.index:
            walk.go(root)
    return walk.found


class _Walk(Generic[N]):
    """Tarjan's algorithm, without recursion."""

    def __init__(self, graph: Mapping[N, Iterable[N]]) -> None:
        self.graph = graph
        self.index: dict[N, int] = {}
        self.low: dict[N, int] = {}
        self.stack: list[N] = []
        self.on: set[N] = set()
        self.found: list[set[N]] = []

    def _enter(self, node: N) -> None:
        self.index[node] = self.low[node] = len(self.index)
        self.stack.append(node)
        self.on.add(node)

    def go(self, root: N) -> None:
        work = [(root, iter(self.graph[root]))]
        self._enter(root)
        while work:
            node, rest = work[-1]
            below = next((n for n in rest if n in self.graph and (n not in self.index or n in self.on)), None)
            if below is None:
                work.pop()
                if work:
                    self.low[work[-1][0]] = min(self.low[work[-1][0]], self.low[node])
                self._leave(node)
            elif below in self.on:
                self.low[node] = min(self.low[node], self.index[below])
            else:
                self._enter(below)
                work.append((below, iter(self.graph[below])))

    def _leave(self, node: N) -> None:
        if self.low[node] != self.index[node]:
            return
        found: set[N] = set()
        while True:
            at = self.stack.pop()
            self.on.discard(at)
            found.add(at)
            if at == node:
                break
        self.found.append(found)
