"""What of a program is on a circle or on a way to a deletion: for programs that are over the language's limits."""
from __future__ import annotations

from collections import defaultdict
from collections.abc import Callable, Mapping
from functools import cache

from .graph import Graph, Link
from .graphs import parts
from .naming import Naming
from .objects import Element
from .program import Key, Program
from .pruning import Pruning
from .reentry import ReEntries
from .relations import Related


def keep_slice(program: Program) -> None:
    """Keeps what is on a circle, also on one through an event loop, on a way back into a slot that runs one, or on a way from a slot to the
    death of an object of its own class."""
    names = Naming(program)
    later = Graph(program, names, queued=True)
    keep = {key for found in later.components() for _, key in found} | {key for way, _ in ReEntries(program, later).ways() for _, key in way}
    program.leave_out_members(keep | _deadly(program, Graph(program, names)))
    owners = Related(program.objects, {m.owner for m in program.members.values()})
    pruning = Pruning(program, True)
    program.owns = [o for o in program.owns if owners.has_any(pruning.closure(o[1]))]


def _deadly(program: Program, graph: Graph) -> set[Key]:
    """The members on a way from a slot to a deletion with which an object of its own class may die. All deletions are looked at together:
    those of the same objects are a bit of a number."""
    deaths = list(dict.fromkeys(graph.dying.values()))
    bit_of, order = {dying: 1 << at for at, dying in enumerate(deaths)}, parts(graph.links)
    to_death = carried(order, graph.links, {node: bit_of[dying] for node, dying in graph.dying.items()})
    own_deaths = _own_deaths(program, deaths)
    slots: dict[Link, int] = {node: to_death[node] & own_deaths(node[0]) for node in graph.outs if program.members[node[1]].kind == 'slot'}
    on_way = _handed_on(order, graph.links, slots)
    return {node[1] for node in graph.outs if on_way.get(node, 0) & to_death[node]}


def _own_deaths(program: Program, deaths: list[frozenset[Element]]) -> Callable[[Element], int]:
    """By an element the deletions with which an object of its own class may die."""
    pruning = Pruning(program, True)
    dying = [Related(program.objects, set[Element]().union(*{id(c): c for c in map(pruning.closure, death)}.values())) for death in deaths]
    return cache(lambda element: sum(1 << at for at, related in enumerate(dying) if related.has(element)))


def carried(order: list[set[Link]], links: dict[Link, list[Link]], own: Mapping[Link, int]) -> dict[Link, int]:
    """What nodes have, and what those have to which they lead."""
    found: dict[Link, int] = {}
    for part in order:
        bits = 0
        for node in part:
            bits |= own.get(node, 0)
            for to in links[node]:
                bits |= found.get(to, 0)
        found.update(dict.fromkeys(part, bits))
    return found


def _handed_on(order: list[set[Link]], links: dict[Link, list[Link]], own: Mapping[Link, int]) -> dict[Link, int]:
    """What nodes have, and what those have that lead to them."""
    found = defaultdict(int, own)
    for part in reversed(order):
        bits = 0
        for node in part:
            bits |= found[node]
        for node in part:
            found[node] = bits
            for to in links[node]:
                found[to] |= bits
    return found
