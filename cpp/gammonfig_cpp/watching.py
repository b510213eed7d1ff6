"""What the reader itself warns of, beside the verdict: circles through an event loop, and slots that run one.

No check proves these: the language says nothing of what an event loop does next."""
from __future__ import annotations

import json

from .climbing import Climbing
from .graph import Graph, Node, Why
from .lasting import Lasting
from .naming import Naming
from .places import Places
from .program import Program
from .reentry import ReEntries
from .settling import Settling

# From how many members of a set a shortest circle is looked for.
MOST_STARTS = 50


class Watching:
    def __init__(self, program: Program, names: Naming, places: Places) -> None:
        self.program, self.places = program, places
        self.graph = Graph(program, names, queued=True)
        self.circles = self.graph.components()
        self.by_death = self._by_death()
        lasting = Lasting(program, self.graph)
        # Those of them that end with an object that dies on the way.
        self.ending = [members for members in self.circles if members <= self.by_death and not lasting.goes_on(members)]

    def text(self, wide: bool = False) -> str:
        """The warnings, as the findings of a verdict in JSON; and whether commands take the program with `--wide` alone."""
        direct = Graph(self.program, self.graph.names)
        resting = Settling(self.program, direct).sets()
        found = sorted(self._queued_cycles() + self._re_entries(), key=lambda f: [str(f.get(k, '')) for k in ('rule', 'file')]
                       + [f"{f.get('line', 0):>9}", str(f['message'])])
        told = {'findings': found, 'resting': resting, 'climbing': Climbing(direct).sets(), 'own': self._own(),
                'by_death': self._names(self.by_death), 'ending': [self._names(members) for members in self.ending],
                'circling': self._circling(), 'by_qt': self._by_qt(), 'once': self._once(), 'wide': wide, 'lists': self._lists(),
                'unblocked': self._unblocked(direct)}
        return json.dumps(told, indent=1, ensure_ascii=False) + '\n'

    def _own(self) -> list[list[object]]:
        """Where in C++ objects delete what they own."""
        places = {(self.places.relative(s.place.file), s.place.line, s.place.column) for m in self.program.members.values()
                  for s in m.steps if s.is_own and s.place is not None}
        return [list(place) for place in sorted(places)]

    def _names(self, members: set[Node]) -> list[str]:
        return sorted(self.graph.name(node) for node in members)

    def _by_death(self) -> set[Node]:
        """Members that lead back to themselves, but only by what runs because an object dies."""
        functions = self.program.whole.functions
        # Of a function whose source isn't read nothing is known but its name.
        destructors = {key for key, function in functions.items() if function.kind == 'destructor'}
        dying = {node for node in self.graph.outs if node[1][0] in ('with', 'later') or (node[1][0] == 'function' and node[1][1] in destructors)}
        return set[Node]().union(*self.circles).difference(*self.graph.components(dying))

    def _circling(self) -> list[list[str]]:
        """The sets of members that lead to one another and in which an event loop is gone through."""
        return [self._names(members) for members in self.circles
                if any(why.queued and not members.isdisjoint(to.nodes) for node in members for why, to in self.graph.outs[node])]

    def _by_qt(self) -> list[str]:
        """What Qt's own functions post."""
        members = self.program.members
        return sorted({self.graph.name(node) for node in self.graph.outs if node[1][0] == 'posted' and members[node[1]].library})

    def _once(self) -> list[list[str]]:
        """Steps of Qt's own that it doesn't take again before it has come back from them, and that nothing else takes."""
        told = set[tuple[str, str]]()
        for node, outs in self.graph.outs.items():
            once = {to for why, targets in outs if why.once for to in targets.nodes}
            others = {to for why, targets in outs if not why.once for to in targets.nodes} if once else set()
            told |= {(self.graph.name(node), self.graph.name(to)) for to in once - others}
        return [list(names) for names in sorted(told)]

    def _lists(self) -> dict[str, list[str]]:
        """By a function of Qt on an item the lists that it is in: they tell what becomes of it."""
        graph, members = self.graph, self.program.members
        return {graph.name(node): [graph.names.classes[it] for it in members[node[1]].lists if it in graph.names.classes]
                for node in sorted(graph.outs) if members[node[1]].lists}

    def _told(self, why: Why) -> dict[str, object]:
        place = why.place
        if place is None or not self.places.has(place.file):
            return {}
        told: dict[str, object] = {'file': self.places.relative(place.file), 'line': place.line, 'column': place.column,
                                   'words': place.words}
        return told | ({'conditions': [c.told() for c in why.conditions]} if why.conditions else {})

    def _chain(self, way: list[Node], graph: Graph) -> list[dict[str, object]]:
        chain = []
        for one, two in zip(way, way[1:]):
            why = graph.edges[one][two]
            names = {'from': self.graph.name(one), 'to': self.graph.name(two), 'by': 'wire' if why.is_wire else 'statement',
                     'queued': why.queued, 'message': f'`{self.graph.name(one)}` leads {"later " if why.queued else ""}to `{self.graph.name(two)}`'}
            chain.append(self._told(why) | names)
        return chain

    def _finding(self, rule: str, message: str, way: list[Node], graph: Graph | None = None) -> dict[str, object]:
        chain = self._chain(way, graph or self.graph)
        first: dict[str, object] = next((s for s in chain if 'file' in s), {})
        spot = {k: first[k] for k in ('file', 'line', 'column', 'words') if k in first}
        return {'rule': rule, 'number': 0, 'severity': 'warning', 'message': message, **spot, 'chain': chain}

    def _unblocked(self, graph: Graph) -> list[dict[str, object]]:
        """A circle of each set of members that lead to one another without blocked signals, and what Qt does once at a time, where others go
        by these: of a set the checker tells ten circles, which may be such alone."""
        free, found = graph.without('blocked by', once=True), list[dict[str, object]]()
        blocked = {node for node in graph.outs if len(free.outs[node]) < len(graph.outs[node])}
        sets = [members for members in graph.components() if not members.isdisjoint(blocked)]
        for members in free.components() if sets else ():
            if any(members <= those for those in sets):
                ways = (free.way([m for m in sorted(free.edges[n]) if m in members], n, members) for n in sorted(members)[:MOST_STARTS])
                best = min((way for way in ways if way is not None), key=len)
                message = f'`{graph.name(best[-1])}` may lead back to itself at once, and so without end'
                told = self._finding('cycle', message, [best[-1], *best], free) | {'severity': 'error'}
                found.append({'members': sorted(map(graph.name, members)), 'finding': told})
        return found

    def _queued_cycles(self) -> list[dict[str, object]]:
        """A shortest circle with a queued step of each set of members that lead to one another and don't end; one through blocked signals,
        where there is no other."""
        found, free = [], self.graph.without('blocked by')
        for members in (it for it in self.circles if it not in self.ending):
            best = self._shortest(free, members) or self._shortest(self.graph, members)
            if best is not None:
                name = self.graph.name(best[0])
                found.append(self._finding('queued-cycle', f'`{name}` may lead back to itself through an event loop, and so go on '
                                           'as long as that runs', best))
        return found

    @staticmethod
    def _shortest(graph: Graph, members: set[Node]) -> list[Node] | None:
        """A shortest circle with a queued step among some members."""
        best: list[Node] | None = None
        for one in sorted(members):
            is_queued = any(why.queued for why, _ in graph.outs[one])
            for two, why in graph.edges[one].items() if is_queued else ():
                most = len(best) - 2 if best is not None else len(members)
                way = graph.way([two], one, members, most) if why.queued and two in members else None
                if way is not None and (best is None or len(way) + 1 < len(best)):
                    best = [one, *way]
        return best

    def _re_entries(self) -> list[dict[str, object]]:
        """Slots that run an event loop, in which they may be called again."""
        found = []
        for way, place in ReEntries(self.program, self.graph).ways():
            told = self._finding('re-entry', f'`{self.graph.name(way[-1])}` runs an event loop, in which it may be called again', way)
            spot = {'file': self.places.relative(place.file), 'line': place.line, 'column': place.column, 'words': place.words}
            found.append(told | spot)
        return found
