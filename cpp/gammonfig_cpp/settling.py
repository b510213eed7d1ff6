"""Circles that hand one value on unchanged, through a property that is set only where it differs: they come to rest. What sets a limit of
an object to the same number each time goes on once, where nothing else on the circle sets one.

This is told beside a finding, and isn't proved: it holds where the setters that were read as properties really compare."""
from __future__ import annotations

import re

from .anew import Anew
from .graph import Graph, Node
from .graphs import components
from .limiting import LIMITED, SETTING
from .model import Term
from .program import Key, Member, Program, Step
from .relations import Related

# In the place of a parameter's number: the value is what the property holds that was set last.
HELD = -1


class Settling:
    def __init__(self, program: Program, graph: Graph) -> None:
        self.program, self.graph = program, graph
        self.anew = Anew(program)
        self._asked: dict[str, Key | None] = {}

    def sets(self) -> list[list[str]]:
        """The members of each set that settles, by their names."""
        return [sorted(self.graph.name(n) for n in members) for members in self.graph.components() if self._settles(members)]

    def _settles(self, members: set[Node]) -> bool:
        spent = self._spent(members)
        rest = {n: [m for m in self.graph.edges[n] if m in members and m not in spent] for n in members - spent} if spent else {}
        if not all(self._hands_one_value_on(part) for part in (components(rest) if spent else [members])):
            return False
        return not self.anew.are_made({n[0] for n in members if n in spent or self._member(n).kind == 'property'}, members)

    def _hands_one_value_on(self, members: set[Node]) -> bool:
        kept = {n for n in members if self._member(n).kind == 'property'}
        if not kept or any(n in self.graph.dying for n in members):
            return False
        if components({n: [m for m in self.graph.edges[n] if m in members and m not in kept] for n in members}):
            return False
        bound = {b.target for b in self.program.bound}
        return not any(n[1] in bound for n in kept) and self._hands_on(members, kept)

    def _spent(self, members: set[Node]) -> set[Node]:
        """What sets a limit to one number by each way from the members: the second time it changes nothing. No other limit of the object is
        set on the way."""
        setting, found = [n for n in members if self._sets_limit(n)], set[Node]()
        for node in setting:
            related = Related(self.program.objects, [node[0]])
            those = [other for other in setting if related.has(other[0])]
            given = {number for before in members for other in those if other in self.graph.edges[before] for number in self._numbers(before, other)}
            if len(given) == 1 and None not in given and len({other[1][3] for other in those}) == 1:
                found.add(node)
        return found

    def _sets_limit(self, node: Node) -> bool:
        """Whether a node is a function of Qt that sets a limit of a value."""
        whole, cls = self.program.whole, self.program.objects.cls(node[0])
        return node[1][0] == 'library' and node[1][3] in SETTING and any(whole.is_named(cls, name) for name in (*LIMITED, 'QDoubleSpinBox'))

    def _numbers(self, before: Node, node: Node) -> set[int | None]:
        """The numbers that a node hands to a function; none where it isn't a number, or isn't alone."""
        given = [s.terms for s in self._member(before).steps if s.member == node[1]]
        return {terms[0].index if len(terms) == 1 and terms[0].kind == 'number' else None for terms in given} or {None}

    def _member(self, node: Node) -> Member:
        return self.program.members[node[1]]

    def _hands_on(self, members: set[Node], kept: set[Node]) -> bool:
        """Whether each way inside hands on the value that a property was given, or asks that property for it."""
        carried = {n: 0 for n in kept}
        # By a member the properties that may have been set last.
        last = {n: {n} for n in kept}
        todo = list(kept)
        while todo:
            node = todo.pop()
            for other in self.graph.edges[node]:
                if other not in members:
                    continue
                place, held = self._place(node, other, carried[node], last[node])
                if place is None or carried.get(other, place) != place:
                    return False
                if other not in kept and (other not in carried or not held <= last[other]):
                    carried[other] = place
                    last.setdefault(other, set()).update(held)
                    todo.append(other)
        return len(carried) == len(members)

    def _place(self, node: Node, other: Node, index: int, last: set[Node]) -> tuple[int | None, set[Node]]:
        """The parameter of `other` to which the value goes, where all ways from `node` hand it on to one, or `HELD` where none does; and the
        properties that may have been set last there."""
        member, target = self._member(node), self._member(other)
        if member.kind == 'property':
            return {0: HELD, 1: 0}.get(len(target.parameters)), last
        if member.kind == 'signal':
            return index if index < len(target.parameters) else HELD, last
        steps = [s for s in member.steps if s.member == other[1]]
        places = {self._argument(s, node, index, last) for s in steps}
        place = places.pop() if len(places) == 1 else None
        if index == 0 and len(steps) == 1 and steps[0].held is not None:
            return place, {(node[0], steps[0].held)}
        return (None if place == HELD and target.kind == 'property' else place), last

    def _argument(self, step: Step, node: Node, index: int, last: set[Node]) -> int:
        for at, term in enumerate(step.terms[:len(self.program.members[step.member].parameters)]):
            if term.kind == 'parameter' and term.index == index or term.kind == 'asked' and self._gives(term, node) == last:
                return at
        return HELD

    # Functions that give the value of a property

    def _gives(self, term: Term, node: Node) -> set[Node]:
        """The properties of which a function of an object may give the value, for a member that asks it."""
        if term.text not in self._asked:
            self._asked[term.text] = self._property(term.text)
        key, objects = self._asked[term.text], self.program.objects
        if key is None:
            return set()
        if term.on.kind == 'this':
            return {(node[0], key)}
        roles = {objects.role(e) for e in objects.elements(term.on, self.program.whole.class_of(term.text))}
        return {(role, key) for one in roles for role in self.graph.roles(one)}

    def _property(self, usr: str) -> Key | None:
        """The property whose value a function gives: the member that it returns, or the one whose READ function it is."""
        whole = self.program.whole
        if usr in whole.getters:
            return 'property', whole.getters[usr]
        cls, method = whole.methods.get(usr, ('', None))
        for text in whole.classes[cls].properties if method is not None else ():
            found = re.match(rf'.*?(\w+)\s+READ\s+{re.escape(method.name)}\b.*\bNOTIFY\s+(\w+)', text) if method is not None else None
            signal = whole.signal(cls, found[2]) if found else None
            if found and signal is not None:
                return 'property', whole.class_of(signal), found[1]
        return None
